"""The table 'What is bounded' of WEB: each row names tests that are there, and has the numbers of the program."""

import pathlib
import re
import sys
import unittest

from tests.support import pages as making_pages
from tests.support import web as serving_people
from tests.support.program import TOP

serving_people.use_web()
sys.path.append("/usr/lib/python3/dist-packages")


def lacking() -> str:
    """What is missing to load the whole front; nothing, if it can be."""
    return serving_people.lacking() or making_pages.lacking()


if not lacking():
    from moo_web import api, serving
    from moo_web.interface import feed, followers
    from moo_web.journal import history
    from moo_web.forms import catalogue
    from moo_web.pages import pages
    from moo_web.people import growth, tokens
    from moo_web.traffic import connections, places, shares
    from moo_web.world import door

TESTED = re.compile(r"`((?:tests/\w+/)?test_\w+\.py)`: ((?:`\w+`(?:, )?)+)")
KB, MIB, MILLION = 1000, 1 << 20, 1_000_000


def numbers() -> dict[str, tuple[tuple[float, float, str], ...]]:
    """For some rows, by their beginnings, what the program has, and how the row says it."""
    share = shares.DEFAULT_SHARE
    return {
        "a request or an answer on its way": ((connections.LEAST_BYTES, 1 << 16, "64 kB"), (connections.SILENT_SECONDS, 20, "20 seconds")),
        "all connections": ((connections.MOST_CONNECTIONS, 500, "500"), (connections.MOST_HELD, 256 * MIB, "256 MiB")),
        "requests that are worked on": (
            (places.PLACES, 24, "24 at once"), (places.OF_ADDRESS, 16, "16 of an address"), (places.OF_PERSON, 8, "8 of a person"),
            (places.WAITING, 10, "ten seconds"),
        ),
        "requests of a token": ((serving.RATE, 100, "100 a second"),),
        "`moo`'s time": (
            (share.seconds, 20, "20 seconds a minute"), (shares.BUCKET_MINUTES * share.seconds, 60, "up to 60"),
            (shares.OF_ADDRESS, 2, "twice as much"), (shares.OF_WIZARD, 10, "a wizard ten times"),
        ),
        "rows and bytes written": (
            (share.rows, 100_000, "100,000 rows"), (share.bytes, 4 * MILLION, "4 MB a minute"), (shares.BUCKET_MINUTES, 3, "three times as much"),
        ),
        "tokens of a person": ((tokens.MOST_TOKENS, 100, "100"), (tokens.LONGEST_LABEL, 64, "64 letters")),
        "somebody who isn't signed in": ((pages.LONGEST_KEPT, 1 << 16, "64 kB"),),
        "dumps for wizards": ((api.DUMPS_AT_ONCE, 2, "two in files"),),
        "followers": ((followers.MOST_WAITING, 64, "64"), (followers.MOST_OF_ONE, 16, "16 of one person")),
        "bytes of accepted batches": ((growth.DAILY_BYTES, 10 * MILLION, "10,000,000 a day"),),
        "petitions that wait": ((growth.MOST_PETITIONS, 100, "100"), (growth.MOST_PETITION_BYTES, 1 << 18, "256 kB")),
        "the list of petitions": ((door.LONGEST_ANSWER, 16 * MIB, "16 MiB"),),
        "objects of somebody new": ((int(catalogue.FIRST_QUOTA), 100, "100"),),
        "what is read of the journal for `/api/since/S`": ((feed.MOST_KEPT, 5000, "5,000 at most"), (feed.READING, 10, "ten seconds")),
        "what is read of the journal at a start": ((history.BETWEEN_FILES, 2 * MIB, "2 MiB"), (history.LOOK_EVERY, 60, "a minute")),
    }


def rows() -> list[tuple[str, str, str]]:
    """The rows of the table: what is bounded, by how much, and which tests look at it."""
    text = (TOP / "docs/WEB.md").read_text().partition("### What is bounded\n")[2]
    lines = text.lstrip("\n").partition("\n\n")[0].splitlines()[2:]
    cells = [[cell.strip() for cell in line.strip("|").split("|")] for line in lines]
    return [(of, bound, tested) for of, bound, tested in cells]


def file_of(name: str) -> pathlib.Path:
    """The file of a module of tests, as the table names it."""
    return TOP / name if "/" in name else TOP / "tests/web" / name


class Table(unittest.TestCase):
    def test_each_row_has_its_tests(self) -> None:
        self.assertGreater(len(rows()), 20)
        for of, _, tested in rows():
            with self.subTest(of):
                found = TESTED.findall(tested)
                self.assertEqual("; ".join(f"`{name}`: {classes}" for name, classes in found), tested)
                for name, classes in found:
                    text = file_of(name).read_text()
                    for one in re.findall(r"\w+", classes):
                        body = re.search(rf"^class {one}\b.*?(?=^class |\Z)", text, re.M | re.S)
                        self.assertTrue(body and "    def test_" in body[0], f"{name} has no tests {one}")

    def test_its_numbers_are_the_programs(self) -> None:
        if why := lacking():
            self.skipTest(why)
        for begin, found in numbers().items():
            with self.subTest(begin):
                (bound,) = [bound for of, bound, _ in rows() if of.startswith(begin)]
                for has, is_said, words in found:
                    self.assertEqual(has, is_said)
                    self.assertIn(words, bound)


if __name__ == "__main__":
    unittest.main()
