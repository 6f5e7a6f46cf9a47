"""The front's index of its journal: what is found by object and by person, in which order, in parts, and over segments and losses."""

import json
import pathlib
import random
import re
import tempfile
import unittest

from tests.support.journals import accepted_in
from tests.support.pages import PagesTest
from tests.support.web import use_web

use_web()

from moo_web.journal.history import History, call_about  # noqa: E402
from moo_web.journal.journal import Journal  # noqa: E402
from moo_web.journal.segments import new_line  # noqa: E402

SEED = 7


def intent(at, who, programmer, calls, answers):
    return {"k": "intent", "at": at, "t": 1_800_000_000 + at, "who": who, "as": programmer, "calls": calls, "answers": answers}


class HistoryTest(unittest.TestCase):
    """A journal that is written line by line, and its history."""

    def setUp(self):
        room = tempfile.TemporaryDirectory()
        self.addCleanup(room.cleanup)
        self.folder, self.told = pathlib.Path(room.name), []
        self.journal = Journal(self.folder, None, self.told.append, 2000)
        self.addCleanup(lambda: self.journal.close())
        self.journal.begin(0, 1_800_000_000, "new")
        self.history = History(self.folder)
        self.seq = 0

    def accept(self, who, programmer, calls, answers=()):
        """A batch that is accepted."""
        if self.journal.is_full:
            self.journal.begin(self.seq, 1_800_000_000, "full")
        self.journal.append(intent(self.seq, who, programmer, calls, list(answers)), False)
        self.seq += 1
        self.journal.append({"k": "done", "seq": self.seq}, False)

    def seqs(self, who=None, number=None, count=100, before=None):
        return [batch.seq for batch in self.history.found(who, number, count, before).batches]


class Finds(HistoryTest):
    def test_by_person_and_by_object(self):
        self.accept("ada", 4, ['set(#5, "name", "five")'], ["0"])
        self.accept("ben", 6, ["move(#5, #7)", "create(#8)"], ["0", "#9"])
        self.accept("Ada", 4, ['set(#9, "text", "#5 is no object here, and #55 neither")'], ["0"])
        self.accept("wizard", 3, ["get(#55, \"name\")"], ['"#5"'])
        for how, wanted in (
            ({}, [4, 3, 2, 1]), ({"who": "ada"}, [3, 1]), ({"who": "BEN"}, [2]), ({"who": "nobody"}, []), ({"number": 5}, [3, 2, 1]),
            ({"number": 9}, [3, 2]),
            ({"number": 55}, [4, 3]), ({"number": 7, "who": "ada"}, []), ({"number": 5, "who": "ada"}, [3, 1]), ({"count": 2}, [4, 3]),
            ({"count": 0}, []),
        ):  # fmt: skip
            with self.subTest(how=how):
                self.assertEqual(self.seqs(**how), wanted)
        self.accept("ben", 6, ["recycle(#5)"], ["0"])
        self.assertEqual(self.seqs(number=5), [5, 3, 2, 1])
        batch = self.history.found("ben", None, 1).batches[0]
        said = (batch.who, batch.programmer, batch.calls, batch.answers, batch.t)
        self.assertEqual(said, ("ben", 6, ["recycle(#5)"], ["0"], 1_800_000_004))

    def test_the_call_that_is_about_an_object(self):
        self.accept("ada", 4, ['set(#5, "name", "six")', "create(#1)", "create(#1)", 'set(#7, "name", "#8")'], ["0", "#6", "#7", "0"])
        (batch,) = self.history.found(None, None, 1).batches
        for number, call in ((None, 0), (5, 0), (6, 1), (7, 2), (1, 1), (9, 0), (55, 0)):
            with self.subTest(number=number):
                self.assertEqual(call_about(batch, number), batch.calls[call])
        self.assertEqual(call_about(batch._replace(calls=[], kept={}), 5), "")
        self.assertEqual(call_about(batch._replace(kept={"answers_sum": ""}), 7), batch.calls[3], "the answers weren't kept")

    def test_a_grant_is_about_what_was_asked_for(self):
        self.accept("ada", 4, ['petition({{"recycle", #5}})', "max_object()"], ["7", "#9"])
        self.accept("wizard", 3, ["grant(7)"], ["0"])
        self.assertEqual(self.seqs(number=5), [2, 1])
        self.assertEqual(self.seqs(number=9), [], "an answer that isn't a new object")

    def test_in_parts_over_segments(self):
        for number in range(100):
            self.accept(("ada", "ben")[number % 3 == 0], 4, [f"move(#{number % 5}, #77)"], ["0"])
        self.assertGreater(len(list(self.folder.glob("journal-*"))), 5)
        for how in ({}, {"who": "ada"}, {"who": "ben", "number": 77}, {"number": 3}):
            seen, before = [], None
            while True:
                found = self.history.found(how.get("who"), how.get("number"), 7, before)
                seen += [batch.seq for batch in found.batches]
                before = found.further
                if before is None:
                    break
            with self.subTest(how=how):
                self.assertEqual(seen, self.seqs(**how))
                self.assertEqual(len(seen), found.total)

    def test_it_is_what_the_journal_says(self):
        """Random lines of all kinds: what `accepted_in` reads is what the history has, whenever it was read in between."""
        rng = random.Random(SEED)
        for _ in range(300):
            kind = rng.choice(("done", "done", "done", "void", "open", "base", "gap"))
            if self.journal.is_full:
                self.journal.begin(self.seq, 1_800_000_000, "full")
            if kind == "done":
                self.accept("ada", 4, [f"move(#{rng.randrange(9)}, #1)"], ["0"])
            elif kind in ("void", "open"):
                self.journal.append(intent(self.seq, "ben", 5, ["max_object()"], ["#1"]), False)
            if kind == "void":
                self.journal.append({"k": "void", "at": self.seq, "answer": {"error": "E_PERM"}}, False)
            if kind == "base" and rng.random() < 0.2:
                self.seq = rng.randrange(20)
                self.journal.begin(self.seq, 1_800_000_000, "rebase")
            if kind == "gap" and rng.random() < 0.2:
                self.journal.append({"k": "gap", "world": 9, "journal": self.seq, "t": 1}, False)
            if rng.random() < 0.2:
                self.seqs()
        wanted = [one for one in accepted_in(self.folder) if not isinstance(one, dict)]
        found = self.history.found(None, None, 1000).batches
        self.assertEqual(found[::-1], wanted)
        self.assertGreater(len(wanted), 60)
        self.assertEqual(History(self.folder).found(None, None, 1000).batches, found)


class Losses(HistoryTest):
    def test_a_line_that_is_half_there(self):
        self.accept("ada", 4, ["move(#5, #1)"], ["0"])
        self.assertEqual(self.seqs(), [1])
        _, text = new_line(self.journal.sum, intent(1, "ada", 4, ["move(#6, #1)"], ["0"]))
        path = self.folder / "journal-0"
        whole = path.read_bytes()
        for cut in (1, 64, 65, 70, len(text) - 1):
            path.write_bytes(whole + text[:cut])
            self.assertEqual(self.seqs(), [1])
        path.write_bytes(whole)
        self.accept("ada", 4, ["move(#6, #1)"], ["0"])
        self.assertEqual(self.seqs(number=6), [2])

    def test_segments_that_were_moved_away(self):
        for number in range(60):
            self.accept("ada", 4, [f"move(#{number}, #1)"], ["0"])
        self.assertEqual(len(self.seqs()), 60)
        first = self.folder / "journal-0"
        kept = first.read_text().count('"k":"done"')
        first.rename(self.folder / "away")
        self.assertEqual(self.seqs(), list(range(60, kept, -1)))
        self.accept("ada", 4, ["move(#3, #1)"], ["0"])
        self.assertEqual(self.seqs(count=1), [61])
        self.assertEqual(len(History(self.folder).found(None, None, 100).batches), 61 - kept)

    def test_answers_that_are_too_long_to_be_kept(self):
        said = intent(0, "ada", 4, ["create(#1)"], [])
        del said["answers"]
        self.journal.append(said | {"answers_sum": "x"}, False)
        self.journal.append({"k": "done", "seq": 1}, False)
        self.assertEqual(self.history.found(None, 1, 9).batches[0].answers, None)

    def test_one_that_is_read_now_keeps_nobody_waiting(self):
        self.history.turn.acquire()
        self.assertIsNone(self.history.found(None, None, 5, patience=0.01))
        self.history.turn.release()


class OnPages(PagesTest):
    numbers = {"wizard": 3}

    def test_older_ones_are_a_page_further(self):
        for number in range(120):
            self.write("wizard", f'set(#2, "name", "name {number}")')
        reader, seen, path = self.reader("wizard"), [], "/history?o=2&who=wizard"
        while path:
            answer = reader.get(path)
            self.assertIn("120 batches", answer.text)
            seen += [int(found) for found in re.findall(r"is called “name (\d+)”", answer.text)]
            path = next(("/history" + link for link in answer.read.links if "before=" in link), None)
        self.assertEqual(seen, list(range(119, -1, -1)))
        for before in ("0", "999999999999", "x", "-1", "9" * 40):
            self.assertEqual(reader.get(f"/history?before={before}").status, 200)

    def test_the_journal_is_the_writers_own(self):
        self.write("wizard", "create(#1)")
        batch = self.pages.history.found(None, 4, 1).batches[0]
        self.assertEqual((batch.calls, batch.answers, batch.seq), (["create(#1)"], ["#4"], 1))
        lines = (self.room / "front/journal-0").read_bytes().splitlines()
        self.assertEqual(json.loads(lines[1][65:])["t"], batch.t)


if __name__ == "__main__":
    unittest.main()
