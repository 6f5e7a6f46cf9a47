"""The built-in functions of LambdaMOO that aren't calls: docs/LAMBDAMOO.md names each, and the program says so of each name."""
from __future__ import annotations

import re

from tests.support.cases import ProgramTest
from tests.support.program import TOP, ended
from tests.support.worlds import text_of

HEADING = "\n## Built-in functions that aren't here\n"
# Standard error has a line for each of so many batches, and then counts.
MOST = 100


def listed() -> list[str]:
    """The names in the last table of the page, in its order."""
    _, _, table = (TOP / "docs/LAMBDAMOO.md").read_text().partition(HEADING)
    rows = [line.split("|")[2] for line in table.splitlines() if line.startswith("| ")]
    return [name for cell in rows for name in re.findall(r"`(\w+)`", cell)]


def known() -> list[str]:
    """The names that the program knows, as its source has them."""
    source = (TOP / "crates/moo_reasons/src/built_ins.rt").read_text()
    names = re.search(r'const NAMES: &str =\s*"([^"]*)"', source)
    return names[1].replace("\\\n", "").split(" ") if names else []


def said(calls: list[str]) -> list[str]:
    """What standard error says of these lines, each in a batch of its own; there are at most `MOST`."""
    return ended("ask", ":memory:", "-", text="".join(text_of([call]) for call in calls)).complaint.splitlines()


class BuiltInsTest(ProgramTest):
    def test_the_page_has_the_names_that_the_program_knows(self) -> None:
        self.case("some are found", len(listed()) > 90, True)
        self.case("none twice", len(listed()), len(set(listed())))
        self.case("the same names", sorted(listed()), sorted(known()))

    def test_the_program_says_so_of_each(self) -> None:
        names = listed()
        for first in range(0, len(names), MOST):
            some = names[first : first + MOST]
            lines = said([f"{name}()" for name in some])
            self.case(f"a line for each from {some[0]} on", len(lines), len(some))
            # A batch is three lines, and its call is the second.
            for name, line, number in zip(some, lines, range(2, 3 * MOST, 3)):
                self.case(name, line, f"moo: line {number}: malformed: '{name}' names no call (see LAMBDAMOO)")

    def test_in_any_case_of_letters(self) -> None:
        wanted = ["moo: line 2: malformed: 'Notify' names no call (see LAMBDAMOO)"]
        self.case("Notify", said(["Notify()"]), wanted)

    def test_a_name_that_is_like_one(self) -> None:
        """A name that LambdaMOO doesn't have isn't said to be there."""
        for name in ("notif", "notify_all", "typeofs"):
            self.case(name, [line for line in said([f"{name}()"]) if "LAMBDAMOO" in line], [])
