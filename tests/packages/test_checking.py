"""`.ci/checking`: texts that are changed and compiled many at a time, and mutants that say nothing; without the checker."""
from __future__ import annotations

import sys
import unittest
from pathlib import Path

sys.path.insert(0, str(Path(__file__).resolve().parents[2] / ".ci"))

from checking.compiling import apart, blamed, first_error, refused  # noqa: E402
from checking.copies import Change, change_of, changed  # noqa: E402
from checking.crates import Lacking, below, read_uses  # noqa: E402
from checking.mutants import pairs  # noqa: E402
from checking.stale import stale  # noqa: E402

FILE, OTHER = "src/lib.rt", "src/lamp.rt"
CRATES = "# lamps\nwick:\nlamp: wick serde\nroom: lamp wick # a room\n"
EDIT = "# mutant: gives no light\nfile: src/lamp.rt\nold:     true\nnew:     false\nold: lit\nnew:\n"
BAD = "rt: must-fail lamp/dark.edit: BAD EDIT: an 'old:' text is in src/lamp.rt 2 times, and not once"
BY_A_NAME = (
    "rt: must-fail lamp/unnamed.edit: refused, as it must be (only because a proof file names what the edit took away, so this says little"
    " of the contract: change a value and keep the names): proofs/lit/Answers.antt:3:1: error: `x` is not in scope"
)
REFUSED = "rt: must-fail lamp/unlit.edit: refused, as it must be: note: src/lamp.rt:3:1: ensures lit (`lit`)"


def change(name: str, *numbers: int, file: str = FILE) -> Change:
    """A change of these lines of a file."""
    return Change(name, {(file, number): name for number in numbers})


class Compiler:
    """Compiles all changes but those of these names, and says that their first line is wrong, so many lines further on."""

    def __init__(self, *wrong: str, beyond: int = 0) -> None:
        self.wrong, self.beyond, self.runs = wrong, beyond, 0

    def compile(self, changes: list[Change]) -> str:
        """What is said against these changes."""
        self.runs += 1
        places = [min(each.lines) for each in changes if each.name in self.wrong]
        return "\n".join(f"./{file}:{number + 1 + self.beyond}:5: error[E1]: no such field" for file, number in places)


class Crates(unittest.TestCase):
    def test_what_a_crate_uses(self) -> None:
        uses = read_uses(CRATES)
        self.assertEqual(uses, {"wick": [], "lamp": ["wick", "serde"], "room": ["lamp", "wick"]})
        self.assertEqual(below("room", uses), ["wick", "lamp"])

    def test_a_crate_that_is_not_listed(self) -> None:
        with self.assertRaisesRegex(Lacking, "no crate hall"):
            below("hall", read_uses(CRATES))


class Changes(unittest.TestCase):
    def test_lines_are_changed_and_others_stay(self) -> None:
        before, after = {FILE: "a\nb\nc\n"}, {FILE: "a\nB\nc\n"}
        made = change_of("large", before, after)
        self.assertEqual(made.lines, {(FILE, 1): "B"})
        self.assertEqual(changed("a\nb\nc\n", FILE, [made, change("x", 0)]), "x\nB\nc\n")
        self.assertEqual(changed("a\nb\nc\n", OTHER, [made]), "a\nb\nc\n")

    def test_a_line_more_is_no_change(self) -> None:
        with self.assertRaisesRegex(ValueError, "large changes the number of lines"):
            change_of("large", {FILE: "a"}, {FILE: "a\nb"})

    def test_changes_of_one_line_are_apart(self) -> None:
        rounds = apart([change("a", 1, 2), change("b", 2), change("c", 3), change("d", 2, file=OTHER)])
        self.assertEqual([[each.name for each in some] for some in rounds], [["a", "c", "d"], ["b"]])


class Compiling(unittest.TestCase):
    def test_all_compile_at_once(self) -> None:
        compiler = Compiler()
        self.assertEqual(refused(compiler, [change(name, at) for at, name in enumerate("abc")]), {})
        self.assertEqual(compiler.runs, 1)

    def test_those_that_do_not_are_found(self) -> None:
        for beyond in (0, 2):
            with self.subTest(beyond=beyond):
                found = refused(Compiler("b", "d", beyond=beyond), [change(name, 10 * at) for at, name in enumerate("abcd")])
                self.assertEqual(sorted(found), ["b", "d"])
                self.assertIn("no such field", found["b"])

    def test_one_that_is_blamed_for_another_is_cleared(self) -> None:
        # The error of `a` is told right before the line of `b`.
        self.assertEqual(list(refused(Compiler("a", beyond=8), [change("a", 0), change("b", 10)])), ["a"])

    def test_an_error_elsewhere_blames_all(self) -> None:
        both = [change("a", 0), change("b", 10)]
        self.assertEqual(blamed("./src/other.rt:3:1: error: no", both), both)
        self.assertEqual(first_error("killed\n for memory"), "killed for memory")


class Mutants(unittest.TestCase):
    def test_the_replacements_of_an_edit(self) -> None:
        self.assertEqual(list(pairs(EDIT)), [("src/lamp.rt", "    true", "    false"), ("src/lamp.rt", "lit", "")])

    def test_those_that_say_nothing(self) -> None:
        lines = [BAD, BY_A_NAME, REFUSED]
        found = list(stale(lines, lambda crate, name: False))
        self.assertEqual([each.partition(":")[0] for each in found], ["lamp/dark", "lamp/unnamed"])
        self.assertIn("BAD EDIT", found[0])
        self.assertIn("`x` is not in scope", found[1])

    def test_one_that_says_why_only_a_name_refuses_it(self) -> None:
        found = list(stale([BAD, BY_A_NAME], lambda crate, name: (crate, name) == ("lamp", "unnamed")))
        self.assertEqual([each.partition(":")[0] for each in found], ["lamp/dark"])


if __name__ == "__main__":
    unittest.main()
