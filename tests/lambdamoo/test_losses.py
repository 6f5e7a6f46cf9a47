"""What the converters say of what is left out: each place, a look before anything is made, what --strict allows, and accept lists."""

from __future__ import annotations

import unittest
from pathlib import Path

from tests.lambdamoo.test_programs import ran
from tests.support.cases import ProgramTest
from tests.support.lambdamoo_worlds import ObjectValue, Slot, Thing, Verb, World, database_text
from tests.support.program import TOP
from tests.support.worlds import run
from random import Random

import from_lambdamoo
import to_lambdamoo

EXAMPLE = str(TOP / "examples/minimal.db")
DUMP = (TOP / "examples/minimal.dump").read_text()
CALLED = ("this", "none", "this")
PROGRAMS = "from_lambdamoo: verb programs, which moo doesn't keep: 5, first at #0:0, line 280\n"


class Told(ProgramTest):
    def test_each_place(self) -> None:
        """The lines are those on which the programs begin in the file."""
        lines = Path(EXAMPLE).read_text().split("\n")
        places = [f"{line}, line {number}" for number, line in enumerate(lines, 1) if line[:1] == "#" and ":" in line]
        wanted = PROGRAMS + "".join(f"from_lambdamoo:     {place}\n" for place in places)
        self.case("each is told", ran(from_lambdamoo, "--all", EXAMPLE), (0, DUMP, wanted))

    def test_a_look_before(self) -> None:
        self.case("nothing is written", ran(from_lambdamoo, "--check", EXAMPLE), (0, "", PROGRAMS))
        Path("core.dump").write_text(DUMP)
        status, text, said = ran(to_lambdamoo, "--check", "core.dump", "--programs", EXAMPLE)
        self.case("nor on the way back", (status, text, "verbs without a program: 2" in said), (0, "", True))

    def test_what_strict_allows(self) -> None:
        self.case("programs", ran(from_lambdamoo, "--strict", "--allow", "programs,seq", EXAMPLE), (0, DUMP, PROGRAMS))
        status, text, said = ran(from_lambdamoo, "--strict", "--allow", "seq", EXAMPLE)
        self.case("nothing else", (status, text, "no dump was written: --strict, and programs not allowed\n" in said), (1, "", True))
        Path("core.dump").write_text(DUMP.replace("seq 0", "seq 7", 1))
        words = ("--strict", "--allow", "programs,seq", "core.dump", "--programs", EXAMPLE)
        self.case("on the way back", ran(to_lambdamoo, *words)[:2], (0, Path(EXAMPLE).read_text()))
        with self.assertRaises(SystemExit):
            ran(from_lambdamoo, "--strict", "--allow", "program", EXAMPLE)

    def test_clocks(self) -> None:
        text = Path(EXAMPLE).read_text().replace("\n0 clocks\n", "\n2 clocks\na\nb\n")
        Path("clocks.db").write_text(text)
        line = text.split("\n").index("2 clocks") + 1
        status, dump, said = ran(from_lambdamoo, "clocks.db")
        self.case("they are told", (status, dump, said), (0, DUMP, PROGRAMS + f"from_lambdamoo: clocks, left out: 2, first at the clocks, line {line}\n"))


class Accepts(ProgramTest):
    """Objects with a verb `accept`: #1 is the root, #2 a class with #3 under it, #4 has no children."""

    def lists(self, *programs: list[str]) -> tuple[list[str], str]:
        """The accept lists of objects from #5 on, by moo, whose verbs `accept` have these programs; and what is told."""
        things = {number: Thing("", parent=1 if number != 1 else -1) for number in range(5 + len(programs))}
        things[3].parent = 2
        things[0].defines, things[0].slots = ["thing"], [Slot(ObjectValue(2), 0, "r")]
        for number, program in enumerate(programs, 5):
            things[number].verbs = [Verb("look", 0, "rd", CALLED), Verb("accept", 0, "rxd", CALLED, program)]
        world = World(len(things) - 1, things)
        Path("core.db").write_text(database_text(world, Random(1)))
        status, dump, said = ran(from_lambdamoo, "--accept", "core.db")
        self.assertEqual(status, 0, said)
        Path("core.dump").write_text(dump)
        self.assertEqual(run("load", "world.db", "core.dump")[0], 0)
        calls = "".join(f"accept_list(#{number})\n" for number in range(5, len(things)))
        Path("calls.txt").write_text(f"batch as #0\n{calls}end\n")
        return run("ask", "world.db", "calls.txt")[1].splitlines()[1:-1], said

    def test_what_becomes_a_list(self) -> None:
        cases = (
            (["return 1;"], "{#1}"),
            (["return 0;"], "{}"),
            (['"Anything may come in.";', "return 1;"], "{#1}"),
            (["return isa(args[1], $thing);"], "{#2}"),
            (["what = args[1];", "return $object_utils:isa(what, #2) || what == #4;"], "{#2, #4}"),
            (["{what, @rest} = args;", "return $ou:isa(what, $thing);"], "{#2}"),
            (["return args[1] == #2;"], "{}"),
            (["return is_player(args[1]);"], "{}"),
            (["return 1;", "return 0;"], "{}"),
            (["this:tell(args[1]);", "return 1;"], "{}"),
            (["return isa(args[1], $nothing);"], "{}"),
        )
        found, said = self.lists(*(program for program, _ in cases))
        for (program, wanted), came in zip(cases, found):
            self.case(" ".join(program), came, wanted)
        kind = "verbs accept that do more than to say yes or no or to name classes: nothing is accepted there: 5, first at #11:1"
        self.case("what does more is told", kind in said, True)

    def test_without_the_word(self) -> None:
        self.case("no list is made", ran(from_lambdamoo, EXAMPLE)[1], DUMP)


if __name__ == "__main__":
    unittest.main()
