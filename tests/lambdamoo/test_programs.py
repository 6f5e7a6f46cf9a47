"""The programs of verbs on the way in and back: each verb has its own, or it is told.

WORLDS is how many random worlds are tried: 2000 is the full size. SEED is where chance begins, which is printed.
"""

from __future__ import annotations

import contextlib
import io
import itertools
import os
import sys
import unittest
from pathlib import Path
from random import Random

from tests.support.cases import ProgramTest
from tests.support.lambdamoo_worlds import Thing, Verb, World, database_text, dump_text, read_database
from tests.support.verb_changes import Changed
from tests.support.worlds import run

import from_lambdamoo
import to_lambdamoo

WORLDS = int(os.environ.get("WORLDS", "100"))
SEED = int(os.environ.get("SEED") or Random().randrange(10**6))
NONE, ANY, CALLED = ("this", "none", "none"), ("this", "with/using", "any"), ("this", "none", "this")
DOUBT = "programs given by their names and arguments to a verb that may be another one renamed, or a new one"


def ran(tool: object, *words: str) -> tuple[int, str, str]:
    """The status of a tool that runs in this process, its output, and what it says."""
    out, said = io.TextIOWrapper(io.BytesIO(), encoding="latin-1", newline=""), io.StringIO()
    with contextlib.redirect_stdout(out), contextlib.redirect_stderr(said):
        status = tool.main(list(words))  # type: ignore[attr-defined]
    out.flush()
    return status, out.buffer.getvalue().decode("latin-1"), said.getvalue()  # type: ignore[attr-defined]


def back(dump: str, *words: str) -> tuple[World, str]:
    """The world that a dump becomes with the programs of core.db, and what is told of it."""
    Path("new.dump").write_text(dump)
    status, text, said = ran(to_lambdamoo, "new.dump", "--programs", "core.db", *words)
    assert status == 0, said
    return read_database(text), said


class OneObject(ProgramTest):
    """One object with a few verbs."""

    def given(self, before: list[Verb], now: list[Verb], seq: int = 1, words: tuple[str, ...] = ()) -> tuple[list[object], str]:
        """The programs of the verbs of an object that had other verbs before, and what is told."""
        Path("core.db").write_text(database_text(World(0, {0: Thing("", verbs=before)}), Random(1)))
        dump = dump_text(World(0, {0: Thing("", verbs=now)})).replace("seq 0", f"seq {seq}", 1)
        world, said = back(dump, *words)
        return [verb.program for verb in world.things[0].verbs], said


class Matched(OneObject):
    """Which program each verb gets, and what is told of it."""

    def test_the_first_of_two_verbs_of_one_name_is_deleted(self) -> None:
        """The second keeps its own program, which is known by its arguments."""
        before = [Verb("open", 0, "rd", NONE, ["1"]), Verb("open", 0, "rd", ANY, ["2"])]
        found, said = self.given(before, [Verb("open", 0, "rd", ANY)])
        self.case("by its arguments", found, [["2"]])
        self.case("the other program is told", "programs without a verb in the dump, left out: 1, first at #0:'open'\n" in said, True)

    def test_other_arguments(self) -> None:
        before = [Verb("open", 0, "rd", NONE, ["1"]), Verb("shut", 0, "rd", NONE, ["2"])]
        found, said = self.given(before, [Verb("open", 0, "rd", ANY), Verb("shut", 0, "rd", NONE)])
        self.case("by its names", found, [["1"], ["2"]])
        self.case("it is told", "programs given by their names to a verb of other arguments: 1, first at #0:0, line 4\n" in said, True)

    def test_a_renamed_verb_after_a_deleted_one(self) -> None:
        """Verbs never change their order, so it is one between its neighbours, and the one with its arguments."""
        before = [Verb(name, 0, "rd", args, [name]) for name, args in (("a", NONE), ("b", ANY), ("c", NONE))]
        found, said = self.given(before, [Verb("x", 0, "rd", ANY), Verb("c", 0, "rd", NONE)])
        self.case("it has its own program", found, [["b"], ["c"]])
        self.case("it is told", "first at #0:0, line 4, which was 'b'\n" in said, True)

    def test_a_verb_renamed_to_a_deleted_one(self) -> None:
        """If the last verb may have been added, the verb before it may have had that one's program."""
        before = [Verb("open", 0, "rd", NONE, ["1"]), Verb("look", 0, "rd", NONE, ["2"])]
        kind = "programs given by their names to a verb that may be the one renamed, if the one after it was added: 1, first at #0:{}, line {}\n"
        for names, args, place in (("stow", ANY, 0), ("look", ANY, 0)):
            found, said = self.given(before, [Verb("open", 0, "rd", NONE), Verb(names, 0, "rd", args)])
            self.case(f"{names} after it", (found, kind.format(place, 4 + place) in said), ([["1"], ["2"]], True))
        found, said = self.given(before, [Verb("stow", 0, "rd", NONE), Verb("look", 0, "rd", NONE)])
        self.case("or the last one may be an added one with its names", (found, kind.format(1, 5) in said), ([["1"], ["2"]], True))
        found, said = self.given([Verb("open", 0, "rd", ANY, ["1"]), before[1]], [Verb("open", 0, "rd", ANY), Verb("stow", 0, "rd", ANY)])
        self.case("not if its arguments say that it can't be that one", kind[:60] in said, False)

    def test_twins(self) -> None:
        twins = [Verb("open", 0, "rd", NONE, ["1"]), Verb("open", 0, "rd", NONE, ["2"])]
        kind = "programs given by their order to one of several verbs of the same names and arguments"
        found, said = self.given(twins, twins)
        self.case("they are told", (found, f"{kind}: 2, first at #0:0, line 4\n" in said), ([["1"], ["2"]], True))
        self.case("not in a world in which no batch has acted", kind in self.given(twins, twins, seq=0)[1], False)
        found, said = self.given(twins, twins[:1])
        self.case("nor is the one that is left sure", (found, f"{kind}: 1, " in said), ([["1"]], True))

    def test_another_order(self) -> None:
        verbs = [Verb("open", 0, "rd", NONE, ["1"]), Verb("shut", 0, "rd", NONE, ["2"])]
        found, said = self.given(verbs, verbs[::-1])
        kind = "programs given by their names to a verb that has another place among the object's verbs: 2"
        self.case("it is told", (found, kind in said), ([["2"], ["1"]], True))


class ReadOtherwise(OneObject):
    """Verbs that have the names and arguments of one before, and may be another one all the same."""

    def told(self, before: list[Verb], now: list[Verb]) -> list[str]:
        """The verbs that are told as in doubt."""
        lines = self.given(before, now, words=("--all",))[1].split("\n")
        begins = [place for place, line in enumerate(lines) if DOUBT in line]
        return [line.removeprefix("to_lambdamoo:     ") for place in begins for line in itertools.takewhile(self.is_place, lines[place + 1 :])]

    @staticmethod
    def is_place(line: str) -> bool:
        """Whether a line of the report is of one place."""
        return line.startswith("to_lambdamoo:     ")

    def test_a_verb_renamed_to_the_next_that_was_renamed_too(self) -> None:
        """`put` had no program. Either it was deleted and `peek` added, or it is `get` now, and `get` is `peek`."""
        before = [Verb("look", 0, "rd", ANY, ["1"]), Verb("put", 0, "rd", ANY), Verb("get", 0, "rd", ANY, ["3"])]
        now = [Verb("look", 0, "rd", ANY), Verb("get", 0, "rd", ANY), Verb("peek", 0, "rd", NONE)]
        self.case("it may be `put`", "#0:1, line 5, which may have been 'put'" in self.told(before, now), True)

    def test_a_verb_renamed_to_the_deleted_one_before_it(self) -> None:
        """One of the last four was deleted. If it was the second `get`, the first `open` is that now, and the last has no program."""
        before = [Verb("get", 0, "rd", CALLED, ["0"]), Verb("get", 0, "rd", ANY, ["1"]), Verb("open", 0, "rd", ANY, ["2"])]
        before += [Verb("open", 0, "rd", CALLED, ["3"]), Verb("open", 0, "rd", ANY)]
        now = [Verb("get", 0, "rd", CALLED), Verb("get", 0, "rd", ANY), Verb("open", 0, "rd", CALLED), Verb("open", 0, "rd", ANY)]
        self.case("it may be `open`", "#0:1, line 5, which may have been 'open'" in "\n".join(self.told(before, now)), True)

    def test_an_added_verb_of_the_names_of_a_renamed_one(self) -> None:
        """A verb is added as the last, so `put` before `open` can't be an added one if `open` isn't."""
        before = [Verb("get", 0, "rd", NONE), Verb("open", 0, "rd", ANY, ["1"]), Verb("open", 0, "rd", CALLED, ["2"])]
        before.append(Verb("open", 0, "rd", NONE, ["3"]))
        now = [Verb("open", 0, "rd", ANY), Verb("open", 0, "rd", CALLED), Verb("put", 0, "rd", NONE), Verb("open", 0, "rd", NONE)]
        self.case("it may be new", "#0:3, line 7, which may be new" in self.told(before, now), True)

    def test_a_verb_of_the_names_of_one_that_has_them_no_more(self) -> None:
        """`look` may be `open`, and the last `open` a new one: two changes more, which count as the program of `open` is given out of order."""
        before = [Verb("get", 0, "rd", ANY, ["0"]), Verb("look", 0, "rd", ANY, ["1"]), Verb("open", 0, "rd", NONE, ["2"])]
        before.append(Verb("put", 0, "rd", ANY, ["3"]))
        now = [Verb("get", 0, "rd", ANY), Verb("look", 0, "rd", ANY), Verb("put", 0, "rd", ANY), Verb("open", 0, "rd", CALLED)]
        self.case("it may be `open`", "#0:1, line 5, which may have been 'open'" in self.told(before, now), True)

    def test_the_verb_before_a_deleted_one(self) -> None:
        """It may be that one, renamed, if its own was deleted. That is told of the program without a verb; if there is none, of the verb."""
        before = [Verb("open", 0, "rd", NONE, ["1"]), Verb("shut", 0, "rd", NONE, ["2"])]
        gone = "programs without a verb in the dump, left out: 1, first at #0:'shut', unless #0:0, line 4, is that verb\n"
        found, said = self.given(before, before[:1])
        self.case("with the program", (found, gone in said, DOUBT in said), ([["1"]], True, False))
        before[1].program = None
        self.case("or alone", self.told(before, before[:1]), ["#0:0, line 4, which may have been 'shut'"])
        before[1].places = ANY
        self.case("not if it has other arguments, and was renamed too", self.told(before, [Verb("open", 0, "rd", NONE)]), [])

    def test_what_strict_allows(self) -> None:
        """A program in doubt isn't written by the words that every world needs."""
        before = [Verb("open", 0, "rd", NONE, ["1"]), Verb("shut", 0, "rd", NONE)]
        Path("core.db").write_text(database_text(World(0, {0: Thing("", verbs=before)}), Random(1)))
        Path("new.dump").write_text(dump_text(World(0, {0: Thing("", verbs=before[:1])})).replace("seq 0", "seq 1", 1))
        for words, status in (("programs,seq", 1), ("programs,seq,doubt", 0)):
            ended = ran(to_lambdamoo, "new.dump", "--programs", "core.db", "--strict", "--allow", words)
            self.case(words, (ended[0], bool(ended[1])), (status, not status))

    def test_many_verbs(self) -> None:
        """A thousand verbs added, or one of a thousand deleted, put none in doubt; hundreds deleted put all in doubt."""
        many = [Verb(f"verb{number}", 0, "rd", NONE, [str(number)]) for number in range(1000)]
        added = [Verb(f"new{number}", 0, "rd", NONE) for number in range(1000)]
        self.case("added", self.told(many[:2], many[:2] + added), [])
        self.case("one deleted", self.given(many, many[:500] + many[501:])[1].count("#0:500, line 504"), 1)
        self.case("hundreds", len(self.told(many, many[-100:])), 100)


class Worlds(ProgramTest):
    """Random worlds with twins of verbs, added, deleted and renamed between."""

    def test_each_verb_has_its_own_program_or_it_is_told(self) -> None:
        print(f"programs: {WORLDS} worlds, SEED={SEED}", file=sys.stderr)
        for number in range(WORLDS):
            changed = Changed(Random(f"{SEED} {number}"))
            found, told = self.there_and_back(changed)
            self.assertEqual(changed.wrong(found, told), [], f"SEED={SEED}, world {number}: {changed.calls}\n{told}")
            self.assertEqual(changed.lost(found, told), [], f"SEED={SEED}, world {number}: {changed.calls}\n{told}")

    def test_without_twins_what_is_added_puts_nothing_in_doubt(self) -> None:
        """Nor do other arguments, which are told as such."""
        for number in range(WORLDS):
            changed = Changed(Random(f"{SEED} {number}"), ("add", "other arguments"), has_twins=False)
            found, told = self.there_and_back(changed)
            self.assertEqual(changed.wrong(found, told), [], f"SEED={SEED}, world {number}: {changed.calls}\n{told}")
            self.assertNotIn(DOUBT, told, f"SEED={SEED}, world {number}: {changed.calls}")

    def there_and_back(self, changed: Changed) -> tuple[World, str]:
        """A world after its changes by moo, as a database, and what is told of it."""
        Path("core.db").write_text(database_text(changed.world, Random(1)))
        for file in Path().glob("world.db*"):
            file.unlink()
        status, dump, said = ran(from_lambdamoo, "core.db")
        self.assertEqual(status, 0, said)
        Path("core.dump").write_text(dump)
        self.assertEqual(run("load", "world.db", "core.dump")[0], 0)
        if changed.text:
            Path("changes.txt").write_text(changed.text)
            self.assertEqual(run("apply", "world.db", "changes.txt")[1].split()[:1], ["accepted"], changed.calls)
        return back(run("dump", "world.db")[1], "--all")


if __name__ == "__main__":
    unittest.main()
