"""Classes and rooms as scripts: in another world they make the same but for numbers, with nothing that who exports may not read.

`EXPORTS=100 .ci/test shell.export` tries so many random ones, and `SEED=7` begins with others.
"""

from __future__ import annotations

import os
import random
import re
import time
import unittest
from pathlib import Path
from typing import Any, Optional

from tests.support.cases import ProgramTest
from tests.support.operating import KeptService, make_world
from tests.support.shell import run_shell
from tests.support.undoing import Generator, items_in
from tests.support.worlds import make

from moo_shell.commands import COMMANDS, run_command
from moo_shell.door import Door
from moo_shell.including import run_lines
from moo_shell.manual import Manual
from moo_shell.session import Session
from moo_shell.told import Output
from moolib.calls import Call, NoCall
from moolib.exporting import Exported, exported_by
from moolib.facts import Facts
from moolib.values import Obj, written

SEED, COUNT = int(os.environ.get("SEED", 20261130)), int(os.environ.get("EXPORTS", 8))
# What both worlds have: after so many other objects in the second one.
SHIFT, FIRST = 7, 4
THING, FRUIT, ROOM, INN, ADA, BEN, LAST = range(FIRST, FIRST + 7)
NAMED = re.compile(r"^(\$\w+) = #(\d+)(  //.*)$", re.MULTILINE)
KINDS = ("children", "contents")


def outside(first: int) -> str:
    """The batch that makes what both worlds have, from this number on."""
    thing, fruit, room, inn, ada, ben = range(first, first + LAST - FIRST)
    return f"""batch as #3
create(#1)
set(#{thing}, "name", "generic thing")
set(#{thing}, "f", 1)
set(#{thing}, "r", 1)
add_property(#{thing}, "size", 1, {{#3, "rc"}})
add_property(#{thing}, "colour", "none", {{#3, "r"}})
create(#{thing})
set(#{fruit}, "name", "generic fruit")
set(#{fruit}, "f", 1)
add_property(#{fruit}, "taste", {{}}, {{#3, "c"}})
create(#1)
set(#{room}, "name", "generic room")
set(#{room}, "f", 1)
set(#{room}, "r", 1)
add_property(#{room}, "exits", {{}}, {{#3, "rc"}})
set_accept(#{room}, {{#1}})
create(#{room})
set(#{inn}, "name", "The Inn")
create(#1, #-1)
set(#{ada}, "name", "Ada")
set_player_flag(#{ada}, 1)
create(#1, #-1)
set_player_flag(#{ben}, 1)
end
"""


class Inside(Generator):
    """Random calls about objects that are to be exported, whose values name these and others."""

    def __init__(self, rng: random.Random, numbers: list[int]) -> None:
        super().__init__(rng, numbers)
        self.inside = numbers

    def object(self) -> str:
        return f"#{self.rng.choice(self.inside)}" if self.rng.random() < 0.7 else f"#{self.rng.randrange(LAST)}"


class ExportTest(ProgramTest):
    def setUp(self) -> None:
        super().setUp()
        make_world("from.db", outside(FIRST))
        spare = "batch as #3\n" + "create(#-1)\n" * SHIFT + "end\n"
        make_world("to.db", spare + outside(FIRST + SHIFT))
        self.services = [KeptService("from.db"), KeptService("to.db")]
        for service in self.services:
            self.addCleanup(service.stop)
        self.source, self.target = (Door(service.port) for service in self.services)

    def run_batch(self, *calls: str, who: int = 3) -> list[str]:
        """Runs a batch in the first world; no answers if it is refused."""
        answer = self.source.sent("POST", "/batch", self.source.body(who, list(calls)))
        return list(answer.said["answers"]) if answer.is_good else []

    def export(self, number: int, what: str, who: int = 3) -> Exported:
        """What somebody exports of the first world."""
        def asked(calls: list[str]) -> Any:
            return [said for first in range(0, len(calls), 1000) for said in self.source.alone(who, calls[first : first + 1000])]

        return exported_by(Facts(asked), who, number, what)

    def imported(self, text: str, who: int = 3) -> dict[str, int]:
        """Does a script in the second world, whose numbers of what is there are others; and gives what its names stand for."""
        session = Session(self.target, Manual(), Output(is_quiet=True), run_command, COMMANDS)
        session.world.who = who
        run_lines(session, "script", NAMED.sub(lambda found: f"{found[1]} = #{there(int(found[2]))}{found[3]}", text).splitlines())
        return {name: int(value[1:]) for name, value in session.names.items()}

    def dump(self, door: Door) -> dict[int, list[tuple[str, Any]]]:
        """The lines of a dump, by the objects that they are about."""
        found: dict[int, list[tuple[str, Any]]] = {}
        for word, given in items_in(door.tried("GET", "/dump").text):
            if word != "petition":
                found.setdefault(given[0].number, []).append((word, given))
        return found


def there(number: int) -> int:
    """The number in the second world of an object that both have."""
    return number if number < FIRST else number + SHIFT


def renumbered(value: Any, numbers: dict[int, int]) -> Any:
    """A value with other numbers."""
    if isinstance(value, Obj):
        return Obj(numbers.get(value.number, there(value.number)) if value.number >= 0 else value.number)
    return [renumbered(item, numbers) for item in value] if isinstance(value, list) else value


class Same(ExportTest):
    def test_random_ones(self) -> None:
        for seed in range(SEED, SEED + COUNT):
            with self.subTest(seed=seed, what=KINDS[seed % 2]):
                self.one(random.Random(seed), KINDS[seed % 2])

    def test_more_than_a_batch_holds(self) -> None:
        first = int(self.run_batch(f"create(#{THING})")[0][1:])
        for begin in range(0, 400, 200):
            numbers = range(first + begin + 1, first + begin + 201)
            self.run_batch(*(f"create(#{first})" for _ in numbers), *(f'set(#{number}, "size", {number})' for number in numbers))
            self.run_batch(*(f'set(#{number}, "name", "one of many")' for number in numbers))
        exported = self.export(first, "children")
        self.assertEqual((exported.objects, exported.calls, exported.text.count("\nbegin\n")), (401, 1201, 2))
        self.assertIn("takes 1,000 calls at most, and this has 1,201", exported.text)
        names = self.imported(exported.text)
        last = max(names.values())
        asked = [f'get(#{last}, "size")', f'get(#{last}, "name")', f"children(#{last - 400})"]
        size, name, children = (said.value for said in self.target.alone(3, asked))
        self.assertEqual((size, name, len(children)), (first + 400, "one of many", 400))

    def one(self, rng: random.Random, what: str) -> None:
        """A class or a room that many random calls have made, exported and imported."""
        first, inside = self.made(rng, what)
        exported = self.export(first, what)
        self.assertEqual(exported.left_out, [])
        before = self.dump(self.target)
        names = self.imported(exported.text)
        source, after = self.dump(self.source), self.dump(self.target)
        self.assertEqual(exported.objects, len(inside))
        made = re.findall(r"^(\$\w+) = create\(", exported.text, re.MULTILINE)
        self.assertEqual(len(made), len(inside))
        numbers = self.matched(exported, source, inside, {names[name]: name for name in made})
        for number in inside:
            wanted = [(word, renumbered(given, numbers)) for word, given in source[number]]
            self.assertEqual(after[numbers[number]], wanted, exported.text)
        self.assertEqual({number: after[number] for number in before}, before)

    def matched(self, exported: Exported, source: Any, inside: list[int], made: dict[int, str]) -> dict[int, int]:
        """The numbers of the objects in the second world. Each is told by a mark in its name."""
        dump = self.dump(self.target)
        by_name = {dump[number][0][1][1]: number for number in made}
        return {number: by_name[source[number][0][1][1]] for number in inside}

    def made(self, rng: random.Random, what: str) -> tuple[int, list[int]]:
        """A class or a room with some objects, and what became of them by random calls."""
        parent = ROOM if what == "contents" else rng.choice((1, THING, FRUIT))
        answers = self.run_batch(f"create(#{parent}{rng.choice(('', f', #{ADA}', ', #-1'))})")
        first = int(answers[0][1:])
        inside = [first]
        for _ in range(rng.randrange(1, 9)):
            above = rng.choice(inside) if what == "children" or rng.random() < 0.4 else rng.choice((THING, FRUIT))
            owner = rng.choice(("", f", #{ADA}", f", #{BEN}", ", #-1", f", #{rng.choice(inside)}"))
            number = int(self.run_batch(f"create(#{above}{owner})")[0][1:])
            inside.append(number)
            if what == "contents":
                self.run_batch(f"move(#{number}, #{rng.choice(inside[:-1])})")
        of = Inside(rng, inside)
        for _ in range(rng.randrange(20, 90)):
            if call := self.call(of, first, what):
                self.run_batch(call)
        # Names are marks, by which objects are known again.
        self.run_batch(*(f'set(#{number}, "name", "{rng.choice(("", "Lamp ", "a+b "))}mark {number}")' for number in inside))
        return first, inside

    @staticmethod
    def call(of: Inside, first: int, what: str) -> Optional[str]:
        """A random call that leaves the objects in the set."""
        text = of.call()
        try:
            call = Call.read(text)
        except NoCall:
            return None
        if call.subject not in of.inside or call.name in ("create", "recycle", "set_player_flag") or "ownership_quota" in text:
            return None
        if call.name == ("chparent" if what == "children" else "move"):
            to = call.values[1]
            return text if call.subject != first and isinstance(to, Obj) and to.number in of.inside else None
        return text


class Readable(ExportTest):
    def test_nothing_that_may_not_be_read(self) -> None:
        """What a player exports has no value that the player may not read, and makes what it says when that player runs it."""
        hidden = 0
        for seed in range(SEED, SEED + max(2, COUNT // 2)):
            with self.subTest(seed=seed):
                hidden += self.one(random.Random(seed))
        self.assertGreater(hidden, 0)

    def one(self, rng: random.Random) -> int:
        """A class of many values, each with a mark, some of which Ada may not read. It gives how many these are."""
        first = int(self.run_batch(f"create(#{THING}, #{ADA})")[0][1:])
        inside, marks = [first], 0
        for _ in range(5):
            inside.append(int(self.run_batch(f"create(#{rng.choice(inside)}, #{rng.choice((ADA, ADA, BEN))})")[0][1:]))
        places = [(one, name) for one in inside for name in ("size", "colour")]
        for name in ("weight", "lit", "note"):
            rights = f'{{#{rng.choice((3, ADA))}, "{rng.choice(("", "r", "c", "rc"))}"}}'
            definer = rng.choice(inside)
            self.run_batch(f'add_property(#{definer}, "{name}", "mark {seed_of(rng)}", {rights})')
            places += [(one, name) for one in inside]
        for number, name in places:
            if rng.random() < 0.5:
                self.run_batch(f'set(#{number}, "{name}", "mark {seed_of(rng)}")')
                marks += 1
        text = self.export(first, "children", ADA).text
        hidden = 0
        for number, name in places:
            info, mine = (self.source.alone(who, [f"get(#{number}, {written(name)})"])[0] for who in (3, ADA))
            clear = self.source.alone(3, [f"is_clear_property(#{number}, {written(name)})"])[0]
            if info.is_good and clear.text == "0" and str(info.value).startswith("mark"):
                self.assertTrue(mine.is_good or str(info.value) not in text, (number, name, text))
                hidden += not mine.is_good
        self.imported(text, ADA + SHIFT)
        return hidden

    def test_what_is_left_out_is_said(self) -> None:
        first = int(self.run_batch(f"create(#{THING}, #{ADA})")[0][1:])
        self.run_batch(
            f'set(#{first}, "name", "class")', f'add_property(#{first}, "secret", "shh", {{#3, ""}})', f"create(#{first}, #{BEN})",
            f'set(#{first + 1}, "name", "of Ben")', f"create(#{first}, #{ADA})", f"set_player_flag(#{first + 2}, 1)",
            f'add_verb(#{first}, {{#3, "x", "look"}}, {{"this", "none", "none"}})', f'set(#{first}, "wizard", 1)',
        )  # fmt: skip
        exported = self.export(first, "children", ADA)
        told = exported.text
        for wanted in (
            f"//   #{first + 2} is a player, and isn't made anew", "//   secret, on 2 of the objects: you may not read it",
            f"//   of Ben #{first + 1} belongs to #{BEN}: it becomes yours", f'//   the verb "look" of class #{first}: you may not read it',
            f"//   the mark wizard of class #{first}: a wizard gives it",
        ):
            self.assertIn(wanted, told)
        self.assertNotIn("shh", told)
        self.assertEqual(exported.objects, 2)
        self.imported(told, ADA + SHIFT)


def seed_of(rng: random.Random) -> str:
    """A mark that no other value has."""
    return f"{rng.randrange(10**12)}-{time.monotonic_ns()}"


class Word(ProgramTest):
    def test_to_a_file_and_back(self) -> None:
        make("from.db", outside(FIRST))
        make("to.db", outside(FIRST))
        ended = run_shell("-c", f'$a = create(#{ROOM}); $a.name = "Hall"; $b = create(#{THING}); $b.size = 9; move($b, $a)', "from.db")
        self.assertEqual(ended.status, 0, ended)
        ended = run_shell("-c", "\\export Hall contents hall.moo", "from.db")
        self.assertEqual((ended.status, ended.complaint), (0, "hall.moo makes 2 objects by 5 calls\n"))
        self.assertEqual(Path("hall.moo").stat().st_mode & 0o077, 0, "nobody else may read it")
        self.assertEqual(run_shell("-q", "-f", "hall.moo", "to.db"), (0, "", ""))
        ended = run_shell("-c", f"#{LAST + 1}.size; #{LAST + 1}.location; #{LAST}.name", "to.db")
        self.assertEqual(ended.written, f'9\n#{LAST}\n"Hall"\n')
        again = run_shell("-c", "\\export Hall contents hall.moo", "from.db")
        self.assertEqual((again.status, "hall.moo is there already" in again.complaint), (1, True))

    def test_mistakes(self) -> None:
        make("from.db", outside(FIRST))
        for text, why in (("\\export #4", "\\export #5 children [FILE]"), ("\\export #99 children", "#99 isn't an object"), ("\\export", "a class with")):
            ended = run_shell("-c", text, "from.db")
            self.assertEqual(ended.status, 1)
            self.assertIn(why, ended.complaint)


if __name__ == "__main__":
    unittest.main()
