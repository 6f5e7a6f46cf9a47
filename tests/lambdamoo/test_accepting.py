"""The accept lists that `from_lambdamoo.py --accept` makes of a core: each room takes what its verb `accept` says, or it is told and takes nothing.

What a verb says is written beside it, by the meaning of the MOO's code, and not by the converter.
"""

from __future__ import annotations

import re
import unittest
from collections.abc import Callable
from pathlib import Path
from random import Random
from typing import NamedTuple, Optional

from tests.lambdamoo.test_programs import ran
from tests.support.cases import ProgramTest
from tests.support.lambdamoo_worlds import ObjectValue, Slot, Thing, Verb, World, database_text
from tests.support.worlds import run

import from_lambdamoo

CALLED = ("this", "none", "this")
# The classes and the things of the core: the parent of each. #12 is a guest, who owns the things.
ROOM, THING, PLAYER, CONTAINER, UTILS = 3, 5, 6, 8, 7
PARENTS = {0: 1, 1: -1, 2: PLAYER, ROOM: 1, THING: 1, PLAYER: 1, UTILS: 1, CONTAINER: THING}
THINGS = {9: THING, 10: 9, 11: CONTAINER, 12: PLAYER, 13: 1, 14: THING}
NAMED = {"thing": THING, "room": ROOM, "player": PLAYER, "container": CONTAINER, "object_utils": UTILS, "ou": UTILS}
FIRST_ROOM = 20


def is_a(number: int, above: int) -> bool:
    """Whether an object is another one, or under it."""
    while number not in (above, -1):
        number = {**PARENTS, **THINGS}[number]
    return number == above


class Said(NamedTuple):
    """A room's verb `accept`, and what it takes; None if no accept list says that."""

    code: Optional[list[str]]
    takes: Optional[Callable[[int], bool]]


SAID = (
    Said(["return 1;"], lambda given: True),
    Said(['"Whoever comes is welcome; really.";', '"Ask \\"#2\\" first.";', "return 1;"], lambda given: True),
    Said(["return 0;"], lambda given: False),
    Said(["return;"], lambda given: False),
    Said(['"Nothing may come in.";'], lambda given: False),
    Said([], lambda given: False),
    Said(None, lambda given: False),
    Said(["return isa(args[1], $thing);"], lambda given: is_a(given, THING)),
    Said(
        ["return $object_utils:isa(args[1], $container) || $object_utils:isa(args[1], $player);"],
        lambda given: is_a(given, CONTAINER) or is_a(given, PLAYER),
    ),
    Said(["{what, @rest} = args;", "return what == #14 || $ou:isa(what, #9);"], lambda given: given == 14 or is_a(given, 9)),
    Said(["thing = args[1];", "return isa(thing, $Thing);"], lambda given: is_a(given, THING)),
    Said(["return valid(args[1]) && parent(args[1]) == $thing;"], None),
    Said(["return parent(args[1]) == $thing;"], None),
    Said(["return parent(args[1]) in {$thing, $container};"], None),
    Said(["return args[1] == #9;"], None),
    Said(["return args[1] in {#9, #14};"], None),
    Said(["return !isa(args[1], $player);"], None),
    Said(["return isa(args[1], $thing) && 0;"], None),
    Said(["return isa(args[1], $gone);"], None),
    Said(["return isa(args[2], $thing);"], None),
    Said(["return this:acceptable(@args);"], None),
    Said(["return args[1].owner == this.owner;"], None),
    Said(["if (isa(args[1], $thing))", "  return 1;", "endif"], None),
    Said(["for class in ({$thing, $player})", "  if (isa(args[1], class))", "    return 1;", "  endif", "endfor"], None),
    Said(["player:tell(\"Come in.\");", "return 1;"], None),
    Said(["return pass(@args);"], None),
)


class Core(ProgramTest):
    """A core with classes, things, a guest, and rooms with verbs `accept`."""

    def made(self, rooms: list[Thing]) -> str:
        """Makes the world of a core with these rooms by moo, and answers what was told."""
        things = {number: Thing(f"thing {number}", owner=12, parent=parent) for number, parent in {**PARENTS, **THINGS}.items()}
        things[2].flags, things[12].flags = ["player", "programmer", "wizard"], ["player"]
        things[0].defines = list(NAMED)
        things[0].slots = [Slot(ObjectValue(number), 2, "r") for number in NAMED.values()]
        things.update(enumerate(rooms, FIRST_ROOM))
        world = World(max(things), dict(sorted(things.items())))
        Path("core.db").write_text(database_text(world, Random(1)))
        status, dump, said = ran(from_lambdamoo, "--accept", "--all", "core.db")
        self.assertEqual(status, 0, said)
        Path("core.dump").write_text(dump)
        self.assertEqual(run("load", "world.db", "core.dump")[0], 0)
        return said

    def taken(self, room: int) -> list[int]:
        """The things that may be moved into a room by their owner, who is not a wizard."""
        batches = "".join(f"batch as #12\nmove(#{thing}, #{room})\nend\n" for thing in THINGS)
        replies = re.findall(r"^(accepted \d+|refused \d+ \w+)$", run("rehearse", "world.db", "-", text=batches)[1], re.MULTILINE)
        self.assertEqual(len(replies), len(THINGS))
        self.assertLessEqual({reply for reply in replies if reply[0] == "r"}, {"refused 1 E_NACC"})
        return [thing for thing, reply in zip(THINGS, replies) if reply[0] == "a"]

    def test_each_room_takes_what_its_verb_says(self) -> None:
        rooms = [Thing("room", owner=2, parent=ROOM, verbs=[Verb("accept", 2, "rxd", CALLED, said.code)]) for said in SAID]
        told = self.made(rooms)
        for room, said in enumerate(SAID, FIRST_ROOM):
            wanted = [thing for thing in THINGS if said.takes and said.takes(thing)]
            found = self.taken(room), f"    #{room}:0, line " in told.partition(": nothing is accepted there")[2]
            self.case(" ".join(said.code or ["no program"]), found, (wanted, said.takes is None))

    def test_the_verb_that_move_calls(self) -> None:
        """It is the first that has `x` and a name that matches `accept`. A room without one goes by the class above it."""
        yes, no = ["return 1;"], ["return 0;"]
        cases: tuple[tuple[list[Verb], list[int]], ...] = (
            ([Verb("accept", 2, "rd", CALLED, yes)], []),
            ([Verb("accept", 2, "rd", CALLED, no), Verb("accept", 2, "x", CALLED, yes)], list(THINGS)),
            ([Verb("ac*cept", 2, "x", CALLED, yes)], list(THINGS)),
            ([Verb("take Accept", 2, "x", CALLED, yes)], list(THINGS)),
            ([Verb("*", 2, "x", CALLED, yes), Verb("accept", 2, "x", CALLED, no)], list(THINGS)),
            ([Verb("acceptable accepts", 2, "x", CALLED, yes)], []),
            ([Verb("accept*able", 2, "x", CALLED, yes)], list(THINGS)),
        )
        self.made([Thing("room", owner=2, parent=ROOM, verbs=verbs) for verbs, _ in cases])
        for room, (verbs, wanted) in enumerate(cases, FIRST_ROOM):
            self.case(" and ".join(verb.names for verb in verbs), self.taken(room), wanted)

    def test_a_class_below_a_class(self) -> None:
        """A verb without a program keeps out what the class above would take, as in LambdaMOO, where it answers 0."""
        rooms = [
            Thing("generic", owner=2, parent=ROOM, verbs=[Verb("accept", 2, "xd", CALLED, ["return 1;"])]),
            Thing("open", owner=2, parent=FIRST_ROOM),
            Thing("closed", owner=2, parent=FIRST_ROOM, verbs=[Verb("accept", 2, "xd", CALLED)]),
        ]
        self.made(rooms)
        self.case("what has no verb of its own takes the class's", self.taken(FIRST_ROOM + 1), list(THINGS))
        self.case("a verb without a program takes nothing", self.taken(FIRST_ROOM + 2), [])


if __name__ == "__main__":
    unittest.main()
