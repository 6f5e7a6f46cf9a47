"""Worlds with twins of verbs, and changes of their verbs: added, deleted, renamed, given other arguments.

Each verb is known through all changes, whatever it is called, so that its own program is known too.
"""

from __future__ import annotations

import dataclasses
from collections.abc import Sequence
from random import Random
from typing import Optional

from tests.support.lambdamoo_worlds import Thing, Verb, World

OBJECTS = (1, 2, 4)
# What may happen, as often as it is written here.
HAPPENINGS = ("add", "delete", "delete", "rename", "rename", "other arguments")
NAMES = ("look", "open", "get take", "put")
FRESH = ("fetch", "stow", "l*ook", "peek")
PLACES = (("this", "none", "none"), ("any", "with/using", "any"), ("this", "none", "this"))
MOST_VERBS, MOST_CHANGES = 5, 5


@dataclasses.dataclass
class Known:
    """A verb through all changes, with its own program; None if it has none."""

    names: str
    places: tuple[str, str, str]
    program: Optional[list[str]]

    @property
    def header(self) -> tuple[str, tuple[str, str, str]]:
        """What a dump tells of it that names it: its names and arguments."""
        return self.names, self.places


class Changed:
    """A world, its verbs through some changes, and the calls that make them. Without twins no two verbs of an object ever have a name in common."""

    def __init__(self, random: Random, happenings: Sequence[str] = HAPPENINGS, has_twins: bool = True) -> None:
        self.random, self.happenings = random, happenings
        # without twins, the names that no verb has had
        self.unused = None if has_twins else [f"{name}{number}" for number in range(MOST_VERBS + MOST_CHANGES) for name in (*NAMES, *FRESH)]
        self.verbs = {number: [self.verb(f"#{number}:{place}") for place in range(random.randrange(MOST_VERBS + 1))] for number in OBJECTS}
        self.before = {number: [dataclasses.replace(verb) for verb in verbs] for number, verbs in self.verbs.items()}
        self.world = self.made()
        self.calls = [call for _ in range(random.randrange(MOST_CHANGES + 1)) for call in self.change(random.choice(OBJECTS))]

    def verb(self, words: str) -> Known:
        """A verb that is a twin of others more often than not, with a program that no other has."""
        program = [f'return "{words}";'] if self.random.random() < 0.9 else None
        return Known(self.names(NAMES), self.random.choice(PLACES), program)

    def names(self, among: Sequence[str]) -> str:
        """Names for a verb, of these, or without twins names that no verb has had."""
        return self.random.choice(among) if self.unused is None else self.unused.pop(self.random.randrange(len(self.unused)))

    def made(self) -> World:
        """The world before the changes."""
        world = World(4, {number: Thing(f"thing {number}", owner=3) for number in range(5)})
        world.things[3].flags = ["player", "programmer", "wizard"]
        for number, verbs in self.verbs.items():
            world.things[number].verbs = [Verb(each.names, 3, "rd", each.places, each.program) for each in verbs]
        return world

    def change(self, number: int) -> list[str]:
        """A change of a verb of an object, and the call that makes it."""
        verbs = self.verbs[number]
        place = self.random.randrange(len(verbs)) if verbs else 0
        what = self.random.choice(self.happenings) if verbs else "add"
        names, places = self.names((*NAMES, *FRESH)), self.random.choice(PLACES)
        given = ", ".join(f'"{word.split("/")[0]}"' for word in places)
        if what == "add":
            verbs.append(Known(names, places, None))
            return [f'add_verb(#{number}, {{#3, "rd", "{names}"}}, {{{given}}})']
        if what == "delete":
            del verbs[place]
            return [f"delete_verb(#{number}, {place + 1})"]
        if what == "rename":
            verbs[place].names = names
            return [f'set_verb_info(#{number}, {place + 1}, {{#3, "rd", "{names}"}})']
        verbs[place].places = places
        return [f"set_verb_args(#{number}, {place + 1}, {{{given}}})"]

    @property
    def text(self) -> str:
        """The changes as a batch, or nothing."""
        return "".join(f"{line}\n" for line in ("batch as #3", *self.calls, "end")) if self.calls else ""

    def wrong(self, found: World, told: str) -> list[str]:
        """The verbs that have another program than their own and of which nothing is told, with the report of all places.

        What is told of a verb names it, or a program of its object that has no verb. A verb without a program of its own may get that of one
        that is gone and that had the same names and arguments: it can't be told from that. Nor can an object whose verbs all have the names
        and arguments that they had be told from one on which nothing has happened.
        """
        wrong = []
        for number, verbs in self.verbs.items():
            if [verb.header for verb in verbs] == [verb.header for verb in self.before[number]]:
                continue
            gone = [verb for verb in self.before[number] if verb.program not in [each.program for each in verbs]]
            has_lost = f"    #{number}:'" in told
            for place, (verb, came) in enumerate(zip(verbs, found.things[number].verbs)):
                right = [verb.program]
                if verb.program is None:
                    right += [each.program for each in gone if each.header == verb.header]
                if came.program not in right and not has_lost and f"    #{number}:{place}, " not in told:
                    wrong.append(f"#{number}:{place} {verb.names} has {came.program}, and its own is {verb.program}")
        return wrong

    def lost(self, found: World, told: str) -> list[str]:
        """The names of verbs whose program no verb has and of which nothing is told; and programs that several verbs have."""
        placed = [verb.program[0] for thing in found.things.values() for verb in thing.verbs if verb.program]
        lost = [
            verb.names for number, verbs in self.before.items() for verb in verbs
            if verb.program and verb.program[0] not in placed and f"    #{number}:'{verb.names}'" not in told
        ]  # fmt: skip
        return lost + [program for program in set(placed) if placed.count(program) > 1]
