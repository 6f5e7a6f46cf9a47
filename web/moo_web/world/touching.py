"""What accepted batches may have changed of the values that objects have of their own.

It is found without the world between two calls: a value that is lost was on an object which, before the first of the batches, was under one
that a call gives another parent, recycles, or takes a property away from.
"""

from __future__ import annotations

from collections.abc import Iterable

from moolib.calls import Call, read_or_none
from moolib.draft import QUOTA
from moolib.slots import SETTABLE
from moolib.values import Obj

from moo_web.journal.segments import Accepted
from moo_web.world.dumped import ACCEPTS
from moo_web.world.literals import Key, Literals, place_key
from moo_web.world.things import NOTHING, World

# If more values may have changed than so many, all of them are read again.
MOST_TOUCHED = 3000


class TooManyTouched(Exception):
    """It isn't known what has changed, or it is too much to ask for value by value."""


class Touching:
    """What batches touch, in the world before the first of them, with the petitions that were open then."""

    def __init__(self, world: World, petitions: dict[int, list[Call]]) -> None:
        self.world, self.petitions = world, dict(petitions)
        # The values, each with the name of its property as it is spelled.
        self.places: dict[Key, str] = {}
        # Objects whose own values, and those of all under them, may be lost: all, or those of a property.
        self.trees: list[tuple[int, str]] = []
        # By a name in small letters, the names that properties of that name got.
        self.renamed: dict[str, list[str]] = {}
        self.makers: set[int] = set()

    def run(self, batches: Iterable[Accepted]) -> None:
        """Takes in batches. `TooManyTouched`: one of their calls may have changed anything."""
        for batch in batches:
            for text, answer in batch.answered:
                call = read_or_none(text)
                if call is None:
                    raise TooManyTouched
                self.take(call, batch.programmer, answer)

    def take(self, call: Call, programmer: int, answer: str = "") -> None:
        """Takes in a call, or those of a petition that it grants."""
        if call.makes == "petition" and answer.isdigit():
            self.petitions[int(answer)] = call.asked
        elif call.name in ("grant", "decline"):
            asked = self.petitions.pop(-1 if call.petition is None else call.petition, None)
            if call.name == "grant" and asked is None:
                raise TooManyTouched
            for each in (asked or ()) if call.name == "grant" else ():
                self.take(each, programmer)
        elif call.makes == "petition":
            raise TooManyTouched
        elif call.name == "create" or call.subject is not None:
            self.take_change(call, NOTHING if call.subject is None else call.subject, programmer)

    def take_change(self, call: Call, number: int, programmer: int) -> None:
        """Takes in a call about an object."""
        name = call.values[1] if len(call.values) > 1 and isinstance(call.values[1], str) else ""
        if call.name in ("add_property", "clear_property", "set_property_info", "set") and name.lower() not in SETTABLE:
            self.touch(number, name)
        if call.name in ("create", "recycle") or name.lower() == "owner":
            self.makers |= {programmer, *(value.number for value in call.values[1:] if isinstance(value, Obj))}
        if call.name in ("chparent", "recycle"):
            self.trees.append((number, ""))
        given = call.values[2] if call.name == "set_property_info" else None
        new = str(given[2]) if isinstance(given, list) and len(given) > 2 else ""
        if new:
            self.renamed.setdefault(name.lower(), []).append(new)
        if new or call.name == "delete_property":
            self.trees.append((number, name.lower()))
        if call.name in ("set_accept", "recycle"):
            self.places[(number, ACCEPTS)] = ACCEPTS
        if call.name == "recycle" and (thing := self.world.things.get(number)):
            self.makers.add(thing.owner)

    def touch(self, number: int, name: str) -> None:
        """A value may have changed."""
        self.places.setdefault(place_key(number, name), name)

    def all(self, literals: Literals) -> dict[Key, str]:
        """All values that may have changed, of those that are kept and new ones. `TooManyTouched`: they are."""
        for number in self.makers:
            if number >= 0:
                self.touch(number, QUOTA)
        for number, name in dict.fromkeys(self.trees):
            for one in self.under(number):
                for row in literals.of_object(one):
                    if row.name != ACCEPTS and (not name or row.name.lower() == name):
                        self.touch(one, row.name)
                if len(self.places) > MOST_TOUCHED:
                    raise TooManyTouched
        for number, name in list(self.places):
            for after in self.after(name):
                self.touch(number, after)
        if len(self.places) > MOST_TOUCHED:
            raise TooManyTouched
        return self.places

    def after(self, name: str) -> list[str]:
        """The names that properties of a name got one after another, as they are spelled."""
        found: list[str] = []
        waiting = [name]
        while waiting:
            for after in self.renamed.get(waiting.pop().lower(), ()):
                if after not in found:
                    found.append(after)
                    waiting.append(after)
        return found

    def under(self, number: int) -> Iterable[int]:
        """An object and all that was under it."""
        waiting = [number]
        while waiting:
            one = waiting.pop()
            yield one
            waiting += self.world.children.get(one, ())
