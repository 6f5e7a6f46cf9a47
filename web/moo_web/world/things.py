"""The public facts of a world at one number: what everybody may read of each object."""

from __future__ import annotations

import functools
import sys
from collections.abc import Iterator, Mapping, Sequence
from typing import Any, NamedTuple, Optional

from moolib.slots import BITS

from moo_web.world.layers import Layered
from moo_web.world.linking import Links, Relinking, links_of, relinked
from moo_web.world.names import Names

# The places in `BITS` of the bits whose objects are listed: player, wizard, f.
LISTED = (0, 2, 5)
NOTHING = -1
# So many letters of a name are shown.
LONGEST_SHOWN = 80


def cut_name(name: str, longest: int = LONGEST_SHOWN) -> str:
    """The name of an object, cut to a length that a page can bear; `unnamed` if it is blank."""
    return shortened(name, longest) if name.strip() else "unnamed"


def shortened(name: str, longest: int = LONGEST_SHOWN) -> str:
    """A name, cut to a length that a page can bear."""
    return name if len(name) <= longest else name[:longest] + "…"


class Thing(NamedTuple):
    """An object: its number, its name, the numbers of its owner, parent and location (-1: none), and the sum of its bits.

    The bits of `BITS` have the values 1, 2, 4 ..
    """

    number: int
    name: str
    owner: int
    parent: int
    location: int
    bits: int

    def has(self, bit: str) -> bool:
        """Whether it has a bit, by its name in `BITS`."""
        return bool(self.bits >> BITS.index(bit) & 1)

    @property
    def flags(self) -> list[str]:
        """The names of the bits that it has."""
        return [bit for place, bit in enumerate(BITS) if self.bits >> place & 1]


def thing_of(number: int, said: dict[str, Any]) -> Thing:
    """An object, of what moo says of it."""
    bits = sum(bool(said[bit]) << place for place, bit in enumerate(BITS))
    return Thing(number, sys.intern(said["name"]), number_in(said["owner"]), number_in(said["parent"]), number_in(said["location"]), bits)


def number_in(text: str) -> int:
    """The number of an object such as `#4`."""
    return int(text[1:])


class NotThere(Exception):
    """There is no object of this number."""

    def __init__(self, number: int) -> None:
        super().__init__()
        self.number = number


class World:
    """All objects at one number of the world. It isn't changed any more, so that threads may read it.

    `things` has them by their numbers, ascending. `children`, `contents` and `owned` have the numbers of those under an object, in it and
    of it, ascending; an object without any isn't in there. Under -1 are those without a parent, a location and an owner. `marked` has those
    with a bit by its place in `BITS`, for the bits of `LISTED`. The world of the next number shares with it what hasn't changed.
    """

    def __init__(self, seq: int, things: Layered[Thing], children: Links, contents: Links, owned: Links, marked: Links) -> None:
        self.seq, self.things = seq, things
        self.children, self.contents, self.owned, self.marked = children, contents, owned, marked

    @classmethod
    def made(cls, seq: int, things: dict[int, Thing]) -> World:
        """The world of these objects."""
        return cls(
            seq, Layered(things), links_of((thing.parent, number) for number, thing in things.items()),
            links_of((thing.location, number) for number, thing in things.items()),
            links_of((thing.owner, number) for number, thing in things.items()),
            links_of((place, number) for place in LISTED for number, thing in things.items() if thing.bits >> place & 1),
        )  # fmt: skip

    @functools.cached_property
    def names(self) -> Names:
        """The names of the objects, for searches: they are put in order by the first one."""
        return Names.of((number, thing.name) for number, thing in self.things.items())

    def changed(self, seq: int, found: Mapping[int, Optional[Thing]]) -> World:
        """The world in which these objects are as they were found; None: they are gone. What was found comes ascending."""
        pairs = [(number, self.things.get(number), thing) for number, thing in found.items()]
        made = World(
            seq, self.things.changed(found),
            relinked(self.children, ((number, old and old.parent, new and new.parent) for number, old, new in pairs)),
            relinked(self.contents, ((number, old and old.location, new and new.location) for number, old, new in pairs)),
            relinked(self.owned, ((number, old and old.owner, new and new.owner) for number, old, new in pairs)),
            relinked(self.marked, (change for pair in pairs for change in bit_changes(*pair))),
        )  # fmt: skip
        if "names" in self.__dict__:
            renamed = {number: new and new.name for number, old, new in pairs if (old and old.name) != (new and new.name)}
            if names := self.names.changed(renamed):
                made.names = names
        return made

    def thing(self, number: int) -> Thing:
        """An object. `NotThere`: there is none of this number, which the page about it then says."""
        thing: Optional[Thing] = self.things.get(number)
        if thing is None:
            raise NotThere(number)
        return thing

    def with_bit(self, bit: str) -> Sequence[int]:
        """The numbers of the objects with this bit, ascending. It is one of `player`, `wizard` and `f`."""
        numbers: Sequence[int] = self.marked.get(BITS.index(bit), ())
        return numbers

    @property
    def top(self) -> int:
        """The greatest number of an object; -1 if there is none."""
        return next(reversed(self.things), NOTHING)

    def chain(self, number: int) -> list[Thing]:
        """An object and its ancestors, from it up."""
        return self.up(number, lambda thing: thing.parent)

    def places(self, number: int) -> list[Thing]:
        """An object and the places in which it is, from it up."""
        return self.up(number, lambda thing: thing.location)

    def up(self, number: int, above: Any) -> list[Thing]:
        """An object, and what is above it."""
        found: dict[int, Thing] = {}
        while number in self.things and number not in found:
            found[number] = self.things[number]
            number = above(self.things[number])
        return list(found.values())

    def is_wizard(self, number: int) -> bool:
        """Whether an object has the rights of a wizard."""
        return number in self.things and self.things[number].has("wizard")


def bit_changes(number: int, old: Optional[Thing], new: Optional[Thing]) -> Iterator[Relinking]:
    """What changes of the bits of an object that are listed."""
    for place in LISTED:
        was, now = old is not None and old.bits >> place & 1, new is not None and new.bits >> place & 1
        yield number, place if was else None, place if now else None
