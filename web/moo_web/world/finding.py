"""Values that one person finds: each is one that moo says again to that person's own number, and no other is counted.

A value is found at the object whose own it is. If the person may not read it there, it is found at objects of theirs that inherit it.
"""

from __future__ import annotations

import itertools
from collections.abc import Iterable, Iterator
from typing import Any, Callable, NamedTuple

from moolib.calls import objects_in
from moolib.values import written

from moo_web.world.asking import Onlooker, Refusal
from moo_web.world.dumped import ACCEPTS
from moo_web.world.literals import Literal, Literals, has_word, place_key

# So many are asked for again at once, and so many of those that a person's own objects inherit.
MOST_FOUND, MOST_INHERITED = 1000, 200
# So many of a person's own objects are looked at for what they inherit.
MOST_OWNED = 20_000


class ValuePlace(NamedTuple):
    """A property on an object, whose value is its own unless it is inherited. The name `ACCEPTS` is that of what the object accepts."""

    number: int
    name: str
    is_inherited: bool = False


class Found(NamedTuple):
    """What was found, in the order of the objects, and whether there may be more."""

    places: list[ValuePlace]
    is_more: bool


class Shown(NamedTuple):
    """A place with the value that moo says it has."""

    place: ValuePlace
    value: Any


def with_word(onlooker: Onlooker, literals: Literals, word: str, most: int = MOST_FOUND) -> Found:
    """The values with a word in them that the person may read."""
    rows = (row for row in literals.with_word(word) if row.name != ACCEPTS)
    return Finding(onlooker, literals, lambda value: has_word(written(value), word)).found(rows, most)


def with_number(onlooker: Onlooker, literals: Literals, number: int) -> Found:
    """The values and the lists of what is accepted that name an object, as far as the person may read them."""
    return Finding(onlooker, literals, lambda value: names(value, number)).found(literals.with_number(number), MOST_FOUND)


def names(value: Any, number: int) -> bool:
    """Whether a value names an object."""
    return number in objects_in([value])


def shown_places(onlooker: Onlooker, places: Iterable[ValuePlace]) -> list[Shown]:
    """Places with their values, without those that the person may not read."""
    some = list(places)
    told = onlooker.answers([call_of(place) for place in some])
    return [Shown(place, value) for place, value in zip(some, told) if not isinstance(value, Refusal)]


def call_of(place: ValuePlace) -> str:
    """What is asked for the value at a place."""
    return f"accept_list(#{place.number})" if place.name == ACCEPTS else f"get(#{place.number}, {written(place.name)})"


class Finding:
    """One search of a person. `is_meant` says of a value whether it is looked for."""

    def __init__(self, onlooker: Onlooker, literals: Literals, is_meant: Callable[[Any], bool]) -> None:
        self.onlooker, self.literals, self.is_meant = onlooker, literals, is_meant
        self.number, self.is_wizard = onlooker.number, onlooker.is_wizard
        owned = () if self.is_wizard else onlooker.world.owned.get(onlooker.number, ())
        self.owned = list(itertools.islice(owned, MOST_OWNED))
        self.classes = self.above(self.owned)

    def above(self, numbers: list[int]) -> set[int]:
        """What these objects are under."""
        things, found = self.onlooker.world.things, set[int]()
        level = {things[number].parent for number in numbers}
        while level := {number for number in level - found if number in things}:
            found |= level
            level = {things[number].parent for number in level}
        return found

    def found(self, rows: Iterator[Literal], most: int) -> Found:
        """Those of these literals that the person may read, at most so many."""
        hidden: dict[int, list[str]] = {}
        open_rows = (row for row in rows if self.may_read(row) or self.note(row, hidden))
        first = list(itertools.islice(open_rows, most + 1))
        own = [ValuePlace(row.number, row.name) for row in first]
        places = sorted([*self.confirmed(own), *self.inherited(hidden)])
        return Found(places[:most], len(places) > most)

    def may_read(self, row: Literal) -> bool:
        """Whether the person may read a value, by what was learned of its rights. moo decides it."""
        return row.is_open or row.owner == self.number or self.is_wizard

    def note(self, row: Literal, hidden: dict[int, list[str]]) -> bool:
        """Notes a value that the person may not read, if objects of theirs may inherit it."""
        if row.number in self.classes:
            hidden.setdefault(row.number, []).append(row.name)
        return False

    def confirmed(self, places: list[ValuePlace]) -> list[ValuePlace]:
        """Those that moo says to the person to be the object's own."""
        asked = [f"is_clear_property(#{place.number}, {written(place.name)})" for place in places if place.name != ACCEPTS]
        answers = iter(self.onlooker.answers(asked))
        return [place for place in places if place.name == ACCEPTS or next(answers) == 0]

    def inherited(self, hidden: dict[int, list[str]]) -> list[ValuePlace]:
        """Values that the person may read on objects of their own alone, which inherit them."""
        chains = ((one, self.onlooker.world.chain(one)[1:]) for one in (self.owned if hidden else ()))
        some = (
            ValuePlace(one, name, True) for one, chain in chains for thing in chain for name in hidden.get(thing.number, ())
            if all(place_key(one, name) != place_key(row.number, row.name) for row in self.literals.of_object(one))
        )  # fmt: skip
        return [each.place for each in shown_places(self.onlooker, itertools.islice(some, MOST_INHERITED)) if self.is_meant(each.value)]
