"""How somebody wants a list of objects: some of them alone, by name, owner or kind, and in an order. It is in the query of its address."""

from __future__ import annotations

import functools
from collections.abc import Iterable, Iterator, Mapping, Sequence
from typing import Any, Callable, NamedTuple

from moo_web.pages.history import numbers_for
from moo_web.pages.pages import Visit
from moo_web.paths import query_of
from moo_web.world.things import Thing, World

LONGEST = 256
# The orders of a list, each with its word. The first is that of a list that says none.
ORDERS = {"number": "Number", "name": "Name", "kind": "Kind", "where": "Where", "owner": "Owner"}
# The fields by which objects are left out.
FILTERS = ("name", "owner", "kind")


class Wanted(NamedTuple):
    """How a list is wanted: a part of the names, the owner and the kind as they were typed; the order, and whether it goes down."""

    name: str = ""
    owner: str = ""
    kind: str = ""
    order: str = "number"
    is_down: bool = False

    @classmethod
    def of(cls, fields: Mapping[str, str]) -> Wanted:
        """The same of the fields of a query. What can't be is left out."""
        typed = {key: fields.get(key, "").strip()[:LONGEST] for key in FILTERS}
        order = fields.get("sort", "")
        return cls(**typed, order=order if order in ORDERS else "number", is_down=fields.get("down") == "on")

    @property
    def is_filtered(self) -> bool:
        """Whether objects may be left out."""
        return bool(self.name or self.owner or self.kind)

    @property
    def query(self) -> str:
        """The query of the address, up to the number of a part."""
        typed = {key: getattr(self, key) or None for key in FILTERS}
        query = query_of(**typed, sort=self.order if self.order != "number" else None, down="on" if self.is_down else None)
        return f"{query}&" if query else "?"

    def by(self, order: str) -> str:
        """The query of the same list in another order; in the same one, of the other way round."""
        is_down = self.order == order and not self.is_down
        return self._replace(order=order, is_down=is_down).query.rstrip("&") or "?"


class Sorted(NamedTuple):
    """Objects as they are wanted. `unknown` are the filters that name nothing."""

    numbers: Sequence[int]
    unknown: list[str]


def sorted_list(visit: Visit, numbers: Sequence[int], wanted: Wanted) -> Sorted:
    """The objects of these numbers, which come ascending, as they are wanted. Without a wish they stay as they are, whatever their count."""
    world, unknown = visit.world, list[str]()
    if wanted.is_filtered:
        tests = tests_of(visit, wanted, unknown)
        numbers = [number for number in numbers if all(test(world.things[number]) for test in tests)]
    if wanted.order != "number":
        numbers = sorted(numbers, key=sort_key(world, wanted.order))
    return Sorted(numbers[::-1] if wanted.is_down else numbers, unknown)


def tests_of(visit: Visit, wanted: Wanted, unknown: list[str]) -> list[Callable[[Thing], bool]]:
    """What is asked of each object. A filter that names nothing is noted in `unknown`."""
    tests: list[Callable[[Thing], bool]] = []
    if wanted.name:
        part = wanted.name.lower()
        tests.append(lambda thing: part in thing.name.lower())
    meant = {key: set(numbers_for(visit, getattr(wanted, key))) for key in ("owner", "kind") if getattr(wanted, key)}
    unknown += [getattr(wanted, key) for key, numbers in meant.items() if not numbers]
    if "owner" in meant:
        tests.append(lambda thing: thing.owner in meant["owner"])
    if "kind" in meant:
        kinds = Kinds(visit.world, meant["kind"])
        tests.append(lambda thing: kinds.has(thing.parent))
    return tests


class Kinds:
    """The objects that are some classes, or under them. What was looked up is remembered."""

    def __init__(self, world: World, classes: Iterable[int]) -> None:
        self.world = world
        self.known = dict.fromkeys(classes, True)

    def has(self, number: int) -> bool:
        """Whether an object is one of the classes, or under one."""
        chain: list[int] = []
        while number in self.world.things and number not in self.known:
            chain.append(number)
            number = self.world.things[number].parent
        answer = self.known.get(number, False)
        self.known.update(dict.fromkeys(chain, answer))
        return answer


def sort_key(world: World, order: str) -> Callable[[int], Any]:
    """What a list in this order is sorted by: names in any case of letters, the same ones by number."""
    things = world.things
    if order == "name":
        return lambda number: (things[number].name.lower(), number)
    of: Callable[[Thing], int] = {
        "kind": lambda thing: thing.parent, "where": lambda thing: thing.location, "owner": lambda thing: thing.owner
    }[order]
    # Many objects have the same owner, parent or place.
    name = functools.lru_cache(None)(lambda number: things[number].name.lower() if number in things else "")

    def key(number: int) -> tuple[str, int, int]:
        other = of(things[number])
        return name(other), other, number

    return key


def orders(wanted: Wanted) -> Iterator[tuple[str, str, str]]:
    """The orders of a list, each with its word and the address of the list in it."""
    for order, word in ORDERS.items():
        yield order, word, wanted.by(order)
