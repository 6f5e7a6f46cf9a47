"""Whether the batch of a person may be sent, and what it counts for."""

from __future__ import annotations

from typing import Callable

from moolib.calls import read_or_none

from moo_web.people.person import Person
from moo_web.traffic.shares import WRITING, Shares
from moo_web.traffic.visitors import Visitor
from moo_web.world.things import World

# Calls that put or remove a row for each object under the one that they name.
WIDE = ("add_property", "delete_property", "chparent", "set_property_info")
# No batch counts for more.
MOST_ROWS = 1_000_000


class Free:
    """Nothing is asked and nothing is counted."""

    def test_share(self, visitor: Visitor, person: Person) -> None:
        """What is asked when a batch comes. `Spent`: the person has written too much."""

    def may_send(self, name: str) -> bool:
        """What is asked before the batch of a person is sent."""
        return True

    def was_sent(self, visitor: Visitor, calls: list[str]) -> None:
        """What is counted once it was."""


class Counted(Free):
    """A person has a share of what may be written, and must not be disabled. `world` gives what is known of the world."""

    def __init__(self, shares: Shares, may_come_in: Callable[[str], bool], world: Callable[[], World | None]) -> None:
        self.shares, self.may_come_in, self.world = shares, may_come_in, world

    def test_share(self, visitor: Visitor, person: Person) -> None:
        self.shares.must_have(visitor, person, WRITING)

    def may_send(self, name: str) -> bool:
        return self.may_come_in(name)

    def was_sent(self, visitor: Visitor, calls: list[str]) -> None:
        self.shares.spend(visitor, rows=rows_written(calls, self.world()), bytes_=sum(map(len, calls)))


def rows_written(calls: list[str], world: World | None) -> int:
    """How many rows a batch may write at the least: one for each call, and one for each object under the one that a wide call names."""
    counts: dict[int, int] = {}
    rows = len(calls)
    for text in calls if world else ():
        call = read_or_none(text)
        if world and call and call.name in WIDE and call.subject is not None:
            if call.subject not in counts:
                counts[call.subject] = count_under(world, call.subject, MOST_ROWS)
            rows += counts[call.subject]
        if rows >= MOST_ROWS:
            return MOST_ROWS
    return rows


def count_under(world: World, number: int, most: int) -> int:
    """How many objects are under one, at most so many."""
    count, left = 0, [number]
    while left and count < most:
        children = world.children.get(left.pop(), ())
        count += len(children)
        left.extend(children)
    return count
