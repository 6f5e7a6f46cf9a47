"""Turns that are fair: one address after another, and of an address one person after another.

`Queue` has such turns. `Turnstile` lets one request at a time through to moo, which judges one at a time, and measures whose it was.
"""

from __future__ import annotations

import contextlib
import threading
import time
from typing import Callable, Generic, Iterator, TypeVar

from moolib.errors import LostAnswer, NoService, TooLong

from moo_web.traffic.visitors import NOBODY, Visitor, present

T = TypeVar("T")


class NobodyWaits(Exception):
    """Nobody waits for the answer any more, so nothing was sent."""


class Queue(Generic[T]):
    """Things that wait for their turn, each for a visitor. Of a person's own the first comes first."""

    def __init__(self) -> None:
        # By address and person. Whose turn is over goes to the end, and whose turn is next is at the beginning.
        self.waiting: dict[str, dict[str, list[T]]] = {}

    def put(self, visitor: Visitor, thing: T) -> None:
        """Something more that waits."""
        self.waiting.setdefault(visitor.address, {}).setdefault(visitor.person, []).append(thing)

    def take(self, may: Callable[[str, str], bool] = lambda address, person: True) -> T | None:
        """What is next of those addresses and persons that may have a turn; None if there is nothing."""
        for address, people in self.waiting.items():
            for person in people:
                if may(address, person):
                    return self.taken(address, person)
        return None

    def taken(self, address: str, person: str) -> T:
        """The first of a person's things at an address, who goes to the end."""
        people = self.waiting.pop(address)
        things = people.pop(person)
        thing = things.pop(0)
        if things:
            people[person] = things
        if people:
            self.waiting[address] = people
        return thing

    def remove(self, visitor: Visitor, thing: T) -> None:
        """Takes something away that doesn't wait any more."""
        people = self.waiting[visitor.address]
        people[visitor.person].remove(thing)
        if not people[visitor.person]:
            del people[visitor.person]
        if not people:
            del self.waiting[visitor.address]


class Turnstile:
    """The way to moo, for one request at a time. `spend` is given whose turn it was, and for how many seconds.

    moo goes on with a request whose answer wasn't waited for. So the time until it answers again is that visitor's who gave up first.
    """

    def __init__(self, spend: Callable[[Visitor, float], None]) -> None:
        self.spend = spend
        self.lock = threading.Lock()
        self.is_taken = False
        self.line: Queue[threading.Event] = Queue()
        self.debtor: Visitor | None = None

    @contextlib.contextmanager
    def turn(self, end: float) -> Iterator[None]:
        """The turn of who is present. `NoService`: it didn't come before the moment `end`. `NobodyWaits`: nobody waits for it any more."""
        visitor = present()
        if not self.entered(visitor, end):
            raise NoService("others are before it")
        began = time.monotonic()
        try:
            if visitor.is_gone():
                raise NobodyWaits
            yield
            self.count(visitor, began)
            self.debtor = None
        except TooLong:
            # moo has answered, with more than was taken.
            self.count(visitor, began)
            self.debtor = None
            raise
        except (NoService, LostAnswer):
            self.count(visitor, began)
            self.debtor = self.debtor or visitor
            raise
        finally:
            self.leave()

    def count(self, visitor: Visitor, began: float) -> None:
        """Counts the time of a turn."""
        self.spend(self.debtor or visitor, time.monotonic() - began)

    def entered(self, visitor: Visitor, end: float) -> bool:
        """Waits for the visitor's turn, until the moment `end`."""
        visitor = NOBODY if visitor.is_first else visitor
        with self.lock:
            if not self.is_taken:
                self.is_taken = True
                return True
            is_next = threading.Event()
            self.line.put(visitor, is_next)
        if is_next.wait(max(0.0, end - time.monotonic())):
            return True
        with self.lock:
            if not is_next.is_set():
                self.line.remove(visitor, is_next)
            return is_next.is_set()

    def leave(self) -> None:
        """Gives the turn to the next."""
        with self.lock:
            # The front's own requests, and those that may not wait, are nobody's.
            following = self.line.take(lambda address, person: (address, person) == (NOBODY.address, NOBODY.person)) or self.line.take()
            if following:
                following.set()
            else:
                self.is_taken = False
