"""The threads of the server: so many requests are worked on at once, and the others wait for their turn.

An address may have some of the places, and one of its persons fewer, so that nobody takes all. Who has waited for ten seconds is told `busy`.
"""

from __future__ import annotations

import contextlib
import logging
import threading
import time
from typing import Any, Callable, Iterator

from moo_web.traffic.turns import Queue
from moo_web.traffic.visitors import Visitor

PLACES = 24
OF_ADDRESS, OF_PERSON = 16, 8
WAITING = 10.0


class Waiter:
    """A connection whose request waits for a place."""

    def __init__(self, visitor: Visitor, channel: Any) -> None:
        self.visitor, self.channel = visitor, channel
        self.moment = time.monotonic()


class Places:
    """What waitress calls a dispatcher of tasks. `whose` says whose the request of a connection is."""

    def __init__(self, whose: Callable[[Any], Visitor], count: int = PLACES, waiting: float = WAITING) -> None:
        self.whose, self.waiting = whose, waiting
        self.lock = threading.Lock()
        # Of something to answer, and of something that may have to be refused.
        self.change, self.news = threading.Condition(self.lock), threading.Condition(self.lock)
        self.line: Queue[Waiter] = Queue()
        # Those in the line, the first that came first.
        self.waiters: dict[Waiter, None] = {}
        # How many places an address has, and how many one of its persons. `idle` are those that nobody has.
        self.taken: dict[tuple[str, ...], int] = {}
        self.idle, self.is_over = 0, False
        # When a request has got a place, or given it back, last.
        self.moved_at = time.monotonic()
        # Whose request the present thread answers, and whether it has given its place away.
        self.own = threading.local()
        for number in range(count):
            threading.Thread(target=self.serve, name=f"place-{number}", daemon=True).start()
        threading.Thread(target=self.refuse, name="refusals", daemon=True).start()

    # What waitress asks for

    def add_task(self, channel: Any) -> None:
        """Has the request of a connection answered."""
        waiter = Waiter(self.whose(channel), channel)
        with self.lock:
            self.line.put(waiter.visitor, waiter)
            self.waiters[waiter] = None
            if self.idle:
                self.change.notify()
            else:
                self.news.notify()

    def shutdown(self, cancel_pending: bool = True, timeout: float = 5.0) -> None:
        """Begins nothing more, and waits for what was begun."""
        end = time.monotonic() + timeout
        with self.lock:
            self.is_over = True
            self.change.notify_all()
            self.news.notify_all()
        while self.taken and time.monotonic() < end:
            time.sleep(0.01)

    # The threads

    def serve(self) -> None:
        """Answers one request after another."""
        while waiter := self.next():
            self.own.visitor, self.own.is_away = waiter.visitor, False
            waiter.channel.is_refused = False
            served(waiter.channel)
            if self.own.is_away:
                # Another thread has its place.
                return
            self.leave(waiter.visitor)

    @contextlib.contextmanager
    def away(self) -> Iterator[None]:
        """For a request that waits for something that others do. Another thread gets its place for good, and this one ends with its answer."""
        if not self.own.is_away:
            self.own.is_away = True
            self.leave(self.own.visitor)
            threading.Thread(target=self.serve, name="place", daemon=True).start()
        yield

    def next(self) -> Waiter | None:
        """Waits for the next request, and takes a place for it. None: no more are served."""
        with self.lock:
            while not self.is_over:
                waiter = self.line.take(self.may_enter)
                if waiter:
                    del self.waiters[waiter]
                    self.moved_at = time.monotonic()
                    for key in visitor_keys(waiter.visitor):
                        self.taken[key] = self.taken.get(key, 0) + 1
                if self.waiters:
                    # Others go on waiting, perhaps for too long.
                    self.news.notify()
                if waiter:
                    return waiter
                self.idle += 1
                self.change.wait()
                self.idle -= 1
        return None

    def may_enter(self, address: str, person: str) -> bool:
        """Whether somebody may have one more place."""
        of_address, of_person = visitor_keys(Visitor(address, person))
        return self.taken.get(of_address, 0) < OF_ADDRESS and self.taken.get(of_person, 0) < OF_PERSON

    def leave(self, visitor: Visitor) -> None:
        """Gives a place back. The thread that had it takes the next request, so none else need know."""
        with self.lock:
            self.moved_at = time.monotonic()
            for key in visitor_keys(visitor):
                self.taken[key] -= 1
                if not self.taken[key]:
                    del self.taken[key]

    def refuse(self) -> None:
        """Has those refused who have waited for too long."""
        while waiter := self.late():
            waiter.channel.is_refused = True
            served(waiter.channel)

    def late(self) -> Waiter | None:
        """Waits for one that has waited too long, and takes it out of the line. None: no more are served."""
        with self.lock:
            while not self.is_over:
                first = next(iter(self.waiters), None)
                left = first.moment + self.waiting - time.monotonic() if first else None
                if first and left is not None and left <= 0:
                    del self.waiters[first]
                    self.line.remove(first.visitor, first)
                    return first
                self.news.wait(left)
        return None


def served(channel: Any) -> None:
    """Answers the request of a connection. What goes wrong there is told, and ends no thread."""
    try:
        channel.service()
    except Exception:
        logging.getLogger("waitress").exception("a request failed")


def visitor_keys(visitor: Visitor) -> tuple[tuple[str, ...], tuple[str, ...]]:
    """What is counted of a visitor: the address, and the person there."""
    return (visitor.address,), (visitor.address, visitor.person)
