"""The route `/api/since/S`: what has changed, now or as soon as something does."""

from __future__ import annotations

import collections
import contextlib
import threading
from typing import Any, Callable, ContextManager

from moo_web.app import JSON, Reply, Request, in_json
from moo_web.interface.bodies import wants
from moo_web.interface.feed import Ahead, Feed, FeedItem, Gone
from moo_web.journal.jobs import Busy
from moo_web.paths import whole_number
from moo_web.people.person import Person
from moo_web.programs import utc
from moo_web.traffic.visitors import present, visiting
from moo_web.world.door import packed

Away = Callable[[], ContextManager[object]]
LONGEST_WAIT = 25
# So many followers may wait at once, and so many of one person. Each has a thread of the server, and no place among those who are answered.
MOST_WAITING, MOST_OF_ONE = 64, 16
# In the environment of a request, what gives its place to others as long as it waits, if the server has places.
AWAY = "moo.away"
# So many batches are gone through at once, and so many are shown.
MOST_BATCHES, MOST_SHOWN = 1000, 100


class WaitingFollowers:
    """How many followers wait."""

    def __init__(self) -> None:
        self.lock = threading.Lock()
        self.of: collections.Counter[str] = collections.Counter()

    def begin(self, name: str) -> None:
        """Counts one more of a person. `Busy`: there are too many."""
        with self.lock:
            if self.of.total() >= MOST_WAITING or self.of[name] >= MOST_OF_ONE:
                raise Busy
            self.of[name] += 1

    def end(self, name: str) -> None:
        """Counts one less."""
        with self.lock:
            self.of[name] -= 1


class LaterBody:
    """The body of an answer that is made when it is read. So who waits for it takes no place of those who ask."""

    def __init__(self, make: Callable[[], bytes], end: Callable[[], None]) -> None:
        self.make, self.end, self.is_made, self.is_closed = make, end, False, False

    def read(self, size: int = -1) -> bytes:
        """The whole body, once."""
        if self.is_made:
            return b""
        self.is_made = True
        return self.make()

    def __enter__(self) -> LaterBody:
        return self

    def __exit__(self, *given: object) -> None:
        self.close()

    def close(self) -> None:
        """Says that it isn't read any more."""
        if not self.is_closed:
            self.is_closed = True
            self.end()


class Followers:
    """Answers those who follow the feed."""

    def __init__(self, feed: Feed, is_wizard: Callable[[Person], bool], top: Callable[[Person, int], int | None]) -> None:
        self.feed, self.is_wizard, self.top = feed, is_wizard, top
        self.waiting = WaitingFollowers()

    def reply(self, request: Request, person: Person, at: int) -> Reply:
        """What has changed since a number."""
        has_batches = wants(request, "batches")
        if has_batches and not self.is_wizard(person):
            return in_json(403, error="forbidden")
        asked = whole_number(request.fields().get("wait", "0"))
        if asked is None or asked > LONGEST_WAIT:
            return in_json(400, error="bad request", why=f"wait is a number of seconds from 0 to {LONGEST_WAIT}")
        seconds: int = asked
        try:
            some = self.since(person, at, has_batches)
        except Gone as gone:
            return in_json(410, error="gone", seq=gone.seq)
        except Ahead as early:
            return in_json(400, error="bad request", why=f"the world has number {early.seq}")
        if some or not seconds:
            return Reply(200, body_of(at, some, has_batches))
        self.waiting.begin(person.name)
        away, visitor = request.environ.get(AWAY, contextlib.nullcontext), present()

        def awaited() -> bytes:
            # It is read when the request is over, and is still its visitor's.
            with visiting(visitor):
                return self.awaited(person, at, seconds, has_batches, away)

        later = LaterBody(awaited, lambda: self.waiting.end(person.name))
        return Reply(200, b"", JSON, (), later)  # type: ignore[arg-type]

    def since(self, person: Person, at: int, has_batches: bool) -> list[FeedItem]:
        """The batches after a number, which a person follows."""
        return self.feed.since(at, MOST_SHOWN if has_batches else MOST_BATCHES, lambda seq: self.top(person, seq))

    def awaited(self, person: Person, at: int, seconds: int, has_batches: bool, away: Away) -> bytes:
        """The body of the answer once something has changed, or the time is over."""
        try:
            with away():
                self.feed.wait(at, seconds)
            some = self.since(person, at, has_batches)
        except Exception:
            # The head is sent already. That nothing came is always right: the next question is answered with what went wrong.
            some = []
        return body_of(at, some, has_batches)


def body_of(at: int, some: list[FeedItem], has_batches: bool) -> bytes:
    """The body of an answer: the objects of these batches after a number, and the batches if they are asked for."""
    objects = sorted(set().union(*[one.objects for one in some]))
    said: dict[str, Any] = {"batches": list(map(batch_shown, some))} if has_batches else {}
    return packed({**said, "objects": [f"#{number}" for number in objects], "seq": some[-1].accepted.seq if some else at})


def batch_shown(one: FeedItem) -> dict[str, Any]:
    """A batch, as wizards see it."""
    accepted = one.accepted
    return {
        "answers": accepted.answers, "as": f"#{accepted.programmer}", "at": utc(accepted.t), "calls": accepted.calls,
        "seq": accepted.seq, "who": accepted.who,
    }  # fmt: skip
