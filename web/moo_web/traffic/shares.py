"""What a person and an address may use of a world: moo's time, rows and bytes that are written. Each has a bucket that fills up by itself.

    shares = Shares(Share(20, 100_000, 4_000_000), is_wizard)
    shares.spend(visitor, seconds=0.2)
    shares.must_have(visitor, person, TIME)         raises Spent

A bucket may be emptied below its bottom by the last thing that was begun; nothing more is begun until it has filled up to there.
"""

from __future__ import annotations

import math
import threading
import time
from typing import Callable, NamedTuple

from moo_web.people.limits import MOST_NAMES, Clock
from moo_web.people.person import Person
from moo_web.traffic.visitors import Visitor

# A bucket holds what comes in so many minutes.
BUCKET_MINUTES = 3
# An address has as much as so many persons, and a wizard too.
OF_ADDRESS, OF_WIZARD = 2, 10
# For how long it is believed whether somebody is a wizard.
KNOWN_SECONDS = 300.0


class Share(NamedTuple):
    """What a person may use in a minute: seconds of moo's time, rows and bytes that are written."""

    seconds: float
    rows: float
    bytes: float


DEFAULT_SHARE = Share(20.0, 100_000.0, 4_000_000.0)
TIME, WRITING = (0,), (1, 2)
TEXTS = {TIME: "share of the world's time", WRITING: "share of what may be written"}


def share_of(text: str) -> Share:
    """The share that a text such as `20,100000,4000000` says. `ValueError`: it isn't one."""
    share = Share(*map(float, text.split(",", 2)))
    if not all(math.isfinite(one) and one > 0 for one in share):
        raise ValueError(text)
    return share


class Spent(Exception):
    """A share is used up: there is some again in so many seconds."""

    def __init__(self, whose: str, what: str, seconds: float) -> None:
        self.seconds = math.ceil(seconds)
        super().__init__(f"{whose} {what} is used up: try again in {self.seconds} second{'' if self.seconds == 1 else 's'}")


class Bucket:
    """What a name has left of each part of a share, at a moment."""

    def __init__(self, share: Share, moment: float) -> None:
        self.share, self.moment = share, moment
        self.left = [BUCKET_MINUTES * one for one in share]

    def bring_up(self, moment: float) -> None:
        """Fills it with what has come until this moment."""
        minutes, self.moment = (moment - self.moment) / 60, moment
        for part, each in enumerate(self.share):
            self.left[part] = min(BUCKET_MINUTES * each, self.left[part] + each * minutes)

    def wait(self, part: int) -> float:
        """In how many seconds there is something of a part; 0 if there is."""
        left = self.left[part]
        return 0.0 if left > 0 else 60 * -left / self.share[part] + 1


class Buckets:
    """A bucket for each name, of a share that fills it each minute."""

    def __init__(self, share: Share, clock: Clock) -> None:
        self.share, self.clock = share, clock
        self.lock = threading.Lock()
        self.buckets: dict[str, Bucket] = {}

    def of(self, name: str) -> Bucket:
        """The bucket of a name, as it is now."""
        moment = self.clock()
        bucket = self.buckets.get(name)
        if bucket is None:
            if len(self.buckets) >= MOST_NAMES:
                # Those go of which nothing was taken for the longest time.
                kept = sorted(self.buckets.items(), key=lambda one: one[1].moment)[len(self.buckets) // 2 :]
                self.buckets = dict(kept)
            bucket = self.buckets[name] = Bucket(self.share, moment)
        bucket.bring_up(moment)
        return bucket

    def take(self, name: str, used: tuple[float, float, float]) -> None:
        """Takes something out of the bucket of a name."""
        with self.lock:
            left = self.of(name).left
            for part, one in enumerate(used):
                left[part] -= one

    def wait(self, name: str, parts: tuple[int, ...]) -> float:
        """In how many seconds there is something in the bucket of a name, of each of these parts; 0 if there is."""
        with self.lock:
            bucket = self.of(name)
            return max(map(bucket.wait, parts))

    def fill(self, name: str) -> None:
        """Fills the bucket of a name."""
        with self.lock:
            self.buckets.pop(name, None)


class Shares:
    """The shares of persons and of addresses. `is_wizard` is asked only of who has used up a person's share."""

    def __init__(self, share: Share, is_wizard: Callable[[Person], bool], clock: Clock = time.monotonic) -> None:
        self.of_people = Buckets(share, clock)
        self.of_addresses = Buckets(Share(*(OF_ADDRESS * one for one in share)), clock)
        self.is_wizard, self.clock = is_wizard, clock
        # Who is a wizard and who isn't, and until when that is believed.
        self.known: dict[str, tuple[bool, float]] = {}

    def is_known_wizard(self, name: str) -> bool | None:
        """Whether somebody is a wizard; None if it isn't known."""
        is_wizard, until = self.known.get(name, (False, 0.0))
        return is_wizard if until > self.clock() else None

    def spend(self, visitor: Visitor, seconds: float = 0.0, rows: float = 0.0, bytes_: float = 0.0) -> None:
        """Counts what was used for a visitor. What the front does for itself isn't counted."""
        each = 1 / OF_WIZARD if self.is_known_wizard(visitor.person) else 1.0
        used = (seconds * each, rows * each, bytes_ * each)
        if visitor.person:
            self.of_people.take(visitor.person, used)
        if visitor.address:
            self.of_addresses.take(visitor.address, used)

    def must_have(self, visitor: Visitor, person: Person, parts: tuple[int, ...]) -> None:
        """`Spent`, if the person or the address has nothing left of these parts."""
        seconds = self.of_people.wait(person.name, parts)
        if seconds and self.is_known_wizard(person.name) is None:
            is_wizard = self.is_wizard(person)
            self.known[person.name] = (is_wizard, self.clock() + KNOWN_SECONDS)
            if is_wizard:
                self.of_people.fill(person.name)
                seconds = 0.0
        if seconds:
            raise Spent("your", TEXTS[parts], seconds)
        if seconds := self.of_addresses.wait(visitor.address, parts):
            raise Spent("your address's", TEXTS[parts], seconds)
