"""What has changed since a number of the world: the objects that accepted batches name in their calls, or made.

    feed = Feed(writer, folder)
    feed.since(5, 1000, top)    the batches 6, 7, .. , each with its objects
    feed.wait(9, 20.0)          waits until there is a batch 10, for 20 seconds at most

The last batches are in memory, and older ones are read from the journal.
"""

from __future__ import annotations

import collections
import itertools
import threading
from pathlib import Path
from typing import Callable, NamedTuple

from moo_web.journal.recent import MOST_LETTERS
from moo_web.journal.segments import Accepted
from moo_web.journal.since import batches_since, begin_of, petitions_before
from moo_web.journal.subjects import BatchSubjects, Subjects, Wish, wishes_of
from moo_web.journal.jobs import Busy
from moo_web.journal.writer import Writer

MOST_KEPT = 5000
# How long a follower waits for others who read the journal.
READING = 10.0
TRIES = 5
# What object the world of a number made last; None if it has another number now.
Top = Callable[[int], "int | None"]


class Gone(Exception):
    """The journal of the present world begins at the number `seq`, after the one that was asked for."""

    def __init__(self, seq: int) -> None:
        super().__init__()
        self.seq = seq


class Ahead(Exception):
    """The number that was asked for is ahead of the world, which has `seq`."""

    def __init__(self, seq: int) -> None:
        super().__init__()
        self.seq = seq


class FeedItem(NamedTuple):
    """An accepted batch, and the objects that it names or made."""

    accepted: Accepted
    objects: frozenset[int]


class Feed:
    """The batches that a writer gets accepted, for those who follow. Threads may share it."""

    def __init__(self, writer: Writer, folder: Path, most: int = MOST_KEPT, letters: int = MOST_LETTERS) -> None:
        self.writer, self.folder, self.most, self.letters = writer, folder, most, letters
        self.changed, self.reading = threading.Condition(), threading.Lock()
        self.kept: collections.deque[BatchSubjects] = collections.deque()
        self.held = 0
        self.subjects = Subjects(lambda number: Wish())
        writer.listeners.append(self.take)

    # For the writer

    def take(self, accepted: Accepted) -> None:
        """Takes in a batch, and wakes those who wait."""
        with self.changed:
            if not self.kept or self.kept[-1].accepted.seq != accepted.at:
                # The first one, or the journal began anew.
                self.kept.clear()
                self.held = 0
                self.subjects = Subjects(Wishes(self.folder, accepted.at))
            self.kept.append(self.subjects.tell(accepted))
            self.held += accepted.letters
            while len(self.kept) > 1 and (len(self.kept) > self.most or self.held > self.letters):
                self.held -= self.kept.popleft().accepted.letters
            self.changed.notify_all()

    # For those who follow

    def present(self) -> int:
        """The number of the world. A batch counts when it is here, a moment before the writer counts it."""
        last = self.kept[-1].accepted.seq if self.kept else -1
        return last if last == self.writer.seq + 1 else self.writer.seq

    def is_kept(self, at: int) -> bool:
        """Whether the batches after this number are in memory."""
        return bool(self.kept) and self.kept[0].accepted.at <= at and self.kept[-1].accepted.seq == self.present()

    def wait(self, at: int, seconds: float) -> None:
        """Waits until the world has another number than this, for so many seconds at most."""
        with self.changed:
            self.changed.wait_for(lambda: self.present() != at, seconds)

    def since(self, at: int, most: int, top: Top) -> list[FeedItem]:
        """The batches after this number, at most so many. `Gone`, `Ahead`, `Busy`: as they say."""
        with self.changed:
            present = self.present()
            if at == present:
                return []
            if at > present:
                raise Ahead(present)
            is_kept = self.is_kept(at)
            if is_kept:
                first = at - self.kept[0].accepted.at
                subjects, some, last = self.subjects, list(itertools.islice(self.kept, first, first + most)), present
        if not is_kept:
            subjects, some, last = self.older(at, most)
        self.count(subjects, some, last, top)
        return [FeedItem(told.accepted, subjects.objects_of(told)) for told in some]

    def older(self, at: int, most: int) -> tuple[Subjects, list[BatchSubjects], int]:
        """The same from the journal, and the number up to which it was read. `Busy`: others read."""
        if not self.reading.acquire(timeout=READING):
            raise Busy
        try:
            begin = begin_of(self.folder)
            if begin is None or begin > at:
                raise Gone(self.present() if begin is None else begin)
            some: list[BatchSubjects] = []
            subjects, last = Subjects(Wishes(self.folder, at)), at
            for accepted in batches_since(self.folder, at):
                told, last = subjects.tell(accepted), accepted.seq
                if len(some) < most:
                    some.append(told)
                # A later object tells the numbers of those that were only counted.
                elif subjects.is_based or not any(told.counted for told in some):
                    break
            return subjects, some, last
        finally:
            self.reading.release()

    def count(self, subjects: Subjects, some: list[BatchSubjects], last: int, top: Top) -> None:
        """Sees to it that the objects which batches made, and no answer names, have numbers. `Busy`: the world moves on all the while."""
        for _ in range(TRIES):
            with self.changed:
                if subjects.is_based or not any(told.counted for told in some):
                    return
                count = subjects.count
                last = self.present() if subjects is self.subjects else last
            number = top(last)
            with self.changed:
                if number is not None and subjects.count == count:
                    subjects.learn(number)
        raise Busy


class Wishes:
    """What petitions ask for that were made up to a number of the world, by the journal, which is read when the first is asked for."""

    def __init__(self, folder: Path, at: int) -> None:
        self.folder, self.at = folder, at
        self.found: dict[int, Wish] | None = None

    def __call__(self, number: int) -> Wish:
        """What the petition of this number asks for; nothing if the journal doesn't have it."""
        if self.found is None:
            self.found = {}
            for accepted in petitions_before(self.folder, self.at):
                self.found.update(wishes_of(accepted))
        return self.found.get(number, Wish())
