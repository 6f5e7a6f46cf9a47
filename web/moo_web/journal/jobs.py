"""A batch that somebody waits for, and why there may be no answer to it."""

from __future__ import annotations

import math
import threading
import time

from moolib.batches import Item

from moo_web.journal.notes import NO_NOTE, Note
from moo_web.traffic.visitors import present
from moo_web.world.door import Answer

# How long is waited for an intent to be on the disk, to know whether the batch is on its way.
LONGEST_SYNC = 5.0


class Busy(Exception):
    """Nothing was sent."""


class Unknown(Exception):
    """The batch was sent for the number `at` and isn't decided yet. It will be."""

    def __init__(self, at: int) -> None:
        super().__init__(f"the batch was sent for number {at}")
        self.at = at


class Stopped(Exception):
    """Writing has stopped, and an operator is needed."""


class Barred(Exception):
    """Who wrote the batch may not come in any more. Nothing was sent."""


class TooMuch(Exception):
    """Nothing was sent: the batch is more than its person may add, for this reason. In so many seconds it may be tried again."""

    def __init__(self, why: str, seconds: float) -> None:
        super().__init__(why)
        self.why, self.seconds = why, math.ceil(seconds)


class Job:
    """A batch that somebody waits for. With `items` its calls have names, and `calls` are made of them when its turn comes."""

    def __init__(
        self, who: str, programmer: int, calls: list[str], at: int | None, patience: float, items: list[Item] | None = None,
        note: Note = NO_NOTE,
    ) -> None:  # fmt: skip
        self.who, self.programmer, self.calls, self.at, self.items, self.note = who, programmer, calls, at, items, note
        self.visitor = present()
        self.end = time.monotonic() + patience
        self.lock, self.decided, self.recorded = threading.Lock(), threading.Event(), threading.Event()
        self.is_withdrawn, self.is_unknown, self.intent_at = False, False, -1
        self.answer: Answer | None = None
        self.failure: Exception | None = None
        # What `/ask` has said that it answers.
        self.would: list[str] = []

    def finish(self, answer: Answer) -> None:
        """Tells who waits what moo answered."""
        self.answer = answer
        self.decided.set()

    def fail(self, failure: Exception) -> None:
        """Tells who waits why there is no answer."""
        self.failure = failure
        self.decided.set()

    def commit(self, at: int) -> bool:
        """Says that the batch is sent for this number from now on. False if nobody waits any more: then it may not be sent."""
        with self.lock:
            if not self.is_withdrawn:
                self.intent_at = at
            return not self.is_withdrawn

    def uncommit(self) -> None:
        """Says that the batch isn't sent after all."""
        with self.lock:
            self.intent_at = -1

    def outcome(self) -> Answer:
        """Waits for the answer. `Busy`, `Barred`, `TooMuch`, `Unknown`, `Stopped`, `TooLong`: there is none."""
        self.decided.wait(max(0.0, self.end - time.monotonic()))
        with self.lock:
            if not self.decided.is_set() and self.intent_at < 0:
                self.is_withdrawn = True
                raise Busy
        if not self.decided.is_set():
            # Whether the intent is in the journal is known soon.
            self.recorded.wait(LONGEST_SYNC)
        with self.lock:
            if not self.decided.is_set():
                self.is_unknown = True
                raise Unknown(self.intent_at)
        if self.failure:
            raise self.failure
        assert self.answer
        return self.answer
