"""Requests to moo, one connection each: the status and the body of the answer, as they came.

A request that changes nothing is sent again until an answer comes (`Door.asked`). What a batch needs instead is in `writer`.
"""

from __future__ import annotations

import contextlib
import time
from typing import IO, Callable, ContextManager

from moolib.errors import LostAnswer, NoService, TooLong, Unreachable
from moolib.service import WAIT, Answer, Service, batch_body, packed

from moo_web.traffic.turns import Turnstile

__all__ = ["Answer", "Door", "TooLong", "Unreachable", "batch_body", "own_answer", "packed"]
# How many seconds a page, or a program, waits for what it asks of moo.
QUESTION_SECONDS = 10.0
# A longer answer isn't taken, but for a dump.
LONGEST_ANSWER = 1 << 24

# Is given each request that was sent to moo: its target, how many seconds it took, and the answer, if one came.
NoteTaker = Callable[[str, float, "Answer | None"], None]


def no_note(target: str, seconds: float, answer: Answer | None) -> None:
    """Takes note of nothing."""


def own_answer(status: int, **parts: object) -> Answer:
    """An answer that the front gives by itself, its keys ascending as in moo's."""
    said = dict(sorted(parts.items()))
    return Answer(status, packed(said), said)


def told_of_answer(answer: Answer) -> str:
    """What moo has answered, in words."""
    return f"moo answers {answer.status} {answer.error}" + (f": {answer.why}" if answer.why else "")


class Door(Service):
    """The way to the moo at this port of the machine. Threads may share it. An answer has at most 16 MiB, but for a dump."""

    is_bounded = True

    def __init__(self, port: int, wait: float = WAIT, turnstile: Turnstile | None = None, note: NoteTaker = no_note) -> None:
        super().__init__(port, wait=wait, longest=LONGEST_ANSWER)
        self.turnstile, self.note = turnstile, note

    def turn(self, end: float) -> ContextManager[None]:
        """The turn of a request, if there is a turnstile. `NoService`: it didn't come before the moment `end`. `NobodyWaits`: as there."""
        return self.turnstile.turn(end) if self.turnstile else contextlib.nullcontext()

    def sent(self, method: str, route: str, body: bytes | None = None, wait: float | None = None) -> Answer:
        """The answer to one request, whatever it says. With a turnstile it has its turn first, or `NobodyWaits`."""
        end = time.monotonic() + (self.wait if wait is None else wait)
        with self.turn(end):
            began, answer = time.monotonic(), None
            try:
                answer = super().sent(method, route, body, max(0.0, end - began))
                return answer
            finally:
                self.note(route, time.monotonic() - began, answer)

    def is_wizard(self, number: int, seconds: float) -> bool:
        """Whether this object is a wizard now. `Unreachable`: no answer came in this time."""
        answer = self.asked("GET", f"/object/{number}", None, time.monotonic() + seconds)
        return answer.status == 200 and answer.said.get("wizard") == 1

    def copied(self, route: str, file: IO[bytes], end: float | None = None) -> Answer | None:
        """As a service has it, in its turn too, for which it waits until the moment `end` of the monotonic clock.

        `Unreachable`: no answer came whole. `NobodyWaits`: as `sent` has it.
        """
        try:
            with self.turn(time.monotonic() + self.wait if end is None else end):
                began, answer = time.monotonic(), None
                try:
                    refusal = super().copied(route, file)
                    answer = refusal or own_answer(200)
                    return refusal
                finally:
                    self.note(route, time.monotonic() - began, answer)
        except (NoService, LostAnswer) as error:
            raise Unreachable(str(error)) from error

    def asked(self, method: str, path: str, body: bytes | None, end: float) -> Answer:
        """The answer to a request that changes nothing. It is sent again until one comes, or until the moment `end` of the monotonic clock.

        `Unreachable`: none came by then, or the store was closed all the while. `TooLong`: it is longer than is taken.
        `NobodyWaits`: as `sent` has it.
        """
        return self.tried(method, path, body, end - time.monotonic())
