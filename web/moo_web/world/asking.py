"""What one person may know of a world: calls that change nothing, asked with the person's number, each by itself."""

from __future__ import annotations

import time
from typing import Any, NamedTuple, Protocol

from moolib.errors import Failed
from moolib.service import MOST_CALLS, Said

from moo_web.world.door import QUESTION_SECONDS, Answer, Door, TooLong, Unreachable, batch_body
from moo_web.world.things import World

# So often what is of one number of the world is begun anew, if the world moves on meanwhile.
TRIES = 5


class Moved(Exception):
    """The world moved on meanwhile: what was asked before is of another number."""


class Refusal(NamedTuple):
    """In place of a value: the call is refused, with this error, and why."""

    error: str
    why: str = ""


TOO_LONG = Said("too long", False, "its answer is too long to be shown")
TOO_MUCH = Said("too much", False, "it is too much work for one request")


def batch_asked(door: Door, programmer: int, calls: list[str], at: int | None, end: float) -> Answer:
    """What a batch would answer. It is waited for until the moment `end` of the monotonic clock, or `Unreachable`.

    `Moved`: the world doesn't have the number `at`. `Failed`: the batch is longer than moo takes.
    """
    try:
        body = batch_body(programmer, calls, at)
    except ValueError as error:
        raise Failed(str(error)) from None
    answer = door.asked("POST", "/ask?why", body, end)
    if answer.error == "stale":
        raise Moved
    return answer


class Onlooker(Protocol):
    """Who looks at the world of one number, as the object `number`: beside its public facts they know what calls answer them."""

    number: int

    @property
    def world(self) -> World:
        """The public facts of that world."""

    @property
    def is_wizard(self) -> bool:
        """Whether they have the rights of a wizard."""

    def answers(self, calls: list[str]) -> list[Any]:
        """What each call answers them in that world: a value, or a `Refusal`."""


class Asker:
    """Asks at a door."""

    def __init__(self, door: Door) -> None:
        self.door = door

    def answers(self, number: int, calls: list[str], seq: int) -> list[Any]:
        """The value of each call as this programmer, in the world of this number, or a `Refusal`.

        `Moved`: the world has another number by now. `Unreachable`: moo gave no answer in time.
        """
        return [said.value if said.is_good else Refusal(said.text, said.why) for said in self.said(number, calls, seq)]

    def said(self, number: int, calls: list[str], seq: int, end: float | None = None) -> list[Said]:
        """The same as moo writes it. It waits until the moment `end` of the monotonic clock, or for ten seconds."""
        end = time.monotonic() + QUESTION_SECONDS if end is None else end
        found: list[Said] = []
        for first in range(0, len(calls), MOST_CALLS):
            found += self.part(number, calls[first : first + MOST_CALLS], seq, end)
        return found

    def part(self, number: int, calls: list[str], seq: int, end: float) -> list[Said]:
        """The same of at most 1,000 calls. What is too much for one request, or has too long an answer, is asked for in halves."""
        alone = TOO_LONG
        try:
            said = self.door.alone(number, calls, seq, end - time.monotonic())
            if not isinstance(said, Answer):
                return said
            if not said.is_too_much:
                raise Moved if said.error == "stale" else Unreachable
            alone = TOO_MUCH
        except TooLong:
            pass
        if len(calls) == 1:
            return [alone]
        middle = len(calls) // 2
        return self.part(number, calls[:middle], seq, end) + self.part(number, calls[middle:], seq, end)
