"""What each person may add to a world: so many bytes a day, and so many petitions that aren't decided; and nothing, while it is full.

    growth = Growth(door, daily_bytes=10_000_000, full=Path("/run/moo/world.full"))
    writer.bound = growth.test
    writer.listeners.append(growth.take)

Bytes are those of accepted batches: of their calls and words, and of the answers that the journal keeps. What wasn't accepted costs
nothing. Wizards may add ten times as many. All bytes of a day may be added at once, and then as many as time brings back. A front that is
started anew has forgotten what was added. A world is full while there is a file that says so: `moo-watch` makes it when the service takes
three quarters of the memory that it may have.
"""

from __future__ import annotations

import os
import time
from pathlib import Path
from typing import Callable

from moolib.calls import READING, call_name
from moolib.values import Obj, read, written

from moo_web.journal.jobs import TooMuch
from moo_web.journal.segments import Accepted
from moo_web.world.door import QUESTION_SECONDS, Door, TooLong, batch_body

DAY = 86_400.0
DAILY_BYTES = 10_000_000
FOR_WIZARDS = 10
MOST_PETITIONS, MOST_PETITION_BYTES = 100, 1 << 18
MOST_NAMES = 10_000
# When to try again after a petition that is one too many: when a wizard may have decided some.
NEXT_PETITION = 3600.0

# What makes a world no larger.
SHRINKING = READING | frozenset("recycle delete_property delete_verb clear_property decline move set_player_flag".split())
NEXT_LOOK = 60.0
OF_ALL = "the world is full: nothing can be added until an operator has made room. What is in it can be removed"
OF_BYTES = "you have added as much as you may in a day; wait for {seconds:.0f} seconds, or ask an operator for more"
OF_PETITIONS = f"at most {MOST_PETITIONS} petitions of yours may wait for a decision: take some back, or wait for a wizard"
OF_PETITION_BYTES = f"your petitions that wait for a decision may have {MOST_PETITION_BYTES >> 10} kB in all: take some back, or wait for a wizard"


class Allowance:
    """So many bytes a day for each name, which come back with time. Who has any left may add a whole batch, and owes the rest."""

    def __init__(self, daily: float, clock: Callable[[], float]) -> None:
        self.daily, self.clock = daily, clock
        self.left: dict[str, tuple[float, float]] = {}

    def wait(self, name: str) -> float:
        """How many seconds this name has to wait until it may add something; 0 if it may now."""
        left = self.now_left(name)
        return 0.0 if left > 0 else (1 - left) * DAY / self.daily

    def take(self, name: str, amount: int) -> None:
        """Takes bytes of this name's."""
        self.left[name] = (self.now_left(name) - amount, self.clock())
        if len(self.left) > MOST_NAMES:
            self.left = {other: at for other, at in self.left.items() if self.now_left(other) < self.daily}

    def now_left(self, name: str) -> float:
        """How many bytes are left to this name."""
        left, moment = self.left.get(name, (self.daily, self.clock()))
        return min(self.daily, left + (self.clock() - moment) * self.daily / DAY)


class Growth:
    """Refuses what is more than a person may add. The writer's one thread uses it."""

    def __init__(
        self, door: Door, daily_bytes: float = DAILY_BYTES, full: Path | None = None, clock: Callable[[], float] = time.monotonic
    ) -> None:
        self.door, self.full = door, full
        self.of_people, self.of_wizards = Allowance(daily_bytes, clock), Allowance(FOR_WIZARDS * daily_bytes, clock)

    def test(self, who: str, programmer: int, calls: list[str]) -> None:
        """`TooMuch`: a batch that would be accepted is more than the person may add. `Unreachable`: moo doesn't answer."""
        if self.full and os.path.exists(self.full) and any(call_name(call) not in SHRINKING for call in calls):
            raise TooMuch(OF_ALL, NEXT_LOOK)
        if asked := [call for call in calls if call_name(call) == "petition"]:
            self.test_petitions(programmer, asked)
        wait = self.of_people.wait(who.lower())
        if wait and self.door.is_wizard(programmer, QUESTION_SECONDS):
            wait = self.of_wizards.wait(who.lower())
        if wait:
            raise TooMuch(OF_BYTES.format(seconds=wait), wait)

    def take(self, accepted: Accepted) -> None:
        """Counts a batch that was accepted. A wizard's bytes are those of a person first."""
        name = accepted.who.lower()
        allowance = self.of_wizards if self.of_people.wait(name) else self.of_people
        bytes_ = len(accepted.note.words.encode()) + accepted.letters
        allowance.take(name, bytes_)

    def test_petitions(self, programmer: int, asked: list[str]) -> None:
        """`TooMuch`: these petitions are too many, or too long, with those that the programmer has made and that aren't decided."""
        try:
            answer = self.door.asked("POST", "/ask?why", batch_body(programmer, ["petitions()"]), time.monotonic() + QUESTION_SECONDS)
            if answer.is_too_much:
                raise TooLong
        except TooLong:
            raise TooMuch(OF_PETITION_BYTES, NEXT_PETITION) from None
        found = read(answer.said["answers"][0]) if answer.status == 200 else []
        assert isinstance(found, list)
        own = [len(written(calls)) for _, who, calls in found if who == Obj(programmer)]  # type: ignore[misc]
        if len(own) + len(asked) > MOST_PETITIONS:
            raise TooMuch(OF_PETITIONS, NEXT_PETITION)
        if sum(own) + sum(map(len, asked)) > MOST_PETITION_BYTES:
            raise TooMuch(OF_PETITION_BYTES, NEXT_PETITION)
