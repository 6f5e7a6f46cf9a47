"""What several want to know of a world, asked for together: in each round one request has what is wanted next for all of them.

    gathering = Gathering(lambda calls: asker.said(3, calls, seq))
    gathering.all([lambda: losses(gathering.said, one) for one in many])

Each is run from its beginning until it has all that it asks for, so it must do nothing but ask and work things out.
"""

from __future__ import annotations

from collections.abc import Callable, Sequence
from typing import TypeVar

from moolib.service import Said

T = TypeVar("T")
# What needs more rounds than these is asked for by itself.
MOST_ROUNDS = 50


class NotYet(Exception):
    """What is asked for isn't known yet: it is asked for in the next round."""


class Gathering:
    """Answers to reading calls in the world of one number. `asked` answers some at once, and what it raises comes through."""

    def __init__(self, asked: Callable[[list[str]], list[Said]]) -> None:
        self.asked = asked
        self.known: dict[str, Said] = {}
        self.wanted: dict[str, None] = {}
        self.is_patient = True

    def said(self, calls: list[str]) -> list[Said]:
        """What these calls answer. `NotYet`: not all is known."""
        if new := [call for call in calls if call not in self.known]:
            self.wanted.update(dict.fromkeys(new))
            if self.is_patient:
                raise NotYet
            self.ask()
        return [self.known[call] for call in calls]

    def ask(self) -> None:
        """Asks for what is wanted."""
        calls, self.wanted = list(self.wanted), {}
        self.known.update(zip(calls, self.asked(calls)))

    def all(self, makers: Sequence[Callable[[], T]]) -> list[T]:
        """What each of these makes, in their order."""
        made: dict[int, T] = {}
        for turn in range(MOST_ROUNDS + 1):
            self.is_patient = turn < MOST_ROUNDS
            for place, maker in enumerate(makers):
                if place not in made:
                    try:
                        made[place] = maker()
                    except NotYet:
                        continue
            if len(made) == len(makers):
                break
            self.ask()
        return [made[place] for place in range(len(makers))]
