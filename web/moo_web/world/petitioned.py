"""The petitions that are open: of whom each is, and which objects it is about. They are kept up with the accepted batches, and moo isn't asked.

    opened.learn(told)                      what a wizard's `petitions()` answers
    opened.take(accepted)
    opened.about(7)                         the petitions about the object #7
"""

from __future__ import annotations

import threading
from collections.abc import Iterable
from typing import Any, NamedTuple

from moolib.calls import Call, call_name, calls_in, read_or_none
from moolib.values import Obj

from moo_web.journal.segments import Accepted

# Calls that are about a second object too: where something is to go, and what it is to inherit from.
OF_TWO = ("move", "chparent")
ABOUT_PETITIONS = ("petition", "grant", "decline")


class OpenPetition(NamedTuple):
    """Whose a petition is, and the objects that it is about."""

    who: int
    about: frozenset[int]


def about(call: Call) -> frozenset[int]:
    """The objects that a call is about: those whose owners are asked."""
    given = call.values[: 2 if call.name in OF_TWO else 1]
    return frozenset(value.number for value in given if isinstance(value, Obj) and value.number >= 0)


def about_all(calls: Iterable[Call]) -> frozenset[int]:
    """The objects that these calls are about."""
    return frozenset().union(*map(about, calls))


class OpenPetitions:
    """The petitions of a world that are open. The writer's thread and pages use it."""

    def __init__(self) -> None:
        self.turn = threading.Lock()
        # Nothing is known before the first answer, or if that is too long.
        self.is_known = False
        self.found: dict[int, OpenPetition] = {}
        # Those that ended while they were being learned.
        self.ended: set[int] = set()
        # Who has said what to which petition, since the front began.
        self.said: dict[int, dict[str, str]] = {}

    def forget(self) -> None:
        """Another world may be served."""
        with self.turn:
            self.is_known, self.found, self.ended = False, {}, set()

    def learn(self, told: list[Any]) -> None:
        """Takes in what `petitions()` answers a wizard. Of what batches have told meanwhile nothing is lost."""
        known = {number: OpenPetition(who.number, about_all(calls_in(calls))) for number, who, calls in told if number not in self.ended}
        with self.turn:
            self.found = {number: one for number, one in known.items() if number not in self.ended} | self.found
            self.ended, self.is_known = set(), True

    def take(self, accepted: Accepted) -> None:
        """Takes in an accepted batch."""
        note = accepted.note
        with self.turn:
            if note.says:
                self.said.setdefault(note.petition, {})[accepted.who.lower()] = note.says
            for text, answer in accepted.answered:
                call = read_or_none(text) if call_name(text) in ABOUT_PETITIONS else None
                if call and call.petition is not None:
                    self.end(call.petition)
                elif call and call.makes == "petition" and answer.isdigit():
                    self.found[int(answer)] = OpenPetition(accepted.programmer, about_all(call.asked))
                    self.ended.discard(int(answer))

    def end(self, number: int) -> None:
        """Forgets a petition that was granted or declined."""
        self.found.pop(number, None)
        self.said.pop(number, None)
        self.ended.add(number)

    @property
    def all(self) -> dict[int, OpenPetition]:
        """All of them, as they are now."""
        with self.turn:
            return dict(self.found)
