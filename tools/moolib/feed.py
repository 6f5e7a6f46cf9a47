"""What changes in a world, followed at a front: the objects that each accepted batch named or made."""

from __future__ import annotations

from collections.abc import Iterator
from typing import NamedTuple, Optional, Protocol

from moolib.errors import Gone
from moolib.raising import good
from moolib.service import Answer, Patience
from moolib.values import Obj

# The seconds for which a front waits for the next change; it waits for 25 at most.
WAIT = 20


class Change(NamedTuple):
    """What batches have changed up to the number `seq`, after the number before: these objects, ascending."""

    seq: int
    objects: list[Obj]


class Follows(Protocol):
    """A front that tells what has changed since a number."""

    def since(self, seq: int, wait: int) -> Optional[Answer]:
        """That; None if nobody answers now."""

    def rest(self, seconds: float) -> None:
        """A pause."""


def changes(front: Follows, seq: int) -> Iterator[Change]:
    """Each change after a number, for ever. A front that is away is asked again until it answers. `Gone`: its feed begins later."""
    waiting = Patience(float("inf"))
    while True:
        answer = front.since(seq, WAIT)
        if answer is None:
            front.rest(waiting.pause())
            continue
        if answer.status == 410:
            raise Gone(int(answer.said["seq"]))
        said = good(answer).said
        waiting = Patience(float("inf"))
        if said["seq"] > seq:
            seq = int(said["seq"])
            yield Change(seq, [Obj(int(number[1:])) for number in said["objects"]])
