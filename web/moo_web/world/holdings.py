"""The values that objects have of their own, kept up with the world: from a dump, and then from what accepted batches tell.

    holdings = Holdings(index, door)
    writer.listeners.append(holdings.take)      # before the index is told
    literals = holdings.literals(world)

The first search reads them by one dump. After that moo is asked, by a wizard's number, for those that batches may have changed since the
last search. Who has found something is told it by moo anew, with their own number (`finding`).
"""

from __future__ import annotations

import threading
import time
from typing import IO, Any, NamedTuple, Optional, cast

from moolib.calls import Call
from moolib.values import written

from moo_web.journal.segments import Accepted
from moo_web.world.asking import Asker, Moved, Refusal
from moo_web.world.door import QUESTION_SECONDS, Door, Unreachable
from moo_web.world.dumped import ACCEPTS, BrokenDump, DumpLines, Dumped
from moo_web.world.index import TOLD_WITHIN, Index
from moo_web.world.literals import Key, Literal, Literals
from moo_web.world.things import World
from moo_web.world.touching import TooManyTouched, Touching

# Batches that came since the last search are kept up to so many letters. After more of them all values are read again.
MOST_LETTERS = 1 << 24


# After a dump wasn't given, none is asked for within so many seconds.
PAUSE = 60.0


class NoDump(Exception):
    """This moo gives no dump, or has no memory for one, so that its values can't be searched."""


class Learned(NamedTuple):
    """What was learned of a world: its public facts, the values, and the petitions that are open."""

    world: World
    literals: Literals
    petitions: dict[int, list[Call]]


class Holdings:
    """The values of the world at a door. Threads may share it."""

    def __init__(self, index: Index, door: Door) -> None:
        self.index, self.door, self.asker = index, door, Asker(door)
        self.turn = threading.Lock()
        self.learned: Optional[Learned] = None
        # The moment of the monotonic clock from which on a dump may be asked for.
        self.asking = 0.0
        # What follows is the writer's and the searches', and `told` guards it.
        self.told = threading.Condition()
        # The batches since the number `begin`, one after another; None: they aren't all kept.
        self.batches: Optional[list[Accepted]] = None
        self.begin = self.last = -1
        self.letters = 0

    # What the writer tells

    def take(self, accepted: Accepted) -> None:
        """Notes an accepted batch."""
        with self.told:
            self.letters += accepted.letters
            if self.batches is not None:
                self.batches.append(accepted)
            if self.letters > MOST_LETTERS or self.last not in (-1, accepted.at):
                self.batches = None
            self.last = accepted.seq
            self.told.notify_all()

    def record(self) -> None:
        """Keeps batches from now on."""
        with self.told:
            self.batches, self.begin, self.letters = [], self.last, 0

    def since(self, seq: int, to: int) -> Optional[list[Accepted]]:
        """The batches from a number of the world to another one; None if they aren't all kept."""
        end = time.monotonic() + TOLD_WITHIN
        with self.told:
            while self.last < to and time.monotonic() < end and not self.index.is_stopped():
                self.told.wait(0.1)
            if self.batches is None or self.last < to or self.begin > seq:
                return None
            return [batch for batch in self.batches if seq < batch.seq <= to]

    def forget(self, seq: int) -> None:
        """Forgets batches up to a number of the world."""
        with self.told:
            if self.batches is not None:
                self.batches = [batch for batch in self.batches if batch.seq > seq]
                self.begin, self.letters = max(self.begin, seq), sum(batch.letters for batch in self.batches)

    # What searches ask

    def literals(self, world: World) -> Literals:
        """The values in a world. `Moved`: it isn't the present one. `Unreachable`: moo didn't tell in time. `NoDump`: this moo can't."""
        if not self.turn.acquire(timeout=QUESTION_SECONDS):
            raise Unreachable
        try:
            self.learned = self.brought_up(world)
            return self.learned.literals
        finally:
            self.turn.release()

    def brought_up(self, world: World) -> Learned:
        """What is known, after what may have changed up to this world was read."""
        learned = self.learned
        if learned and learned.world.seq == world.seq:
            return learned
        if learned and learned.world.seq > world.seq:
            if self.index.kept is not world:
                raise Moved
            # An older copy is served.
            with self.told:
                self.batches, self.last = None, -1
        batches = self.since(learned.world.seq, world.seq) if learned and learned.world.seq < world.seq else None
        if learned is None or batches is None:
            return self.read_whole(world)
        touching = Touching(learned.world, learned.petitions)
        try:
            touching.run(batches)
            places = touching.all(learned.literals)
        except TooManyTouched:
            return self.read_whole(world)
        found = self.read_places(world, places, learned.literals)
        if found is None:
            return self.read_whole(world)
        self.forget(world.seq)
        return Learned(world, learned.literals.after(found), touching.petitions)

    # What moo is asked

    def read_whole(self, world: World) -> Learned:
        """Reads all values by a dump. It may be of a later world: what has changed since this one is read again at the next search."""
        self.learned = None
        if time.monotonic() < self.asking:
            raise NoDump
        if self.batches is None or self.begin > world.seq:
            self.record()
        if self.begin > world.seq:
            raise Moved
        kept = DumpLines()
        refusal = self.door.copied("/dump", cast(IO[bytes], kept), time.monotonic() + QUESTION_SECONDS)
        if refusal is not None:
            self.asking = time.monotonic() + PAUSE
            raise NoDump
        try:
            dumped = Dumped.of(kept)
        except BrokenDump:
            raise Unreachable from None
        if dumped.seq < world.seq:
            raise Unreachable
        self.forget(world.seq)
        return Learned(world, Literals.of_rows(dumped.rows), dumped.petitions)

    def read_places(self, world: World, places: dict[Key, str], literals: Literals) -> Optional[dict[Key, Optional[Literal]]]:
        """The values at some places, None for each that isn't there. None for all: there is no wizard, who could read them."""
        wizards = world.with_bit("wizard")
        if not wizards and places:
            return None
        calls = {key: calls_for(key[0], name) for key, name in places.items()}
        told = iter(self.asker.answers(wizards[0], [call for some in calls.values() for call in some], world.seq) if places else ())
        spelled = {name.lower(): name for name in literals.text.names}
        return {
            key: literal_of(key[0], spelled.get(key[1], places[key]), [next(told) for _ in some]) for key, some in calls.items()
        }


def calls_for(number: int, name: str) -> list[str]:
    """What is asked for a value of an object, or for what it accepts."""
    if name == ACCEPTS:
        return [f"accept_list(#{number})"]
    return [f"{call}(#{number}, {written(name)})" for call in ("is_clear_property", "property_info", "get")]


def literal_of(number: int, name: str, told: list[Any]) -> Optional[Literal]:
    """A value, of what was told of it; None if the object has none of its own."""
    if name == ACCEPTS:
        return Literal(number, name, written(told[0]), -1, True) if isinstance(told[0], list) else None
    is_clear, info, value = told
    if is_clear != 0 or isinstance(info, Refusal) or isinstance(value, Refusal):
        return None
    return Literal(number, name, written(value).lower(), info[0].number, "r" in info[1])
