"""The public facts of all objects, by `/objects`, kept up with the world.

    index = Index(door, lambda: writer.stopped is not None)
    writer.listeners.append(index.take)
    world = index.world()

Each accepted batch tells which objects it may have changed: those that it names, the children and contents of those that it recycles, those
of a petition that it grants, and new ones. Only these are read again, when the next page wants the world: few of them by one request.
"""

from __future__ import annotations

import bisect
import sys
import threading
import time
from collections.abc import Iterable
from typing import Any, Callable

from moolib.calls import Call, calls_in, read_or_none
from moolib.slots import BITS
from moolib.values import read

from moo_web.journal.segments import Accepted
from moo_web.world.door import QUESTION_SECONDS, Answer, Door, TooLong, Unreachable, batch_body
from moo_web.world.petitioned import OpenPetitions
from moo_web.world.things import Thing, World, number_in, thing_of

# How long a page waits for the writer to tell of a batch that moo has accepted already.
TOLD_WITHIN = 2.0
# So many objects are in one answer.
PAGE = 1000
# So few objects of a page are asked for by calls, and so many in one request.
FEW, MOST_BY_CALLS = 40, 80
# What tells the public facts of an object: its name, owner, parent and place, and its bits in the order of `BITS`.
FACTS = (
    'get(#{}, "name")', 'get(#{}, "owner")', "parent(#{})", 'get(#{}, "location")', "is_player(#{})",
    *(f'get(#{{}}, "{bit}")' for bit in BITS[1:]),
)  # fmt: skip
# The errors of such calls on an object that isn't there.
NOT_THERE = ("E_INVARG", "E_INVIND")


class Changes:
    """What accepted batches may have changed: the objects that they name, which of them may have been recycled, and those that they made.

    `is_making` says that they may have made others too, and `is_all` that they may have changed anything.
    """

    def __init__(self) -> None:
        self.named: set[int] = set()
        self.recycled: set[int] = set()
        self.made: set[int] = set()
        self.is_making = False
        self.is_all = False

    def join(self, other: Changes) -> None:
        """Takes in what other batches may have changed."""
        self.named |= other.named
        self.recycled |= other.recycled
        self.made |= other.made
        self.is_making = self.is_making or other.is_making
        self.is_all = self.is_all or other.is_all

    def touched(self, world: World) -> list[int]:
        """The numbers to be read again, ascending, of a world from before these batches. New objects aren't among them."""
        numbers = set(self.named)
        for number in self.recycled:
            numbers.update(world.children.get(number, ()), world.contents.get(number, ()))
        return sorted(number for number in numbers if 0 <= number <= world.top)


class Index:
    """The world at a door. `is_stopped` says whether the writer has stopped, so that it tells of no batch."""

    def __init__(self, door: Door, is_stopped: Callable[[], bool]) -> None:
        self.door, self.is_stopped = door, is_stopped
        self.kept: World | None = None
        self.turn = threading.Lock()
        # What follows is the writer's and the pages', and `told` guards it.
        self.told = threading.Condition()
        self.told_seq = -1
        self.changes = Changes()
        # What open petitions would change, by their numbers.
        self.petitions: dict[int, Changes] = {}
        self.opened = OpenPetitions()
        # The objects that may define other properties than when `taken_definers` was called last; None: any of them.
        self.definers: set[int] | None = None

    # What the writer tells

    def take(self, accepted: Accepted) -> None:
        """Notes what an accepted batch may have changed."""
        self.opened.take(accepted)
        with self.told:
            if accepted.at > self.told_seq:
                self.changes.is_all = True
            self.told_seq = max(self.told_seq, accepted.seq)
            for call, answer in accepted.answered:
                self.take_call(read_or_none(call), answer)
            self.told.notify_all()

    def take_call(self, call: Call | None, answer: str) -> None:
        """Notes what one call may have changed, or would change once it is granted. One that can't be read may have changed anything."""
        if call and call.makes == "petition" and answer.isdigit():
            self.petitions[int(answer)] = changes_of(call.asked)
            return
        changes = changes_of([call], answer) if call else None
        if call and call.name == "grant":
            changes = self.petitions.pop(-1 if call.petition is None else call.petition, None)
        if changes is None:
            self.changes.is_all = True
        else:
            self.changes.join(changes)

    def taken(self) -> tuple[Changes, int]:
        """What was told up to now, and the last number of it. It is forgotten here."""
        with self.told:
            changes, self.changes = self.changes, Changes()
            return changes, self.told_seq

    def is_told(self, seq: int, end: float) -> bool:
        """Waits until the writer has told of the batch that made this number. False: it doesn't."""
        limit = min(end, time.monotonic() + TOLD_WITHIN)
        with self.told:
            while self.told_seq < seq:
                left = limit - time.monotonic()
                if left <= 0 or self.is_stopped():
                    return False
                self.told.wait(min(left, 0.1))
        return True

    # What pages ask

    def is_present(self, world: World) -> bool:
        """Whether this is the world as it is now. `Unreachable`: moo didn't tell in time."""
        return self.number(time.monotonic() + QUESTION_SECONDS) == world.seq

    def world(self) -> World:
        """The world as it is now. `Unreachable`: moo didn't tell in time."""
        end = time.monotonic() + QUESTION_SECONDS
        return self.at(self.number(end), end)

    def last_told(self) -> World | None:
        """The world after the last batch of which the writer has told. moo isn't asked for its number, so it may have a later one.

        None: no world was read yet. `Unreachable`: moo didn't tell in time what has changed.
        """
        kept = self.kept
        return kept and self.at(max(self.told_seq, kept.seq), time.monotonic() + QUESTION_SECONDS)

    def at(self, seq: int, end: float) -> World:
        """The world of this number or of a later one."""
        kept = self.kept
        if kept and kept.seq == seq:
            return kept
        if not self.turn.acquire(timeout=max(0.0, end - time.monotonic())):
            raise Unreachable
        try:
            self.kept = self.brought_up(seq, end)
            return self.kept
        finally:
            self.turn.release()

    def number(self, end: float) -> int:
        """The world's number."""
        answer = self.door.asked("GET", "/seq", None, end)
        seq = answer.said.get("seq")
        if not isinstance(seq, int):
            raise Unreachable
        return seq

    def brought_up(self, seq: int, end: float) -> World:
        """The world of this number, which moo has told, or of a later one."""
        kept = self.kept
        if kept and kept.seq > seq:
            # Another page has brought it up meanwhile, or an older copy is served.
            seq = self.number(end)
        if kept and kept.seq == seq:
            return kept
        if kept and kept.seq < seq and self.is_told(seq, end):
            changes, reached = self.taken()
            if not changes.is_all:
                try:
                    return self.read_changed(kept, changes, reached, end)
                except BaseException:
                    with self.told:
                        self.changes.is_all = True
                    raise
        if kept and kept.seq > seq:
            # An older copy is served.
            with self.told:
                self.told_seq = -1
        return self.read_whole(end)

    def taken_definers(self) -> set[int] | None:
        """The objects that may define other properties than at the last call of this; None: any of them."""
        with self.told:
            taken, self.definers = self.definers, set()
            return taken

    def forget_definers(self) -> None:
        """Any object may define other properties."""
        with self.told:
            self.definers = None

    # What moo is asked

    def read_whole(self, end: float) -> World:
        """Reads all objects. Of batches that come meanwhile it may have a part: they are told, and read again."""
        self.taken()
        self.opened.forget()
        self.forget_definers()
        things: dict[int, Thing] = {}
        first, seq = 0, -1
        while True:
            answer = self.page(first, end)
            if seq < 0:
                seq = answer.said["seq"]
                with self.told:
                    self.told_seq = max(self.told_seq, seq)
            for said in answer.said["objects"]:
                number = number_in(said["number"])
                things[number] = thing_of(number, said)
            if answer.said["next"] is None:
                break
            first = number_in(answer.said["next"])
        self.read_petitions(next((number for number, thing in things.items() if thing.has("wizard")), None), end)
        return World.made(seq, things)

    def read_petitions(self, wizard: int | None, end: float) -> None:
        """Learns what the open petitions would change, as a wizard sees them. One that isn't known may change anything."""
        if wizard is None:
            return
        try:
            answer = self.door.asked("POST", "/ask", batch_body(wizard, ["petitions()"]), end)
        except TooLong:
            return
        if answer.status == 200:
            told: Any = read(answer.said["answers"][0])
            self.opened.learn(told)
            known = {number: changes_of(calls_in(calls)) for number, _, calls in told}
            with self.told:
                self.petitions = known | self.petitions

    def read_changed(self, world: World, changes: Changes, reached: int, end: float) -> World:
        """The world of the number `reached`, after what these changes name and what is new was read again."""
        new = sorted(number for number in changes.made if number > world.top)
        found = self.read_these(world, changes.touched(world) + new, end)
        more = world.top + 1 if changes.is_making else None
        while more is not None:
            more = self.some(more, [], found, end)
        with self.told:
            if self.definers is not None:
                self.definers |= found.keys()
        return world.changed(reached, dict(sorted(found.items())))

    def read_these(self, world: World, numbers: list[int], end: float) -> dict[int, Thing | None]:
        """These objects and perhaps others; None for one that isn't there. Many that are near each other are read with a page of others."""
        found: dict[int, Thing | None] = {}
        few: list[int] = []
        while numbers:
            near = numbers[: bisect.bisect_left(numbers, numbers[0] + PAGE)]
            if len(near) <= FEW:
                few += near
                after = near[-1] + 1
            else:
                after = self.some(numbers[0], numbers, found, end) or numbers[-1] + 1
            numbers = numbers[bisect.bisect_left(numbers, after) :]
        for first in range(0, len(few), MOST_BY_CALLS):
            part = few[first : first + MOST_BY_CALLS]
            found.update(self.by_calls(world, part, end) or {number: self.one(number, end) for number in part})
        return found

    def by_calls(self, world: World, numbers: list[int], end: float) -> dict[int, Thing | None]:
        """These objects by one request with calls, which everybody may make. None are found if moo doesn't answer all of them."""
        wizards = world.with_bit("wizard")
        calls = [call.format(number) for number in numbers for call in FACTS]
        try:
            answer = self.door.asked("POST", "/each", batch_body(wizards[0], calls), end) if wizards else None
        except TooLong:
            return {}
        each = answer.said.get("each", ()) if answer and answer.status == 200 else ()
        if len(each) != len(calls) or any("answer" not in one and one.get("error") not in NOT_THERE for one in each):
            return {}
        told = [one.get("answer") for one in each]
        return {number: told_thing(number, told[place * len(FACTS) :][: len(FACTS)]) for place, number in enumerate(numbers)}

    def one(self, number: int, end: float) -> Thing | None:
        """One object; None if it isn't there. The answer names all that are under it."""
        answer = self.door.asked("GET", f"/object/{number}", None, end)
        return None if answer.status == 404 else thing_of(number, answer.said)

    def some(self, first: int, touched: list[int], found: dict[int, Thing | None], end: float) -> int | None:
        """Finds the objects from a number on, at most a page of them, and which of those touched are gone. It gives the next number."""
        answer = self.page(first, end)
        here = {number_in(said["number"]): said for said in answer.said["objects"]}
        after = None if answer.said["next"] is None else number_in(answer.said["next"])
        found.update((number, None) for number in touched if number not in here and (after is None or number < after))
        found.update((number, thing_of(number, said)) for number, said in here.items())
        return after

    def page(self, first: int, end: float) -> Answer:
        """moo's page of the objects from a number on."""
        answer = self.door.asked("GET", f"/objects/{first}", None, end)
        if answer.status != 200:
            raise Unreachable
        return answer


def told_thing(number: int, told: list[Any]) -> Thing | None:
    """An object, of what was answered to the calls of `FACTS`; None if it isn't there."""
    if None in told:
        return None
    name, owner, parent, location, *bits = told
    sum_of_bits = sum((bit != "0") << place for place, bit in enumerate(bits))
    return Thing(number, sys.intern(str(read(name))), number_in(owner), number_in(parent), number_in(location), sum_of_bits)


def changes_of(calls: Iterable[Call], answer: str = "") -> Changes:
    """What calls may change. Of one call, whose answer this is, the object that it made is known."""
    changes = Changes()
    for call in calls:
        # What an object is made under stays as it is.
        if call.makes != "object" and not call.is_reading:
            changes.named |= call.objects
        if call.name == "recycle":
            changes.recycled |= call.objects
        made = call.made(answer)
        if made is not None:
            changes.made.add(made)
        elif call.makes == "object":
            changes.is_making = True
    return changes
