"""What differs between two numbers of a world, worked out from the batches between them: the first value, and the last one.

    found = differing(batches, petition_calls)
    str(found[0])           '#4 description: "old" -> "new"'

It tells what calls change and destroy. What only follows from that, as the value that an object inherits, isn't told.
"""

from __future__ import annotations

from collections.abc import Iterable
from typing import Callable, NamedTuple, Optional, Sequence

from moolib.calls import Call, read_or_none
from moolib.errors import Failed

from moo_web.journal.aspects import Aspect, aspect_of
from moo_web.journal.segments import Accepted

# In place of a value: it has none of its own; there is no such property or object.
CLEAR, GONE = "clear", "gone"
THERE = "there"


class Differing(NamedTuple):
    """A value that differs: of which object, what it is, and what it was before and is after. Without `what` it is the object itself."""

    number: int
    what: str
    old: str
    new: str

    def __str__(self) -> str:
        return f"#{self.number}{' ' + self.what if self.what else ''}: {self.old} -> {self.new}"


class Between:
    """What the batches between two numbers have changed, by objects and what it is."""

    def __init__(self, asked: Callable[[int], Sequence[Call]]) -> None:
        self.asked = asked
        self.found: dict[tuple[int, str], Differing] = {}

    def take(self, batch: Accepted) -> None:
        """Takes in one more batch. `Failed`: what it replaced isn't in the journal."""
        if batch.memory is None:
            raise Failed(f"batch {batch.seq} is of a journal from before batches could be undone: what its calls replaced wasn't kept")
        for place, text in enumerate(batch.calls):
            call = read_or_none(text)
            if call and not call.is_reading:
                calls = list(self.asked(call.petition)) if call.name == "grant" and call.petition is not None else [call]
                self.take_calls(calls, batch.memory.before[place] or [])

    def take_calls(self, calls: list[Call], before: list[str]) -> None:
        """Takes in a call, or those that a grant did, with what undoes them."""
        steps = [step for step in map(read_or_none, before) if step]
        after = {aspect.key: aspect for call in calls if (aspect := aspect_of(call))}
        added = {(step.subject or 0, str(step.values[1]).lower()) for step in steps if step.name == "delete_property"}
        for step in steps:
            if step.name == "recycle" and step.subject is not None:
                self.note(step.subject, "", GONE, THERE)
            elif aspect := aspect_of(step, is_undoing=True):
                self.change(aspect, after.get(aspect.key), any(one.name == "clear_property" for one in calls))
        for key in added & after.keys():
            self.note(after[key].number, after[key].what, GONE, after[key].value or CLEAR)
        for call in calls:
            if call.name == "recycle" and call.subject is not None:
                self.note(call.subject, "", THERE, GONE)

    def change(self, was: Aspect, now: Optional[Aspect], is_cleared: bool) -> None:
        """Notes a value before and after."""
        new = now.value if now and now.value is not None else CLEAR if now and is_cleared else GONE
        self.note(was.number, was.what, CLEAR if was.value is None else was.value, new)

    def note(self, number: int, what: str, old: str, new: str) -> None:
        """Notes that something has another value from now on."""
        first = self.found.get((number, what.lower()))
        self.found[number, what.lower()] = Differing(number, what, first.old if first else old, new)

    def differences(self, number: Optional[int] = None) -> list[Differing]:
        """What differs in the end, of all objects or of one, by their numbers."""
        return [one for key, one in sorted(self.found.items()) if one.old != one.new and number in (None, one.number)]


def differing(batches: Iterable[Accepted], asked: Callable[[int], Sequence[Call]], number: Optional[int] = None) -> list[Differing]:
    """What differs after these batches, of all objects or of one. `asked` gives the calls of a petition. `Failed`: it isn't known."""
    between = Between(asked)
    for batch in batches:
        between.take(batch)
    return between.differences(number)


def swapped(found: list[Differing]) -> list[Differing]:
    """These differences from the later number to the earlier one, with old and new swapped."""
    return [one._replace(old=one.new, new=one.old) for one in found]
