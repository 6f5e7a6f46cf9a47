"""What undoes a batch of the journal: calls that put back what its own calls replaced, and what they can't put back, in sentences.

    undo = undone(batch)
    undo.lines          ['set(#4, "colour", "green")']
    undo.lasting        []

A line may give the object that it makes a name, `$again5 = create(#1)`, which later lines use. A text for `moo apply` has no names, so it
can't make an object again.
"""

from __future__ import annotations

import collections
from typing import Iterator, NamedTuple, Optional, Union

from moolib.calls import Call, call_text, read_or_none
from moolib.service import LONGEST_BODY, MOST_CALLS, packed
from moolib.values import Name, Obj, Value

from moo_web.journal.segments import Accepted, KeptBefore
from moo_web.world.things import shortened

# So many letters of a call that stays are shown.
LONGEST_TOLD = 200
# What the calls of a batch may have of a body; its other keys have the rest.
MOST_BYTES = LONGEST_BODY - 100
OLD = "Batch {} is of a journal from before batches could be undone: what its calls replaced wasn’t kept."
# What stays, if another object is made for one that is gone.
TOLD_AGAIN = (
    "#{0} is gone for good, and its number isn’t given again: another object is made with the same properties. "
    "Values that name #{0} stay, and what it owned isn’t given to the new one."
)
# What stays, if an owner was gone before the batch.
OWNER_GONE = "#{0} is gone and can own nothing: what it owned gets another owner."
# What a call leaves as it is, though what undoes it is done.
LEFT_BY = {
    "delete_verb": "A verb comes back as the last of its object, whatever its place was.",
    "delete_property": "A property comes back as the last that its object defines, whatever its place was.",
    "grant": "The petition isn’t made again.",
}
# What needn't be put back on an object that is recycled then. An owner is: the recycled object counts for the owner's quota.
MOOT = frozenset(("set", "clear_property", "set_accept", "move"))
# Where a call has owners in a list; where it names an object besides the first.
OWNERS = {"add_property": 3, "set_property_info": 2, "add_verb": 1, "set_verb_info": 2}
OTHERS = {"move": 1, "chparent": 1, "create": 1}


class Undo(NamedTuple):
    """The lines that undo a batch, and what stays as it is."""

    lines: list[str]
    lasting: list[str]

    @property
    def parts(self) -> list[list[str]]:
        """The lines of one batch after another: of each at most 1,000, and no more than a service takes at once."""
        parts: list[list[str]] = []
        left = 0
        for line in self.lines:
            size = len(packed(line)) + 1
            if not parts or len(parts[-1]) == MOST_CALLS or size > left:
                parts.append([])
                left = MOST_BYTES
            parts[-1].append(line)
            left -= size
        return parts


def undone(batch: Accepted, is_text: bool = False) -> Undo:
    """What undoes a batch; for a text, without names."""
    if batch.memory is None:
        return Undo([], [OLD.format(batch.seq)])
    return Undoing(batch, batch.memory, is_text).undo()


class Undoing:
    """What undoes one batch."""

    def __init__(self, batch: Accepted, kept: KeptBefore, is_text: bool) -> None:
        self.calls = [read_or_none(text) for text in batch.calls]
        self.texts, self.kept = batch.calls, kept
        self.remakes: list[Optional[dict[str, list[str]]]] = [None] * len(self.calls) if is_text or not kept.remakes else kept.remakes
        made = [call.made(answer) for call, (_, answer) in zip(self.calls, batch.answered) if call]
        gone = [call.subject for call in self.calls if call and call.name == "recycle"]
        self.gone = {number for number in gone if number is not None}
        # What came and went in this very batch, and what came and stayed.
        self.passing = self.gone.intersection(number for number in made if number is not None)
        self.made = {number for number in made if number is not None} - self.gone
        self.names: dict[int, Name] = {}

    def undo(self) -> Undo:
        """The lines, those that undo the last call first."""
        lines: list[str] = []
        lasting: collections.Counter[str] = collections.Counter()
        for place in range(len(self.calls) - 1, -1, -1):
            lines += self.lines_for(place, lasting)
        return Undo(lines, [*lasting, *map(OWNER_GONE.format, self.kept.gone)])

    def lines_for(self, place: int, lasting: collections.Counter[str]) -> Iterator[str]:
        """What undoes the call at this place. What stays is counted."""
        call, before, remake = self.calls[place], self.kept.before[place], self.remakes[place]
        if call and call.name == "recycle" and call.subject in self.passing:
            return
        for number, calls in reversed((remake or {}).items()):
            yield from self.remade(int(number[1:]), calls, lasting)
        if before is None and not remake:
            lasting[told_lasting(call, self.texts[place])] += 1
        if call and before and call.name in LEFT_BY:
            lasting[LEFT_BY[call.name]] += 1
        for text in before or ():
            step = Call.read(text)
            named = numbers_of(step)
            if named & self.passing or self.is_moot(step):
                continue
            if named & self.gone - self.names.keys():
                lasting[f"{text}: an object that it names is gone."] += 1
            else:
                yield with_names(step, self.names)

    def is_moot(self, step: Call) -> bool:
        """Whether a step would change what is recycled right after it, since this batch made it."""
        return step.subject in self.made and step.name in MOOT and not changes_owner(step)

    def remade(self, number: int, calls: list[str], lasting: collections.Counter[str]) -> Iterator[str]:
        """The lines that make an object again."""
        lasting[TOLD_AGAIN.format(number)] += 1
        first, *others = map(Call.read, calls)
        name = Name(f"again{number}")
        yield f"{name} = {with_names(first, self.names)}"
        self.names[number] = name
        yield from (with_names(call, self.names) for call in others)


def told_lasting(call: Optional[Call], text: str) -> str:
    """What stays of a call that nothing undoes."""
    shown = shortened(text, LONGEST_TOLD)
    if call and call.name == "recycle":
        return f"{shown}: the object is gone for good, and its number isn’t given again."
    if call and call.name == "decline":
        return f"{shown}: the petition isn’t made again."
    return f"{shown}: what it replaced can’t be put back, or was too much to be kept."


def with_names(call: Call, names: dict[int, Name]) -> str:
    """A call with names in place of the numbers of objects that are made again. In values the numbers stay."""
    if not numbers_of(call) & names.keys():
        return str(call)
    given: list[object] = []
    places = naming_places(call)
    for place, value in enumerate(call.values):
        if place in places and isinstance(value, list):
            given.append([name_in(value[0], names), *value[1:]])
        else:
            given.append(name_in(value, names) if place in places else value)
    return call_text(call.name, given)


def name_in(value: Value, names: dict[int, Name]) -> Union[Value, Name]:
    """A value, or in the place of an object its name if it has one."""
    return names.get(value.number, value) if isinstance(value, Obj) else value


def naming_places(call: Call) -> set[int]:
    """Which of a call's values are objects that have to be there, or lists that begin with one."""
    return {0, OTHERS.get(call.name, 0), OWNERS.get(call.name, 0), 2 if changes_owner(call) else 0}


def changes_owner(call: Call) -> bool:
    """Whether a call gives an object to another owner."""
    return call.name == "set" and len(call.values) > 1 and str(call.values[1]).lower() == "owner"


def numbers_of(call: Call) -> set[int]:
    """The objects that have to be there for a call."""
    given = [call.values[place] for place in naming_places(call) if place < len(call.values)]
    firsts = [value[0] if isinstance(value, list) and value else value for value in given]
    return {value.number for value in firsts if isinstance(value, Obj)}


def undo_text(batch: Accepted, undo: Undo) -> str:
    """The batches that undo a batch, as a text for `moo apply`, by the one who made it."""
    return "".join(f"batch as #{batch.programmer}\n" + "".join(f"{line}\n" for line in part) + "end\n" for part in undo.parts)
