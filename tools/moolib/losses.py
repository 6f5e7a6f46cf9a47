"""What a batch would destroy or replace: values of properties, on everything that it touches, as far as one person may read them.

    losses = Losses.of(facts, mine, programmer, calls, answers)
    losses.found        [Loss(27, "colour", "green", True)]

They are found by a wizard's eyes, so that those that the person may not read are counted. What the batch puts back itself isn't lost,
nor is a quota that counts objects.
"""

from __future__ import annotations

from collections.abc import Iterable, Iterator
from typing import NamedTuple

from moolib.calls import Call, call_name, read_or_none
from moolib.draft import QUOTA, Draft
from moolib.slots import MARKS, SETTABLE, first_calls
from moolib.facts import Facts, TooMuch
from moolib.values import Obj, Value, written

MOST_LISTED = 1000
# What `get` reads of an object's own, and calls change.
CHANGEABLE = (*SETTABLE, "location")


class Loss(NamedTuple):
    """A value that would be lost: its object, its property, and whether that is gone then, so that it isn't only another value."""

    number: int
    name: str
    value: Value
    is_gone: bool


class Losses(NamedTuple):
    """What would be lost. `hidden` is how many more there are that the person may not read, `further` how many more that they may.

    Of those whose property is gone then `gone_count` may be read, and `gone_hidden` may not. `is_known` is whether all of this could be
    found out: else it is too much.
    """

    found: tuple[Loss, ...] = ()
    hidden: int = 0
    further: int = 0
    gone_count: int = 0
    gone_hidden: int = 0
    is_known: bool = True

    @property
    def gone(self) -> list[Loss]:
        """Those whose property is gone then."""
        return [loss for loss in self.found if loss.is_gone]

    @property
    def rows(self) -> list[object]:
        """All of it, for a sum."""
        return [[(loss.number, loss.name, written(loss.value)) for loss in self.found], self.hidden, self.further, self.is_known]

    @staticmethod
    def of(facts: Facts, mine: Facts, person: int, calls: list[str], answers: list[str]) -> Losses:
        """What these calls of a person's would destroy or replace, which are accepted with these answers.

        `facts` is what a wizard knows of the world, `mine` what the person does. What they raise comes through, but for `TooMuch`.
        """
        read = [call for call in map(read_or_none, calls) if call]
        if len(read) != len(answers):
            return Losses(is_known=False)
        try:
            return Finding(facts, mine, person, read, answers).losses()
        except TooMuch:
            return Losses(is_known=False)


def may_lose(calls: Iterable[str]) -> bool:
    """Whether any of these calls may destroy or replace something."""
    read = [read_or_none(text) for text in calls]
    return any(call and not call.is_reading and (call.name == "grant" or not call.makes) for call in read)


class Touched(NamedTuple):
    """A property on an object that the batch touches, and whether it is gone after it."""

    number: int
    name: str
    is_gone: bool


class Finding:
    """How the losses of a batch are found."""

    def __init__(self, facts: Facts, mine: Facts, person: int, calls: list[Call], answers: list[str]) -> None:
        self.facts, self.mine = facts, mine
        self.draft = Draft(facts, person)
        # The names of properties as they are spelled, by the same in small letters.
        self.spelled = {str(call.values[1]).lower(): str(call.values[1]) for call in calls if len(call.values) > 1}
        facts.read(first_calls(calls))
        for call, answer in zip(calls, answers):
            self.run(call, answer)
        for text, names in facts.known.items():
            if call_name(text) == "properties" and names:
                self.spelled.update((name.lower(), name) for name in names)

    def run(self, call: Call, answer: str) -> None:
        """Runs a call, or those of a petition that it grants."""
        if call.name == "grant":
            for each in self.draft.asked_in(call.petition or 0):
                self.draft.run(each)
        elif not call.is_reading:
            self.draft.run(call, answer)

    def losses(self) -> Losses:
        """What is lost."""
        places = [*self.built_in(), *self.slots()]
        texts = [f"get(#{place.number}, {written(place.name)})" for place in places]
        self.mine.read(texts)
        known = [(place, self.mine.value(text)) for place, text in zip(places, texts)]
        found = [Loss(place.number, place.name, value, place.is_gone) for place, value in known if value is not None]
        if len(found) > MOST_LISTED:
            found.sort(key=lambda loss: not loss.is_gone)
        gone, hidden = sum(loss.is_gone for loss in found), sum(place.is_gone for place, value in known if value is None)
        return Losses(tuple(found[:MOST_LISTED]), len(known) - len(found), max(0, len(found) - MOST_LISTED), gone, hidden)

    def built_in(self) -> Iterator[Touched]:
        """The marks of objects that get another value."""
        for number, key in sorted(self.draft.marks):
            if key in CHANGEABLE and number not in self.draft.made and number not in self.draft.gone:
                former = self.facts.value(MARKS[key].format(number))
                if (former.number if isinstance(former, Obj) else former) != self.draft.mark(number, key):
                    yield Touched(number, key, False)

    def slots(self) -> Iterator[Touched]:
        """The slots that had a value of their own, and have it no more."""
        draft = self.draft
        touched = [
            key for key, states in sorted(draft.slots.items())
            if key[0] not in draft.made and not (key[1] == QUOTA and len(states) == draft.charges[key[0]])
        ]  # fmt: skip
        tests = [f"is_clear_property(#{number}, {written(name)})" for number, name in touched]
        self.facts.read(tests)
        for (number, name), test in zip(touched, tests):
            if self.facts.value(test) == 0:
                slot = None if number in self.draft.gone else self.draft.slot(number, self.name_after(number, name))
                if slot is None or slot.value != self.facts.value(f"get(#{number}, {written(name)})"):
                    yield Touched(number, self.spelled.get(name, name), slot is None)

    def name_after(self, number: int, name: str) -> str:
        """The name that a property has after the batch."""
        passed = {name}
        while (after := self.draft.renames.get((number, name), name)) not in passed:
            passed.add(after)
            name = after
        return self.draft.renames.get((number, name), name)
