"""What an intent keeps so that its batch can be undone: what its calls replace, and the names of the objects that they name.

    Memory(door).keys(programmer, calls, answers, at, end)
        {"before": [['set(#4, "colour", "green")']], "names": {"#4": "apple"}}

It is read from the world before the batch, by a wizard's number, and what the calls themselves change is worked out. Of calls that replace
too much to be kept `before` has null, as of those that nothing undoes.
"""

from __future__ import annotations

from typing import Any, Iterable, Optional

from moolib.calls import Call, read_or_none

from moo_web.journal.inverses import Backwards, Inverses, UndoingCall, VerbOn
from moo_web.journal.remaking import remade
from moo_web.traffic.turns import NobodyWaits
from moo_web.world.asking import Moved
from moo_web.world.door import Door, Unreachable
from moo_web.world.overseeing import Overseeing
from moolib.draft import PETITIONS, Draft
from moolib.slots import MARKS, first_calls
from moolib.facts import Facts, TooMuch

# So many letters of calls are kept for a batch; so many of names.
MOST_LETTERS = 1 << 24
MOST_NAMES = 1 << 20


class Memory:
    """What is kept of the batches at a door."""

    def __init__(self, door: Door) -> None:
        self.overseeing = Overseeing(door)

    def keys(self, programmer: int, calls: list[str], answers: list[str], at: int, end: float) -> dict[str, Any]:
        """The keys that an intent gets, for a batch that moo accepts in the world of this number.

        `Moved`: the world has another number. `Unreachable`: moo didn't answer until the moment `end`. `NobodyWaits`: as it says.
        """
        read = [read_or_none(call) for call in calls]
        if all(call is None or call.is_reading and not call.objects for call in read):
            return {"before": [None if call is None else [] for call in read], "names": {}}
        known = [call for call in read if call]
        first = [*name_calls(known), *first_calls(known), *(PETITIONS for call in known if call.name == "grant")]
        try:
            facts = self.overseeing.facts(programmer, at, end, first)
        except TooMuch:
            return {"before": [None] * len(calls), "names": {}}
        return Keeping(facts, programmer).keys(read, answers)


def name_calls(calls: Iterable[Call]) -> list[str]:
    """What is asked for the names of the objects that calls name."""
    return [MARKS["name"].format(number) for number in sorted({number for call in calls for number in call.objects}) if number >= 0]


class Keeping:
    """The same of one batch, of these facts."""

    def __init__(self, facts: Facts, programmer: int) -> None:
        self.facts, self.draft = facts, Draft(facts, programmer)
        self.inverses = Inverses(self.draft)
        # Whether a call was met that can't be followed: after it nothing is known.
        self.is_lost = False
        # By the number of a call and of an object that it recycles, the calls that make another one like it.
        self.remakes: list[Optional[dict[str, list[str]]]] = []

    def keys(self, calls: list[Optional[Call]], answers: list[str]) -> dict[str, Any]:
        """The keys of this batch."""
        names = self.names([call for call in calls if call])
        steps = [self.steps(call, answer) for call, answer in zip(calls, answers)]
        backwards, letters = Backwards(self.draft), 0
        before: list[Optional[list[str]]] = []
        for one in reversed(steps):
            is_unknown = self.is_lost and any(isinstance(each, VerbOn) for step in one or () for each in step.given)
            texts = None if one is None or is_unknown else backwards.texts(one)
            letters += sum(map(len, texts or ()))
            before.append(None if letters > MOST_LETTERS else texts)
        kept: dict[str, Any] = {"before": before[::-1], "names": names}
        if any(self.remakes):
            kept["remakes"] = self.remakes
        if self.inverses.gone:
            kept["gone"] = sorted(self.inverses.gone)
        return kept

    def names(self, calls: list[Call]) -> dict[str, str]:
        """The names of the objects that calls name, in those of a petition that they grant too."""
        named = [*calls, *(each for call in calls if call.name == "grant" for each in self.draft.asked_in(call.petition or 0))]
        self.facts.read(name_calls(named))
        found, letters = {}, 0
        for number in sorted({number for call in named for number in call.objects if number >= 0}):
            name = self.facts.value(MARKS["name"].format(number))
            letters += len(name or "")
            if name is not None and letters <= MOST_NAMES:
                found[f"#{number}"] = name
        return found

    def steps(self, call: Optional[Call], answer: str) -> Optional[list[UndoingCall]]:
        """What undoes a call, which is then run; None if nothing does."""
        self.remakes.append(None)
        if self.is_lost or call is None:
            self.is_lost = True
            return None
        try:
            if call.name == "grant":
                return self.granted(call)
            return self.one(call, answer)
        except (Moved, Unreachable, NobodyWaits):
            raise
        except Exception:  # a batch that moo accepts mustn't fail since the draft of it does
            self.is_lost = True
            return None

    def one(self, call: Call, answer: str) -> Optional[list[UndoingCall]]:
        """The same of a call other than a grant."""
        steps = self.inverses.of(call, answer)
        if call.name == "recycle" and call.subject is not None and call.subject not in self.draft.made:
            self.remakes[-1] = {**(self.remakes[-1] or {}), f"#{call.subject}": remade(self.inverses, call.subject)}
        if not call.is_reading:
            self.draft.run(call, answer)
        if call.name == "add_verb":
            steps = [self.inverses.added_verb(call)]
        return steps

    def granted(self, call: Call) -> Optional[list[UndoingCall]]:
        """What undoes the calls of a petition, the last one first; None if nothing undoes any."""
        undone = [self.one(each, "") for each in self.draft.asked_in(call.petition or 0)]
        if undone and all(one is None for one in undone):
            return None
        return [step for one in reversed(undone) for step in one or ()]
