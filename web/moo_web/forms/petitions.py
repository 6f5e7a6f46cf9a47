"""Petitions: the calls of a form as a petition, and the petitions that somebody may see."""

from __future__ import annotations

from typing import Any, NamedTuple

from moolib.batches import Item
from moolib.calls import Call, read_or_none
from moolib.lines import filled, names_in
from moolib.service import Said
from moolib.values import Obj, Value, written

from moo_web.forms.forms import Me
from moo_web.forms.input import Mistyped
from moo_web.forms.questions import Questions
from moo_web.world.door import TooLong

MOST_ASKED = 64
DEEPEST = 30


class Asked(NamedTuple):
    """The calls of a petition, and those that can't be asked for since they are about an object that isn't there yet."""

    calls: list[str]
    left_out: list[str]


class Petition(NamedTuple):
    """A petition: its number, the object whose it is, and its calls as they are written."""

    number: int
    who: int
    calls: list[str]


def asked_of(items: list[Item], me: Me) -> Asked:
    """What can be asked for of these calls. An object that is made has its owner named: else it would be the wizard's."""
    calls, left_out, local = [], [], {item.name for item in items if item.name}
    for item in items:
        if names_in(item.text) & local:
            left_out.append(filled(item.text, dict.fromkeys(item.names, "(the new object)")))
            continue
        call = read_or_none(item.text)
        is_ownerless = call is not None and call.makes == "object" and len(call.values) == 1
        calls.append(str(Call(call.name, (*call.values, Obj(me.number)))) if call and is_ownerless else item.text)
    return Asked(calls, left_out)


def petition_item(calls: list[str]) -> Item:
    """The call that asks for these calls. `Mistyped`: they can't be asked for."""
    if not calls:
        raise Mistyped("Nothing of this can be asked for.")
    if len(calls) > MOST_ASKED:
        raise Mistyped(f"A petition has at most {MOST_ASKED} calls, and this one would have {len(calls)}. Make several of it.")
    asked: list[Value] = []
    for text in calls:
        call = read_or_none(text)
        if call is None:
            raise Mistyped(f"{text} can’t be read as a call.")
        if depth_of([*call.values]) > DEEPEST - 1:
            raise Mistyped(f"In a petition lists are at most {DEEPEST} deep, with the list of its calls.")
        asked.append([call.name, *call.values])
    return Item(f"petition({written(asked)})")


def depth_of(value: object) -> int:
    """How deep lists are in a value."""
    return 1 + max(map(depth_of, value), default=0) if isinstance(value, list) else 0


def petitions_at(questions: Questions, programmer: int, at: int) -> list[Petition]:
    """The petitions that this programmer may see, the oldest first: all of them if it is a wizard. 

    `Moved`: as `Questions.read`. `TooLong`: as `petitions_in`.
    """
    return petitions_in(questions.read(programmer, ["petitions()"], at)[0])


def petitions_in(said: Said) -> list[Petition]:
    """The petitions that a call of `petitions` answers. `TooLong`: they are too long to be shown together."""
    if not said.is_good:
        raise TooLong
    return petitions_told(said.value)


def petitions_told(told: list[Any]) -> list[Petition]:
    """The petitions of a value that it answers."""
    return [Petition(number, who.number, [str(Call.of(call)) for call in calls]) for number, who, calls in told]
