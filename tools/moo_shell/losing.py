"""What a batch would destroy or replace, as the shell says it. A front tells it; of a service it is worked out here."""

from __future__ import annotations

import contextlib
from typing import Any, NamedTuple, Optional

from moo_shell.door import Door
from moolib.calls import Call, calls_in, read_or_none
from moolib.slots import first_calls
from moolib.facts import Facts, Overseer, TooMuch, wizard_in
from moolib.losses import Losses, may_lose
from moolib.service import Answer, Said
from moolib.values import written

# So many are shown one by one.
MOST_SHOWN = 20
LONGEST = 100
TOO_MUCH = "what this would destroy is too much to be listed"


class Moved(Exception):
    """The world has another number by now."""


class Lost(NamedTuple):
    """What would be lost: an object, its property and the value as it is written."""

    object: str
    property: str
    value: str


def told_losses(door: Door, who: int, calls: list[str], answers: list[str], seq: int, is_script: bool) -> list[str]:
    """The lines that say what these calls would destroy or replace, which answer so on the world of this number.

    In a script what the calls themselves give another value isn't told.
    """
    if not may_lose(calls):
        return []
    known = set(map(replaced_by, [*map(read_or_none, calls), *granted(door, who, calls, seq)])) if is_script else set()
    if not door.can_name:
        return told_by_front(door.tried("POST", "/ask?losses", door.body(who, calls, seq), None, len(calls)), known)
    with contextlib.suppress(Moved):
        losses = losses_at(door, who, calls, answers, seq)
        if not losses.is_known:
            return [TOO_MUCH]
        rows = [Lost(f"#{loss.number}", loss.name, written(loss.value)) for loss in losses.found]
        return shown(rows, losses.further, losses.hidden, known)
    return []


def granted(door: Door, who: int, calls: list[str], seq: int) -> list[Call]:
    """The calls of the petitions that these calls grant."""
    numbers = [call.petition for call in map(read_or_none, calls) if call and call.name == "grant"]
    said = door.alone(who, ["petitions()"], seq) if numbers else []
    petitions: Any = said[0].value if said and not isinstance(said, Answer) else []
    return [each for number, _, asked in petitions or () if number in numbers for each in calls_in(asked)]


def replaced_by(call: Optional[Call]) -> tuple[str, str]:
    """The object and the property to which a call gives another value itself; empty texts if it is another call."""
    if call and call.name == "move":
        return f"#{call.subject}", "location"
    is_about = call is not None and call.name in ("set", "clear_property") and len(call.values) > 1
    return (f"#{call.subject}", str(call.values[1]).lower()) if call and is_about else ("", "")


def told_by_front(answer: Answer, known: set[tuple[str, str]]) -> list[str]:
    """The same as a front says it, if it knows."""
    rows: list[Any] = answer.said.get("losses", [])
    if answer.said.get("hidden", 0) is None:
        return [TOO_MUCH]
    found = [Lost(str(one["object"]), str(one["property"]), str(one["value"])) for one in rows]
    return shown(found, 0, int(answer.said.get("hidden", 0)), known)


def losses_at(door: Door, who: int, calls: list[str], answers: list[str], seq: int) -> Losses:
    """The losses in the world of a service, of this number. `Moved`: it has another one."""

    def asked(number: int, some: list[str]) -> list[Said]:
        found: list[Said] = []
        for first in range(0, len(some), 1000):
            said = door.alone(number, some[first : first + 1000], seq)
            if isinstance(said, Answer):
                raise Moved
            found += said
        return found

    read = [call for call in map(read_or_none, calls) if call]
    try:
        facts = Overseer().facts(who, asked, lambda: wizard_in(lambda first: door.tried("GET", f"/objects/{first}")), first_calls(read))
    except TooMuch:
        return Losses(is_known=False)
    return Losses.of(facts, Facts(lambda some: asked(who, some)), who, calls, answers)


def shown(every: list[Lost], further: int, hidden: int, known: set[tuple[str, str]]) -> list[str]:
    """The lines for these losses but those that are known, and for so many more."""
    rows = [row for row in every if (row.object, row.property.lower()) not in known]
    lines = [f"would be lost: {row.property} of {row.object}, now {cut(row.value)}" for row in rows[:MOST_SHOWN]]
    if len(rows) + further > MOST_SHOWN:
        lines.append(f"and {len(rows) + further - MOST_SHOWN} more")
    return lines + ([f"and {hidden} that you may not read"] if hidden else [])


def cut(text: str) -> str:
    """A value, cut to a length that a line can bear."""
    return text if len(text) <= LONGEST else f"{text[: LONGEST - 2]}.."
