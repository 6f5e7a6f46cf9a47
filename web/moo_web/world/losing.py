"""What a batch of one person's would destroy or replace in the world at a door."""

from __future__ import annotations

import time
from typing import Callable

from moolib.calls import read_or_none
from moolib.facts import Facts, TooMuch
from moolib.losses import Losses, may_lose
from moolib.slots import first_calls
from moolib.values import written

from moo_web.people.person import Person
from moo_web.world.asking import TRIES, Moved
from moo_web.world.door import QUESTION_SECONDS, Answer, Unreachable, own_answer
from moo_web.world.overseeing import Overseeing


def losses_of(overseeing: Overseeing, person: int, calls: list[str], answers: list[str], at: int) -> Losses:
    """What these calls would destroy or replace, which the world of this number answers so. `Moved`, `Unreachable`: as of `Asker.said`."""
    if not may_lose(calls):
        return Losses()
    end = time.monotonic() + QUESTION_SECONDS
    read = [call for call in map(read_or_none, calls) if call]
    try:
        facts = overseeing.facts(person, at, end, first_calls(read))
    except TooMuch:
        return Losses(is_known=False)
    asked = overseeing.asked(at, end)
    mine = facts if overseeing.overseer.wizard == person else Facts(lambda some: asked(person, some))
    return Losses.of(facts, mine, person, calls, answers)


def answer_with_losses(overseeing: Overseeing, person: Person, ask: Callable[[], tuple[list[str], Answer]]) -> Answer:
    """What `/ask` answers to calls of a person's, with what they would destroy or replace. `ask` gives the calls and their answer."""
    for _ in range(TRIES):
        calls, answer = ask()
        if answer.status != 200:
            return answer
        try:
            losses = losses_of(overseeing, person.number, calls, answer.said["answers"], answer.said["seq"])
        except Moved:
            continue
        rows = [{"object": f"#{loss.number}", "property": loss.name, "value": written(loss.value)} for loss in losses.found]
        hidden = losses.hidden + losses.further if losses.is_known else None
        return own_answer(200, **answer.said, losses=rows, hidden=hidden)
    raise Unreachable
