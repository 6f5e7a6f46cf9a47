"""`\\history #5`: the batches that named an object or made it, as a front keeps them."""

from __future__ import annotations

from typing import Any

from moo_shell.door import Door
from moolib.calls import read_or_none
from moolib.errors import TROUBLES, Failed
from moolib.lines import counted

# So many batches are shown, and so many are looked through, in pieces that a front gives at once.
MOST_SHOWN, MOST_READ, PIECE = 20, 10_000, 100


def told(batch: dict[str, Any], number: int) -> list[str]:
    """The lines about a batch: its number, moment and person, and its calls that name an object or made it; none if no call does."""
    answers = batch["answers"] or []
    calls = []
    for place, text in enumerate(batch["calls"]):
        call = read_or_none(text)
        made = call.made(answers[place]) if call and place < len(answers) else None
        if call and (number in call.objects or made == number):
            calls.append(f"    {text}")
    return [f'{batch["seq"]}  {batch["at"]}  {batch["who"]} as {batch["as"]}', *calls] if calls else []


def batches(door: Door, begin: int) -> tuple[list[dict[str, Any]], int]:
    """The batches after a number, at most so many as a front gives, and the number after which the front knows them."""
    answer = door.tried("GET", f"/since/{begin}?batches")
    if answer.status == 410:
        first = int(answer.said["seq"])
        return (batches(door, first)[0], first) if first > begin else ([], begin)
    return list(answer.said["batches"]), 0


def history(door: Door, number: int) -> str:
    """What was done with an object, the newest first."""
    if door.can_name:
        raise Failed("\\history: a front keeps it, and not a service: --web URL")
    lines: list[str] = []
    end = door.seq()
    first, low, shown = end, max(0, end - MOST_READ), 0
    try:
        while first > low and shown < MOST_SHOWN:
            begin = max(low, first - PIECE)
            found, known = batches(door, begin)
            low = max(low, known)
            for batch in reversed([each for each in found if begin < each["seq"] <= first]):
                about = told(batch, number)
                lines += about if shown < MOST_SHOWN else []
                shown += bool(about)
            first = begin
    except Failed as failed:
        if failed.reason == TROUBLES["forbidden"]:
            raise Failed("\\history: a front tells it to wizards alone") from None
        raise
    more = f"(of the last {counted(end - first, 'batch')})" if first > 0 else ""
    return "\n".join([*(lines or [f"nothing was done with #{number}"]), *([more] if more else [])])
