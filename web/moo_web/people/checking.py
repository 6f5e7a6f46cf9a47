"""Accounts held against the world: whether the object of each is there, and is a player's."""

from __future__ import annotations

import time
from typing import NamedTuple

from moolib.errors import Failed

from moo_web.world.door import Door, Unreachable, told_of_answer

WAIT = 10.0


class Checked(NamedTuple):
    """What the world says of an account. `is_good`: its object is there and is a player."""

    text: str
    is_good: bool


def checked(name: str, number: int, door: Door) -> Checked:
    """What the world says of the account with this name and number. `Failed`: it says nothing."""
    try:
        answer = door.asked("GET", f"/object/{number}", None, time.monotonic() + WAIT)
    except Unreachable:
        raise Failed(f"moo doesn't answer at port {door.port}") from None
    if answer.status == 404:
        return Checked(f"{name} #{number} isn't there", False)
    if answer.status != 200:
        raise Failed(told_of_answer(answer))
    is_player = answer.said.get("player") == 1
    kind = "wizard" if answer.said.get("wizard") == 1 else "player"
    return Checked(f"{name} #{number} {answer.said.get('name')} {kind if is_player else 'is not a player'}", is_player)
