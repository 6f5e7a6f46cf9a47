"""Facts of the world at a door, read as a wizard: for what is kept to undo a batch, and for what a batch would destroy."""

from __future__ import annotations

from moolib.facts import Asked, Facts, Overseer, wizard_in

from moo_web.world.asking import Asker
from moo_web.world.door import Door


class Overseeing:
    """An overseer of the world at a door. Threads may share it."""

    def __init__(self, door: Door) -> None:
        self.door, self.asker, self.overseer = door, Asker(door), Overseer()

    def asked(self, at: int, end: float) -> Asked:
        """What asks in the world of this number, until the moment `end` of the monotonic clock.

        Then it raises `Unreachable`, and `Moved` if the world has another number.
        """
        return lambda number, calls: self.asker.said(number, calls, at, end)

    def facts(self, programmer: int, at: int, end: float, first: list[str]) -> Facts:
        """The facts of the world of this number, of which some are wanted first. What is raised is `asked`'s and `Facts.read`'s."""
        return self.overseer.facts(
            programmer, self.asked(at, end), lambda: wizard_in(lambda first: self.door.asked("GET", f"/objects/{first}", None, end)), first
        )
