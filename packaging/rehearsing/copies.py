"""The copies of a world: where they are, and whether they hold what was answered."""

from __future__ import annotations

from pathlib import Path

from tests.support.program import MOO

from rehearsing.clients import Made, compare, counts, held
from rehearsing.machines import Machine
from rehearsing.page import block, with_copy


def copies(root: Path) -> list[Path]:
    """The copies on a machine, or beside it, the oldest first."""
    return sorted((root / "var/backups/moo").glob("world.db-*"))


def tried_copies(root: Path) -> list[Path]:
    """The copies of a world that has a front, the oldest first."""
    return sorted((root / "var/backups/moo-web/copies").glob("world.db-*"))


def copied(machine: Machine, made: Made) -> None:
    """One backup by the page, compared."""
    before = counts(made)
    machine.run(block("back up"))
    compare(copies(machine.root)[-1], made, before, MOO)


def restored(machine: Machine, made: Made, before: list[str]) -> Made:
    """Restores the newest copy after these commands, and gives what the clients were answered of it."""
    copy = copies(machine.root)[-1]
    compare(copy, made, dict.fromkeys(made, 1), MOO)
    machine.run(before + with_copy(block("restore"), copy))
    return held(copy, list(made), MOO)
