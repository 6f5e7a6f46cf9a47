"""The bugs of a crate that are known to stay proved, as plants/CRATE has them, each with the reason."""
from __future__ import annotations

from pathlib import Path
from typing import Iterable, NamedTuple

PLANTS = Path(__file__).resolve().parents[2] / "plants"
HEAD = """# Bugs in this crate that stay proved: where, the line as it is, the line with the bug, and why no clause refuses it.
"""
WHY = "    why:"


class Survivor(NamedTuple):
    """A bug that stays proved: the file and the function, the text as it is, and as it is with the bug, each in a line."""

    place: str
    old: str
    new: str


def read(text: str) -> dict[Survivor, str]:
    """What a register has, with the reason of each, "" if none is there. `ValueError`: an entry hasn't four lines."""
    found: dict[Survivor, str] = {}
    lines = [line for line in text.splitlines() if not line.startswith("#")]
    for entry in "\n".join(lines).strip("\n").split("\n\n"):
        parts = entry.splitlines()
        if not parts:
            continue
        if len(parts) != 4 or not parts[3].startswith(WHY):
            raise ValueError(f"an entry has a place, two texts and a reason: {entry!r}")
        found[Survivor(parts[0], parts[1].strip(), parts[2].strip())] = parts[3][len(WHY) :].strip()
    return found


def written(known: dict[Survivor, str], told: str) -> str:
    """The text of a register, with a line that tells what was tried."""
    entries = (f"\n{each.place}\n    {each.old}\n    {each.new}\n{WHY} {why}".rstrip() + "\n" for each, why in sorted(known.items()))
    return f"{HEAD}# {told}\n" + "".join(entries)


def complaints(known: dict[Survivor, str], survive: Iterable[Survivor], fell: Iterable[Survivor]) -> list[str]:
    """What is wrong with a register after some bugs were found to stay proved, and some to be refused."""
    survive, fell = set(survive), set(fell)
    lines = [f"STAYS PROVED {each.place}: {each.old}  ->  {each.new}" for each in sorted(survive - set(known))]
    lines += [f"IS REFUSED NOW {each.place}: {each.old}  ->  {each.new}: take its entry out" for each in sorted(fell & set(known))]
    return lines + [f"WITHOUT A REASON {each.place}: {each.old}  ->  {each.new}" for each, why in sorted(known.items()) if not why]
