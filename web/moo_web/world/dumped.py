"""What the front learns of a dump of the world: the values that objects have of their own, what they accept, and the open petitions.

A dump has a line for each slot of each object, and most of them are clear. These are left out as the dump comes, piece by piece.
"""

from __future__ import annotations

import re
from collections.abc import Iterator
from typing import NamedTuple

from moolib.calls import Call, calls_in
from moolib.values import read

from moo_web.world.literals import Literal

# The lines that are kept: slots with a value, objects with a list of what they accept, petitions, and the first and the last one.
KEPT = re.compile(rb'^(?:slot [^\n]*(?<!", 0)\}|object [^\n]*\}\}|petition [^\n]*|seq [^\n]*|end)$', re.MULTILINE)
SLOT = re.compile(r'slot \{#(-?\d+), #-?\d+, "((?:[^"\\]|\\.)*)", #(-?\d+), "([rwc]*)", 1, (.*)\}')
OBJECT = re.compile(r"object \{#(\d+), .*, (\{[^{}\"]*\})\}")
PETITION = "petition "
BACKSLASHED = re.compile(r"\\(.)")
# The name under which a list of what an object accepts is kept. No property has it.
ACCEPTS = ""


class BrokenDump(Exception):
    """A dump didn't come whole."""


class DumpLines:
    """Takes in a dump, as a file does, and keeps the lines that have something to search."""

    def __init__(self) -> None:
        self.rest = b""
        self.lines: list[bytes] = []

    def write(self, piece: bytes) -> int:
        """Takes in a piece."""
        whole, end, rest = (self.rest + piece).rpartition(b"\n")
        self.lines += KEPT.findall(whole)
        self.rest = rest if end else self.rest + piece
        return len(piece)


class Dumped(NamedTuple):
    """What a dump says: the number of its world, and the lines with something to search."""

    seq: int
    lines: list[bytes]

    @classmethod
    def of(cls, kept: DumpLines) -> Dumped:
        """What was kept of a dump. `BrokenDump`: it isn't whole."""
        lines = [*kept.lines, *KEPT.findall(kept.rest)]
        if len(lines) < 2 or not lines[0].startswith(b"seq ") or lines[-1] != b"end":
            raise BrokenDump
        return cls(int(lines[0].split()[1]), lines[1:-1])

    @property
    def rows(self) -> Iterator[Literal]:
        """The literals, in the order of their objects. A list of what an object accepts is one of the name `ACCEPTS`."""
        for line in self.lines:
            text = line.decode("ascii", "replace")
            if found := SLOT.fullmatch(text):
                number, name, owner, letters, literal = found.groups()
                spelled = BACKSLASHED.sub(r"\1", name) if "\\" in name else name
                yield Literal(int(number), spelled, literal.lower(), int(owner), "r" in letters)
            elif found := OBJECT.fullmatch(text):
                yield Literal(int(found[1]), ACCEPTS, found[2], -1, True)

    @property
    def petitions(self) -> dict[int, list[Call]]:
        """The calls of the open petitions, by their numbers."""
        found: dict[int, list[Call]] = {}
        for line in self.lines:
            if line.startswith(b"petition "):
                number, _, calls = read(line.decode("ascii", "replace")[len(PETITION) :])  # type: ignore[misc]
                assert isinstance(number, int) and isinstance(calls, list)
                found[number] = list(calls_in(calls))
        return found
