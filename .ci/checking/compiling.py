"""Which changes of a crate compile. Many are tried at once, since each has lines of its own."""
from __future__ import annotations

import re
from typing import Protocol

from checking.copies import Change

ERROR = re.compile(r"(?m)^(?:\./)?((?:src|specs|proofs)/\S+):(\d+):\d+: error(.*)$")
# How much is told of an error.
TOLD = 300


class Compiler(Protocol):
    """What compiles changes."""

    def compile(self, changes: list[Change]) -> str:
        """What is said against a crate with these changes; nothing if it compiles."""


def apart(changes: list[Change]) -> list[list[Change]]:
    """The changes in rounds, as few as come of themselves: no two of a round change the same line."""
    rounds: list[list[Change]] = []
    for change in changes:
        for others in rounds:
            if not any(change.lines.keys() & other.lines.keys() for other in others):
                others.append(change)
                break
        else:
            rounds.append([change])
    return rounds


def nearest(file: str, line: int, changes: list[Change]) -> list[Change]:
    """The change of this file whose lines are nearest to a line from 0; none if no change is of the file."""
    distances = [(abs(line - number), at) for at, change in enumerate(changes) for where, number in change.lines if where == file]
    return [changes[min(distances)[1]]] if distances else []


def blamed(said: str, changes: list[Change]) -> list[Change]:
    """The changes that errors are nearest to; all if no error is in a file of theirs."""
    found = [change for file, line, _ in ERROR.findall(said) for change in nearest(file, int(line) - 1, changes)]
    return [change for change in changes if change in found] or changes


def first_error(said: str) -> str:
    """The first error of what a checker said, in a line."""
    met = ERROR.search(said)
    return " ".join((met[0] if met else said).split())[:TOLD]


def refused(compiler: Compiler, changes: list[Change]) -> dict[str, str]:
    """The changes that don't compile, by their names, each with its first error. Those that are blamed for one are tried without the others."""
    said = compiler.compile(changes) if changes else ""
    if not said:
        return {}
    if len(changes) == 1:
        return {changes[0].name: first_error(said)}
    wrong = blamed(said, changes)
    if len(wrong) == len(changes):
        # Nothing tells which.
        wrong = changes[: len(changes) // 2]
    others = [change for change in changes if change not in wrong]
    return {**refused(compiler, wrong), **refused(compiler, others)}
