"""Which of the mutants that rt tried say nothing of a contract, by what it printed.

    python3 -m checking.stale FILE    prints a line for each; the status is 0 in any case

rt counts two kinds as no failure. A BAD EDIT can't be made or read. Another is refused since a proof names what the edit took away: its
contract may be met all the same. If no other form of such a mutant is known, a line `# by a name: ` of it says why, and it passes.
"""
from __future__ import annotations

import re
import sys
from pathlib import Path
from typing import Callable, Iterable, Iterator

MUTANTS = Path(__file__).resolve().parents[2] / "mutants"
BAD = re.compile(r"must-fail ([\w-]+)/([\w.-]+)\.edit: (BAD EDIT: .*)")
BY_A_NAME = re.compile(r"must-fail ([\w-]+)/([\w.-]+)\.edit: refused, as it must be \(only because a proof file names\b[^)]*\)(.*)")
# The line of a mutant that says why only a name refuses it.
REASON = re.compile(r"(?m)^# by a name: \S")


def may_be_by_a_name(crate: str, name: str) -> bool:
    """Whether a mutant says why only a name refuses it."""
    edit = MUTANTS / crate / f"{name}.edit"
    return edit.is_file() and bool(REASON.search(edit.read_text()))


def stale(lines: Iterable[str], may_be: Callable[[str, str], bool] = may_be_by_a_name) -> Iterator[str]:
    """What is wrong with each mutant that says nothing, from the lines that rt printed."""
    for line in lines:
        if met := BAD.search(line):
            yield f"{met[1]}/{met[2]}: {met[3]}"
        elif (met := BY_A_NAME.search(line)) and not may_be(met[1], met[2]):
            yield f"{met[1]}/{met[2]}: only a name that a proof cites refuses it: keep the names and change a value{met[3]}"


if __name__ == "__main__":
    for each in stale(Path(sys.argv[1]).read_text(errors="replace").splitlines()):
        print(each)
