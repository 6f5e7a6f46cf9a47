"""The branches of a journal: which history of the world counts now, and whether a file is of that history.

A journal that is begun anew (`rebase`), as after an older copy was restored, leaves a branch at a number of the world and begins another one.
The batches past that number on the branch that was left are given up: they aren't in the world any more.
"""

from __future__ import annotations

from pathlib import Path
from typing import Iterable, Iterator

from moolib.copies import Place
from moolib.errors import Failed

from moo_web.journal.segments import FIRST_SUM, Accepted, JournalLine, Outcomes, Reading, Segment, branch_of, next_branch, segments_of


class Course:
    """How the history of the world goes through a journal, learned line by line. It also looks for lines that have these sums.

    `first` is the number of the world at which the journal begins, None before the first line; `branch` is that of the last line; `left`
    has the number at which each branch was left.
    """

    def __init__(self, sums: Iterable[str] = ()) -> None:
        self.wanted = frozenset(sums)
        self.first: int | None = None
        self.branch = FIRST_SUM
        self.left: list[int] = []
        # How many branches were left before each one began, and the branches of the lines that were looked for.
        self.former: dict[str, int] = {}
        self.found: dict[str, str] = {}
        self.telling: JournalLine | None = None

    def take(self, line: JournalLine) -> None:
        """Learns from the next line."""
        kind = line.kind
        if kind == "base":
            self.begin(line.segment)
        if kind in ("base", "done"):
            self.telling = line
        if line.sum in self.wanted:
            self.found[line.sum] = self.branch

    def begin(self, segment: Segment) -> None:
        """Passes the beginning of a segment."""
        if segment.why == "rebase":
            self.left.append(segment.seq)
        self.branch = next_branch(segment, self.branch)
        self.former.setdefault(self.branch, len(self.left))
        if self.first is None:
            self.first = segment.seq

    @property
    def seq(self) -> int:
        """The number of the world by the last line that tells one."""
        return int(self.telling.said()["seq"]) if self.telling else 0

    def is_given_up(self, at: int, passed: int) -> bool:
        """Whether a batch for this number, before which so many branches were left, isn't of the history that counts now."""
        return any(at >= seq for seq in self.left[passed:])

    def fault_of(self, file: object, number: int, place: Place | None) -> str:
        """Why a world of this number and place isn't of the history that counts now. Nothing: it is, or the journal doesn't tell yet."""
        if self.first is None:
            return ""
        is_missing = place is not None and place.sum in self.wanted and place.sum not in self.found
        if place and is_missing and place.seq > self.seq and not place.branch:
            return ""
        branch = self.found.get(place.sum, place.branch) if place else ""
        if place and is_missing and self.first < place.seq <= self.seq or branch and branch not in self.former:
            told = f"{file} was brought up by batches that this journal doesn't have"
            return f"{told}: take a copy of the world of this journal"
        left = [seq for seq in self.left[self.former[branch] if branch else 0 :] if seq < number]
        if not left:
            return ""
        return self.given_up(file, number, min(left)) if branch else self.unknown(file, number, min(left))

    def given_up(self, file: object, number: int, seq: int) -> str:
        """What is said of a world of a branch that was left at number `seq`."""
        told = f"{file} was brought up to number {number} before the journal was begun anew at {seq}: it has batches that were given up then"
        return f"{told}. Take a copy of number {seq} or a lower one, or one that was made since. {self.by_hand()}"

    def unknown(self, file: object, number: int, seq: int) -> str:
        """What is said of a world that may be of a branch that was left at number `seq`."""
        told = f"{file} has number {number}, and the journal was begun anew at {seq}: it may have batches that were given up then"
        return f"{told}. Take a copy with a file BRANCH, or one of number {seq} or a lower one. {self.by_hand()}"

    def by_hand(self) -> str:
        """What an operator may say who knows better."""
        return f"If you know that it was made since, say so by --branch {self.branch}"


def lines_until(folder: Path, end: float | None) -> Iterator[JournalLine]:
    """The lines of a journal up to the first one past a moment. `Damaged`: a sum is wrong."""
    for line in Reading(folder).lines():
        if end is not None and line.kind in ("base", "intent", "gap") and line.said()["t"] > end:
            return
        yield line


def course_of(folder: Path, end: float | None, sums: Iterable[str] = ()) -> Course:
    """The course of a journal up to a moment. `Failed`: there is none."""
    course = Course(sums)
    for line in lines_until(folder, end):
        course.take(line)
    if course.first is None:
        raise Failed(f"{folder} has no journal" + (" of a moment so early" if end is not None else ""))
    return course


def history_of(folder: Path) -> Iterator[Accepted]:
    """The batches that made the world what it is, in their order. Those that were given up aren't among them."""
    course, outcomes, passed = course_of(folder, None), Outcomes(), 0
    for line in lines_until(folder, None):
        told = outcomes.take(line)
        passed += line.kind == "base" and line.segment.why == "rebase"
        if isinstance(told, Accepted) and not course.is_given_up(told.at, passed):
            yield told


def place_of(folder: Path, number: int) -> Place:
    """The place at which the history that counts now has this number. It reads one segment.

    `Failed`: the journal doesn't have the number. `Damaged`: a sum is wrong.
    """
    segments = segments_of(folder)[0]
    if not segments:
        raise Failed(f"{folder} has no journal")
    if number < segments[0].seq:
        raise Failed(f"the world has number {number}, and the journal of {folder} begins at {segments[0].seq}")
    # What begins at a greater number isn't of the history of this one.
    at = max(at for at, segment in enumerate(segments) if segment.seq <= number)
    found, last = sum_in(folder, segments[at], number)
    if not found:
        told = f"the world has number {number}, and the journal of {folder} has {last} there"
        raise Failed(f"{told}: it isn't the journal of this world, or somebody else wrote the world")
    return Place(branch_of(segments[: at + 1]), number, found)


def sum_in(folder: Path, segment: Segment, number: int) -> tuple[str, int]:
    """The sum of the line by which a segment tells this number, empty if none does; and the last number that it tells.

    A batch that acted a moment ago may have no outcome in the journal yet: then the line of its intent tells the number.
    """
    last, open_intent = segment.seq, ""
    for line in Reading(folder).only(segment):
        kind = line.kind
        if kind in ("base", "done"):
            last, open_intent = int(line.said()["seq"]), ""
            if last == number:
                return line.sum, last
        elif kind == "intent" and line.said()["at"] == number - 1:
            open_intent = line.sum
        elif kind == "void":
            open_intent = ""
    return open_intent, last
