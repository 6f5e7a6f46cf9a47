"""The files of a journal: lines `SUM JSON`, each sum over the one before and the JSON, in segments `journal-SEQ`.

The first line of a segment is of the kind `base` and has the version, the number of the segment, the world's number at which it begins, and
the last sum of the segment before. So the chain of sums goes through all segments. Its `branch` says which history of the world goes on in
it: 64 zeros after `new`, the last sum before it after `rebase`, and that of the segment before after `full`.
"""

from __future__ import annotations

import hashlib
import itertools
import json
import os
import re
from pathlib import Path
from typing import Any, BinaryIO, Iterable, Iterator, NamedTuple

from moolib.calls import call_name
from moolib.service import packed

from moo_web.journal.notes import NO_NOTE, Note, note_of

VERSION = 2
# Those that can be read: the lines of the first are without what `memory` keeps.
VERSIONS = (1, 2)
FIRST_SUM = "0" * 64
SUM_LENGTH = 64
LINE_KINDS = ("base", "intent", "done", "void", "gap")
SEGMENT_NAME = re.compile(r"journal-\d+(\.\d+)?")
# A line is read in pieces of at most so much; the longest intent has a body of 1 MiB and its answers.
LONGEST_LINE = 1 << 28
LONGEST_KEPT = 1 << 20


class Damaged(Exception):
    """The journal isn't as it was written, at a place that a stop can't explain."""


class Segment(NamedTuple):
    """A segment's file, its number from 1 on, the sum before its first line, its version, why it was begun, and its branch, if it says it.

    `seq` is the world's number at which it begins.
    """

    path: Path
    number: int
    former: str
    version: int = VERSION
    why: str = "full"
    branch: str | None = None
    seq: int = 0


class JournalLine(NamedTuple):
    """A line as it was read: its segment, its number in it from 1 on, its sum, the bytes of its JSON, and the place after it."""

    segment: Segment
    number: int
    sum: str
    text: bytes
    end: int

    @property
    def kind(self) -> str:
        """What the line is. Each line of ours begins with it."""
        found = re.match(rb'\{"k":"(\w+)"', self.text)
        kind = found[1].decode() if found else ""
        if kind not in LINE_KINDS:
            raise Damaged(f"{self.segment.path}, line {self.number}: a line of no known kind")
        return kind

    def said(self) -> dict[str, Any]:
        """The object that the line holds."""
        said = json.loads(self.text)
        assert isinstance(said, dict)
        return said


def sum_after(former: str, text: bytes) -> str:
    """The sum of a line with this JSON after a line with that sum: SHA-256 of both, in hexadecimal."""
    return hashlib.sha256(former.encode() + text).hexdigest()


def line_json(raw: bytes) -> bytes:
    """The JSON of a line."""
    return raw[SUM_LENGTH + 1 : -1]


def sum_if_whole(former: str, raw: bytes) -> str | None:
    """The sum of a line after a line with that sum. None: it isn't whole, or has another sum."""
    now = sum_after(former, line_json(raw))
    return now if raw == now.encode() + b" " + line_json(raw) + b"\n" else None


def has_line(file: BinaryIO, start: int, end: int, sum_: str) -> bool:
    """Whether a file has a line with this sum at this place."""
    file.seek(start)
    if file.read(SUM_LENGTH) != sum_.encode():
        return False
    file.seek(end - 1)
    return file.read(1) == b"\n"


def new_line(former: str, said: dict[str, Any]) -> tuple[str, bytes]:
    """A line's sum, and its bytes."""
    text = packed(said)
    now = sum_after(former, text)
    return now, now.encode() + b" " + text + b"\n"


def header_of(path: Path) -> Segment | None:
    """The segment that a file is, by its first line. None if that line was torn, or is empty."""
    with open(path, "rb") as file:
        line = file.readline(1 << 16)
    if not line.endswith(b"\n"):
        return None
    try:
        said = json.loads(line[SUM_LENGTH + 1 :])
        version, number, former, seq = said["version"], said["segment"], said["former"], said["seq"]
    except (ValueError, TypeError, KeyError):
        raise Damaged(f"{path}, line 1: this isn't the first line of a segment") from None
    if version not in VERSIONS:
        raise Damaged(f"{path}: the journal has version {version}, and this program reads versions {VERSIONS[0]} and {VERSIONS[-1]}")
    if not isinstance(number, int) or not isinstance(former, str) or not isinstance(seq, int):
        raise Damaged(f"{path}, line 1: this isn't the first line of a segment")
    return Segment(path, number, former, version, said.get("why", "full"), said.get("branch"), seq)


def branch_of(segments: Iterable[Segment]) -> str:
    """The branch of the last of these segments. Those of version 1 don't say theirs."""
    branch = FIRST_SUM
    for segment in segments:
        branch = next_branch(segment, branch)
    return branch


def next_branch(segment: Segment, branch: str) -> str:
    """The branch of a segment after one of this branch."""
    worked_out = {"new": FIRST_SUM, "rebase": segment.former}.get(segment.why, branch)
    return worked_out if segment.branch is None else segment.branch


def segments_of(folder: Path, known: dict[tuple[str, int], Segment] | None = None) -> tuple[list[Segment], list[Path]]:
    """The segments of a folder in their order, and the files whose first line was torn.

    `known` keeps those that were found, by name and inode, for who looks again and again: their first lines aren't read a second time.
    """
    found, torn, known = [], [], {} if known is None else known
    with os.scandir(folder) as entries:
        files = sorted((entry.name, entry.inode()) for entry in entries if SEGMENT_NAME.fullmatch(entry.name))
    for file in files:
        segment = known.get(file) or header_of(folder / file[0])
        if segment:
            known[file] = segment
            found.append(segment)
        else:
            torn.append(folder / file[0])
    found.sort(key=lambda segment: segment.number)
    for former, segment in zip(found, found[1:]):
        if segment.number != former.number + 1:
            raise Damaged(f"{folder}: after {former.path.name} comes {segment.path.name}, and segments between them are missing")
    if len(torn) > 1:
        raise Damaged(f"{folder}: {', '.join(path.name for path in torn)} have no first line")
    return found, torn


class Reading:
    """Reads the lines of a folder's segments and checks the chain of sums.

    It ends at a tail that isn't a line, in the last segment. `torn` is how many bytes that tail has, and `is_whole_line` says that it ends
    as a line does, so that no stop alone has left it so. Anywhere else such a line is damage.
    """

    def __init__(self, folder: Path) -> None:
        self.segments, self.headless = segments_of(folder)
        self.sum = self.segments[0].former if self.segments else FIRST_SUM
        self.torn, self.is_whole_line, self.end, self.number = 0, False, 0, 0

    def lines(self) -> Iterator[JournalLine]:
        """Each line."""
        for segment in self.segments:
            self.enter(segment)
            yield from self.rest(segment)

    def only(self, segment: Segment) -> Iterator[JournalLine]:
        """Each line of one segment alone."""
        self.end, self.number, self.sum = 0, 0, segment.former
        yield from self.rest(segment)

    def enter(self, segment: Segment) -> None:
        """Goes to the beginning of a segment, which is the next one."""
        if segment.former != self.sum:
            raise Damaged(f"{segment.path}, line 1: it doesn't continue the segment before")
        self.end, self.number = 0, 0

    def skip(self, end: int, number: int, sum_: str) -> None:
        """Goes to a place of the present segment, which is after so many lines, the last of which has this sum."""
        self.end, self.number, self.sum = end, number, sum_

    def rest(self, segment: Segment) -> Iterator[JournalLine]:
        """Each line of the present segment from there on."""
        with open(segment.path, "rb") as file:
            file.seek(self.end)
            while raw := file.readline(LONGEST_LINE):
                self.number += 1
                now = sum_if_whole(self.sum, raw)
                if now is None:
                    self.stop_at(segment, self.number, raw, bool(file.read(1)) or segment is not self.segments[-1])
                    return
                self.sum, self.end = now, self.end + len(raw)
                yield JournalLine(segment, self.number, now, line_json(raw), self.end)

    def stop_at(self, segment: Segment, number: int, raw: bytes, is_damage: bool) -> None:
        """Takes the last line for a torn one if it may be."""
        if is_damage or number == 1:
            raise Damaged(f"{segment.path}, line {number}: its sum is wrong")
        text = line_json(raw)
        self.torn = len(raw)
        self.is_whole_line = raw.endswith(b"\n") or raw[:-1] == sum_after(self.sum, text).encode() + b" " + text


def kept_answers(answers: list[str]) -> dict[str, Any]:
    """What a line keeps of answers: all, or of over 1 MiB their SHA-256, so that who asks much doesn't fill the disk."""
    text = packed(answers)
    return {"answers": answers} if len(text) <= LONGEST_KEPT else {"answers_sum": hashlib.sha256(text).hexdigest()}


class KeptBefore(NamedTuple):
    """What an intent keeps of the world before its batch.

    `before` has for each call those that undo it, or None; `names` the names of the objects that the calls name, by their numbers as `#4`.
    `remakes` has for each call that recycles objects those that make another one like each, by their numbers; it is empty if none does.
    `gone` has the numbers of former owners that were gone already: `before` names others in their places.
    """

    before: list[list[str] | None]
    names: dict[str, str]
    remakes: list[dict[str, list[str]] | None]
    gone: list[int]


def memory_of(intent: dict[str, Any]) -> KeptBefore | None:
    """What an intent keeps; None if it is of version 1."""
    if "before" not in intent:
        return None
    return KeptBefore(intent["before"], intent.get("names", {}), intent.get("remakes", []), intent.get("gone", []))


class Accepted(NamedTuple):
    """An accepted batch: it was sent to the world of number `at`, at the moment `t` (seconds since 1970), for `who`, as the programmer.

    `kept` is what `kept_answers` makes of its answers. `memory` is what was kept to undo it; None of a journal of version 1. `note` has the
    words that came with it.
    """

    at: int
    t: float
    who: str
    programmer: int
    calls: list[str]
    kept: dict[str, Any]
    memory: KeptBefore | None = None
    note: Note = NO_NOTE

    @property
    def answers(self) -> list[str] | None:
        """Its answers; None if they were too long to be kept."""
        return self.kept.get("answers")

    @property
    def answered(self) -> list[tuple[str, str]]:
        """Each call with its answer, which is empty if it wasn't kept."""
        answers = self.answers or []
        return list(itertools.zip_longest(self.calls, answers[: len(self.calls)], fillvalue=""))

    @property
    def letters(self) -> int:
        """How many letters its calls and answers have."""
        return sum(map(len, self.calls)) + sum(map(len, self.answers or ()))

    @property
    def seq(self) -> int:
        """The world's number after it."""
        return self.at + 1

    def made_petition(self, number: int) -> str:
        """The call that made the petition of this number; empty if none did, or its answer wasn't kept."""
        return next((call for call, answer in self.answered if answer == str(number) and call_name(call) == "petition"), "")


def accepted_of(intent: dict[str, Any], done: dict[str, Any]) -> Accepted:
    """The accepted batch that an intent and its outcome tell."""
    told = done if "answers" in done or "answers_sum" in done else intent
    kept = {key: told[key] for key in ("answers", "answers_sum") if key in told}
    return Accepted(intent["at"], intent["t"], intent["who"], intent["as"], intent["calls"], kept, memory_of(intent), note_of(intent))


class Outcomes:
    """What the lines of a journal tell, one after another. `sum` is that of the intent of the batch that was given last."""

    def __init__(self) -> None:
        self.intents: dict[int, tuple[str, dict[str, Any]]] = {}
        self.sum = ""

    def take(self, line: JournalLine) -> Accepted | dict[str, Any] | None:
        """The accepted batch whose outcome this line is, or the `base` or `gap` that it is. None: it decides nothing."""
        kind = line.kind
        if kind == "void":
            return None
        said = line.said()
        if kind == "intent":
            self.intents[said["at"]] = line.sum, said
            return None
        if kind != "done":
            self.intents.clear()
            return said
        found = self.intents.pop(said["seq"] - 1, None)
        if found is None:
            raise Damaged(f"{line.segment.path}, line {line.number}: an outcome of no intent")
        self.sum = found[0]
        return accepted_of(found[1], said)
