"""What was read of a segment, in a file beside it: `index-5` of `journal-5`. So nobody reads it again.

The file's first line is `SUM JSON`, SUM being the SHA-256 of the JSON, which says up to which place the sums of the segment were right, and
what its lines say up to there. Tables follow: which batches the lines tell, whose they are, and which objects they name. A file that isn't
right is made anew, and so is one that was deleted.
"""

from __future__ import annotations

import contextlib
import hashlib
import json
import os
import sys
from pathlib import Path
from typing import Any, Callable, Iterator, NamedTuple

from moolib.service import packed

from moo_web.journal.segments import LONGEST_LINE, JournalLine, Reading, Segment, line_json, sum_after, sum_if_whole
from moo_web.programs import sync_folder

VERSION = 1
LONGEST_HEAD = 1 << 20
# So many of the last lines are named: those that a copy offers to the machine from which it is brought up.
NAMED_LINES = 64


class LinePlace(NamedTuple):
    """The place of a line in its segment, and its sum."""

    start: int
    sum: str


class Prefix(NamedTuple):
    """The first `end` bytes of a segment: so many lines, of which `last` are the last ones, and so many accepted batches.

    `seq`, `moment` and `gap` are what the journal says up to there: the world's number, the last moment, and the line that stopped writing.
    `base` is the world's number before the segment's first batch, and `why` that of its first line. No intent is open at its end, unless
    another segment follows. `modified` is when the segment was written last, if it has no more bytes.
    """

    end: int
    lines: int
    batches: int
    base: int
    why: str
    seq: int
    moment: float
    gap: dict[str, Any] | None
    last: list[LinePlace]
    modified: int

    @property
    def sum(self) -> str:
        """The sum of its last line."""
        return self.last[-1].sum


def index_path(segment: Path) -> Path:
    """The file that says what a segment holds."""
    return segment.with_name("index-" + segment.name.removeprefix("journal-"))


def head_of(segment: Segment, prefix: Prefix, tables: bytes) -> bytes:
    """The first line of the file of a prefix."""
    said = {
        "k": "index", "version": VERSION, "order": sys.byteorder, "segment": segment.number, "former": segment.former,
        "tables": hashlib.sha256(tables).hexdigest(), **prefix._asdict(),
    }  # fmt: skip
    text = packed(said)
    return hashlib.sha256(text).hexdigest().encode() + b" " + text + b"\n"


def put_prefix(segment: Segment, prefix: Prefix, tables: bytes) -> None:
    """Writes the file of a prefix. `OSError`: there is none, or the one of before."""
    path = index_path(segment.path)
    state = segment.path.stat()
    is_whole = state.st_size == prefix.end
    new = path.with_name(path.name + ".new")
    with contextlib.suppress(FileNotFoundError):
        new.unlink()
    try:
        with open(os.open(new, os.O_WRONLY | os.O_CREAT | os.O_EXCL, 0o600), "wb") as file:
            file.write(head_of(segment, prefix._replace(modified=state.st_mtime_ns if is_whole else 0), tables))
            file.write(tables)
            file.flush()
            os.fsync(file.fileno())
        new.rename(path)
    except OSError:
        with contextlib.suppress(OSError):
            new.unlink()
        raise
    sync_folder(path.parent)


class PrefixFile(NamedTuple):
    """The file of a prefix: what its first line says, where its tables begin, and their SHA-256."""

    prefix: Prefix
    start: int
    tables_sum: str


def read_prefix(segment: Segment) -> PrefixFile | None:
    """What the file beside a segment says. None: there is none, or it isn't right, or the segment isn't what it was."""
    try:
        with open(index_path(segment.path), "rb") as file:
            line = file.readline(LONGEST_HEAD)
        text = line_json(line)
        if line != hashlib.sha256(text).hexdigest().encode() + b" " + text + b"\n":
            return None
        said = json.loads(text)
        if (said["version"], said["order"], said["segment"], said["former"]) != (VERSION, sys.byteorder, segment.number, segment.former):
            return None
        prefix = Prefix(**{key: said[key] for key in Prefix._fields})
        prefix = prefix._replace(last=[LinePlace(*one) for one in prefix.last])
        return PrefixFile(prefix, len(line), said["tables"]) if is_of(prefix, segment) else None
    except (OSError, ValueError, KeyError, TypeError):
        return None


def is_of(prefix: Prefix, segment: Segment) -> bool:
    """Whether a segment has the bytes of a prefix, as its size, its moment and the last line tell."""
    state = segment.path.stat()
    if state.st_size < prefix.end or (state.st_size == prefix.end and state.st_mtime_ns != prefix.modified):
        return False
    start = prefix.last[-1].start
    before = prefix.last[-2].sum if len(prefix.last) > 1 else segment.former
    with open(segment.path, "rb") as file:
        file.seek(start)
        raw = file.read(min(prefix.end - start, LONGEST_LINE))
    return prefix.sum == sum_after(before, line_json(raw)) and raw == prefix.sum.encode() + b" " + line_json(raw) + b"\n"


def is_as_it_was(segment: Segment, prefix: Prefix) -> bool:
    """Whether all sums of a prefix are right still."""
    now: str | None = segment.former
    end = 0
    with open(segment.path, "rb") as file:
        while now and end < prefix.end and (raw := file.readline(LONGEST_LINE)):
            now, end = sum_if_whole(now, raw), end + len(raw)
    return (end, now) == (prefix.end, prefix.sum)


def unread_lines(reading: Reading, skip: Callable[[Segment, Prefix], None]) -> Iterator[JournalLine]:
    """The lines of a journal but for those of prefixes; `skip` is given each of these, between the lines before and after it."""
    for segment in reading.segments:
        reading.enter(segment)
        if found := read_prefix(segment):
            reading.skip(found.prefix.end, found.prefix.lines, found.prefix.sum)
            skip(segment, found.prefix)
        yield from reading.rest(segment)
