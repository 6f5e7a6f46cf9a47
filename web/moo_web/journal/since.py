"""The accepted batches of a journal after a number of the world, read from its files.

    begin_of(folder)                    the number at which the journal of the present world begins
    batches_since(folder, 5)            the batches 6, 7, .. , as they were accepted

Lines before that number aren't taken apart. The sums are checked when the front starts, and not here.
"""

from __future__ import annotations

import json
import re
from pathlib import Path
from typing import Any, Iterator, NamedTuple

from moo_web.journal.segments import LONGEST_LINE, SUM_LENGTH, Accepted, accepted_of, segments_of

# An intent as the writer puts it, which begins with the number for which it is.
INTENT = re.compile(rb'\{"k":"intent","at":(\d+),')
DONE = b'{"k":"done"'
PETITION = re.compile(rb"petition", re.IGNORECASE)


class SegmentBegin(NamedTuple):
    """A segment of the present world's journal: its file, and the world's number at its begin."""

    path: Path
    seq: int


def present_segments(folder: Path) -> list[SegmentBegin]:
    """The segments since the journal began anew for the last time."""
    found: list[SegmentBegin] = []
    for segment in segments_of(folder)[0]:
        with open(segment.path, "rb") as file:
            said = json.loads(file.readline(LONGEST_LINE)[SUM_LENGTH + 1 :])
        if said["why"] != "full":
            found.clear()
        found.append(SegmentBegin(segment.path, int(said["seq"])))
    return found


def batches_of(path: Path, at: int, pattern: re.Pattern[bytes] | None = None) -> Iterator[Accepted]:
    """The accepted batches of a segment after a number; with a pattern those alone in whose line it is."""
    intents: dict[int, dict[str, Any]] = {}
    with open(path, "rb") as file:
        while (raw := file.readline(LONGEST_LINE)).endswith(b"\n"):
            text = raw[SUM_LENGTH + 1 :]
            found = INTENT.match(text)
            if found and int(found[1]) >= at and (pattern is None or pattern.search(text)):
                intents[int(found[1])] = json.loads(text)
            elif intents and text.startswith(DONE):
                done = json.loads(text)
                intent = intents.pop(done["seq"] - 1, None)
                if intent:
                    yield accepted_of(intent, done)


def batches_since(folder: Path, at: int) -> Iterator[Accepted]:
    """The accepted batches after a number of the present world, ascending."""
    segments = present_segments(folder)
    first = max([place for place, segment in enumerate(segments) if segment.seq <= at], default=0)
    for segment in segments[first:]:
        yield from batches_of(segment.path, at)


def petitions_before(folder: Path, seq: int) -> Iterator[Accepted]:
    """The accepted batches up to a number of the present world that may have made a petition, ascending."""
    for segment in present_segments(folder):
        if segment.seq >= seq:
            return
        for accepted in batches_of(segment.path, segment.seq, PETITION):
            if accepted.seq > seq:
                return
            yield accepted


def begin_of(folder: Path) -> int | None:
    """The number of the present world at which its journal begins; None if there is no journal."""
    segments = present_segments(folder)
    return segments[0].seq if segments else None
