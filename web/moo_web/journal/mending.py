"""A journal at the start of its front: its sums are checked, a torn tail is cut off, and of two folders the shorter one is completed."""

from __future__ import annotations

import collections
import os
import shutil
import time
from pathlib import Path
from typing import Any, BinaryIO, Callable

from moolib.private import for_owner_alone

from moo_web.journal.prefixes import Prefix, unread_lines
from moo_web.journal.segments import Damaged, JournalLine, Reading, Segment, branch_of
from moo_web.programs import sync_folder

PIECE = 1 << 20
# More than the intents that can be open at once.
MOST_OPEN = 64


class Survey:
    """What the lines of a folder say: the last number and moment, the intents that may be open, and a gap.

    Lines that were read before aren't read again: `prefixes` has what is known of them, by the numbers of their segments.
    """

    def __init__(self, folder: Path) -> None:
        self.reading = Reading(folder)
        self.prefixes: dict[int, Prefix] = {}
        # What the last prefix said, if no line after it says more.
        self.seq: int | None = None
        self.moment = 0.0
        self.gap: dict[str, Any] | None = None
        self.number: JournalLine | None = None
        self.timed: JournalLine | None = None
        self.last_gap: JournalLine | None = None
        self.branch = branch_of(self.reading.segments)
        self.intents: collections.deque[JournalLine] = collections.deque(maxlen=MOST_OPEN)
        for line in unread_lines(self.reading, self.skip):
            self.take(line, line.kind)
        self.read_last()

    def skip(self, segment: Segment, prefix: Prefix) -> None:
        """Learns from lines that were read before."""
        self.prefixes[segment.number] = prefix
        self.read_last()
        self.seq, self.moment = prefix.seq, prefix.moment
        if prefix.why != "full" or prefix.gap:
            self.gap = prefix.gap
        self.intents.clear()

    def take(self, line: JournalLine, kind: str) -> None:
        """Learns from one line. It is read whole only if it turns out to be a last one."""
        if kind in ("base", "done"):
            self.number = line
        if kind in ("base", "intent", "gap"):
            self.timed = line
        if kind == "gap":
            self.last_gap = line
        if kind == "intent":
            self.intents.append(line)
        if kind == "void":
            at = line.said()["at"]
            self.intents = collections.deque((one for one in self.intents if one.said()["at"] < at), MOST_OPEN)
        if kind == "base":
            self.intents.clear()
            if line.said()["why"] != "full":
                self.last_gap = self.gap = None

    def read_last(self) -> None:
        """Reads the lines that turned out to be last ones."""
        if self.number:
            self.seq = int(self.number.said()["seq"])
        if self.timed:
            self.moment = float(self.timed.said()["t"])
        if self.last_gap:
            self.gap = self.last_gap.said()
        self.number = self.timed = self.last_gap = None

    def open_intents(self) -> list[dict[str, Any]]:
        """The intents whose outcome isn't known, in their order."""
        seq = self.seq or 0
        return [said for said in (line.said() for line in self.intents) if said["at"] >= seq]

    @property
    def length(self) -> tuple[int, int]:
        """How far the journal goes: the number of its last segment, and the bytes of that."""
        segments = self.reading.segments
        return (segments[-1].number, self.reading.end) if segments else (0, 0)


def whole_journal(folders: list[Path], tell: Callable[[str], None]) -> Survey:
    """The journal of one folder or of two, after its mending. `Damaged`: it can't be mended."""
    found = [mended(folder, tell) for folder in folders]
    if len(found) == 1:
        return found[0]
    less, more = (0, 1) if found[0].length < found[1].length else (1, 0)
    complete(found[more], found[less], folders[less], tell)
    return found[more]


def mended(folder: Path, tell: Callable[[str], None]) -> Survey:
    """What is in a folder, after a torn tail was cut off."""
    found = Survey(folder)
    for path in found.reading.headless:
        tell(f"{path}: the first line of a segment was torn, and nothing was sent after it: the file was removed")
        path.unlink()
    if found.reading.torn:
        cut_tail(found.reading, tell)
    return found


def cut_tail(reading: Reading, tell: Callable[[str], None]) -> None:
    """Cuts the torn last line off, and says so. One that was whole once is kept aside."""
    path = reading.segments[-1].path
    if reading.is_whole_line:
        aside = path.with_name(f"damaged-{path.name}-{int(time.time())}")
        with open(path, "rb") as file, open(aside, "wb", opener=for_owner_alone) as copy:
            file.seek(reading.end)
            copy.write(file.read())
        tell(f"{path}: the last line was damaged: its {reading.torn} bytes were moved to {aside}; the world's number tells what it was")
    else:
        tell(f"{path}: the last line was torn, and was never sent: its {reading.torn} bytes were cut off")
    with open(path, "r+b") as file:
        file.truncate(reading.end)
        os.fsync(file.fileno())


def complete(full: Survey, part: Survey, folder: Path, tell: Callable[[str], None]) -> None:
    """Copies to a folder what it lacks of the journal. Older segments that were moved away from it aren't brought back."""
    have = {segment.number: segment.path for segment in part.reading.segments}
    added = 0
    for segment in full.reading.segments:
        if not have or segment.number >= min(have):
            path = have.get(segment.number, folder / segment.path.name)
            added += copy_rest(segment.path, path, common_end(full.prefixes.get(segment.number), part.prefixes.get(segment.number)))
    sync_folder(folder)
    if added:
        tell(f"{folder} lacked {added} bytes of the journal, which were copied from the other folder")


def common_end(one: Prefix | None, other: Prefix | None) -> int:
    """How many bytes two prefixes of a segment have in common for sure: equal sums at one place are of equal lines."""
    return one.end if one and other and (one.end, one.sum) == (other.end, other.sum) else 0


def copy_rest(source: Path, target: Path, first: int) -> int:
    """Copies what a segment has beyond the same segment of another folder, and gives how many bytes that was.

    Both have the same `first` bytes.
    """
    with open(source, "rb") as full, open(target, "a+b", opener=for_owner_alone) as part:
        size = part.seek(0, os.SEEK_END)
        part.seek(first)
        full.seek(first)
        if not is_beginning(part, full, size - first):
            raise Damaged(f"{target} and {source} differ, and each is whole: one of them is of another journal")
        shutil.copyfileobj(full, part, PIECE)
        part.flush()
        os.fsync(part.fileno())
        return part.seek(0, os.SEEK_END) - size


def is_beginning(part: BinaryIO, full: BinaryIO, size: int) -> bool:
    """Whether the first bytes of two files are the same."""
    while size > 0:
        piece = part.read(min(PIECE, size))
        if not piece or piece != full.read(len(piece)):
            return False
        size -= len(piece)
    return True
