"""A journal that is being written, or copied, read as far as it is whole: line by line, and then what came since.

    tail = Tail(folder)
    for line in tail.lines(): ..     # up to the present end; called again, it goes on there

A line counts if it ends, if its sum is right, and if the sums before it make a chain. So a torn line, one that is half copied and a segment
that came before the end of the one before it are all waited for. `why` then says what isn't right.
"""

from __future__ import annotations

from pathlib import Path
from typing import BinaryIO, Callable, Iterator

from moo_web.journal.segments import LONGEST_LINE, SEGMENT_NAME, Damaged, JournalLine, Segment, has_line, header_of, line_json, sum_if_whole


class LinesGone(Exception):
    """The lines that were read last aren't there any more: power was lost, or the folder has another journal. It has to be read anew."""


class Tail:
    """Reads the journal of a folder from its first segment on. `sum` is that of the last line, and `end` its end in `segment`.

    `limit` gives the number of a segment and a place in it, up to which lines may be read, if not all that are there may be.
    """

    def __init__(self, folder: Path, limit: Callable[[], tuple[int, int]] | None = None) -> None:
        self.folder, self.limit = folder, limit
        self.known: dict[str, tuple[int, Segment]] = {}
        self.segment: Segment | None = None
        self.sum, self.number, self.start, self.end = "", 0, 0, 0
        self.why, self.is_at_limit = "", False

    def lines(self) -> Iterator[JournalLine]:
        """Each line that is whole by now and wasn't given before. `LinesGone`: as that says."""
        self.why, self.is_at_limit = "", False
        if self.segment is None and not self.enter_first():
            return
        while True:
            yield from self.rest()
            if self.why or self.is_at_limit or not self.enter_next():
                return

    def rest(self) -> Iterator[JournalLine]:
        """What is left of the present segment."""
        assert self.segment
        try:
            file = open(self.segment.path, "rb")
        except FileNotFoundError:
            raise LinesGone from None
        with file:
            if not self.is_where_it_was(file):
                raise LinesGone
            file.seek(self.end)
            while raw := file.readline(LONGEST_LINE):
                line = self.whole(raw)
                if line is None:
                    return
                yield line

    def is_where_it_was(self, file: BinaryIO) -> bool:
        """Whether the last line that was read is still there."""
        if not self.end:
            return True
        return has_line(file, self.start, self.end, self.sum)

    def whole(self, raw: bytes) -> JournalLine | None:
        """The line that these bytes are, and the place after it. None: they aren't one, or not yet."""
        assert self.segment
        now = sum_if_whole(self.sum, raw)
        if now is None:
            is_torn = not raw.endswith(b"\n")
            self.why = "its last line isn't whole" if is_torn else f"{self.segment.path}, line {self.number + 1}: its sum is wrong"
            return None
        if self.limit and (self.segment.number, self.end + len(raw)) > self.limit():
            self.is_at_limit = True
            return None
        self.start, self.end, self.number, self.sum = self.end, self.end + len(raw), self.number + 1, now
        return JournalLine(self.segment, self.number, now, line_json(raw), self.end)

    def enter(self, segment: Segment) -> None:
        """Goes on with the first line of a segment."""
        self.segment, self.sum, self.number, self.start, self.end = segment, segment.former, 0, 0, 0

    def enter_first(self) -> bool:
        """Goes to the segment with the lowest number, if there is any."""
        found = self.segments()
        if not found:
            self.why = f"{self.folder} has no journal"
            return False
        self.enter(found[min(found)])
        return True

    def enter_next(self) -> bool:
        """Goes to the segment after the present one, if it continues it."""
        assert self.segment
        found = self.segments()
        after = found.get(self.segment.number + 1)
        if after and after.former == self.sum:
            self.enter(after)
            return True
        if self.segment.number not in found:
            raise LinesGone
        if max(found) > self.segment.number:
            self.why = f"between {self.segment.path.name} and {found[max(found)].path.name} lines are missing"
        return False

    def segments(self) -> dict[int, Segment]:
        """The segments that the folder has now, by their numbers. One whose first line isn't whole isn't among them."""
        known: dict[str, tuple[int, Segment]] = {}
        if self.folder.is_dir():
            for path in self.folder.iterdir():
                if SEGMENT_NAME.fullmatch(path.name):
                    known |= self.known_of(path)
        self.known = known
        found = {segment.number: segment for _, segment in known.values()}
        if len(found) < len(known):
            raise Damaged(f"{self.folder}: two segments have the same number: its journals are of two worlds")
        return found

    def known_of(self, path: Path) -> dict[str, tuple[int, Segment]]:
        """The segment of a file, with the number of that. Its first line is read once for each file."""
        try:
            inode = path.stat().st_ino
            kept = self.known.get(path.name)
            if kept and kept[0] == inode:
                return {path.name: kept}
            segment = header_of(path)
        except FileNotFoundError:
            return {}
        return {path.name: (inode, segment)} if segment else {}
