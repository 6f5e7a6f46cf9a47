"""A copy of a front's folder, which is brought up from another machine by what `moo-send` writes there."""

from __future__ import annotations

import collections
import contextlib
import hashlib
import json
import os
import signal
import subprocess
import threading
import time
from pathlib import Path
from typing import IO, Any, Callable, NamedTuple

from moolib.errors import Failed
from moolib.service import packed

from moo_web.journal.journal import hold, write_whole
from moo_web.journal.mending import mended
from moo_web.journal.prefixes import Prefix, unread_lines
from moo_web.journal.segments import FIRST_SUM, SEGMENT_NAME, SUM_LENGTH, Damaged, Reading, Segment, line_json, sum_if_whole
from moo_web.people.keeping import put_people
from moo_web.programs import PEOPLE_FILE, own_folder, sync_folder

VERSION = 1
# As many lines as a stop of the other machine may cost, and more.
OFFERED = 64
LONGEST_HEAD = 1 << 16
LONGEST_FRAME = 1 << 29
SILENT_SECONDS = 30.0
FIRST_REST, LONGEST_REST = 0.2, 5.0


class SentLine(NamedTuple):
    """A line of a journal: the number of its segment, where it begins and ends there, and its sum."""

    segment: int
    start: int
    end: int
    sum: str


class CopyRequest(NamedTuple):
    """What a copy has already, for the side that sends: its last lines, the newest first, and the SHA-256 of its accounts."""

    have: list[SentLine]
    people: str

    def text(self) -> bytes:
        """The line of JSON that says so."""
        return packed({"version": VERSION, "have": self.have, "people": self.people}) + b"\n"


class Copy:
    """A folder with the journal and the people of another one. This process alone writes it. `InUse`: another does."""

    def __init__(self, folder: Path, tell: Callable[[str], None]) -> None:
        self.folder, self.tell = own_folder(str(folder)), tell
        self.held = hold(self.folder)
        try:
            mended(self.folder, tell)
            self.read()
        except BaseException:
            os.close(self.held)
            raise

    def read(self) -> None:
        """Learns what is there."""
        reading = Reading(self.folder)
        self.lines: collections.deque[SentLine] = collections.deque(maxlen=OFFERED)
        for line in unread_lines(reading, self.skip):
            length = SUM_LENGTH + 2 + len(line.text)
            self.lines.append(SentLine(line.segment.number, line.end - length, line.end, line.sum))
        self.paths = {segment.number: segment.path for segment in reading.segments}
        self.sum = reading.sum if reading.segments else FIRST_SUM
        if self.lines:
            with open(self.paths[self.lines[-1].segment], "rb") as file:
                os.fdatasync(file.fileno())
        self.note()

    def skip(self, segment: Segment, prefix: Prefix) -> None:
        """Learns where the last lines are of those that were read before."""
        ends = [*(line.start for line in prefix.last[1:]), prefix.end]
        self.lines.extend(SentLine(segment.number, line.start, end, line.sum) for line, end in zip(prefix.last, ends))

    def note(self) -> None:
        """Notes up to where all is on the disk."""
        self.synced = (self.lines[-1].segment, self.lines[-1].end) if self.lines else (0, 0)

    def request(self) -> CopyRequest:
        """What it has, for the other side."""
        path = self.folder / PEOPLE_FILE
        sum_ = hashlib.sha256(path.read_bytes()).hexdigest() if path.is_file() else ""
        return CopyRequest(list(reversed(self.lines)), sum_)

    def take(self, head: dict[str, Any], text: bytes) -> None:
        """Puts a frame into the folder, and onto the disk. `Failed`: it isn't one that could come now."""
        if head["k"] == "from":
            self.go_back(head["segment"], head["end"])
        elif head["k"] == "lines":
            self.append(head, text)
        elif head["k"] == "people":
            put_people(self.folder, text)
        elif head["k"] == "none":
            raise Damaged(f"{self.folder} has the journal of another world, or a part that the other machine doesn't have: move it away")
        elif head["k"] != "now":
            raise Failed(f"a frame of no known kind came: {head['k']!r}")

    def go_back(self, segment: int, end: int) -> None:
        """Removes the lines after this place, which the other machine has lost."""
        place = next((one for one in self.lines if (one.segment, one.end) == (segment, end)), None)
        if place is None:
            raise Failed("the other side has a line that wasn't offered")
        if place == self.lines[-1]:
            return
        self.tell("the other machine has lost the last lines of the journal: they are removed here too")
        for number in sorted(self.paths, reverse=True):
            if number > segment:
                self.paths[number].unlink()
        with open(self.paths[segment], "r+b") as file:
            file.truncate(end)
            os.fsync(file.fileno())
        sync_folder(self.folder)
        self.read()

    def append(self, head: dict[str, Any], text: bytes) -> None:
        """Appends lines, whose sums have to continue the chain."""
        last = self.lines[-1] if self.lines else None
        path = self.paths.get(head["segment"])
        if path is None:
            is_next = head["at"] == 0 and (last is None or head["segment"] == last.segment + 1)
            if not is_next or not SEGMENT_NAME.fullmatch(head["name"]):
                raise Failed("lines of a segment came that isn't the next one")
            path = self.folder / head["name"]
        elif last is None or (head["segment"], head["at"]) != (last.segment, last.end):
            raise Failed("lines came that don't continue the copy")
        places, now = chained(text, head, self.sum if last else None)
        file = os.open(path, os.O_WRONLY | os.O_APPEND | os.O_CREAT | (os.O_EXCL if not head["at"] else 0), 0o600)
        try:
            write_whole(file, text)
            os.fdatasync(file)
        finally:
            os.close(file)
        if not head["at"]:
            sync_folder(self.folder)
        self.paths[head["segment"]] = path
        self.lines.extend(places)
        self.sum = now
        self.note()

    def close(self) -> None:
        """Lets the folder go."""
        os.close(self.held)


def chained(text: bytes, head: dict[str, Any], former: str | None) -> tuple[list[SentLine], str]:
    """The places of lines that come there, and the last sum. Without a sum before them the first one says it. `Failed`: a sum is wrong."""
    places, at = [], head["at"]
    for raw in text.splitlines(keepends=True):
        if former is None:
            former = str(json.loads(line_json(raw))["former"])
        now = sum_if_whole(former, raw)
        if now is None:
            raise Failed("a line came with a wrong sum")
        places.append(SentLine(head["segment"], at, at + len(raw), now))
        at, former = at + len(raw), now
    return places, former or FIRST_SUM


class Receiver(threading.Thread):
    """Runs a command again and again, whose `moo-send` brings a folder up. `news` is set when something came. `InUse`: as `Copy`."""

    def __init__(self, folder: Path, command: str, tell: Callable[[str], None]) -> None:
        super().__init__(name="receiver", daemon=True)
        self.command, self.tell = command, tell
        self.copy = Copy(folder, tell)
        self.news, self.is_over = threading.Event(), threading.Event()
        self.began = self.heard = time.monotonic()
        # When a frame came last, and when one that made the copy whole; and up to which place it was whole then.
        self.came_at: float | None = None
        self.whole_at: float | None = None
        self.whole = (0, 0)
        self.process: subprocess.Popen[bytes] | None = None
        self.failure: Exception | None = None

    def run(self) -> None:
        rest = FIRST_REST
        while not self.is_over.is_set():
            before = self.whole_at
            try:
                self.receive()
            except Damaged as error:
                self.failure = error
                return
            except (Failed, OSError, ValueError, KeyError, TypeError) as error:
                self.tell(f"{error}. The command is run again")
                self.read_again()
            rest = FIRST_REST if self.whole_at != before else min(2 * rest, LONGEST_REST)
            self.is_over.wait(rest)

    def read_again(self) -> None:
        """Learns anew what is in the folder, after a frame that wasn't put there whole."""
        try:
            mended(self.copy.folder, self.tell)
            self.copy.read()
        except (Damaged, OSError) as error:
            self.failure = error

    def receive(self) -> None:
        """Takes frames until the command ends."""
        how: dict[str, Any] = {"stdin": subprocess.PIPE, "stdout": subprocess.PIPE, "start_new_session": True}
        with subprocess.Popen(["/bin/sh", "-c", self.command], **how) as self.process:
            try:
                assert self.process.stdin and self.process.stdout
                self.heard = time.monotonic()
                self.process.stdin.write(self.copy.request().text())
                self.process.stdin.flush()
                while not self.is_over.is_set() and (frame := read_frame(self.process.stdout)):
                    self.take(*frame)
            finally:
                self.kill()
        if not self.is_over.is_set():
            self.tell(f"the command ended with status {self.process.returncode}. It is run again: {self.command}")

    def take(self, head: dict[str, Any], text: bytes) -> None:
        """Puts a frame into the copy."""
        self.heard = time.monotonic()
        self.copy.take(head, text)
        self.came_at = self.heard
        if head["k"] == "now":
            self.whole, self.whole_at = self.copy.synced, self.heard
        # What the other machine has lost isn't whole any more.
        self.whole = min(self.whole, self.copy.synced)
        self.news.set()

    def kill(self) -> None:
        """Ends the command, and what it has started."""
        process = self.process
        if process and process.poll() is None:
            with contextlib.suppress(ProcessLookupError):
                os.killpg(process.pid, signal.SIGKILL)

    def look(self) -> None:
        """Ends a command that is silent for long. `Damaged`: the folder has to be looked at."""
        if self.failure:
            raise self.failure
        if time.monotonic() > self.heard + SILENT_SECONDS:
            self.heard = time.monotonic()
            self.tell(f"nothing came for {SILENT_SECONDS:.0f} seconds")
            self.kill()

    def synced(self) -> tuple[int, int]:
        """Up to which segment, and which place in it, the copy is on the disk."""
        return self.copy.synced

    def silence(self) -> float:
        """For how many seconds nothing came, since the beginning if nothing ever did."""
        return time.monotonic() - (self.began if self.came_at is None else self.came_at)

    def end(self) -> None:
        """Takes nothing more, and lets the folder go."""
        if self.is_over.is_set():
            return
        self.is_over.set()
        self.kill()
        if self.is_alive():
            self.join()
        self.copy.close()


def read_frame(stream: IO[bytes]) -> tuple[dict[str, Any], bytes] | None:
    """The next frame; None if the stream ends before one is whole. `Failed`: it isn't a frame."""
    line = stream.readline(LONGEST_HEAD)
    if not line.endswith(b"\n"):
        return None
    head = json.loads(line)
    length = head.get("length", 0) if isinstance(head, dict) else -1
    if not isinstance(length, int) or not 0 <= length <= LONGEST_FRAME:
        raise Failed("what came isn't a frame of moo-send")
    text = stream.read(length)
    return (head, text) if len(text) == length else None
