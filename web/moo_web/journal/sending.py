"""The program `moo-send`: gives the journal of a front, and its people, to who asks for them over a pipe, as over ssh.

It reads a line of JSON, which says what the other side has: `{"version":1,"have":[[SEGMENT,START,END,SUM],..],"people":SHA256}`, the last
lines of its copy, the newest first. Then it writes frames: a line of JSON, and as many bytes as that says under `length`:

    {"k":"from","segment":1,"end":170}                                 the copy is right up to there; what it has more has to go
    {"k":"lines","name":"journal-0","segment":1,"at":170,"length":N}   whole lines with right sums, which come there
    {"k":"people","length":N}                                          the accounts, a file of SQLite
    {"k":"now"}                                                        there is no more now; once a second
    {"k":"none"}                                                       the copy is of another journal
"""

from __future__ import annotations

import argparse
import hashlib
import json
import sqlite3
import sys
import time
from pathlib import Path
from typing import Any, Iterator

from moolib import __version__
from moolib.errors import Failed
from moolib.service import packed

from moo_web.journal.history import History
from moo_web.journal.receiving import VERSION, Copy, CopyRequest, SentLine
from moo_web.journal.segments import SUM_LENGTH, Damaged, Segment, has_line
from moo_web.journal.tail import LinesGone, Tail
from moo_web.people.keeping import people_in, state_of_accounts
from moo_web.status.standbys import Progress

PAUSE = 0.05
NOW_EVERY = 1.0
LARGEST_FRAME = 1 << 20
USAGE = """moo-send FOLDER
       moo-send FOLDER COPY"""
MORE = """
FOLDER is that of moo-web, which may run meanwhile. With one word it serves one `moo-replay --follow --from`, by standard input and output.
With two it brings the folder COPY up to FOLDER, and ends. Exit status: 0 done, 1 it can't be done, 2 the words are wrong.
"""

Frame = tuple[dict[str, Any], bytes]


def read_request(text: bytes) -> CopyRequest:
    """The request that a line is. `Failed`: it isn't one."""
    try:
        said = json.loads(text)
        places = [SentLine(int(segment), int(start), int(end), str(sum_)) for segment, start, end, sum_ in said["have"]]
        request = CopyRequest(places, str(said["people"]))
    except (ValueError, TypeError, KeyError):
        raise Failed("standard input has no request: this is run by `moo-replay --follow --from`") from None
    if said["version"] != VERSION:
        raise Failed(f"the other side has version {said['version']}, and this program has version {VERSION}")
    return request


# Which key of a line has the number of the world, by its kind.
NUMBERS = {"base": "seq", "intent": "at", "done": "seq", "void": "at", "gap": "journal"}


class Sender:
    """Sends what one other side lacks. `seq` is the number of the world up to which that has it."""

    def __init__(self, folder: Path, request: CopyRequest) -> None:
        self.folder, self.request = folder, request
        self.seq = 0
        self.tail = Tail(folder)
        self.people_sum, self.people_state = request.people, (0, 0)

    def frames(self, is_once: bool) -> Iterator[Frame]:
        """What is to be sent, without end or up to the present one. `LinesGone`: the journal isn't what it was any more."""
        place = self.common()
        if place is None and self.request.have:
            yield {"k": "none"}, b""
            return
        if place:
            yield {"k": "from", "segment": place.segment, "end": place.end}, b""
        last = 0.0
        while True:
            sent = 0
            for frame in self.lines():
                sent += 1
                yield frame
            if sent or time.monotonic() > last + NOW_EVERY:
                yield from self.people()
                yield {"k": "now"}, b""
                last = time.monotonic()
            if is_once:
                return
            time.sleep(PAUSE)

    def common(self) -> SentLine | None:
        """The newest line of the other side's that is here too. The tail goes on there; without any it begins with the first segment."""
        segments = self.tail.segments()
        for place in self.request.have:
            segment = segments.get(place.segment)
            if segment and is_there(segment, place):
                self.tail.enter(segment)
                self.tail.start, self.tail.end, self.tail.sum = place.start, place.end, place.sum
                with open(segment.path, "rb") as file:
                    file.seek(place.start + SUM_LENGTH + 1)
                    self.seq = world_number_in(json.loads(file.read(place.end - file.tell())))
                return place
        return None

    def lines(self) -> Iterator[Frame]:
        """The lines that came since, in frames that aren't much longer than a mebibyte unless a line is."""
        kept: list[bytes] = []
        first, size = 0, 0
        segment: Segment | None = None
        for line in self.tail.lines():
            if segment and (segment is not line.segment or size >= LARGEST_FRAME):
                yield frame_of(segment, first, b"".join(kept))
                kept, size, segment = [], 0, None
            text = line.sum.encode() + b" " + line.text + b"\n"
            if segment is None:
                segment, first = line.segment, line.end - len(text)
            kept.append(text)
            size += len(text)
        if segment:
            self.seq = world_number_in(line.said())
            yield frame_of(segment, first, b"".join(kept))

    def people(self) -> Iterator[Frame]:
        """The accounts, if they have changed."""
        state = state_of_accounts(self.folder)
        if state == self.people_state:
            return
        self.people_state = state
        text = people_in(self.folder)
        sum_ = hashlib.sha256(text).hexdigest()
        if text and sum_ != self.people_sum:
            self.people_sum = sum_
            yield {"k": "people", "length": len(text)}, text


def world_number_in(said: dict[str, Any]) -> int:
    """The number of the world that a line of a journal has."""
    return int(said[NUMBERS[said["k"]]])


def is_there(segment: Segment, place: SentLine) -> bool:
    """Whether a segment has this line at this place."""
    with open(segment.path, "rb") as file:
        return has_line(file, place.start, place.end, place.sum)


def frame_of(segment: Segment, at: int, text: bytes) -> Frame:
    """The frame of some lines of a segment."""
    return {"k": "lines", "name": segment.path.name, "segment": segment.number, "at": at, "length": len(text)}, text


def send(folder: Path) -> None:
    """Serves one request, until the other side goes."""
    sender = Sender(folder, read_request(sys.stdin.buffer.readline()))
    progress = Progress(folder)
    for head, text in sender.frames(False):
        sys.stdout.buffer.write(packed(head) + b"\n" + text)
        sys.stdout.buffer.flush()
        if head["k"] == "now":
            progress.put(sender.seq)


def bring_copy_up(folder: Path, target: str) -> None:
    """Brings a copy up to a folder, once."""
    copy = Copy(Path(target), lambda text: print(f"moo-send: {text}", file=sys.stderr))
    try:
        for head, text in Sender(folder, copy.request()).frames(True):
            copy.take(head, text)
        History(copy.folder).end()
    finally:
        copy.close()


def main() -> None:
    """Runs the program with the words of the command line."""
    parser = argparse.ArgumentParser(prog="moo-send", usage=USAGE, description="Gives the journal of a front.", epilog=MORE)
    parser.add_argument("--version", action="version", version=f"%(prog)s {__version__}")
    parser.add_argument("folder", metavar="FOLDER", type=Path)
    parser.add_argument("copy", metavar="COPY", nargs="?")
    said = parser.parse_args()
    try:
        if not said.folder.is_dir():
            raise Failed(f"{said.folder} isn't a folder")
        if said.copy:
            bring_copy_up(said.folder, said.copy)
        else:
            send(said.folder)
    except LinesGone:
        sys.exit("moo-send: the last lines of the journal aren't there any more; the other side asks again")
    except BrokenPipeError:
        # The other side has gone.
        sys.stderr.close()
        sys.exit(1)
    except (Failed, Damaged, OSError, sqlite3.Error) as error:
        sys.exit(f"moo-send: {error}")
    except KeyboardInterrupt:
        sys.exit(130)
