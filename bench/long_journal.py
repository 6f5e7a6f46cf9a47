"""What a long journal takes of the front: its start, its first pages, and its memory.

    python3 bench/long_journal.py PROGRAM [BATCHES ..] [--folder FOLDER]

For each number of batches (300,000 and 3,000,000) it makes a world of 1,000 objects whose number is that, and the journal of 20 people who
gave these their names, by segments of 64 MiB, with the files beside them. Of a short journal it tests that these are as a front makes them.
Then it prints for each of them, in turn in one run: from the start of a front to its first line, the first page of `/history`, the first page
of the history of one object, and the batch of the first number, in seconds on the clock and of processor time; and the memory of the front after
its start and in the end. Each is measured three times, and the median is printed. Before each start the system is asked to forget what it has
of the journal in memory.
"""
from __future__ import annotations

import argparse
import array
import json
import os
import pathlib
import statistics
import sys
import tempfile
import time
from typing import BinaryIO

sys.dont_write_bytecode = True
TOP = pathlib.Path(__file__).resolve().parent.parent
sys.path[:0] = [str(TOP), str(TOP / "web")]
if len(sys.argv) > 1:
    os.environ["MOO"] = os.path.abspath(sys.argv[1])

from tests.support.large import Guest, cpu_of, memory_of  # noqa: E402
from tests.support.operating import KeptService, make_world, said  # noqa: E402
from tests.support.processes import end_all  # noqa: E402
from tests.support.web import Front, add_person  # noqa: E402

from moo_web.journal.history import History  # noqa: E402
from moo_web.journal.journal import SEGMENT_BYTES  # noqa: E402
from moo_web.journal.prefixes import LinePlace, put_prefix  # noqa: E402
from moo_web.journal.segments import FIRST_SUM, SUM_LENGTH, VERSION, Segment, sum_after  # noqa: E402
from moo_web.journal.tables import PLACES, Growing, sum_of, sum_of_calls  # noqa: E402

PEOPLE, OBJECTS, FIRST_OBJECT = 20, 1000, 4
FIRST_MOMENT = 1_700_000_000.0
TRIES = 3
MOST_TESTED = 30_000
# A batch is of the wizard's, and so are its pages.
WIZARD = 3
PAGES = (
    ("the first /history", "/history"),
    ("of an object", f"/history?o={FIRST_OBJECT}"),
    ("the batch of number 1", "/done/1"),
)


def make_world_at(file: pathlib.Path, seq: int) -> None:
    """A world of 1,000 objects that has this number, as after so many batches."""
    former = file.with_suffix(".former")
    make_world(former, "batch as #3\n" + "create(#1)\n" * OBJECTS + "end\n")
    status, dump = said("dump", former)
    text = file.with_suffix(".txt")
    text.write_text(dump.replace("seq 1\n", f"seq {seq}\n", 1))
    loaded = said("load", file, text)
    if status or loaded[0]:
        raise AssertionError(f"the world couldn't be loaded: {loaded}")
    text.unlink()


class Written:
    """A journal as a front writes it, and the files beside its segments, which say what those hold."""

    def __init__(self, folder: pathlib.Path) -> None:
        self.folder, self.sum, self.moment = folder, FIRST_SUM, FIRST_MOMENT
        self.file: BinaryIO | None = None
        self.held: Growing | None = None

    def put(self, text: str) -> int:
        """Appends a line of this JSON, and gives its place."""
        assert self.file and self.held is not None
        self.sum, start = sum_after(self.sum, text.encode()), self.held.end
        self.file.write(f"{self.sum} {text}\n".encode())
        self.held.last.append(LinePlace(start, self.sum))
        self.held.end, self.held.lines, self.held.sum = start + SUM_LENGTH + len(text) + 2, self.held.lines + 1, self.sum
        return start

    def begin(self, seq: int) -> None:
        """Begins a segment."""
        number, former, why = (1 if self.held is None else self.held.segment.number + 1), self.sum, "full" if seq else "new"
        self.close()
        path = self.folder / f"journal-{seq}"
        self.file, self.held = open(path, "xb"), Growing(Segment(path, number, former, VERSION, why, FIRST_SUM, seq), {})
        self.held.seq, self.held.base, self.held.why = seq, seq, why
        said = {"k": "base", "version": VERSION, "segment": number, "seq": seq, "former": former, "t": self.moment, "why": why, "branch": FIRST_SUM}
        self.put(json.dumps(said, separators=(",", ":")))

    def close(self) -> None:
        """Brings the present segment onto the disk, and the file beside it."""
        if self.file and self.held is not None:
            self.file.flush()
            os.fsync(self.file.fileno())
            self.file.close()
            self.held.moment = self.moment
            put_prefix(self.held.segment, self.held.prefix(), self.held.tables())

    def batch(self, at: int) -> None:
        """A batch in which somebody gives an object another name."""
        number, who = FIRST_OBJECT + at * 7919 % OBJECTS, f"person{at % PEOPLE}"
        if self.held is None or self.held.end >= SEGMENT_BYTES:
            self.begin(at)
        held, self.moment = self.held, FIRST_MOMENT + at
        assert held is not None
        new, old = (f'set(#{number}, \\"name\\", \\"lantern {one}, lit at dusk\\")' for one in (at, at - OBJECTS))
        held.intents.append(self.put(
            f'{{"k":"intent","at":{at},"t":{self.moment},"who":"{who}","as":{WIZARD},"calls":["{new}"],"answers":["0"],'
            f'"before":[["{old}"]],"names":{{"#{number}":"lantern {at - OBJECTS}, lit at dusk"}}}}'
        ))  # fmt: skip
        held.outcomes.append(self.put(f'{{"k":"done","seq":{at + 1}}}'))
        held.sums.append(sum_of_calls(who, sum_of([new.replace("\\", "")])))
        place = len(held) - 1
        held.of_people.setdefault(who, array.array(PLACES)).append(place)
        held.of_objects.setdefault(number, array.array(PLACES)).append(place)
        held.seq = at + 1


def make_journal(folder: pathlib.Path, count: int) -> None:
    """The journal of so many batches."""
    written = Written(folder)
    for at in range(count):
        written.batch(at)
    written.close()


def test_files(folder: pathlib.Path) -> None:
    """The files beside the segments have to be those that a front makes which finds none."""
    files = {path: path.read_bytes() for path in folder.glob("index-*")}
    for path in files:
        path.unlink()
    history = History(folder, least=1)
    history.found(None, None, 1)
    history.end()
    for path, text in files.items():
        if path.read_bytes() != text:
            raise AssertionError(f"{path} isn't as a front makes it")


def forget(folder: pathlib.Path) -> None:
    """Asks the system to have none of a folder's files in memory."""
    for path in folder.iterdir():
        with open(path, "rb") as file:
            os.posix_fadvise(file.fileno(), 0, 0, os.POSIX_FADV_DONTNEED)


class Journal:
    """A world of so many batches and its front's folder, to be measured."""

    def __init__(self, room: pathlib.Path, count: int) -> None:
        self.count, self.front = count, room / f"front-{count}"
        self.front.mkdir(0o700)
        began = time.monotonic()
        make_journal(self.front, count)
        self.bytes = sum(path.stat().st_size for path in self.front.glob("journal-*"))
        world = room / f"world-{count}.db"
        make_world_at(world, count)
        self.moo = KeptService(world)
        add_person(self.front, "wizard", WIZARD)
        self.seconds = time.monotonic() - began
        if count <= MOST_TESTED:
            test_files(self.front)
        self.guest = Guest(0)
        front = Front(self.front, self.moo.port)
        self.guest.port = front.port
        self.guest.sign_in("wizard")
        front.kill()
        self.figures: dict[str, list[tuple[float, float]]] = {}
        self.memory: dict[str, list[float]] = {}

    def measure(self) -> None:
        """One start, and the first pages after it."""
        forget(self.front)
        began = time.monotonic()
        front = Front(self.front, self.moo.port)
        if not front.is_listening():
            raise AssertionError(f"the front doesn't start: {front.said()}")
        process = front.process.pid
        self.figures.setdefault("start", []).append((time.monotonic() - began, cpu_of(process)))
        self.memory.setdefault("memory after the start, MB", []).append(memory_of(process))
        self.guest.port = front.port
        for name, path in PAGES:
            before, began = cpu_of(process), time.monotonic()
            status, text = self.guest.asked("GET", path)
            self.figures.setdefault(name, []).append((time.monotonic() - began, cpu_of(process) - before))
            if status != 200:
                raise AssertionError(f"{path} was answered {status} {text[:300]!r}")
        self.memory.setdefault("memory after the pages, MB", []).append(memory_of(process))
        front.kill()

    def tell(self) -> None:
        """Prints what was measured."""
        print(f"{self.count:,} batches, {self.bytes >> 20} MB, made in {self.seconds:.0f} s")
        for name, tries in self.figures.items():
            clock, processor = (statistics.median(each) for each in zip(*tries))
            print(f"    {name:28}{clock:8.2f} s{processor:8.2f} s of the processor")
        for name, megabytes in self.memory.items():
            print(f"    {name:28}{statistics.median(megabytes):8.0f}")


def main() -> None:
    """Measures a journal of each length."""
    parser = argparse.ArgumentParser(description=(__doc__ or "").partition("\n")[0])
    parser.add_argument("program", metavar="PROGRAM")
    parser.add_argument("batches", metavar="BATCHES", type=int, nargs="*", default=[300_000, 3_000_000])
    parser.add_argument("--folder", metavar="FOLDER", help="where the journals are made")
    given = parser.parse_args()
    with tempfile.TemporaryDirectory(dir=given.folder) as name:
        try:
            journals = [Journal(pathlib.Path(name), count) for count in given.batches]
            load = os.getloadavg()[0]
            for _ in range(TRIES):
                for journal in journals:
                    journal.measure()
            print(f"load {load:.1f} to {os.getloadavg()[0]:.1f} on {os.cpu_count()} processors")
            for journal in journals:
                journal.tell()
                journal.moo.stop()
        finally:
            end_all()


if __name__ == "__main__":
    main()
