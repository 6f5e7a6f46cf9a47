"""What the pages that people load most take of the processors, after a batch and without one, of one checkout or of several side by side.

    python3 bench/after_batch.py PROGRAM [OBJECTS [RUNS [CHECKOUT..]]]

Makes a world of so many objects (100,000), and serves a copy of it for each CHECKOUT (this one) by PROGRAM and by the front of that checkout,
to a wizard. In each of RUNS (6) runs it loads each page 20 times, of all checkouts in turn. A batch renames one object and makes another one.
Prints for each page, a column for each checkout, the requests to moo that one load makes, and for each run the mean of the milliseconds of
processor time of the front and of moo together. What they do within 5 milliseconds after the answer counts too. The load is that of the last
minute.
"""

from __future__ import annotations

import os
import pathlib
import re
import shutil
import statistics
import sys
import tempfile
import time
import urllib.request
from typing import NamedTuple

sys.dont_write_bytecode = True
sys.path.insert(0, os.path.dirname(os.path.dirname(os.path.abspath(__file__))))
os.environ["MOO"] = os.path.abspath(sys.argv[1])
from tests.support.large import FIRST_CLASS, FIRST_THING, Guest, Measured, make_large  # noqa: E402
from tests.support.operating import SECONDS, KeptService, said  # noqa: E402
from tests.support.processes import end_all  # noqa: E402
from tests.support.program import TOP  # noqa: E402
from tests.support.service import free_port  # noqa: E402
from tests.support.web import DEBIANS_PYTHON, Front, add_person, ask  # noqa: E402

LOADS, AFTERWARDS = 20, 0.005
# The front of a checkout, which has time to read a large world also on a busy machine.
PATIENT = """
import sys
sys.dont_write_bytecode = True
checkout = sys.argv.pop(1)
sys.path[:0] = [checkout + "/web", checkout + "/tools"]
from moo_web import serving
from moo_web.world import asking, index
asking.READING = index.READING = 600.0
serving.main()
"""


class Page(NamedTuple):
    """A page that is measured: its address, in which `{seq}` is the number of the last batch, and whether a batch comes before each load."""

    name: str
    path: str
    is_after: bool = False


PAGES = (
    Page("world, after a batch", "/", True),
    Page("what a batch did, after it", "/done/{seq}", True),
    Page("an object, after a batch", f"/o/{FIRST_THING + 77}", True),
    Page("world", "/"),
    Page("an object", f"/o/{FIRST_THING + 77}"),
    Page("a form of an object", f"/edit/{FIRST_THING}"),
    Page("a form to move it", f"/do/move?object=%23{FIRST_THING}"),
    Page("search by a letter", "/find?q=a"),
)


class Side:
    """The front of a checkout, with a world of its own."""

    def __init__(self, checkout: pathlib.Path, world: pathlib.Path, room: pathlib.Path) -> None:
        room.mkdir()
        for end in ("", "-wal"):
            shutil.copy(f"{world}{end}", room / f"world.db{end}")
        self.moo = KeptService(room / "world.db")
        self.token, self.status_port = add_person(room / "front", "wizard", 3), free_port()
        words = ("--rate", 100_000, "--status-port", self.status_port)
        self.front = Front(room / "front", self.moo.port, *words, script=(DEBIANS_PYTHON, "-c", PATIENT, checkout))
        self.guest = Guest(self.front.port)
        self.guest.sign_in("wizard")
        self.batches = self.seq = 0

    def cpu(self) -> float:
        """The milliseconds of processor time that the front and moo have taken."""
        assert self.moo.process
        return sum(1000 * time.clock_gettime(~process << 3 | 2) for process in (self.front.process.pid, self.moo.process.pid))

    def asked(self) -> int:
        """How many requests the front has sent to moo."""
        with urllib.request.urlopen(f"http://127.0.0.1:{self.status_port}/metrics") as answer:
            text = answer.read().decode()
        return sum(int(count) for count in re.findall(r"^moo_request_seconds_count\{.*\} (\d+)$", text, re.M))

    def write(self) -> None:
        """A batch that renames an object and makes another one."""
        self.batches += 1
        calls = [f'set(#{FIRST_THING + self.batches % 500}, "name", "renamed {self.batches}")', f"create(#{FIRST_CLASS})"]
        status, end = 503, time.monotonic() + SECONDS
        while status == 503 and time.monotonic() < end:
            # On a busy machine the front may say that moo doesn't answer in time: nothing was sent then.
            status, answer = ask(self.front.port, "POST", "/api/batch", {"calls": calls}, self.token)
        if status != 200:
            raise AssertionError(f"a batch was answered {status} {answer}")
        self.seq = answer["seq"]
        time.sleep(AFTERWARDS)

    def load(self, page: Page) -> float:
        """The milliseconds of processor time of one load."""
        if page.is_after:
            self.write()
        before = self.cpu()
        Measured.must(self.guest, page.path.format(seq=self.seq))
        time.sleep(AFTERWARDS)
        return self.cpu() - before

    def requests(self, page: Page) -> int:
        """How many requests to moo one load makes."""
        if page.is_after:
            self.write()
        before = self.asked()
        Measured.must(self.guest, page.path.format(seq=self.seq))
        return self.asked() - before


def show(sides: list[Side], runs: int) -> None:
    """Measures, and prints a line for each page, and at the end one with the mean of the runs."""
    for side in sides:
        for page in PAGES:
            side.load(page)
    for page in PAGES:
        print(f"{page.name:28} requests to moo: {', '.join(str(side.requests(page)) for side in sides)}")
    taken: dict[Page, list[list[float]]] = {page: [] for page in PAGES}
    for run in range(runs):
        print(f"run {run + 1}, load {os.getloadavg()[0]:.0f}")
        for page in PAGES:
            loads = [[side.load(page) for side in sides] for _ in range(LOADS)]
            taken[page].append([statistics.mean(figures) for figures in zip(*loads)])
            print(line_of(page, taken[page][-1]), flush=True)
    print(f"the mean of the runs, load {os.getloadavg()[0]:.0f}")
    for page in PAGES:
        print(line_of(page, [statistics.mean(figures) for figures in zip(*taken[page])]))


def line_of(page: Page, figures: list[float]) -> str:
    """The line of a page, with a figure for each side."""
    return f"{page.name:28}" + "".join(f"{figure:8.1f}" for figure in figures)


def main() -> None:
    """Measures the checkouts."""
    count, runs = (int(word) for word in (sys.argv[2:4] + ["100000", "6"][len(sys.argv[2:4]) :]))
    checkouts = [pathlib.Path(word).resolve() for word in sys.argv[4:]] or [TOP]
    print(f"{said('--version')[1].strip()}, {count:,} objects, {os.cpu_count()} processors, means of {LOADS} in milliseconds of processor time")
    with tempfile.TemporaryDirectory() as name:
        room = pathlib.Path(name)
        make_large(room / "world.db", count)
        sides: list[Side] = []
        try:
            for place, checkout in enumerate(checkouts):
                print(f"{place + 1}: {checkout}")
                sides.append(Side(checkout, room / "world.db", room / str(place)))
            show(sides, runs)
        finally:
            for side in sides:
                side.moo.stop()
            end_all()


if __name__ == "__main__":
    main()
