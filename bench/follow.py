"""How long after a batch's answer a follower at the front knows of it, and what followers and names cost.

    python3 bench/follow.py PROGRAM [BATCHES [FOLLOWERS [FOLDER]]]

A front of a new world in FOLDER; FOLLOWERS clients follow `/api/since/S`, each a thread of this process, while another sends BATCHES
batches one after another, each a moment after all followers know of the one before. It prints, in milliseconds, the median and the greatest
of: from a batch's answer to its arrival at the first follower and at the last one; negative if it came before the answer. Then twenty
clients, each a thread, send batches by the front: plainly, with a mark, and with names.
"""
from __future__ import annotations

import os
import pathlib
import statistics
import sys
import tempfile
import threading
import time
from collections.abc import Sequence

sys.dont_write_bytecode = True
sys.path.insert(0, os.path.dirname(os.path.dirname(os.path.abspath(__file__))))
from tests.support.operating import SECONDS, KeptService, make_world  # noqa: E402
from tests.support.processes import end_all  # noqa: E402
from tests.support.web import Front, add_person  # noqa: E402

from moolib.client import Moo  # noqa: E402
from moolib.values import Obj  # noqa: E402

CLIENTS = 20
FIRST = 4


class Follower(threading.Thread):
    """Notes when each number came."""

    def __init__(self, world: Moo, since: int) -> None:
        super().__init__(daemon=True)
        self.changes, self.moved = world.changes(since), threading.Condition()
        self.came: dict[int, float] = {}

    def run(self) -> None:
        for change in self.changes:
            with self.moved:
                self.came[change.seq] = time.monotonic()
                self.moved.notify_all()

    def wait_for(self, seq: int) -> float:
        """The moment at which a number came."""
        with self.moved:
            self.moved.wait_for(lambda: seq in self.came, SECONDS)
            return self.came[seq]


def arrivals(worlds: list[Moo], writer: Moo, batches: int) -> list[tuple[float, float]]:
    """The milliseconds from each answer to the first and to the last arrival."""
    since = writer.seq()
    followers = [Follower(world, since) for world in worlds]
    for follower in followers:
        follower.start()
    time.sleep(1)
    found = []
    for number in range(batches):
        writer.run([f'set(#{FIRST}, "name", "{number}")'])
        answered = time.monotonic()
        came = [follower.wait_for(since + number + 1) for follower in followers]
        found.append((1e3 * (min(came) - answered), 1e3 * (max(came) - answered)))
        time.sleep(0.02)
    return found


class Plain:
    """Sends batches as they are."""

    def __init__(self, world: Moo) -> None:
        self.service = world.service

    def run(self, calls: list[str]) -> object:
        """The answer, whatever it says."""
        return self.service.sent("POST", "/batch?why", self.service.body(None, calls))


def rate(worlds: Sequence[Moo | Plain], calls: str, batches: int) -> float:
    """Batches a second of clients that send at once."""

    def work(place: int) -> None:
        for number in range(batches):
            worlds[place].run([call.format(own=FIRST + place, number=number) for call in calls.split(";")])

    threads = [threading.Thread(target=work, args=(place,)) for place in range(len(worlds))]
    began = time.monotonic()
    for thread in threads:
        thread.start()
    for thread in threads:
        thread.join()
    return len(worlds) * batches / (time.monotonic() - began)


def main(folder: str = "", batches: int = 200, followers: int = 10) -> None:
    """Measures, and prints."""
    with tempfile.TemporaryDirectory(dir=folder or None) as name:
        room = pathlib.Path(name)
        make_world(room / "world.db", "\n".join(["batch as #3", *["create(#1)"] * CLIENTS, "end", ""]))
        service = KeptService(room / "world.db")
        token = add_person(room / "front", "wizard", 3)
        front = Front(room / "front", service.port, "--rate", 1_000_000)
        url = f"http://127.0.0.1:{front.port}/"
        marked = [Moo(url, token=token, mark=Obj(FIRST + place), patience=SECONDS) for place in range(CLIENTS)]
        for world in marked:
            world.run([])
        for count in (1, followers):
            first, last = zip(*arrivals([Moo(url, token=token) for _ in range(count)], marked[0], batches))
            for what, column in (("first", first), ("last", last)):
                print(f"{count:3} followers, {what:5} {statistics.median(column):8.1f} ms, at most {max(column):.1f} ms")
        plain = [Plain(world) for world in marked]
        for what, calls in (("", 'set(#{own}, "name", "{number}");move(#{own}, #2)'), (", names", '$a = create(#{own});set($a, "name", "{number}")')):
            print(f"{CLIENTS} clients plainly{what}: {rate(plain, calls, max(1, batches // 10)):.0f} batches/s")
            print(f"{CLIENTS} clients with a mark{what}: {rate(marked, calls, max(1, batches // 10)):.0f} batches/s")
        print(f"load {os.getloadavg()[0]:.1f}")
        service.stop()
        end_all()


if __name__ == "__main__":
    os.environ["MOO"] = os.path.abspath(sys.argv[1])
    main("".join(sys.argv[4:5]), *[int(word) for word in sys.argv[2:4]])
