"""Twenty clients that write at once, each of their batches at most once, beside the same batches sent plainly.

    python3 bench/clients.py PROGRAM [CLIENTS [BATCHES [ROUNDS [FOLDER]]]]

In each round, on a new world in FOLDER: each client, a thread, sends BATCHES batches of two calls (`set` of a name and `move`) to an object
of its own, in turn plainly to `/batch`, by `Moo(port, mark=..)`, and by `Moo(port)`, which asks first and sends with `at`. The last is sent
a tenth of the batches. It prints of each the batches a second, the requests a batch, and the median, the slowest of a hundred (the 99th
percentile) and the slowest of all in milliseconds: the median of the rounds, with the least and the greatest. Threads of Python share one
core, so the client's own time is in each figure.
"""
from __future__ import annotations

import os
import pathlib
import statistics
import sys
import tempfile
import threading
import time
from typing import Any, Callable

sys.dont_write_bytecode = True
sys.path.insert(0, os.path.dirname(os.path.dirname(os.path.abspath(__file__))))
from tests.support.operating import SECONDS, KeptService, make_world  # noqa: E402

from moolib.client import Moo  # noqa: E402
from moolib.service import Service  # noqa: E402
from moolib.values import Obj  # noqa: E402

FIRST = 4
CALLS = ('set(#{own}, "name", "batch {number}")', "move(#{own}, #2)")
FIGURES = ("batches/s", "requests a batch", "median ms", "slowest of 100 ms", "slowest ms")
Send = Callable[[list[str]], Any]


def plainly(port: int, own: Obj) -> tuple[Service, Send]:
    """A client that sends each batch as it is."""
    service = Service(port)
    return service, lambda calls: service.sent("POST", "/batch?why", service.body(3, calls))


def marked(port: int, own: Obj) -> tuple[Service, Send]:
    """A client with a mark, which is made already."""
    world = Moo(port, mark=own, patience=SECONDS)
    world.run([], as_=3)
    return world.service, lambda calls: world.run(calls, as_=3)


def asking(port: int, own: Obj) -> tuple[Service, Send]:
    """A client that asks first."""
    world = Moo(port, alone=True, patience=SECONDS)
    return world.service, lambda calls: world.run(calls, as_=3)


KINDS = (("plain /batch", plainly, 1.0), ("Moo, mark", marked, 1.0), ("Moo, at", asking, 0.1))


class Client(threading.Thread):
    """One client, and how long each of its batches took."""

    def __init__(self, made: tuple[Service, Send], own: Obj, batches: int) -> None:
        super().__init__()
        self.service, self.send = made
        self.own, self.batches, self.requests = own, batches, 0
        self.took: list[float] = []
        inner = self.service.sent

        def sent(*given: Any) -> Any:
            self.requests += 1
            return inner(*given)

        setattr(self.service, "sent", sent)

    def run(self) -> None:
        for number in range(self.batches):
            began = time.monotonic()
            self.send([call.format(own=self.own.number, number=number) for call in CALLS])
            self.took.append(time.monotonic() - began)


def measured(port: int, kind: Callable[[int, Obj], tuple[Service, Send]], clients: int, batches: int) -> tuple[float, ...]:
    """The figures of so many clients of a kind, each with so many batches."""
    threads = [Client(kind(port, Obj(FIRST + place)), Obj(FIRST + place), batches) for place in range(clients)]
    began = time.monotonic()
    for thread in threads:
        thread.start()
    for thread in threads:
        thread.join()
    seconds = time.monotonic() - began
    took = sorted(one for thread in threads for one in thread.took)
    requests = sum(thread.requests for thread in threads)
    slow = took[min(len(took) - 1, int(len(took) * 0.99))]
    return len(took) / seconds, requests / len(took), 1e3 * statistics.median(took), 1e3 * slow, 1e3 * took[-1]


def main(folder: str = "", clients: int = 20, batches: int = 100, rounds: int = 3) -> None:
    """Measures, and prints a line for each kind and figure."""
    found: dict[str, list[tuple[float, ...]]] = {name: [] for name, _, _ in KINDS}
    for _ in range(rounds):
        with tempfile.TemporaryDirectory(dir=folder or None) as room:
            file = pathlib.Path(room) / "world.db"
            make_world(file, "\n".join(["batch as #3", *["create(#1)"] * clients, "end", ""]))
            service = KeptService(file)
            for name, kind, share in KINDS:
                found[name].append(measured(service.port, kind, clients, max(1, int(share * batches))))
            service.stop()
    print(f"{clients} clients, {batches} batches each, {rounds} rounds, load {os.getloadavg()[0]:.1f}")
    for name, figures in found.items():
        for what, column in zip(FIGURES, zip(*figures)):
            print(f"{name:14} {what:18} {statistics.median(column):10.2f}  ({min(column):.2f} to {max(column):.2f})")


if __name__ == "__main__":
    os.environ["MOO"] = os.path.abspath(sys.argv[1])
    main("".join(sys.argv[5:6]), *[int(word) for word in sys.argv[2:5]])
