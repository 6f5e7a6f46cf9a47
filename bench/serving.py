"""Requests a second that the service answers on loopback, beside the same batches by `apply FILE -`.

    python3 bench/serving.py PROGRAM [COUNT [CLIENTS [ROUNDS [FOLDER [PEERS]]]]]

In each round, on new worlds: COUNT times GET /seq, and COUNT times POST /batch of one `set` of a name, by one client and by CLIENTS at
once, each a process; and the same batches in one run of `apply`. The worlds are in files of FOLDER and in memory. In memory GET /seq is
also asked beside PEERS that are silent and beside PEERS that send a byte a second, 12 if it isn't said. A client is a loop in Python that
connects, sends, and reads to the end, so its own time is in each figure. Prints the median of the rounds, with the least and the
greatest, in requests a second.
"""
from __future__ import annotations

import concurrent.futures
import contextlib
import os
import socket
import statistics
import subprocess
import sys
import tempfile
import threading
import time
from functools import partial
from typing import Callable, Iterator, Optional

sys.dont_write_bytecode = True
sys.path.insert(0, os.path.dirname(os.path.dirname(os.path.abspath(__file__))))
from tests.support.service import Service, get, heard, post  # noqa: E402

FIRST = "batch as #3\ncreate(#1)\nend\n"
MAKE = post("/batch", '{"as":"#3","calls":["create(#1)"]}')
RENAME = '{{"as":"#3","calls":["set(#4, \\"name\\", \\"Lantern {number}\\")"]}}'


def ask_all(port: int, requests: list[bytes]) -> int:
    """Sends requests one after another; how many are answered 200."""
    good = 0
    for request in requests:
        with socket.create_connection(("127.0.0.1", port), 60) as peer:
            peer.sendall(request)
            good += heard(peer).startswith(b"HTTP/1.1 200 ")
    return good


@contextlib.contextmanager
def crowd(service: Service, silent: int, slow: int) -> Iterator[None]:
    """So many peers of a service that send nothing, and so many that send a byte a second."""
    peers = [service.peer() for _ in range(silent + slow)]
    is_over = threading.Event()

    def trickle() -> None:
        for place in range(len(MAKE)):
            for peer in peers[silent:]:
                peer.send(MAKE[place : place + 1])
            if is_over.wait(1):
                return

    thread = threading.Thread(target=trickle)
    thread.start()
    try:
        yield
    finally:
        is_over.set()
        thread.join()
        for peer in peers:
            peer.close()


def served(program: str, folder: Optional[str], world: str, requests: list[bytes], clients: int, silent: int = 0, slow: int = 0) -> float:
    """Requests a second, sent by so many clients at once to a new world with #4, beside silent and slow peers."""
    with tempfile.TemporaryDirectory(dir=folder) as room:
        if world != ":memory:":
            subprocess.run([program, "init", world], stdout=subprocess.DEVNULL, cwd=room, check=True)
        service = Service(program, world, len(requests) + 1 + silent + slow, folder=room)
        if not service.is_listening() or not service.ask(MAKE).startswith(b"HTTP/1.1 200 "):
            sys.exit(f"the service doesn't answer: {service.first!r}")
        shares = [requests[first::clients] for first in range(clients)]
        with concurrent.futures.ProcessPoolExecutor(clients) as pool:
            # The processes are there before the clock starts.
            list(pool.map(ask_all, [service.port] * clients, [[]] * clients))
            with crowd(service, silent, slow):
                start = time.perf_counter()
                good = sum(pool.map(ask_all, [service.port] * clients, shares))
                taken = time.perf_counter() - start
        status, line = service.end()
        counts = [int(word) for word in line.split()[1::2]]
        if good != len(requests) or status or sum(counts) != len(requests) + 1 + silent + slow:
            sys.exit(f"{good} of {len(requests)} requests were answered")
    return len(requests) / taken


def applied(program: str, folder: Optional[str], world: str, count: int) -> float:
    """Batches a second in one run of `apply`, less what a run of the first batch alone takes."""
    renamings = "".join(f'batch as #3\nset(#4, "name", "Lantern {number}")\nend\n' for number in range(count))
    times = []
    for text in (FIRST, FIRST + renamings):
        with tempfile.TemporaryDirectory(dir=folder) as room:
            if world != ":memory:":
                subprocess.run([program, "init", world], stdout=subprocess.DEVNULL, cwd=room, check=True)
            start = time.perf_counter()
            ran = subprocess.run([program, "apply", world, "-"], input=text.encode(), stdout=subprocess.PIPE, cwd=room, check=True)
            times.append(time.perf_counter() - start)
    if not ran.stdout.endswith(f"accepted {count + 1}\n0\nend\n".encode()):
        sys.exit("apply answered something else")
    return count / (times[1] - times[0])


def main() -> None:
    """Measures the rounds, and prints the medians."""
    program = os.path.abspath(sys.argv[1])
    count, clients, rounds = (int(word) for word in (sys.argv[2:5] + ["1000", "4", "5"][len(sys.argv[2:5]):]))
    folder = sys.argv[5] if len(sys.argv) > 5 else None
    peers = int(sys.argv[6]) if len(sys.argv) > 6 else 12
    looks = [get("/seq")] * count
    batches = [post("/batch", RENAME.format(number=number)) for number in range(count)]
    rows: list[tuple[str, Callable[[], float]]] = []
    for world, where in (("world.db", "a file"), (":memory:", "memory")):
        rows.append((f"{where}: GET /seq, one client", partial(served, program, folder, world, looks, 1)))
        rows.append((f"{where}: POST /batch, one client", partial(served, program, folder, world, batches, 1)))
        rows.append((f"{where}: POST /batch, {clients} clients", partial(served, program, folder, world, batches, clients)))
        rows.append((f"{where}: apply", partial(applied, program, folder, world, count)))
    rows.append((f"memory: GET /seq, one client beside {peers} silent", partial(served, program, folder, ":memory:", looks, 1, peers, 0)))
    rows.append((f"memory: GET /seq, one client beside {peers} slow", partial(served, program, folder, ":memory:", looks, 1, 0, peers)))
    rates: dict[str, list[float]] = {name: [] for name, _ in rows}
    for _ in range(rounds):
        for name, take in rows:
            rates[name].append(take())
    print(f"{count} requests, {rounds} rounds; load {os.getloadavg()[0]:.1f}")
    for name, came in rates.items():
        print(f"{name}: {statistics.median(came):,.0f} a second ({min(came):,.0f} to {max(came):,.0f})")


if __name__ == "__main__":
    main()
