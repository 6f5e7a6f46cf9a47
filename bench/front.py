"""Batches a second through moo-web, beside moo alone and beside one more sync a batch on the same disk.

    python3 bench/front.py PROGRAM [COUNT [ROUNDS [FOLDER]]]

In each round, on new worlds in FOLDER and by 1 and 16 clients, each a process: COUNT batches of one `set` of a name to moo; the same, each
after a line of 300 bytes was appended to a file and synced, one at a time, as a journal needs it; the same to a front of that world, and to
one with a second folder. It also times the sync alone. A client is a loop in Python that connects, sends, and reads to the end, so its own
time is in each figure. Prints the median of the rounds, with the least and the greatest, in batches a second.
"""
from __future__ import annotations

import concurrent.futures
import fcntl
import os
import pathlib
import socket
import statistics
import subprocess
import sys
import tempfile
import time
from typing import Optional

sys.dont_write_bytecode = True
sys.path.insert(0, os.path.dirname(os.path.dirname(os.path.abspath(__file__))))
from tests.support.processes import end_all  # noqa: E402
from tests.support.service import Service, heard, post  # noqa: E402
from tests.support.web import Front, add_person, lacking  # noqa: E402

CLIENTS = (1, 16)
LINE = b"x" * 299 + b"\n"
FIRST = '{"as":"#3","calls":["create(#1)"]}'
RENAME = '"calls":["set(#4, \\"name\\", \\"Lantern {number}\\")"]'
KINDS = ("moo alone", "moo after one sync", "moo-web", "moo-web, two folders")


def request_of(kind: str, number: int, token: str) -> bytes:
    """The bytes of one batch."""
    calls = RENAME.format(number=number)
    if kind.startswith("moo-web"):
        lines = f"authorization: Bearer {token}\r\nconnection: close\r\nhost:"
        return post("/api/batch", "{" + calls + "}").replace(b"host:", lines.encode(), 1)
    return post("/batch", '{"as":"#3",' + calls + "}")


def send_all(port: int, requests: list[bytes], synced: Optional[pathlib.Path]) -> int:
    """Sends requests one after another, each after a synced line if there is a file for them; how many are answered 200."""
    good = 0
    for request in requests:
        if synced:
            with open(synced, "ab") as file:
                fcntl.flock(file, fcntl.LOCK_EX)
                os.write(file.fileno(), LINE)
                os.fdatasync(file.fileno())
        with socket.create_connection(("127.0.0.1", port), 60) as peer:
            peer.sendall(request)
            good += heard(peer).startswith(b"HTTP/1.1 200 ")
    return good


def rate(program: str, folder: Optional[str], kind: str, count: int, clients: int) -> float:
    """Batches a second of one kind."""
    with tempfile.TemporaryDirectory(dir=folder) as name:
        room = pathlib.Path(name)
        subprocess.run([program, "init", "w.db"], stdout=subprocess.DEVNULL, cwd=room, check=True)
        service = Service(program, "w.db", 1_000_000, folder=name)
        if not service.ask(post("/batch", FIRST)).startswith(b"HTTP/1.1 200 "):
            sys.exit("the service doesn't answer")
        port, token = service.port, ""
        if kind.startswith("moo-web"):
            token = add_person(room / "front", "wizard", 3)
            words = ["--journal", room / "second"] if "two" in kind else []
            port = Front(room / "front", service.port, "--rate", 1_000_000, *words).port
        requests = [request_of(kind, number, token) for number in range(count)]
        synced = room / "synced" if "sync" in kind else None
        with concurrent.futures.ProcessPoolExecutor(clients) as pool:
            # The processes are there before the clock starts.
            list(pool.map(send_all, [port] * clients, [[]] * clients, [None] * clients))
            start = time.perf_counter()
            good = sum(pool.map(send_all, [port] * clients, [requests[first::clients] for first in range(clients)], [synced] * clients))
            taken = time.perf_counter() - start
        end_all()
    if good != count:
        sys.exit(f"{kind}: {good} of {count} batches were answered")
    return count / taken


def syncs(folder: Optional[str], count: int) -> float:
    """Lines a second that are appended to a file, each synced."""
    with tempfile.TemporaryFile(dir=folder) as file:
        start = time.perf_counter()
        for _ in range(count):
            os.write(file.fileno(), LINE)
            os.fdatasync(file.fileno())
        return count / (time.perf_counter() - start)


def main() -> None:
    """Measures the rounds, and prints the medians."""
    if why := lacking():
        sys.exit(why)
    program = os.path.abspath(sys.argv[1])
    count, rounds = (int(word) for word in (sys.argv[2:4] + ["1000", "3"][len(sys.argv[2:4]) :]))
    folder = sys.argv[4] if len(sys.argv) > 4 else None
    rows: dict[str, list[float]] = {}
    for _ in range(rounds):
        rows.setdefault("a sync alone", []).append(syncs(folder, count))
        for clients in CLIENTS:
            for kind in KINDS:
                rows.setdefault(f"{kind}, {clients} client{'s' * (clients > 1)}", []).append(rate(program, folder, kind, count, clients))
    for name, figures in rows.items():
        print(f"{name:36} {statistics.median(figures):7.0f} ({min(figures):.0f} to {max(figures):.0f})")


if __name__ == "__main__":
    main()
