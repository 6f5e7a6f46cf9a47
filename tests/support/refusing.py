"""Tasks of the program of which some calls fail, by refuse.c: those for memory, and those of a disk, a stream or a connection."""
from __future__ import annotations

import errno
import itertools
import os
import shutil
import socket
import subprocess
import tempfile
from pathlib import Path
from typing import Callable, Iterable, Mapping, Optional

from tests.support.program import MOO
from tests.support.service import PATIENCE, Service, heard

SOURCE = Path(__file__).with_name("refuse.c")
# The library, in the folder of the test.
REFUSER = "refuse.so"
# Below those that the system gives to clients: services that start side by side, and their clients, don't meet.
PORTS = itertools.count(20000)
EVER = 10**9
# What was written, and the status; and the worlds that the file may hold then.
End = tuple[str, int]
Worlds = Iterable[int]
Env = Optional[dict[str, str]]


def build_refuser() -> None:
    """Compiles refuse.c in the present folder."""
    subprocess.run(["cc", "-O1", "-shared", "-fPIC", "-o", REFUSER, SOURCE], check=True, timeout=PATIENCE)


def run(words: list[str], room: str, text: str = "", env: Env = None) -> End:
    """What the program writes, and its status."""
    ran = subprocess.run(
        [MOO, *words], cwd=room, input=text.encode(), stdout=subprocess.PIPE, stderr=subprocess.DEVNULL, env=env, timeout=PATIENCE
    )
    return ran.stdout.decode(), ran.returncode


def next_port() -> int:
    """The next port that nobody listens on."""
    while True:
        port = next(PORTS)
        with socket.socket() as probe:
            probe.setsockopt(socket.SOL_SOCKET, socket.SO_REUSEADDR, 1)
            try:
                probe.bind(("127.0.0.1", port))
                return port
            except OSError:
                continue


class Fault:
    """The calls of a kind fail from one on: that one, or each after it too; or the program is killed."""

    def __init__(self, kind: str, error: int, goes_on: bool = False, piece: Optional[int] = None) -> None:
        self.kind, self.error, self.goes_on, self.piece = kind, error, goes_on, piece

    def env(self, number: int, told: str) -> dict[str, str]:
        """The environment in which the call of that number fails."""
        last = EVER if self.goes_on else number
        found = dict(os.environ, LD_PRELOAD=os.path.abspath(REFUSER), REFUSE=f"{self.kind} {number} {last} {self.error}", REFUSED=told)
        if self.piece:
            found["PIECE"] = str(self.piece)
        return found


class Task:
    """A task on a file: the ends that may come of it, and for each the worlds that may be in the file then: 0 for the one before, 1 for
    the one after it. `is_end` says so of an end that the table hasn't."""

    def __init__(
        self, world: Optional[str], words: list[str], text: str, ends: Mapping[End, Worlds],
        is_end: Optional[Callable[[str, int], Optional[Worlds]]] = None,
    ) -> None:  # fmt: skip
        self.world, self.words, self.text, self.ends = world, words, text, ends
        self.is_end = is_end or (lambda written, status: None)
        self.dumps: list[End] = []
        with tempfile.TemporaryDirectory() as room:
            self.begin(room)
            self.dumps.append(run(["dump", "w.db"], room))
            self.done = self.do(room, None)
            self.dumps.append(run(["dump", "w.db"], room))

    def begin(self, room: str) -> None:
        """Puts the world before the task there."""
        assert self.world
        shutil.copy(self.world, f"{room}/w.db")

    def do(self, room: str, env: Env) -> End:
        """Does the task."""
        return run(self.words, room, self.text, env)

    def holds(self, room: str, world: int) -> bool:
        """Whether the file holds the world before the task, or the one after it."""
        return run(["dump", "w.db"], room) == self.dumps[world]

    def wrong(self, room: str, end: End) -> str:
        """What is wrong with an end, and with the file after it; or nothing."""
        worlds = self.ends.get(end)
        if worlds is None:
            worlds = self.is_end(*end)
        if worlds is None:
            return f"it wrote {end[0]!r}, status {end[1]}"
        if not any(self.holds(room, world) for world in sorted(worlds, reverse=True)):
            return f"it wrote {end[0]!r}, status {end[1]}, and the file then holds {run(['dump', 'w.db'], room)!r}"
        return ""

    def refuse(self, fault: Fault, number: int) -> tuple[bool, str]:
        """Whether a call was refused at that number, and what was wrong."""
        with tempfile.TemporaryDirectory() as room:
            self.begin(room)
            told = f"{room}/told"
            end = self.do(room, fault.env(number, told))
            return os.path.exists(told), self.wrong(room, end)


class Load(Task):
    """A task that is a load of a dump from the standard input into a file that isn't there. The file after it holds the whole world, or
    no tables: then the same load into it is done."""

    def __init__(
        self, dump: str, ends: Mapping[End, Worlds], is_end: Optional[Callable[[str, int], Optional[Worlds]]] = None
    ) -> None:  # fmt: skip
        super().__init__(None, ["load", "w.db", "-"], dump, ends, is_end)
        if self.dumps[1] != (dump, 0):
            raise AssertionError(f"the dump isn't loaded: {self.done}")

    def begin(self, room: str) -> None:
        pass

    def holds(self, room: str, world: int) -> bool:
        if world == 0 and self.do(room, None) != self.done:
            return False
        return super().holds(room, 1) and run(["check", "w.db"], room)[1] == 0


class Post(Task):
    """A task that is a POST to the service of a file; what is written is the answer, and after it the line of the service's end."""

    def do(self, room: str, env: Env) -> End:
        service = Service(MOO, "w.db", 1, port=next_port(), folder=room, env=env)
        if not service.is_listening():
            output, status = service.end()[::-1]
            return service.first + output, status
        try:
            with service.peer() as peer:
                peer.sendall(self.text.encode())
                came = heard(peer)
        except OSError:
            came = b""
        status, output = service.end()
        return came.decode() + output, status


def growths(task: Task) -> int:
    """How many growths a task meets, by halving."""
    low, high = 1, 1 << 20
    while low < high:
        middle = (low + high) // 2
        met, _ = task.refuse(Fault("memory", errno.ENOMEM), middle)
        low, high = (middle + 1, high) if met else (low, middle)
    return low - 1
