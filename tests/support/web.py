"""The front's modules and programs, for their tests: a world, its front as a process, and a client of `/api/`."""

from __future__ import annotations

import http.client
import json
import os
import pathlib
import subprocess
import sys
import tempfile
import threading
import unittest
from typing import Any, Callable, Optional, Sequence

from tests.support import processes
from tests.support.operating import SECONDS
from tests.support.program import MOO, TOP
from tests.support.service import free_port

WEB = TOP / "web"
DEBIANS_PYTHON = "/usr/bin/python3"
PASSWORD = "a password"


def use_web() -> None:
    """Makes the modules of web/ known. Those of tools/, on which they are, are known already."""
    sys.path.insert(0, str(WEB))


def whose_token(people: Any, secret: str) -> Any:
    """The person whose token this is, by these accounts; None if it is nobody's."""
    found = people.tokens.bearer(secret)
    return found.person if found else None


def lacking() -> str:
    """What is missing to run the front, and the command that installs it; nothing, if it can run."""
    try:
        found = subprocess.run([DEBIANS_PYTHON, "-I", "-c", "import waitress"], stderr=subprocess.DEVNULL, check=False)
    except OSError:
        return "Debian's Python is missing: apt-get install python3 python3-waitress"
    return "" if found.returncode == 0 else "waitress is missing: apt-get install python3-waitress"


def program(name: str, *words: object, text: str = "") -> tuple[int, str, str]:
    """How a program of web/ ends: its status, what it printed, and what it said on standard error."""
    env = dict(os.environ, MOO=MOO)
    ran = subprocess.run([WEB / name, *map(str, words)], input=text, capture_output=True, text=True, timeout=SECONDS, env=env, check=False)
    return ran.returncode, ran.stdout, ran.stderr


def add_person(folder: object, name: str, number: int) -> str:
    """Makes an account, and gives its token."""
    for words, text in ((("add", name, number), f"{PASSWORD}\n"), (("token", name), "")):
        status, printed, told = program("moo-people", folder, *words, text=text)
        if status:
            raise AssertionError(f"moo-people {words}: {told}")
    return printed.strip()


class RoomTest(unittest.TestCase):
    """A test in a folder of its own, `room`. It is left out if the front can't run, and what it starts ends with it."""

    room: pathlib.Path

    def setUp(self) -> None:
        if why := lacking():
            self.skipTest(why)
        room = tempfile.TemporaryDirectory()
        self.addCleanup(room.cleanup)
        self.addCleanup(processes.end_all)
        self.room = pathlib.Path(room.name)


class Front:
    """`moo-web FOLDER ..` as a process, from its first line on. `first` is that line, `told` a file with what it says on standard error."""

    def __init__(
        self, folder: object, moo_port: int, *words: object, port: Optional[int] = None, script: Sequence[object] = (WEB / "moo-web",),
        env: Optional[dict[str, str]] = None, wait: bool = True,
    ) -> None:  # fmt: skip
        self.port = port or free_port()
        self.told = pathlib.Path(f"{folder}.told")
        self.begin([*script, folder, "--moo-port", moo_port, *words], env, wait)
        # Another program may have taken the port just now.
        while wait and not port and not self.first and "Address already in use" in self.said():
            self.end()
            self.told.unlink()
            self.port = free_port()
            self.begin([*script, folder, "--moo-port", moo_port, *words], env, wait)

    def begin(self, words: Sequence[object], env: Optional[dict[str, str]], wait: bool) -> None:
        """Starts it, and hears its first line if it is waited for."""
        with open(self.told, "ab") as told:
            how: dict[str, Any] = {"stdout": subprocess.PIPE, "stderr": told, "env": dict(os.environ, **(env or {}))}
            self.process = processes.start([str(word) for word in (*words, "--port", self.port)], **how)
        assert self.process.stdout
        self.first = self.process.stdout.readline().decode() if wait else None

    def is_listening(self) -> bool:
        """Whether its first line says that it listens."""
        return self.first == f"listening http://127.0.0.1:{self.port}/\n"

    def said(self) -> str:
        """What it has said on standard error."""
        return self.told.read_text()

    def kill(self) -> None:
        """Kills it, and waits for its end."""
        self.process.kill()
        self.end()

    def end(self) -> int:
        """Waits for its end, and gives its status."""
        self.process.communicate(timeout=SECONDS)
        return self.process.returncode


class Kept:
    """A front that is started again whenever it ends. `started` makes the next one, and is given how many there were.

    `statuses` are those with which they ended.
    """

    def __init__(self, started: Callable[[int], Front]) -> None:
        self.started, self.count = started, 0
        self.front: Optional[Front] = None
        # Held while one is started, so that none is that `stop` doesn't see.
        self.starting = threading.Lock()
        self.statuses: set[int] = set()
        self.is_over = threading.Event()
        self.on_end: Callable[[], None] = lambda: None
        self.thread = threading.Thread(target=self.keep, daemon=True)
        self.thread.start()

    def keep(self) -> None:
        """Starts fronts, one after another."""
        while True:
            with self.starting:
                if self.is_over.is_set():
                    return
                self.front = self.started(self.count)
                self.count += 1
            self.statuses.add(self.front.process.wait())
            self.on_end()

    def stop(self) -> None:
        """Kills the last of them."""
        with self.starting:
            self.is_over.set()
        assert self.front
        self.front.process.kill()
        self.thread.join(SECONDS)


def ask(
    port: int, method: str, path: str, body: Any = None, token: Optional[str] = None, head: Optional[dict[str, str]] = None,
    wait: float = SECONDS
) -> tuple[int, Any]:  # fmt: skip
    """The status of an answer, and its body: an object if it is JSON. `OSError` or `HTTPException`: no answer came."""
    connection = http.client.HTTPConnection("127.0.0.1", port, timeout=wait)
    head = dict(head or {}, **({"Authorization": f"Bearer {token}"} if token else {}))
    try:
        connection.request(method, path, body if body is None or isinstance(body, (str, bytes)) else json.dumps(body), head)
        answer = connection.getresponse()
        text = answer.read()
    finally:
        connection.close()
    try:
        return answer.status, json.loads(text)
    except ValueError:
        return answer.status, text.decode(errors="replace")
