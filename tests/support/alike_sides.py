"""Two worlds side by side that are sent the same batches: by a text, with what standard error says, or over HTTP with `?why`."""

from __future__ import annotations

import json
import subprocess
from typing import Any, Optional

from tests.support.processes import start
from tests.support.program import MOO, ended
from tests.support.service import PATIENCE, Service, get, post

LAST = "batch as #3\nmax_object()\nend\n"


class TextSide:
    """A world in a file, and a run of `moo apply` that is sent batches."""

    def __init__(self, file: str) -> None:
        self.file = file
        assert ended("init", file).status == 0
        self.process = start([MOO, "apply", file, "-"], stdin=subprocess.PIPE, stdout=subprocess.PIPE, stderr=subprocess.PIPE)

    def send(self, text: str) -> None:
        """Sends batches."""
        assert self.process.stdin
        self.process.stdin.write(text.encode())
        self.process.stdin.flush()

    def replies(self, count: int) -> list[str]:
        """So many replies, each of its lines."""
        assert self.process.stdout
        found = []
        for _ in range(count):
            lines = [self.process.stdout.readline().decode()]
            while lines[0].startswith("accepted") and lines[-1] not in ("end\n", ""):
                lines.append(self.process.stdout.readline().decode())
            found.append("".join(lines))
        return found

    def end(self) -> tuple[str, str]:
        """What it said on standard error, and the dump of its world."""
        written, said = self.process.communicate(timeout=PATIENCE)
        assert not written
        return said.decode(), ended("dump", self.file).written


class WebSide:
    """A world in memory that is served."""

    def __init__(self, ticks: Optional[int] = None) -> None:
        # It is ended before so many connections.
        self.service = Service(MOO, ":memory:", 10**6, ticks=ticks)

    def ask(self, path: str, who: int, calls: list[str]) -> bytes:
        """The bytes that answer calls."""
        return self.service.ask(post(path, json.dumps({"as": f"#{who}", "calls": calls})))

    def each(self, who: int, calls: list[str]) -> list[dict[str, str]]:
        """What each call alone would answer."""
        found: list[dict[str, str]] = json.loads(self.ask("/each", who, calls).partition(b"\r\n\r\n")[2])["each"]
        return found

    def body(self, path: str) -> str:
        """The body of what answers a path."""
        return self.service.ask(get(path)).decode().partition("\r\n\r\n")[2]

    def make(self, text: str) -> list[dict[str, Any]]:
        """Runs batches of a text, and gives the bodies of the answers."""
        found = []
        for batch in text.split("end\n")[:-1]:
            head, *calls = batch.splitlines()
            answered = self.ask("/batch", int(head.rpartition("#")[2]), calls)
            found.append(json.loads(answered.partition(b"\r\n\r\n")[2]))
        return found
