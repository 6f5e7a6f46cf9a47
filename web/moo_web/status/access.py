"""The access log: a line of JSON for each request, with moment, address, person, method, route, status and ms.

Lines are appended to the file, so that it may be cut to nothing while it is open, as logrotate's copytruncate does. After SIGHUP it is opened
anew. What can't be written is left out, and that is told: no request fails because of it.
"""

from __future__ import annotations

import os
import signal
import threading
import time
from pathlib import Path
from typing import Callable

from moolib.errors import failing
from moolib.service import packed

from moo_web.programs import utc


class AccessLog:
    """The log in this file, which is made if it isn't there. `Failed`: it can't be opened."""

    def __init__(self, path: Path, tell: Callable[[str], None]) -> None:
        self.path, self.tell = path, tell
        self.lock = threading.Lock()
        # From here to the first line may be long, and systemd reloads no front that starts: the file may be moved meanwhile.
        self.is_old = True
        with failing(path):
            self.file = self.opened()

    def opened(self) -> int:
        """The file, open."""
        return os.open(self.path, os.O_WRONLY | os.O_APPEND | os.O_CREAT, 0o600)

    def open_anew(self) -> None:
        """Has the file opened anew before the next line. A handler of a signal may ask for it."""
        self.is_old = True

    def write(self, address: str, person: str, method: str, route: str, status: int, seconds: float) -> None:
        """Appends the line of a request that was answered now, in so many seconds."""
        said = {
            "moment": utc(time.time()), "address": address, "person": person or None, "method": method, "route": route, "status": status,
            "ms": round(1000 * seconds, 1),
        }  # fmt: skip
        line = packed(said) + b"\n"
        try:
            with self.lock:
                if self.is_old:
                    self.is_old = False
                    fresh = self.opened()
                    os.close(self.file)
                    self.file = fresh
                os.write(self.file, line)
        except OSError as error:
            self.tell(f"the access log can't be written: {self.path}: {error.strerror}")


def open_anew_at_hangup(log: AccessLog | None) -> None:
    """Has a log opened anew whenever SIGHUP comes. Without a log a unit's front goes on, since `systemctl reload` sends it to all of them; one
    at a terminal ends with that, as ever.
    """
    if log:
        open_anew = log.open_anew
        signal.signal(signal.SIGHUP, lambda number, frame: open_anew())
    elif os.environ.get("NOTIFY_SOCKET"):
        signal.signal(signal.SIGHUP, signal.SIG_IGN)
