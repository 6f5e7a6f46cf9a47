"""A program at a pseudo-terminal: what is typed, and what it shows."""

from __future__ import annotations

import os
import pty
import re
import select
import signal
import struct
import subprocess
import termios
import time
import unittest
from fcntl import ioctl
from typing import Optional

from tests.support.processes import start

ROWS, COLUMNS = 24, 100
PATIENCE = 240.0
# What a terminal is told besides letters: colours, and modes such as that of pasted text.
SIGNS = re.compile(r"\x1b\[[0-9;?]*[A-Za-z]|\x1b[=>]|\x07")


def new_terminal() -> tuple[int, int]:
    """The two ends of a new terminal: ours and the program's. Without terminals, as in some containers, the test is left out."""
    try:
        return pty.openpty()
    except OSError:
        raise unittest.SkipTest("this machine has no terminals") from None


class Terminal:
    """A program that runs at a terminal of its own, with 24 rows of 100 letters."""

    def __init__(self, words: list[str], env: dict[str, str], folder: Optional[str] = None) -> None:
        self.master, slave = new_terminal()
        ioctl(slave, termios.TIOCSWINSZ, struct.pack("HHHH", ROWS, COLUMNS, 0, 0))
        self.process: subprocess.Popen[bytes] = start(
            words, cwd=folder, env=env, stdin=slave, stdout=slave, stderr=slave, preexec_fn=lambda: own_terminal(slave), close_fds=True
        )
        os.close(slave)
        self.data, self.raw, self.shown, self.seen = b"", "", "", 0

    def type(self, text: str) -> None:
        """Types a text as it is."""
        os.write(self.master, text.encode())

    def line(self, text: str) -> None:
        """Types a line."""
        self.type(text + "\n")

    def until(self, text: str, patience: float = PATIENCE) -> str:
        """Waits until a text is shown, and gives what was shown since the last one that was waited for, without signs."""
        end = time.monotonic() + patience
        while text not in self.shown[self.seen :]:
            if not self.hear(end - time.monotonic()):
                raise AssertionError(f"{text!r} isn't in what was shown: {self.shown[self.seen :]!r}")
        at = self.shown.index(text, self.seen) + len(text)
        came, self.seen = self.shown[self.seen : at], at
        return came

    def hear(self, seconds: float) -> bool:
        """Whether something more was shown in this time."""
        if seconds <= 0 or not select.select([self.master], [], [], seconds)[0]:
            return False
        try:
            data = os.read(self.master, 65536)
        except OSError:
            return False
        # A letter may come in two pieces.
        self.data += data
        self.raw = self.data.decode("utf-8", "replace")
        self.shown = SIGNS.sub("", self.raw).replace("\r\n", "\n")
        return bool(data)

    def end(self, patience: float = PATIENCE) -> int:
        """Waits until the program ends, and gives its status."""
        end = time.monotonic() + patience
        while self.process.poll() is None and time.monotonic() < end:
            self.hear(0.1)
        while self.hear(0.1):
            pass
        os.close(self.master)
        if self.process.poll() is None:
            raise AssertionError(f"it still runs after {patience} seconds; it has shown {self.shown[self.seen :]!r}")
        return self.process.returncode

    def interrupt(self, text: str) -> str:
        """Types Ctrl-C until a text is shown. Python's `input` can miss one that comes in the same moment as a letter."""
        for _ in range(10):
            self.type("\x03")
            try:
                return self.until(text, PATIENCE / 10)
            except AssertionError as missing:
                if self.shown[self.seen :]:
                    raise missing
        raise AssertionError(f"{text!r} isn't shown after ten times Ctrl-C")


def own_terminal(slave: int) -> None:
    """In the new process: the terminal is the one that it is controlled by."""
    os.setsid()
    ioctl(slave, termios.TIOCSCTTY, 0)
    signal.signal(signal.SIGINT, signal.default_int_handler)
