"""What the shell says, and the streams and colours that it writes with."""

from __future__ import annotations

import contextlib
import os
import shutil
import subprocess
import sys
from pathlib import Path
from typing import IO, Optional

from moolib.errors import Failed
from moolib.lines import unquoted

RED, DIM, BOLD, PLAIN = "\x1b[31m", "\x1b[2m", "\x1b[1m", "\x1b[0m"
PAGER = ("less", "-FRX", "-Psmore\\: space goes on, q leaves")


class Output:
    """Standard output and standard error. On a terminal there are colours, and at a prompt a pager for long texts."""

    def __init__(self, is_quiet: bool = False) -> None:
        self.is_quiet = is_quiet
        self.has_pager = False
        self.file: Optional[IO[str]] = None
        self.command: Optional[subprocess.Popen[str]] = None
        self.look_at_stream()

    def look_at_stream(self) -> None:
        """Notes whether answers go to a terminal, and whether that has colours."""
        self.is_terminal = self.file is None and sys.stdout.isatty()
        self.has_colours = self.is_terminal and "NO_COLOR" not in os.environ and os.environ.get("TERM", "dumb") != "dumb"

    def send_to(self, name: str) -> None:
        """Sends answers to the end of a file from now on, with `|` before the name to a command, or with no name to standard output again."""
        if self.file is not None:
            with contextlib.suppress(BrokenPipeError):
                self.file.close()
        if self.command is not None:
            self.command.wait()
        self.file = self.command = None
        if name.startswith("|"):
            sys.stdout.flush()
            self.command = subprocess.Popen(["sh", "-c", name[1:]], stdin=subprocess.PIPE, text=True)
            self.file = self.command.stdin
        elif name:
            self.file = Path(unquoted(name)).expanduser().open("a")
        self.look_at_stream()

    def write(self, text: str) -> None:
        """Writes a line of an answer. `Failed`: the command that gets the answers has ended."""
        try:
            print(text, file=self.file or sys.stdout, flush=self.is_terminal or self.file is not None)
        except BrokenPipeError:
            if self.command is None:
                raise
            self.send_to("")
            raise Failed("the command that got the answers has ended: they are shown again") from None

    def dim(self, text: str) -> str:
        """A text of less weight, if there are colours."""
        return f"{DIM}{text}{PLAIN}" if self.has_colours else text

    def width(self) -> Optional[int]:
        """How many letters a line of the terminal has; None if it isn't a terminal."""
        return shutil.get_terminal_size().columns if self.is_terminal else None

    def answer(self, text: str) -> None:
        """Writes an answer, unless the shell is quiet."""
        if not self.is_quiet:
            self.write(text)

    def show(self, text: str) -> None:
        """Writes a text that was asked for, by a pager if it is longer than the terminal."""
        lines = text.count("\n") + 1
        if self.has_pager and self.is_terminal and lines >= shutil.get_terminal_size().lines and self.page(text):
            return
        self.write(text)

    @staticmethod
    def page(text: str) -> bool:
        """Whether a pager showed a text: the one that `PAGER` names, or else `less`."""
        named = os.environ.get("PAGER")
        words: list[str] = ["sh", "-c", named] if named else list(PAGER)
        if not shutil.which(words[0]):
            return False
        sys.stdout.flush()
        with subprocess.Popen(words, stdin=subprocess.PIPE, text=True) as pager:
            try:
                pager.communicate(text + "\n")
            except (BrokenPipeError, KeyboardInterrupt):
                pass
        return pager.returncode != 127

    def note(self, text: str) -> None:
        """Writes a remark to standard error."""
        sys.stdout.flush()
        print(self.dim(text), file=sys.stderr, flush=True)

    def complain(self, text: str) -> None:
        """Writes to standard error why something wasn't done."""
        sys.stdout.flush()
        print(f"{RED}{text}{PLAIN}" if self.has_colours and sys.stderr.isatty() else text, file=sys.stderr, flush=True)
