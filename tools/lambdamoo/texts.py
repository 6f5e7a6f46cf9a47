"""Texts by lines, read and written, and how a tool ends whose text is broken."""

from __future__ import annotations

import contextlib
import io
import os
import re
import sys
from collections.abc import Callable, Iterable, Iterator
from typing import BinaryIO, TextIO

from moolib.values import GREATEST_OBJECT, LEAST_OBJECT

NUMBER = re.compile(r"-?[0-9]{1,20}")


class Broken(Exception):
    """A text that isn't what it should be, with the number of the line that shows it, and the name of its file once that is known."""

    def __init__(self, line: int, reason: str) -> None:
        super().__init__(line, reason)
        self.line = line
        self.reason = reason
        self.file = "a file"

    @property
    def advice(self) -> list[str]:
        """What to do about it, in lines; none if that is plain."""
        return []

    def __str__(self) -> str:
        return f"{self.file}, line {self.line}: {self.reason}"


class Lines:
    """The lines of a text in their order, with the number of the one read last. What is asked of the next line is Broken if it isn't so."""

    def __init__(self, stream: Iterable[str]) -> None:
        self.stream = iter(stream)
        self.number = 0

    def broken(self, reason: str) -> Broken:
        """The fault of the line read last."""
        return Broken(self.number, reason)

    def more(self) -> str | None:
        """The next line without its end, or None after the last one."""
        line = next(self.stream, None)
        self.number += 1
        if line is None:
            return None
        if line[-1] != "\n":
            raise self.broken("the file ends within this line")
        return line[:-1]

    def next(self) -> str:
        """The next line without its end. The file has to have one."""
        line = self.more()
        if line is None:
            raise self.broken("the file ends before this line")
        return line

    def integer(self, least: int, greatest: int, what: str) -> int:
        """The next line, a number within limits."""
        line = self.next()
        if NUMBER.fullmatch(line):
            number = int(line)
            if least <= number <= greatest:
                return number
        raise self.broken(f"{what} is wanted here, and not {shown(line)}")

    def object(self, what: str) -> int:
        """The next line, the number of an object or a negative number."""
        return self.integer(LEAST_OBJECT, GREATEST_OBJECT, what)

    def count(self, what: str) -> int:
        """The next line, how many of something follow."""
        return self.integer(0, GREATEST_OBJECT + 1, f"the number of {what}")


def shown(text: str) -> str:
    """A text for a message, which may be long or hold any byte."""
    return ascii(text) if len(text) <= 40 else f"{ascii(text[:40])}.."


def bytes_of(stream: TextIO | None, name: str) -> BinaryIO:
    """A standard stream as bytes, unless it is closed."""
    if stream is None:
        raise OSError(f"standard {name} is closed")
    return stream.buffer


@contextlib.contextmanager
def opened(path: str) -> Iterator[TextIO]:
    """The text of a file or, for '-', of standard input, a character for each byte. A line ends at byte 10 and nowhere else."""
    try:
        if path == "-":
            yield io.TextIOWrapper(bytes_of(sys.stdin, "input"), encoding="latin-1", newline="\n")
        else:
            with open(path, encoding="latin-1", newline="\n") as stream:
                yield stream
    except Broken as fault:
        fault.file = "standard input" if path == "-" else path
        raise


def write_out(pieces: Iterable[str]) -> None:
    """Writes texts to standard output, a byte for each character."""
    out = bytes_of(sys.stdout, "output")
    held: list[str] = []
    size = 0
    try:
        for piece in pieces:
            held.append(piece)
            size += len(piece)
            if size > 1 << 16:
                out.write("".join(held).encode("latin-1"))
                held, size = [], 0
        out.write("".join(held).encode("latin-1"))
        out.flush()
    except OSError:
        # Python writes what is left at its end, which would fail once more.
        os.dup2(os.open(os.devnull, os.O_WRONLY), out.fileno())
        raise


def finish(tool: str, work: Callable[[], int]) -> int:
    """Runs a tool, which answers its status. A fault is a line on standard error, and status 1."""
    try:
        return work()
    except Broken as fault:
        sys.stderr.writelines(f"{tool}: {line}\n" for line in (str(fault), *fault.advice))
    except BrokenPipeError:
        sys.stderr.write(f"{tool}: the reader of the output went away\n")
    except OSError as fault:
        sys.stderr.write(f"{tool}: {fault}\n")
    except MemoryError:
        sys.stderr.write(f"{tool}: out of memory\n")
    return 1
