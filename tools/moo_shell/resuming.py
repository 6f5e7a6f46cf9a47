"""The place at which a script stopped, and how it goes on there: `--from-line`.

A place is a line, as `9`, or a part of one, as `9.2`: the second call of a line with several. After a comma comes the place in the file that
is included on that line.
"""

from __future__ import annotations

import contextlib
import dataclasses
import re
from pathlib import Path
from typing import TYPE_CHECKING, NamedTuple, Optional

from moo_shell.statements import Statement
from moolib.errors import Failed
from moolib.lines import read_line

if TYPE_CHECKING:
    from moo_shell.session import Session

PLACE = re.compile(r"([1-9]\d{0,8})(?:\.([1-9]\d{0,8}))?")


class Start(NamedTuple):
    """A line of a file, and the part of it, from 1."""

    line: int
    part: int = 1

    def __str__(self) -> str:
        return f"{self.line}.{self.part}" if self.part > 1 else str(self.line)


def start_of(text: str) -> Start:
    """The place that a text is. `ValueError`: it isn't one."""
    found = PLACE.fullmatch(text)
    if not found:
        raise ValueError(f"{text} isn't a line such as 9, or 9.2")
    return Start(int(found[1]), int(found[2] or 1))


def starts_of(text: str) -> list[Start]:
    """The places that a text is, with commas between them. `ValueError`: one isn't a place."""
    return [start_of(part) for part in text.split(",")]


@dataclasses.dataclass
class Passing:
    """The places at which a script and the files in it begin: what is before them isn't done again.

    `began` is the line of the batch that is open among the lines that are passed over.
    """

    starts: list[Start] = dataclasses.field(default_factory=list)
    began: Optional[int] = None

    def begin(self) -> Start:
        """The place at which the next file begins."""
        return self.starts.pop(0) if self.starts else Start(1)

    def test_include(self, kind: str, place: Start) -> None:
        """Fails if there is a place in an included file, and its line includes none, or if the line is in a batch."""
        if self.began is not None:
            raise Failed(f"line {place} is in the batch that begins on line {self.began}: --from-line {self.began}")
        if self.starts and kind != "include":
            raise Failed(f"line {place} includes no file, and --from-line names a line of one after it")

    def pass_over(self, session: Session, start: Start, statement: Statement) -> None:
        """Passes over a statement. Values and programmers are taken in, since they change no world; names that are known already stay."""
        if statement.last >= start.line > statement.line:
            raise Failed(f"line {start} is in the call that begins on line {statement.line}: --from-line {statement.line}")
        line = read_line(statement.text)
        if line.kind == "begin":
            self.began = statement.line
        elif line.kind == "end":
            self.began = None
        elif line.kind == "value" and line.name not in session.names:
            with contextlib.suppress(Failed):
                session.take_value(line)
        elif line.kind == "command" and line.word == "as":
            session.do_part(statement.text)


def file_of_stop(script: str) -> Path:
    """The file beside a script that keeps its names if it stops."""
    return Path(f"{script}.stopped")


def how_to_go_on(script: str, place: str, is_alone: bool) -> str:
    """What is told of a script that stopped at a place, after which others may come."""
    others = "" if is_alone else ", with the scripts that come after it"
    return f"mended, it goes on by --from-line {place} -f {script}{others}"
