"""The lines of files and scripts, which a session does one after another up to the first failure."""

from __future__ import annotations

from pathlib import Path
from typing import TYPE_CHECKING, Optional

from moo_shell.files import read_lines
from moo_shell.resuming import Start
from moo_shell.statements import Statement, statements
from moolib.errors import Failed
from moolib.lines import counted, read_line

if TYPE_CHECKING:
    from moo_shell.session import Session

DEEPEST = 20
# What a text of the command line is called.
GIVEN = "-c"


def include(session: Session, name: str) -> None:
    """Does the lines of another file, whose name is read from the folder of the present one."""
    if session.open is not None and not session.is_single:
        raise Failed("a batch is open: `include` is outside of batches")
    if not name:
        raise Failed("include FILE: which file?")
    path = Path(name).expanduser()
    run_file(session, session.folders[-1] / path if session.folders else path, name if not session.folders else None)


def run_file(session: Session, path: Path, shown: Optional[str] = None) -> None:
    """Does the lines of a file up to the first failure, which then has its place."""
    if len(session.folders) >= DEEPEST:
        raise Failed(f"{path}: files include each other {DEEPEST} deep")
    lines = read_lines(path)
    session.folders.append(path.parent)
    try:
        run_lines(session, shown or str(path), lines)
    finally:
        session.folders.pop()


def run_lines(session: Session, name: str, lines: list[str]) -> None:
    """Does lines up to the first failure, which then has its place. A batch that begins in them has to end in them."""
    before, was_script = session.place, session.is_script
    session.is_script = True
    start, began = session.passing.begin(), Start(1)
    try:
        for statement in statements(lines):
            session.place = (name, statement.line)
            if session.open is None:
                began = Start(statement.line, statement.part)
            try:
                do_from(session, start, statement)
            except Failed as failed:
                failed.place = failed.place or session.place
                session.stopped_at.insert(0, str(began))
                raise
            if session.is_over:
                return
        test_end(session, name, start, len(lines))
    finally:
        if not session.is_single:
            session.abandon()
        session.place, session.is_script = before, was_script


def do_from(session: Session, start: Start, statement: Statement) -> None:
    """Does a statement, if it isn't before the place at which its file begins."""
    here = Start(statement.line, statement.part)
    if here < start:
        session.passing.pass_over(session, start, statement)
        return
    if here.line == start.line:
        session.passing.test_include(read_line(statement.text).kind, here)
    session.do_part(statement.text)


def test_end(session: Session, name: str, start: Start, count: int) -> None:
    """Fails if lines have ended before their first one, or in a batch."""
    if start.line > max(count, 1):
        raise Failed(f"--from-line {start}: the file has {counted(count, 'line')}", (name, max(count, 1)))
    if session.open is not None and not session.is_single:
        what = f"each {GIVEN} is a text of its own: `end` is missing in it, and -1 makes one batch of all" if name == GIVEN else ""
        raise Failed(what or "the file ends inside a batch: `end` is missing", (name, max(count, 1)))
