"""Scripts: their lines, and what one did or would do."""

from __future__ import annotations

import contextlib
import sys
from pathlib import Path
from typing import NamedTuple, Optional

from moo_shell.batches import Unsure
from moo_shell.files import lines_of, write_whole
from moo_shell.including import GIVEN, run_file, run_lines
from moo_shell.naming import names_in_file, text_of_names
from moo_shell.resuming import Start, file_of_stop, how_to_go_on
from moo_shell.session import Session
from moolib.errors import Failed
from moolib.lines import counted
from moolib.values import written

LONGEST_LIST = 1000
STANDARD_INPUT = "standard input"


class Script(NamedTuple):
    """Lines to do: those of a file by its name, which is `-` for standard input, or a text of the command line."""

    file: str = ""
    text: str = ""

    @staticmethod
    def of_file(name: str) -> Script:
        """The script that a file of this name is."""
        return Script(file=name)

    @staticmethod
    def of_call(text: str) -> Script:
        """The script that a text is."""
        return Script(text=text)

    def run(self, session: Session) -> None:
        """Does its lines."""
        if not self.file:
            run_lines(session, GIVEN, self.text.splitlines())
        elif self.file == "-":
            run_lines(session, STANDARD_INPUT, lines_of(sys.stdin.buffer.read(), STANDARD_INPUT))
        else:
            run_file(session, Path(self.file), self.file)


def run_scripts(session: Session, scripts: list[Script], is_single: bool) -> None:
    """Does scripts one after another; if that is wanted as one batch. If one of them stops, its names are kept beside it."""
    if is_single:
        session.begin_single()
    for place, script in enumerate(scripts):
        if session.is_over:
            break
        accepted = session.accepted
        try:
            script.run(session)
        except Unsure:
            raise
        except Failed as failed:
            if session.accepted > accepted and script.file not in ("", "-"):
                failed.afterword = stopped(session, script.file, len(scripts) == place + 1)
            raise
        if script.file and place == 0 and session.was_resumed:
            with contextlib.suppress(OSError):
                file_of_stop(script.file).unlink()
    if is_single:
        session.send()


def stopped(session: Session, file: str, is_last: bool) -> str:
    """Keeps the names of a script that stopped, and says how it goes on."""
    if session.is_copy:
        return ""
    try:
        if session.file_of_names is None and session.names:
            write_whole(file_of_stop(file), text_of_names(session.names))
    except OSError as error:
        return f"{file_of_stop(file)} can't be written: {error.strerror}"
    return how_to_go_on(file, ",".join(session.stopped_at), is_last)


def go_on(session: Session, file: str, starts: list[Start]) -> None:
    """Makes a session ready to begin a script at another line, with the names that it had when it stopped."""
    session.passing.starts = list(starts)
    session.was_resumed = session.file_of_names is None
    if session.was_resumed and file_of_stop(file).exists():
        session.names = {**names_in_file(file_of_stop(file)), **session.names}


def greatest(session: Session) -> Optional[int]:
    """The number that an object was given last, if the programmer may know it."""
    (answer,) = session.world.each(["max_object()"])
    return answer.value.number if answer.is_good else None


def would_make(session: Session, before: Optional[int]) -> str:
    """What the lines did on the copy: batches, calls, and objects with their names."""
    calls = ", ".join(f"{count} {name}" for name, count in sorted(session.counts.items()))
    total = sum(session.counts.values())
    lines = [f"would be accepted: {counted(session.accepted, 'batch')} with {counted(total, 'call')}{': ' if calls else ''}{calls}"]
    after = greatest(session)
    if before is not None and after is not None:
        things = session.world.things_of(list(range(before + 1, after + 1)))
        names: dict[str, list[str]] = {}
        for name, value in sorted(session.names.items()):
            names.setdefault(value, []).append(name)
        lines.append(f"would make {counted(len(things), 'object')}{':' if things else ''}")
        for number in sorted(things)[:LONGEST_LIST]:
            thing = things[number]
            known = " ".join(names.get(f"#{number}", []))
            lines.append(f"  #{number} {written(thing.name)}{'  ' + known if known else ''}")
        if len(things) > LONGEST_LIST:
            lines.append(f"  and {len(things) - LONGEST_LIST} more")
    return "\n".join(lines)
