"""`\\watch`: what a line that only reads answers, again and again."""

from __future__ import annotations

import re
import time
from typing import TYPE_CHECKING, NamedTuple, Optional

from moo_shell.meant import meant
from moolib.calls import READING, call_name
from moolib.errors import Failed
from moolib.lines import Line

if TYPE_CHECKING:
    from moo_shell.session import Session

SECONDS = 2.0
# The words of the shell that only read.
LOOKS = ("show", "tree", "places", "find", "classes", "petitions", "history", "seq")
OPTION = re.compile(r"(?:([ic])=)?(\d+(?:\.\d+)?)(?:\s+|$)")


class Watched(NamedTuple):
    """A line, the seconds between two answers, and how many answers there are; None: until Ctrl-C."""

    text: str
    seconds: float
    most: Optional[int]


def only_looks(line: Line) -> bool:
    """Whether a line changes nothing and shows something."""
    if line.kind == "command":
        return line.word in LOOKS
    return line.kind == "alone" or (line.kind == "call" and not line.name and call_name(line.text) in READING)


def watched(given: str, last: str) -> Watched:
    """What `\\watch` is given: `[i=SECONDS] [c=COUNT] [LINE]`, as psql has it; without a line it is the last one."""
    seconds, most = SECONDS, None
    found = OPTION.match(given)
    while found:
        if found[1] == "c":
            most = max(1, int(float(found[2])))
        else:
            seconds = float(found[2])
        given = given[found.end() :]
        found = OPTION.match(given)
    if not (given or last):
        raise Failed("\\watch LINE: which line?")
    return Watched(given or last, seconds, most)


def watch(session: Session, given: str) -> None:
    """Does a line that only reads until Ctrl-C, or so many times."""
    asked = watched(given, session.last_look)
    line = meant(asked.text, session.words, session.read)
    if not only_looks(line):
        raise Failed(f"\\watch LINE: a line that only reads, and not {asked.text}")
    had_pager, session.output.has_pager = session.output.has_pager, False
    done = 0
    try:
        while True:
            session.output.show(session.output.dim(time.strftime("%Y-%m-%d %H:%M:%S")))
            session.do_part(asked.text)
            done += 1
            if done == asked.most:
                return
            time.sleep(asked.seconds)
    except KeyboardInterrupt:
        if session.confirm is None:
            raise
        print()
    finally:
        session.output.has_pager = had_pager
