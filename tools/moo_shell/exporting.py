"""The word `\\export`: a class or a room as a script."""

from __future__ import annotations

from pathlib import Path
from typing import Optional

from moo_shell.files import write_new
from moo_shell.session import Session
from moolib.errors import Failed, failing
from moolib.exporting import WITH, TooManyObjects, exported_by
from moolib.facts import Facts, TooMuch
from moolib.lines import counted, unquoted

# What the shell may read for one script: it has all the time of who waits.
MOST_READ = 2_000_000
USAGE = "\\export #5 children [FILE], or \\export #5 contents [FILE]"


def new_file(text: str) -> Optional[Path]:
    """The file of a name, if one is given. `Failed`: it is there already."""
    path = Path(unquoted(text)).expanduser() if text else None
    if path and path.exists():
        raise Failed(f"{path} is there already")
    return path


def put(session: Session, path: Optional[Path], text: str) -> bool:
    """Puts a text into a new file, or to the terminal. False: it isn't written, since the world is a copy, which is told."""
    if path is None:
        session.output.show(text.rstrip("\n"))
    elif session.is_copy:
        session.output.note(f"{path} isn't written: this is a copy of the world")
        return False
    else:
        with failing(path):
            write_new(path, text)
    return True


def export(session: Session, text: str) -> None:
    """Writes the script that makes a class with all under it, or a room with all in it; to a new file, or to the terminal."""
    words = text.split(None, 2)
    if len(words) < 2 or words[1].lower() not in WITH:
        raise Failed(f"{USAGE}: a class with what inherits from it, or a room with what is in it")
    number, path = session.number(words[0]), new_file(words[2] if len(words) > 2 else "")
    session.world.built_in(number)
    facts = Facts(session.world.each, MOST_READ)
    try:
        made = exported_by(facts, session.world.caller(), number, words[1].lower(), f", of world number {session.door.seq()}")
    except (TooManyObjects, TooMuch):
        raise Failed("that is too much for one script: export parts of it") from None
    if not put(session, path, made.text):
        return
    if path is not None:
        session.output.note(f"{path} makes {counted(made.objects, 'object')} by {counted(made.calls, 'call')}")
    if made.left_out:
        differ = "thing differs or isn't" if len(made.left_out) == 1 else "things differ or aren't"
        session.output.note(f"{len(made.left_out)} {differ} in it: the script says which")
