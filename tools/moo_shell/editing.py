"""`\\e`: the open batch, the one that was refused, or the last call, in an editor, and done when that ends."""

from __future__ import annotations

import os
import subprocess
import tempfile
from pathlib import Path
from typing import TYPE_CHECKING

from moo_shell.files import read_lines
from moo_shell.statements import statements
from moolib.batches import Item
from moolib.errors import Failed

if TYPE_CHECKING:
    from moo_shell.session import Session


def line_of(item: Item) -> str:
    """A call as it was typed."""
    return f"{item.name} = {item.text}" if item.name else item.text


def text_to_edit(session: Session) -> str:
    """The calls of the open batch without its end, those of the one that was refused, or the last call."""
    if session.open is not None:
        return "\n".join(["begin", *map(line_of, session.open), ""])
    if session.refused is not None:
        items = [line_of(item) for item in session.refused[0]]
        return "\n".join([*(["begin", *items, "end"] if len(items) > 1 else items), ""])
    return f"{session.last_line}\n" if session.last_line else ""


def edited(text: str) -> list[str]:
    """The lines that a text has after an editor, which VISUAL or EDITOR names."""
    named = os.environ.get("VISUAL") or os.environ.get("EDITOR") or "editor"
    with tempfile.TemporaryDirectory(prefix="moo-shell-") as folder:
        file = Path(folder) / "calls.moo"
        file.write_text(text)
        ran = subprocess.run(["sh", "-c", f'{named} "$1"', "sh", str(file)])
        if ran.returncode:
            raise Failed(f"{named} ended with status {ran.returncode}: nothing was done")
        return read_lines(file)


def edit(session: Session, _: str) -> None:
    """Edits what was typed, and does it if it was changed."""
    if session.confirm is None:
        raise Failed("\\e wants a terminal")
    text = text_to_edit(session)
    lines = edited(text)
    if lines == text.splitlines():
        session.output.note("nothing was changed in it, and nothing is done")
        return
    session.abandon()
    for statement in statements(lines):
        session.output.note(statement.text)
        session.do_part(statement.text)
