"""The program under test, which the variable MOO names, and runs of it in the present folder."""
from __future__ import annotations

import os
import sqlite3
import subprocess
from pathlib import Path
from typing import Any, NamedTuple, Union

from tests.support.service import PATIENCE

TOP = Path(__file__).resolve().parents[2]
MOO = os.path.abspath(os.environ.get("MOO") or TOP / "crates/moo/out/moo")


class Ended(NamedTuple):
    """How a run ended: its status, what it wrote, and what it said on standard error."""

    status: int
    written: str
    complaint: str


def run_bytes(*words: str, text: bytes = b"", **how: Any) -> tuple[int, bytes]:
    """The status of the program, given the bytes of a text, and those that it writes."""
    ran = subprocess.run([MOO, *words], input=text, stdout=subprocess.PIPE, stderr=subprocess.DEVNULL, timeout=PATIENCE, **how)
    return ran.returncode, ran.stdout


def ended(*words: str, text: str = "", output: Any = subprocess.PIPE, **how: Any) -> Ended:
    """How the program ends, given a text. It writes to a pipe or another output."""
    ran = subprocess.run([MOO, *words], input=text.encode(), stdout=output, stderr=subprocess.PIPE, timeout=PATIENCE, **how)
    return Ended(ran.returncode, (ran.stdout or b"").decode(), ran.stderr.decode(errors="replace"))


def edit(file: str, *statements: Union[str, tuple[Any, ...]]) -> None:
    """Changes a file by hand. A statement is a text, or a text with values for its marks."""
    connection = sqlite3.connect(file)
    connection.execute("pragma synchronous = off")
    for statement in statements:
        connection.execute(*((statement,) if isinstance(statement, str) else statement))
    connection.commit()
    connection.close()
