"""That no crate reaches the system but by the host that it is given: no kit crate that opens files by itself, and no unsafe code.

Proofs say what a function does to what it is given. That it does nothing else rests on what it can name: these crates and its arguments.
"""
from __future__ import annotations

import re
from pathlib import Path
from typing import Iterator

TOP = Path(__file__).resolve().parents[2]
# None of these opens a file, a socket or a process without the host's runtime. Nor does any of the crates of SQLite.
HARMLESS = set("clap http httparse httpdate itoa matchit serde_json thiserror".split())
# Waiting for many sockets at once: it takes the runtime too, and one crate alone may name it.
ALLOWED = {"moo_desk": {"mio"}}
SQLITE = re.compile(r"sqlite(_[a-z]+)*")
UNSAFE = re.compile(r"^(?!\s*//).*\bunsafe\b", re.MULTILINE)
HISTORY = re.compile(r"sqlite_std_file\b[^\n;]*\b(Record|Host)\b")
# Where ghost code is written: in proofs, in definitions, and in the clauses and ghost items of sources.
GHOSTS = ("proofs/**/*.antt", "specs/**/*.antt", "src/**/*.rt")


def used_crates() -> dict[str, list[str]]:
    """Returns which crates of the kit each crate uses."""
    lines = (TOP / "crates.txt").read_text().splitlines()
    parted = [line.partition(":") for line in lines if line and not line.startswith("#")]
    own = {name.split()[0] for name, _, _ in parted}
    return {name.split()[0]: [used for used in uses.split() if used not in own] for name, _, uses in parted}


def cases() -> Iterator[tuple[str, list[str]]]:
    """The name of each case, and what is wrong with it."""
    for crate, used in used_crates().items():
        folder = TOP / "crates" / crate
        yield f"{crate} uses", [name for name in used if name not in HARMLESS | ALLOWED.get(crate, set()) and not SQLITE.fullmatch(name)]
        yield f"{crate} is safe", [file.name for file in sorted(folder.glob("src/**/*.rt")) if UNSAFE.search(file.read_text())]
        # Ghost code could claim which calls a file has seen.
        yield f"{crate} claims no history", [
            file.name for where in GHOSTS for file in sorted(folder.glob(where)) if HISTORY.search(file.read_text())
        ]
