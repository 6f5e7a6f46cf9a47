"""That no type has drop code of its own: it would run after every clause of the call that drops it, on files that are still open."""
from __future__ import annotations

import re
from pathlib import Path
from typing import Iterator

TOP = Path(__file__).resolve().parents[2]
WRITTEN_OUT = re.compile(r"^\s*(?:unsafe )?impl\b[^{]*\bDrop\s+for\b", re.MULTILINE)


def cases() -> Iterator[tuple[str, list[str]]]:
    """The name of each case, and what is wrong with it."""
    for crate in sorted((TOP / "crates").glob("moo*")):
        sources = sorted(crate.glob("src/**/*.rt"))
        yield crate.name, [source.name for source in sources if WRITTEN_OUT.search(source.read_text())]
