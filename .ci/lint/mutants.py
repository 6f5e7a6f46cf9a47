"""That the mutants still fit: each text that one replaces is in its file once; and mutants/gate names mutants that there are.

A mutant that does something only if a list has a certain length, as `ALL.len() == 33`, does nothing once the list has another one. That is
looked for too. What a body compares with a value of its run, as `path.len() > 8`, no text decides: that such a mutant is never taken shows
only when it is tried, since the checker then proves it.

Whether they compile `.ci/mutants --compile` looks at.
"""
from __future__ import annotations

import re
from pathlib import Path
from typing import Iterator, Optional, Union

TOP = Path(__file__).resolve().parents[2]
MUTANTS = TOP / "mutants"
ASKED = re.compile(r"\b([A-Z][A-Z_]*)\.len\(\) == (\d+)")


def never_taken(new: str, source: str) -> Optional[str]:
    """The length that a new text asks of a list of its file, if the list has another one."""
    for name, length in ASKED.findall(new):
        known = re.search(rf"\b{name}: \[\w+; (\d+)\]", source)
        if not known or known[1] != length:
            return f"{name}.len() == {length} is never so: it is {known[1] if known else 'not a list of the file'}"
    return None


def misfit(edit: Path) -> Optional[str]:
    """Why an edit can't be made, or nothing if it can."""
    file: Optional[Path] = None
    old: Optional[str] = None
    texts: dict[Path, str] = {}
    for line in edit.read_text().splitlines():
        word, _, rest = line.partition(": ")
        if word == "file":
            file = TOP / "crates" / edit.parent.name / rest
            if not file.is_file():
                return f"there is no {rest}"
            texts.setdefault(file, file.read_text())
        elif word == "old":
            old = rest
        elif word.startswith("new"):
            if file is None or old is None:
                return "a text comes before its file"
            if texts[file].count(old) != 1:
                return f"{old!r} is {texts[file].count(old)} times in {file.name}"
            if never := never_taken(rest, texts[file]):
                return never
            texts[file] = texts[file].replace(old, rest)
            old = None
    return None if texts else "it changes nothing"


def wrong_lines(lines: list[str]) -> list[str]:
    """The lines of mutants/gate that name no mutant, or one that another line names too."""
    return [line for line in lines if lines.count(line) > 1 or not (MUTANTS / f"{line}.edit").is_file()]


def cases() -> Iterator[tuple[str, Union[None, str, list[str]]]]:
    """The name of each case, and what is wrong with it."""
    for edit in sorted(MUTANTS.glob("*/*.edit")):
        yield f"{edit.parent.name}, {edit.stem}", misfit(edit)
    yield "those of the gate", wrong_lines((MUTANTS / "gate").read_text().splitlines())
