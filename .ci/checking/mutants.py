"""Whether the mutants still compile: one whose text fits may name a field, a function or a type that is no more.

    .ci/mutants --compile [-jN] [CRATE..]    of all crates, or of some, N crates side by side

No proof is tried. The libraries below a crate must be built here, as `rt check` and the gate leave them. There is a line for each crate and
for each mutant that doesn't compile; the status is 0 if all do.
"""
from __future__ import annotations

import re
import sys
import tempfile
import time
from concurrent.futures import ThreadPoolExecutor
from pathlib import Path
from typing import Iterator

from checking.compiling import apart, refused
from checking.copies import Change, Copy, change_of
from checking.crates import TOP, Lacking

MUTANTS = TOP / "mutants"


class Misfit(Exception):
    """An edit doesn't fit the texts."""


def pairs(edit: str) -> Iterator[tuple[str, str, str]]:
    """The file, the old text and the new one of each replacement of an edit."""
    file = old = ""
    for line in edit.splitlines():
        word, _, text = line.partition(":")
        text = text[1:]
        if word == "file":
            file = text.strip()
        elif word == "old":
            old = text
        elif word == "new":
            yield file, old, text


def mutant(name: str, edit: str, copy: Copy) -> Change:
    """The change that an edit makes. `Misfit`: a text isn't there once."""
    before: dict[str, str] = {}
    after: dict[str, str] = {}
    for file, old, new in pairs(edit):
        text = after.get(file, before.setdefault(file, copy.text(file)))
        if text.count(old) != 1:
            raise Misfit(f"{old!r} is {text.count(old)} times in {file}")
        after[file] = text.replace(old, new)
    return change_of(name, before, after)


def wrong_mutants(copy: Copy, edits: dict[str, str]) -> dict[str, str]:
    """The mutants of a crate that can't be made or don't compile, each with the reason."""
    wrong: dict[str, str] = {}
    changes = []
    for name, edit in edits.items():
        try:
            changes.append(mutant(name, edit, copy))
        except Misfit as why:
            wrong[name] = str(why)
    for some in apart(changes):
        wrong.update(refused(copy, some))
    # Nothing is known of them if the crate itself doesn't compile here.
    if wrong and (said := copy.compile([])):
        raise Lacking(f"it doesn't compile as it stands over the libraries that were built here: {' '.join(said.split())[:200]}")
    return wrong


def told(crate: str) -> tuple[list[str], bool]:
    """The lines about a crate, and whether all is well with it."""
    began = time.monotonic()
    edits = {edit.stem: edit.read_text() for edit in sorted((MUTANTS / crate).glob("*.edit"))}
    try:
        with tempfile.TemporaryDirectory(prefix="moo-mutants-") as room:
            wrong = wrong_mutants(Copy(crate, Path(room)), edits)
    except Lacking as why:
        return [f"{crate}: NOT TRIED: {why}"], False
    lines = [f"FAILED {crate}/{name}: {why}" for name, why in sorted(wrong.items())]
    return [*lines, f"{crate}: {len(edits) - len(wrong)} compile, {len(wrong)} don't, {time.monotonic() - began:.0f} s"], not wrong


def main(given: list[str]) -> int:
    """Tries the mutants of these crates, or of all, and gives the status."""
    workers = 1
    if given and re.fullmatch(r"-j[1-9]\d*", given[0]):
        workers = int(given.pop(0)[2:])
    of_mutants = sorted(folder.name for folder in MUTANTS.iterdir() if folder.is_dir())
    if unknown := [name for name in given if name not in of_mutants]:
        sys.exit(f".ci/mutants: no mutant of {unknown[0]} is in mutants/")
    are_well = True
    with ThreadPoolExecutor(workers) as pool:
        for lines, is_well in pool.map(told, given or of_mutants):
            print("\n".join(lines), flush=True)
            are_well = are_well and is_well
    return 0 if are_well else 1


if __name__ == "__main__":
    sys.exit(main(sys.argv[1:]))
