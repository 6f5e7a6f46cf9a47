"""A copy of a crate, in which lines are changed and checked. The working tree stays as it is."""
from __future__ import annotations

import os
import re
import shutil
import subprocess
from pathlib import Path
from typing import Iterable, NamedTuple

from checking.crates import CRATES, kit, words

PARTS = ("src", "specs", "proofs")
# The last line of a check of no function, after which the sources compile.
COMPILED = re.compile(r"(?m)^only=0 proved=0$")


class Change(NamedTuple):
    """A change of lines: its name, and the new text of each line, by its file and its number from 0."""

    name: str
    lines: dict[tuple[str, int], str]


def change_of(name: str, before: dict[str, str], after: dict[str, str]) -> Change:
    """The change that makes these texts of files into those. `ValueError`: one has another number of lines."""
    lines: dict[tuple[str, int], str] = {}
    for file, text in after.items():
        old, new = before[file].split("\n"), text.split("\n")
        if len(old) != len(new):
            raise ValueError(f"{name} changes the number of lines of {file}")
        lines.update({(file, number): line for number, line in enumerate(new) if line != old[number]})
    return Change(name, lines)


def changed(text: str, file: str, changes: Iterable[Change]) -> str:
    """The text of a file with these changes, which have no line in common."""
    lines = text.split("\n")
    for change in changes:
        for (where, number), line in change.lines.items():
            if where == file:
                lines[number] = line
    return "\n".join(lines)


def linked(folder: Path, to: Path) -> None:
    """Copies what a check kept: by links what it replaces and never changes."""

    def copy(one: str, other: str) -> str:
        if one.endswith(".oantt"):
            try:
                os.link(one, other)
                return other
            except OSError:
                pass
        return str(shutil.copy2(one, other))

    shutil.copytree(folder, to, symlinks=True, copy_function=copy)


class Copy:
    """A copy of a crate's sources, definitions and proofs in a folder of its own."""

    def __init__(self, crate: str, room: Path) -> None:
        self.crate, self.folder, self.words = crate, room / crate, words(crate)
        for part in PARTS:
            if (CRATES / crate / part).is_dir():
                shutil.copytree(CRATES / crate / part, self.folder / part)
        self.texts: dict[str, str] = {}

    def text(self, file: str) -> str:
        """The text of a file as the repository has it."""
        if file not in self.texts:
            self.texts[file] = (CRATES / self.crate / file).read_text()
        return self.texts[file]

    def write(self, changes: list[Change]) -> None:
        """Makes these changes, and no other ones."""
        for file in {*self.texts, *(file for change in changes for file, _ in change.lines)}:
            (self.folder / file).write_text(changed(self.text(file), file, changes))

    def check(self, *flags: str) -> str:
        """What the checker says of the copy."""
        ran = subprocess.run(
            [str(kit() / "bin/rattle"), "check", *self.words, *flags], cwd=self.folder, stdin=subprocess.DEVNULL, stdout=subprocess.PIPE,
            stderr=subprocess.STDOUT, text=True, errors="replace", check=False,
        )
        return ran.stdout

    def compile(self, changes: list[Change]) -> str:
        """What the checker says against the sources with these changes before any proof; nothing if they compile."""
        self.write(changes)
        said = self.check("--only", "")
        return "" if COMPILED.search(said) else said or "the checker said nothing"
