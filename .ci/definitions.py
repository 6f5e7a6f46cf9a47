"""The words of specs/: each public definition with its comment and its text, and each public type that a source file declares."""
from __future__ import annotations

import re
from pathlib import Path
from typing import Iterator, NamedTuple

TOP = Path(__file__).resolve().parents[1]
DEFINED = re.compile(r"(?:abbrev |unfoldable )?pub (?:record |data )?([A-Za-z]\w*)[ :]")
# Within a module of a file a definition is indented, as the fields of a record are.
DEFINED_WITHIN = re.compile(r" +(?:(?:abbrev|unfoldable) pub |pub (?:record|data) )([A-Za-z]\w*)[ :]")
DECLARED = re.compile(r"pub (?:struct|enum|trait) (\w+)")
NO_WORDS = {"abbrev", "data", "mod", "record", "unfoldable", "use"}


class Definition(NamedTuple):
    """A word, the file that defines it, by its name below crates/, the number of its line, the comment above it, and its text."""

    word: str
    file: str
    line: int
    comment: str
    text: str

    @property
    def crate(self) -> str:
        """The crate of the file."""
        return self.file.partition("/")[0]


def comment_above(lines: list[str], at: int, mark: str) -> str:
    """The comment that ends right above a line, without its marks. A heading, `-- ---- `, isn't one, nor is an attribute between the two."""
    found: list[str] = []
    for line in reversed(lines[:at]):
        if line.lstrip().startswith("#["):
            continue
        if not line.lstrip().startswith(mark) or line.startswith("-- ----"):
            break
        found.append(line.lstrip().removeprefix(mark).strip())
    return "\n".join(reversed(found))


def text_from(lines: list[str], at: int) -> str:
    """The text of a definition from its first line on: up to an empty line after which nothing is indented further than that first line."""
    depth = len(lines[at]) - len(lines[at].lstrip())
    end = at + 1
    while end < len(lines):
        after = next((line for line in lines[end:] if line), "")
        if not lines[end] and not after.startswith(" " * (depth + 1)):
            break
        end += 1
    return "\n".join(line[depth:] for line in lines[at:end])


def of_specs() -> Iterator[Definition]:
    """The public definitions of specs/, by crates and files."""
    for path in sorted((TOP / "crates").glob("moo*/specs/**/*.antt")):
        file, lines = str(path.relative_to(TOP / "crates")), path.read_text().splitlines()
        for at, line in enumerate(lines):
            found = DEFINED.match(line) or DEFINED_WITHIN.match(line)
            if found and found[1] not in NO_WORDS:
                yield Definition(found[1], file, at + 1, comment_above(lines, at, "--"), text_from(lines, at))


def of_sources() -> Iterator[Definition]:
    """The public types that sources declare, which specs/ and contracts name too."""
    for path in sorted((TOP / "crates").glob("moo*/src/**/*.rt")):
        file, lines = str(path.relative_to(TOP / "crates")), path.read_text().splitlines()
        for at, line in enumerate(lines):
            found = DECLARED.match(line)
            if found:
                yield Definition(found[1], file, at + 1, comment_above(lines, at, "///"), text_from(lines, at))
