"""The calls, the values and the errors, as the program's own help has them: `moo apply --help`."""

from __future__ import annotations

import dataclasses
import re
import subprocess
from typing import Optional

from moolib.begun import Begun, read_begun
from moolib.calls import call_name
from moolib.errors import Failed

PATIENCE = 30
REASON = re.compile(r"  (E_[A-Z]+)\s+(.*)")


@dataclasses.dataclass
class Manual:
    """The help, taken apart. Without a program it is empty.

    `calls` has for each call the lines of help about it, `kinds` what each of its values is, as `O` or `NAME`; `reasons` has what each
    error means; `parts` are the paragraphs, each as its lines.
    """

    calls: dict[str, str] = dataclasses.field(default_factory=dict)
    kinds: dict[str, list[str]] = dataclasses.field(default_factory=dict)
    reasons: dict[str, str] = dataclasses.field(default_factory=dict)
    parts: list[list[str]] = dataclasses.field(default_factory=list)

    def part(self, begins: str) -> str:
        """The help from the line on that begins with these words, to the end of its paragraph; or nothing."""
        for lines in self.parts:
            for place, line in enumerate(lines):
                if line.startswith(begins):
                    return "\n".join(lines[place:])
        return ""

    def about(self, word: str) -> Optional[str]:
        """What help says about a call or an error; None if it says nothing."""
        if word.lower() in self.calls:
            return self.calls[word.lower()]
        reason = self.reasons.get(word.upper())
        return reason and f"  {word.upper()}  {reason}"

    def kind(self, call: str, place: int) -> str:
        """What the value at this place of a call is, counted from 0: as `O`, `NAME` or `VERB`; or nothing."""
        kinds = self.kinds.get(call, [])
        return kinds[place] if place < len(kinds) else ""


def is_entry(line: str) -> bool:
    """Whether the lines about some calls begin with this one."""
    return line[:2] == "  " and line[2:3].isalpha() and bool(call_name(line))


def signatures(text: str) -> list[Begun]:
    """The calls that are written at the front of an entry, with words for their values: `valid(O), max_object()`."""
    found: list[Begun] = []
    call = read_begun(text)
    while call:
        found.append(call)
        text = text[call.end + 1 :]
        call = read_begun(text[1:]) if text[:1] == "," else None
    return found


def read_entry(manual: Manual, entry: list[str]) -> None:
    """Takes in the lines about some calls."""
    for call in signatures(entry[0]):
        manual.calls[call.name] = "\n".join(entry)
        manual.kinds[call.name] = list(call.texts)


def items_in(lines: list[str]) -> list[list[str]]:
    """The items of a paragraph: a line, with those below it that begin with four blanks."""
    items: list[list[str]] = []
    for line in lines:
        if items and line.startswith("    "):
            items[-1].append(line)
        else:
            items.append([line])
    return items


def read_help(text: str) -> Manual:
    """The manual that a help is."""
    manual = Manual(parts=[part.splitlines() for part in re.split(r"\n\s*\n", text.strip("\n")) if part])
    for item in (item for lines in manual.parts for item in items_in(lines)):
        reason = REASON.fullmatch(item[0])
        if reason:
            manual.reasons[reason[1]] = " ".join([reason[2], *map(str.strip, item[1:])])
        elif is_entry(item[0]):
            read_entry(manual, item)
    return manual


def manual_of(program: Optional[str]) -> Manual:
    """The manual of a program; an empty one without a program."""
    if not program:
        return Manual()
    words = [program, "apply", "--help"]
    try:
        ran = subprocess.run(words, stdin=subprocess.DEVNULL, capture_output=True, text=True, timeout=PATIENCE, check=True)
    except (OSError, subprocess.SubprocessError) as error:
        raise Failed(f"{program} gives no help: {error}") from None
    return read_help(ran.stdout)
