"""Lines put together and cut apart: a call may go on over several lines, and a line may hold several calls.

A line goes on on the next one while a bracket in it is open. `;` ends a call. A line that begins with `#` and a blank is a comment.
"""

from __future__ import annotations

import re
from collections.abc import Iterable, Iterator
from typing import NamedTuple

from moolib.lines import ASSIGNMENT, BLANKS, pieces, without_comment

COMMENT = re.compile(r"#(?:\s|$)")
# Words of the shell that are given a call, which may go on on the next line.
CALLING = re.compile(r"^\\(?:ask|fix|watch)\b", re.IGNORECASE)
OPENING = {")": "(", "}": "{"}


class Statement(NamedTuple):
    """A call or a word: its text, the line of a file on which it begins, which of that line's it is, from 1, and the line on which it ends."""

    text: str
    line: int
    part: int
    last: int


def is_word(text: str) -> bool:
    """Whether a line is a word of the shell, or a command of LambdaMOO, with a text in which `;` and brackets mean nothing."""
    stripped = text.lstrip(BLANKS)
    if re.match(r"include\s", stripped, re.IGNORECASE) or stripped.startswith("@"):
        return True
    return stripped.startswith("\\") and not CALLING.match(stripped)


def without_front(text: str) -> str:
    """What a line has of a call, which may be half typed: without the word of the shell before it, and without the name of its answer."""
    text = CALLING.sub("", text.lstrip(BLANKS), 1).lstrip(BLANKS)
    named = ASSIGNMENT.fullmatch(text)
    return named[2] if named else text


def signs_of(text: str) -> Iterator[str]:
    """The letters of a line that aren't in a text or a comment."""
    for kind, piece in pieces(text):
        if kind == "comment":
            return
        if kind == "other":
            yield from piece


def is_open(text: str) -> bool:
    """Whether a line goes on on the next one: a bracket in it isn't closed, and none is closed that another one holds open."""
    if is_word(text) or COMMENT.match(text.lstrip(BLANKS)):
        return False
    held: list[str] = []
    for sign in signs_of(text):
        if sign in "({":
            held.append(sign)
        elif sign in ")}":
            if not held or held.pop() != OPENING[sign]:
                return False
        elif sign == ";":
            held = []
    return bool(held)


def joined(text: str, following: str) -> str:
    """A line with the one on which it goes on."""
    return f"{without_comment(text).rstrip(BLANKS)} {following.strip(BLANKS)}"


def parted(text: str) -> list[str]:
    """The calls and words of a line, each without the `;` after it. A command of LambdaMOO ends at one with another command after it."""
    if COMMENT.match(text.lstrip(BLANKS)):
        return []
    is_command = text.lstrip(BLANKS).startswith("@")
    if is_word(text):
        text = text.rstrip(BLANKS).rstrip(";")
    if is_word(text) and not is_command:
        return [text]
    parts = [""]
    for kind, piece in pieces(text):
        if kind == "comment" and not is_command:
            break
        first, *others = re.split(r";(?=\s*@)" if is_command else ";", piece) if kind == "other" else [piece]
        parts[-1] += first
        parts += others
    return [part for part in parts if part.strip(BLANKS)]


def goes_on(lines: Iterable[str]) -> bool:
    """Whether the last of these lines goes on on a line that isn't among them."""
    text = ""
    for line in lines:
        text = joined(text, line) if text else line
        text = text if is_open(text) else ""
    return bool(text)


def statements(lines: Iterable[str]) -> Iterator[Statement]:
    """The statements of lines, in their order. The last one may be open, if no line follows it."""
    text, first, number = "", 0, 0
    for number, line in enumerate(lines, 1):
        text, first = (joined(text, line), first) if first else (line, number)
        if not is_open(text):
            yield from (Statement(part, first, place, number) for place, part in enumerate(parted(text), 1))
            text, first = "", 0
    if first:
        yield Statement(text, first, 1, number)
