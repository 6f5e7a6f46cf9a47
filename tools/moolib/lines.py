"""The lines that people write, taken apart: comments, names, calls. Nothing is run here.

A line is a call, `$name = CALL`, `$name = VALUE`, `begin`, `end`, `batch as #N`, `include FILE`, or a `\\` word with what it is given.
A comment begins with `//`, or with `--` and a blank, and goes to the end of the line. In a text `"..."` neither a comment nor a name begins.
"""

from __future__ import annotations

import dataclasses
import difflib
import re
from collections.abc import Iterable, Iterator, Mapping
from typing import Optional

from moolib.calls import call_name
from moolib.errors import Failed

PIECE = re.compile(r'(?P<text>"(?:[^"\\]|\\.)*(?:"|\\?$))|(?P<comment>//.*|--(?:\s.*)?$)|(?P<name>\$[A-Za-z_]\w*)|(?P<other>[^"$/-]+|.)', re.DOTALL)
ASSIGNMENT = re.compile(r"(\$[A-Za-z_]\w*)\s*=\s*(.*)", re.DOTALL)
HEADER = re.compile(r"batch\s+as\s+(#-?\d+|\$\w+)(?:\s+at\s+(\d+))?", re.IGNORECASE)
BLANKS = " \t\r\n\f\v"


@dataclasses.dataclass(frozen=True)
class Line:
    """A line. `kind` is empty, call, value, begin, end, include or command.

    `name` is the name that gets the answer of a call, or the value. `text` is the call, the value, the file, or what a `\\` word is given;
    `word` is that word. `who` and `at` are those of `batch as`.
    """

    kind: str
    text: str = ""
    name: Optional[str] = None
    word: str = ""
    who: Optional[str] = None
    at: Optional[int] = None


def pieces(text: str) -> Iterator[tuple[str, str]]:
    """The pieces of a text, each with its kind: text, comment, name or other."""
    for found in PIECE.finditer(text):
        yield found.lastgroup or "other", found[0]


def without_comment(text: str) -> str:
    """A line without its comment."""
    kept = []
    for kind, piece in pieces(text):
        if kind == "comment":
            break
        kept.append(piece)
    return "".join(kept)


def without_spaced_comment(text: str) -> str:
    """A line with a file's name, without its comment: here one begins at the front or after a blank alone."""
    return re.split(r"(?:^|\s)//", text, maxsplit=1)[0]


def names_in(text: str) -> set[str]:
    """The names that a call or a value uses."""
    return {piece for kind, piece in pieces(text) if kind == "name"}


def filled(text: str, values: Mapping[str, str]) -> str:
    """A call or a value with the values of its names in their place. A name without a value is a failure."""
    return "".join(value_of(piece, values) if kind == "name" else piece for kind, piece in pieces(text))


def value_of(name: str, values: Mapping[str, str]) -> str:
    """The value of a name."""
    if name not in values:
        raise Failed(f"{name} has no value{did_you_mean(name, values)}")
    return values[name]


def did_you_mean(word: str, known: Iterable[str]) -> str:
    """A remark with the known word that is like this one, or nothing."""
    like = difflib.get_close_matches(word, list(known), 1, 0.7)
    return f" (did you mean {like[0]}?)" if like and like[0] != word else ""


def counted(number: int, what: str) -> str:
    """A number of things: `1 object`, `2 objects`, `2 batches`."""
    plural = what if number == 1 else what + ("es" if what.endswith("ch") else "s")
    return f"{number} {plural}"


def unquoted(text: str) -> str:
    """A file's name, which may be in quotes."""
    text = text.strip(BLANKS)
    return text[1:-1] if len(text) > 1 and text[0] == text[-1] and text[0] in "\"'" else text


def read_line(line: str) -> Line:
    """What a line says."""
    stripped = line.strip(BLANKS)
    if stripped.startswith("\\"):
        word, *rest = without_spaced_comment(stripped[1:]).split(None, 1)[:2] or [""]
        return Line("command", text=rest[0].strip(BLANKS) if rest else "", word=word.lower())
    if re.match(r"include\s", stripped, re.IGNORECASE):
        return Line("include", text=unquoted(without_spaced_comment(stripped[len("include") :])))
    text = without_comment(stripped).strip(BLANKS)
    if not text:
        return Line("empty")
    if text.lower() in ("begin", "end"):
        return Line(text.lower())
    header = HEADER.fullmatch(text)
    if header:
        return Line("begin", who=header[1], at=int(header[2]) if header[2] else None)
    found = ASSIGNMENT.fullmatch(text)
    if found:
        return Line("call" if call_name(found[2]) else "value", text=found[2], name=found[1])
    if text.lower() in ("help", "?", "quit", "exit", "include"):
        return Line("command", word=text.lower())
    return Line("call", text=text)


def strange_letter(text: str) -> str:
    """The first letter of a text that isn't one that worlds hold, or nothing."""
    return next((letter for letter in text if not (letter == "\t" or " " <= letter <= "~")), "")


def hint(text: str) -> str:
    """What is likely wrong with a line that isn't a call, in words; or nothing."""
    if re.match(r"#(?!-?\d)", text):
        return "a comment begins with //"
    if strange_letter(text):
        return f"'{strange_letter(text)}' is a letter that worlds don't hold: only tabs, spaces and printing ASCII"
    if unfinished(text):
        return unfinished(text)
    if not call_name(text):
        return "a call has its name and its values in brackets, as create(#1); \\help lists the calls"
    return ""


def unfinished(text: str) -> str:
    """What a text, a list or a call lacks that isn't closed; or nothing."""
    for kind, piece in pieces(text):
        if kind == "text" and (len(piece) == 1 or not re.fullmatch(r'"(?:[^"\\]|\\.)*"', piece, re.DOTALL)):
            return 'a text without its closing "'
    others = "".join(piece for kind, piece in pieces(text) if kind == "other")
    for opening, closing, what in (("{", "}", "a list"), ("(", ")", "a call")):
        if others.count(opening) > others.count(closing):
            return f"{what} without its {closing}"
        if others.count(opening) < others.count(closing):
            return f"a {closing} without its {opening}"
    return ""
