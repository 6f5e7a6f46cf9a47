"""Names of objects where numbers are written, as pages show them: each is replaced by the object's number.

    numbered('{{"down", The Cellar}, {"up", #9}}', find)     '{{"down", #12}, {"up", #9}}'

`find` is asked for the number of a name. In a list a name ends at a comma or a brace, so one with such a sign in it is written as a number.
"""

from __future__ import annotations

import re
from typing import Callable, NamedTuple, Optional

PIECE = re.compile(r'("(?:[^"\\]|\\.)*"?|[{},])')
# What isn't a name: numbers, objects, errors, and names of answers.
PLAIN = re.compile(r"[-+]?\d[\d.]*|#-?\d+|[Ee]_\w*|\$\w+")
# How a page shows an object: its name and its number.
SHOWN = re.compile(r"(.*\S)\s+#(\d{1,10})")


class Found(NamedTuple):
    """A name in a text: the name, and the place of its first letter, from 0 on."""

    word: str
    place: int


def names_of_objects(text: str) -> list[Found]:
    """The names of objects in a value, in the order of the text."""
    found, place = [], 0
    for piece in PIECE.split(text):
        word = piece.strip()
        if word and not PIECE.fullmatch(piece) and not PLAIN.fullmatch(word):
            found.append(Found(word, place + piece.index(word)))
        place += len(piece)
    return found


def replaced(text: str, found: Found, number: str) -> str:
    """The text with a number in the place of a name."""
    return text[: found.place] + number + text[found.place + len(found.word) :]


def numbered(text: str, find: Callable[[Found], str]) -> str:
    """The text with the number of each name in its place. What `find` raises is raised."""
    numbers = [(found, find(found)) for found in names_of_objects(text)]
    for found, number in reversed(numbers):
        text = replaced(text, found, number)
    return text


def shown_as(text: str) -> Optional[tuple[str, int]]:
    """The name and the number of an object as a page shows it, such as `The Inn #11`; None, if the text isn't so."""
    found = SHOWN.fullmatch(text)
    return (found[1], int(found[2])) if found else None
