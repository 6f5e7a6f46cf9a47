"""Calls as far as they are written: while one is typed, or with words in the place of values that aren't any.

    begun = read_begun('set(#4, "na')
    begun.name, begun.texts             "set", ("#4", '"na')
    begun.is_at_value                   True: what is typed next belongs to the last of these texts
    read_begun("get(O, NAME)").texts    ("O", "NAME")
"""

from __future__ import annotations

import re
from collections.abc import Iterator
from typing import NamedTuple, Optional

from moolib.calls import FRONT, NAMES
from moolib.lines import BLANKS, pieces

WORD = re.compile(r"[A-Za-z_]+")


class Begun(NamedTuple):
    """A call as far as it is written.

    `texts` are those of its values; of one that isn't closed the last may lack its end. What is between its brackets goes from the place
    `begin` of the text to the place `end`. `depth` is how many brackets are open in it at its end.
    """

    name: str
    texts: tuple[str, ...]
    begin: int
    end: int
    is_closed: bool
    depth: int

    @property
    def is_at_value(self) -> bool:
        """Whether a value of the call itself is typed at its end, and not one in a list."""
        return not self.is_closed and self.depth == 0


def signs(text: str) -> Iterator[tuple[str, bool]]:
    """The parts of a text, each with whether it is a single letter that may be a sign of a call: not one of a string or a name."""
    for kind, piece in pieces(text):
        yield from ((letter, True) for letter in piece) if kind == "other" else ((piece, False),)


def read_begun(text: str) -> Optional[Begun]:
    """The call that a text begins with, to its closing bracket or to the end of the text; None if it begins with none."""
    front = FRONT.match(text)
    if not front:
        return None
    begin = end = text.index("(", front.end(1)) + 1
    texts, depth, is_closed = [""], 0, False
    for part, is_sign in signs(text[begin:]):
        is_closed = is_sign and part == ")" and depth == 0
        if is_closed:
            break
        end += len(part)
        depth += is_sign and (part in "({") - (part in ")}")
        if is_sign and part == "," and depth == 0:
            texts.append("")
        else:
            texts[-1] += part
    found = tuple(each.strip(BLANKS) for each in texts)
    return Begun(front[1].lower(), () if is_closed and found == ("",) else found, begin, end, is_closed, depth)


def known_name(text: str) -> str:
    """The name of a call of moo that a text begins with, in small letters, whether a bracket comes after it or not; or nothing."""
    found = WORD.match(text)
    return found[0].lower() if found and found[0].lower() in NAMES else ""
