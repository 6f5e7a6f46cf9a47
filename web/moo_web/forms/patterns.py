"""The small language of forms, read once, when the catalogue is imported: calls with places for what is typed, and conditions.

    Pattern('set(<object>, "name", <name>)').filled({"object": "#4", "name": '"Lamp"'})     'set(#4, "name", "Lamp")'
    Condition("what=move").holds({"what": "move"})                                          True

If there is a mistake in it, `ValueError` says what isn't there: a call, a field or an option.
"""

from __future__ import annotations

import functools
import re
from collections.abc import Mapping
from typing import Any

from moolib.calls import Call

PLACE = re.compile(r"<(\w+)>")


class Pattern:
    """A call with places such as `<object>`. `ValueError`: with values in them it would be none of moo's."""

    def __init__(self, text: str) -> None:
        self.keys = frozenset(PLACE.findall(text))
        # What comes before the first place, its key, what comes after it, and so on.
        self.pieces = PLACE.split(text)
        self.name = Call.read(PLACE.sub("0", text)).name
        if not Call(self.name).is_known:
            raise ValueError(f"{text}: {self.name} is no call")

    def filled(self, values: Mapping[str, Any]) -> str:
        """The call with these values, as moo writes them; several of them make a list."""
        pieces = self.pieces.copy()
        for place in range(1, len(pieces), 2):
            value = values[pieces[place]]
            pieces[place] = "{" + ", ".join(value) + "}" if isinstance(value, list) else str(value)
        return "".join(pieces)


class Condition:
    """Whether a field has something (`KEY`), or just this (`KEY=VALUE`); without words it always holds."""

    def __init__(self, text: str) -> None:
        self.key, sign, value = text.partition("=")
        self.value = value if sign else None

    def holds(self, values: Mapping[str, Any]) -> bool:
        """Whether it does, for these values of fields."""
        if self.value is not None:
            return values.get(self.key) == self.value
        return not self.key or values.get(self.key) not in (None, [])


@functools.lru_cache(maxsize=None)
def pattern(text: str) -> Pattern:
    """The pattern of a text of the catalogue, which is read once."""
    return Pattern(text)


@functools.lru_cache(maxsize=None)
def condition(text: str) -> Condition:
    """The condition of a text of the catalogue."""
    return Condition(text)
