"""The values that objects have of their own, as literals in one text that is searched fast: by a word, or by the number of an object.

Only what is searched is kept: small letters, whose the value is there, and whether everybody may read it. What moo says of a value is asked
for when somebody has found it.
"""

from __future__ import annotations

import bisect
import functools
import heapq
import itertools
import re
from array import array
from collections.abc import Callable, Iterable, Iterator
from typing import NamedTuple, Optional

# Between two literals in the text of all of them. None has it.
BETWEEN = "\n"
# After so many changes the text is made anew.
MOST_CHANGES = 2000
STRING = re.compile(r'"(?:[^"\\]|\\.)*"')


class Literal(NamedTuple):
    """A value that an object has of its own: its number, the name of the property, the literal in small letters, the owner of the property
    there, and whether everybody may read it."""

    number: int
    name: str
    text: str
    owner: int
    is_open: bool


# An object, and the name of a property in small letters.
Key = tuple[int, str]


def place_key(number: int, name: str) -> Key:
    """Where a value is."""
    return number, name.lower()


class Text:
    """Literals of objects in the order of their numbers, as one text and columns beside it."""

    def __init__(self, rows: Iterable[Literal]) -> None:
        texts: list[str] = []
        self.numbers, self.owners, self.kinds, self.open = array("i"), array("i"), array("I"), bytearray()
        # The names of properties, each once, and their places.
        self.names: list[str] = []
        kinds: dict[str, int] = {}
        for row in rows:
            kind = kinds.get(row.name)
            if kind is None:
                kind = kinds[row.name] = len(self.names)
                self.names.append(row.name)
            texts.append(row.text)
            self.numbers.append(row.number)
            self.owners.append(row.owner)
            self.kinds.append(kind)
            self.open.append(row.is_open)
        self.begins = array("Q", itertools.accumulate((len(text) + 1 for text in texts), initial=0))
        self.text = BETWEEN.join(texts)

    def at(self, place: int) -> Literal:
        """The literal at a place."""
        text = self.text[self.begins[place] : self.begins[place + 1] - 1]
        return Literal(self.numbers[place], self.names[self.kinds[place]], text, self.owners[place], bool(self.open[place]))

    def of(self, number: int) -> range:
        """The places of the literals of an object."""
        return range(bisect.bisect_left(self.numbers, number), bisect.bisect_right(self.numbers, number))

    def found(self, find: Callable[[int], int]) -> Iterator[int]:
        """The places of what is found. `find` gives where something is in the text from a letter on; -1: nowhere."""
        at = find(0)
        while at >= 0:
            place = bisect.bisect_right(self.begins, at) - 1
            yield place
            at = find(self.begins[place + 1])


class Literals:
    """The literals of a world: a text, and what has changed since it was made; None: it is gone."""

    def __init__(self, text: Text, changes: Optional[dict[Key, Optional[Literal]]] = None) -> None:
        self.text, self.changes = text, changes or {}
        self.changed = {number for number, _ in self.changes}

    @classmethod
    def of_rows(cls, rows: Iterable[Literal]) -> Literals:
        """These literals, which come in the order of their objects."""
        return cls(Text(rows))

    def after(self, changes: dict[Key, Optional[Literal]]) -> Literals:
        """The literals after these changes."""
        made = Literals(self.text, {**self.changes, **changes})
        return made if len(made.changes) <= MOST_CHANGES else Literals.of_rows(made.rows())

    def rows(self) -> Iterator[Literal]:
        """All of them."""
        return self.merged(range(len(self.text.numbers)), self.changes.values())

    def of_object(self, number: int) -> list[Literal]:
        """Those of an object."""
        changed = (self.changes.items() if number in self.changed else ())
        return list(self.merged(self.text.of(number), (row for (of, _), row in changed if of == number)))

    def with_word(self, word: str) -> Iterator[Literal]:
        """Those that have a word in them, in any case of letters. Within a string a quote and a backslash may be written as they are read."""
        words = spellings(word.lower())
        if not word or BETWEEN in word:
            return iter(())
        text = self.text.text
        places = heapq.merge(*(self.text.found(functools.partial(text.find, one)) for one in words))
        once = (place for place, _ in itertools.groupby(places))
        return self.merged(once, (row for row in self.changes.values() if row and any(one in row.text for one in words)))

    def with_number(self, number: int) -> Iterator[Literal]:
        """Those that name an object. A number in a string names nothing."""
        pattern = re.compile(rf"#{number}(?![0-9])")

        def find(first: int) -> int:
            found = pattern.search(self.text.text, first)
            return found.start() if found else -1

        hits = self.merged(self.text.found(find), (row for row in self.changes.values() if row and pattern.search(row.text)))
        return (row for row in hits if pattern.search(STRING.sub("", row.text)))

    def merged(self, places: Iterable[int], changes: Iterable[Optional[Literal]]) -> Iterator[Literal]:
        """What is at these places of the text and hasn't changed, and these changes, in the order of the objects."""
        return iter(heapq.merge(self.kept(places), sorted(row for row in changes if row), key=lambda row: row.number))

    def kept(self, places: Iterable[int]) -> Iterator[Literal]:
        """What is at these places of the text and hasn't changed."""
        for place in places:
            row = self.text.at(place)
            if row.number not in self.changed or place_key(row.number, row.name) not in self.changes:
                yield row


def spellings(word: str) -> list[str]:
    """How a word may be written in a literal: as it is, and within a string."""
    return list(dict.fromkeys((word, re.sub(r'(["\\])', r"\\\1", word))))


def has_word(text: str, word: str) -> bool:
    """Whether a literal has a word in it, as `with_word` finds it."""
    return any(one in text.lower() for one in spellings(word.lower()))
