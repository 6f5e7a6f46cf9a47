"""The names of a world's objects in the order of the alphabet, in any case of letters. A search stops when it has found enough."""

from __future__ import annotations

import bisect
import heapq
import itertools
from array import array
from collections.abc import Iterable, Iterator
from typing import Optional

# It comes after every letter that a name may have.
LAST = "\x7f"
# Between two names in the text of all of them. No name has it.
BETWEEN = "\n"
# After so many changes the alphabet is made anew.
MOST_CHANGES = 1000
# What is found: whether its name only has the word within it, its name and its number. They sort as they are shown.
Hit = tuple[bool, str, int]


class Alphabet:
    """Names in their order, and the numbers that have them."""

    def __init__(self, pairs: list[tuple[str, int]]) -> None:
        self.names = [name for name, _ in pairs]
        self.numbers = array("l", [number for _, number in pairs])
        # All names as one text, which is searched fast, and where each begins in it.
        self.text = BETWEEN.join(self.names)
        self.begins = array("l", itertools.accumulate((len(name) + 1 for name in self.names), initial=0))

    def hits(self, word: str) -> Iterator[Hit]:
        """The names with a word, in small letters: first those that begin with it."""
        first, end = bisect.bisect_left(self.names, word), bisect.bisect_left(self.names, word + LAST)
        for place in range(first, end):
            yield False, self.names[place], self.numbers[place]
        for place in itertools.chain(self.holding(word, 0, first), self.holding(word, end, len(self.names))):
            yield True, self.names[place], self.numbers[place]

    def holding(self, word: str, first: int, end: int) -> Iterator[int]:
        """The places of the names with a word in them, from a place to another one. No line of Python runs for any other name."""
        last = self.begins[end]
        at = self.text.find(word, self.begins[first], last)
        while 0 <= at < last:
            place = bisect.bisect_right(self.begins, at) - 1
            yield place
            at = self.text.find(word, self.begins[place + 1], last)


class Names:
    """The names at one number of the world: an alphabet, which is shared, and what has changed since it was made; None: it is gone."""

    def __init__(self, alphabet: Alphabet, changes: Optional[dict[int, Optional[str]]] = None) -> None:
        self.alphabet, self.changes = alphabet, changes or {}

    @classmethod
    def of(cls, named: Iterable[tuple[int, str]]) -> Names:
        """The names of these objects."""
        return cls(Alphabet(sorted((fold(name), number) for number, name in named)))

    def hits(self, word: str) -> Iterator[Hit]:
        """The names with a word: first those of just this name, then those that begin with it, then the others."""
        wanted = word.lower()
        if BETWEEN in wanted:
            return iter(())
        kept = (hit for hit in self.alphabet.hits(wanted) if hit[2] not in self.changes)
        new = sorted((not name.startswith(wanted), name, number) for number, name in self.changes.items() if name is not None and wanted in name)
        return iter(heapq.merge(kept, new))

    def like(self, word: str, most: int) -> list[int]:
        """The objects with this word in their names, in the order of `hits`: at most so many."""
        return [number for *_, number in itertools.islice(self.hits(word), most)]

    def named(self, word: str) -> list[int]:
        """The objects of just this name."""
        wanted = word.lower()
        return [number for *_, number in itertools.takewhile(lambda hit: hit[1] == wanted, self.hits(word))]

    def changed(self, changes: dict[int, Optional[str]]) -> Optional[Names]:
        """The names after these changes. None: they are so many that the order had better be made anew."""
        folded = {number: None if name is None else fold(name) for number, name in changes.items()}
        made = Names(self.alphabet, {**self.changes, **folded})
        return made if len(made.changes) <= MOST_CHANGES else None


def fold(name: str) -> str:
    """A name in small letters. Most are so already, and are kept once."""
    small = name.lower()
    return name if small == name else small
