"""Links of a world: by the number of an object, those that are under it in some way. They are kept up with what changes."""

from __future__ import annotations

import bisect
import itertools
from collections.abc import Iterable, Iterator, Sequence
from typing import Any, Optional

from moo_web.world.layers import Layered

# A block has so many numbers when it is made, and never twice as many.
BLOCK = 512
# An object, what it was under, and what it is under; None: nothing.
Relinking = tuple[int, Optional[int], Optional[int]]


class Numbers(Sequence[int]):
    """Many ascending numbers, in blocks. What has changed of them shares all blocks but those that it touches."""

    def __init__(self, blocks: list[tuple[int, ...]]) -> None:
        self.blocks = blocks
        self.firsts = [block[0] for block in blocks]
        self.ends = list(itertools.accumulate(map(len, blocks)))

    def __len__(self) -> int:
        return self.ends[-1] if self.ends else 0

    def __getitem__(self, place: Any) -> Any:
        if isinstance(place, slice):
            first, end, step = place.indices(len(self))
            return tuple(itertools.islice(self.since(first), 0, max(0, end - first), step)) if step > 0 else tuple(self)[place]
        return next(self.since(range(len(self))[place]))

    def __iter__(self) -> Iterator[int]:
        return itertools.chain.from_iterable(self.blocks)

    def __contains__(self, number: object) -> bool:
        return isinstance(number, int) and is_among(self.blocks[self.block_of(number)], number)

    def since(self, place: int) -> Iterator[int]:
        """The numbers from a place on."""
        at = bisect.bisect_right(self.ends, place)
        before = self.ends[at - 1] if at else 0
        return itertools.islice(itertools.chain.from_iterable(self.blocks[at:]), place - before, None)

    def block_of(self, number: int) -> int:
        """The place of the block in which a number is, or would be."""
        return max(0, bisect.bisect_right(self.firsts, number) - 1)

    def changed(self, gone: set[int], come: set[int]) -> Numbers:
        """The numbers without those that are gone and with those that came."""
        touched: dict[int, tuple[set[int], set[int]]] = {}
        for place, numbers in enumerate((gone, come)):
            for number in numbers:
                touched.setdefault(self.block_of(number), (set(), set()))[place].add(number)
        parts: list[tuple[int, ...]] = []
        for at, block in enumerate(self.blocks):
            parts += blocks_of(merged(block, *touched[at])) if at in touched else [block]
        return Numbers(parts)


# By what they are under, the numbers of objects, ascending.
Links = Layered[Sequence[int]]


def links_of(pairs: Iterable[tuple[int, int]]) -> Links:
    """The links of these pairs: what something is under, and its number. The numbers come ascending."""
    links: dict[int, list[int]] = {}
    for of, number in pairs:
        links.setdefault(of, []).append(number)
    return Layered({of: in_blocks(tuple(some)) for of, some in links.items()})


def relinked(links: Links, changes: Iterable[Relinking]) -> Links:
    """Links after these changes."""
    gone: dict[int, set[int]] = {}
    come: dict[int, set[int]] = {}
    for number, old, new in changes:
        if old != new:
            if old is not None:
                gone.setdefault(old, set()).add(number)
            if new is not None:
                come.setdefault(new, set()).add(number)
    changed = {of: after(links.get(of, ()), gone.get(of, set()), come.get(of, set())) for of in gone.keys() | come.keys()}
    return links.changed({of: under or None for of, under in changed.items()})


def after(under: Sequence[int], gone: set[int], come: set[int]) -> Sequence[int]:
    """Numbers without those that are gone and with those that came."""
    return under.changed(gone, come) if isinstance(under, Numbers) else in_blocks(merged(under, gone, come))


def merged(under: Iterable[int], gone: set[int], come: set[int]) -> tuple[int, ...]:
    """The same of few numbers."""
    return tuple(sorted(set(under) - gone | come))


def blocks_of(numbers: tuple[int, ...]) -> list[tuple[int, ...]]:
    """Ascending numbers in blocks."""
    size = BLOCK if len(numbers) >= 2 * BLOCK else max(1, len(numbers))
    return [numbers[first : first + size] for first in range(0, len(numbers), size)]


def in_blocks(numbers: tuple[int, ...]) -> Sequence[int]:
    """Ascending numbers as they are kept: few in one tuple."""
    return numbers if len(numbers) < 2 * BLOCK else Numbers(blocks_of(numbers))


def is_among(numbers: Sequence[int], number: int) -> bool:
    """Whether a number is among ascending ones."""
    if isinstance(numbers, Numbers):
        return number in numbers
    place = bisect.bisect_left(numbers, number)
    return place < len(numbers) and numbers[place] == number
