"""What may have happened to the verbs of an object, and how many changes each such reading needs.

A verb never changes its place among the others, and a verb that is added comes last. So a reading pairs the first verbs of now, in their order,
with some of those before; the others before were deleted, and the others of now were added. It needs a change for each verb that was deleted,
added, given other names, or given other arguments.
"""

from __future__ import annotations

from collections.abc import Iterator, Sequence
from typing import Optional, Tuple

# A verb's names and arguments.
Shape = Tuple[object, object]

# A reading counts if it needs at most so many changes more than the least.
MORE = 1
# How many verbs a reading may delete: the first of these that is enough. The work grows with it, and with the number of verbs.
WIDTHS = (8, 64, 512)


def changes(before: Shape, now: Shape) -> int:
    """How many changes make a verb another one."""
    return (before[0] != now[0]) + (before[1] != now[1])


class Readings:
    """The readings that need at most so many changes more than the least. If that deletes hundreds of verbs, any verb may be any."""

    def __init__(self, before: Sequence[Shape], now: Sequence[Shape], more: int = MORE) -> None:
        self.before, self.now = before, now
        for self.width in WIDTHS:
            self.behind = self.counted_behind()
            self.ahead = self.counted_ahead()
            self.most = self.ahead[0][0] + more
            # A reading that deletes a verb more has to add one more too.
            self.is_wide = self.width >= min(len(before), (self.most + len(before) - len(now)) // 2)
            if self.is_wide:
                break

    def row(self, place: int) -> range:
        """How many verbs may have been deleted before the one at a place of now, which has one for each that is before it."""
        return range(min(self.width, len(self.before) - place) + 1)

    def counted_behind(self) -> list[list[int]]:
        """For each place of now, and so many verbs deleted: the changes of the verbs before that place, none of which was added."""
        rows = [list(self.row(0))]
        for place in range(1, min(len(self.before), len(self.now)) + 1):
            row: list[int] = []
            for gone in self.row(place):
                kept = rows[-1][gone] + changes(self.before[place + gone - 1], self.now[place - 1])
                row.append(min(kept, row[-1] + 1) if row else kept)
            rows.append(row)
        return rows

    def counted_ahead(self) -> list[list[int]]:
        """The same of the verbs from that place on, of which the last may have been added."""
        rows: list[list[int]] = []
        for place in range(min(len(self.before), len(self.now)), -1, -1):
            row: list[int] = []
            for gone in reversed(self.row(place)):
                was = place + gone
                found = [len(self.before) - was + len(self.now) - place]
                if row:
                    found.append(row[-1] + 1)
                if rows and gone < len(rows[-1]):
                    found.append(rows[-1][gone] + changes(self.before[was], self.now[place]))
                row.append(min(found))
            rows.append(row[::-1])
        return rows[::-1]

    def of(self, place: int) -> Iterator[Optional[int]]:
        """The places that the verb at a place of now may have had; None if it may have been added."""
        if not self.is_wide:
            yield from (*range(len(self.before)), None)
            return
        if place + 1 < len(self.ahead):
            for gone, count in enumerate(self.ahead[place + 1]):
                was = place + gone
                if self.behind[place][gone] + changes(self.before[was], self.now[place]) + count <= self.most:
                    yield was
        if self.least_if_added(place) <= self.most:
            yield None

    def least_if_added(self, place: int) -> int:
        """The least changes of a reading in which the verb at a place of now was added."""
        found = [len(self.before) + len(self.now)]
        for kept in range(max(0, len(self.before) - self.width), min(place + 1, len(self.behind))):
            found.append(self.behind[kept][len(self.before) - kept] + len(self.now) - kept)
        return min(found)
