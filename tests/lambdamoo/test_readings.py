"""What else may have happened to the verbs of an object, compared with all that may have happened."""

from __future__ import annotations

import unittest
from itertools import combinations
from random import Random
from typing import Optional
from unittest import mock

from tests.support import TOOLS  # noqa: F401 (the path of the tools)
from tests.support.cases import ProgramTest

from lambdamoo import readings

Shape = tuple[str, str]
PAIRS = 2000


def all_readings(before: list[Shape], now: list[Shape]) -> list[tuple[int, tuple[int, ...]]]:
    """Each choice of the verbs that stayed, by their places before, with the changes that it takes."""
    found = []
    for stayed in range(min(len(before), len(now)) + 1):
        for places in combinations(range(len(before)), stayed):
            changed = sum((before[was][0] != verb[0]) + (before[was][1] != verb[1]) for was, verb in zip(places, now))
            found.append((len(before) - stayed + len(now) - stayed + changed, places))
    return found


class All(ProgramTest):
    def verbs(self, random: Random) -> list[Shape]:
        """Some verbs, many of which are alike."""
        return [(random.choice("abc"), random.choice("xy")) for _ in range(random.randrange(6))]

    def compare(self, before: list[Shape], now: list[Shape]) -> None:
        """Each verb may have been what it was by a reading that takes at most one change more than the least."""
        found = readings.Readings(before, now)
        counted = all_readings(before, now)
        most = min(changes for changes, _ in counted) + 1
        for place in range(len(now)):
            wanted: set[Optional[int]] = {
                places[place] if place < len(places) else None for changes, places in counted if changes <= most
            }
            self.assertEqual(set(found.of(place)), wanted, f"{before} {now} {place}")

    def test_random_verbs(self) -> None:
        random = Random(1)
        for widths in ((8, 64, 512), (1, 2, 3, 8)):
            with mock.patch.object(readings, "WIDTHS", widths):
                for _ in range(PAIRS // 2):
                    before, now = self.verbs(random), self.verbs(random)
                    self.compare(before, now)
                    self.compare(before, before[:1] + now[:2] + before[2:])


if __name__ == "__main__":
    unittest.main()
