"""docs/draw_architecture.py: what the picture of the crates lets a crate use, and its arrows."""
from __future__ import annotations

import sys
import unittest
from pathlib import Path

sys.path.insert(0, str(Path(__file__).resolve().parents[2] / "docs"))

from draw_architecture import Wrong, arrows_within, parts_of, picture_of, read_uses  # noqa: E402

TEXT = """# a house
The roof: over all
    roof: what is seen
The bridge: where towers meet
    bridge
+ Words: what is said
    words
* Left: warm
    left
    stove | -
* Right: cold
    right
The floor: below all
    floor board: what is stood on
"""
CRATES = """board:
floor: board
stove: floor
left: stove floor
right: floor
words: left
bridge: words left right
roof: bridge serde
test_roof: roof
"""


class Picture(unittest.TestCase):
    def test_it_is_drawn(self) -> None:
        drawn = picture_of(TEXT, CRATES)
        self.assertEqual(drawn.count('class="bold"'), 7)
        self.assertEqual(drawn.count('class="box"'), 7)
        # A part that uses none beside it has no arrow there.
        self.assertEqual(picture_of(TEXT, CRATES.replace("words: left", "words: floor")).count('class="bold"'), 7)
        self.assertEqual(picture_of(TEXT, CRATES.replace("words: left", "words:")).count('class="bold"'), 6)

    def test_arrows_that_others_make_are_left_out(self) -> None:
        (left,) = [part for part in parts_of("Left:\n    left\n    stove\n    wood\n")]
        arrows = arrows_within(left, read_uses("left: stove wood\nstove: wood\nwood:\n"))
        self.assertEqual([(one.crates, other.crates) for one, other in arrows], [(["left"], ["stove"]), (["stove"], ["wood"])])

    def test_uses_that_it_does_not_allow(self) -> None:
        for crate, used, why in [
            ("left: stove floor", "left: right", "left of Left uses right of Right"),
            ("right: floor", "right: stove", "right of Right uses stove of Left"),
            ("floor: board", "floor: words", "floor of The floor uses words of Words"),
            ("stove: floor", "stove: left", "stove of Left uses left of Left"),
            ("right: floor\n", "right: floor\nshed:\n", "not once in a box: shed"),
        ]:
            with self.subTest(used), self.assertRaisesRegex(Wrong, why):
                picture_of(TEXT, CRATES.replace(crate, used))


if __name__ == "__main__":
    unittest.main()
