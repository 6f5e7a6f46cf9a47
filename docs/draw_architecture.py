#!/usr/bin/env python3
"""Draws docs/architecture.svg from docs/architecture.txt and crates.txt, by Python's standard library alone.

    docs/draw_architecture.py            writes docs/architecture.svg
    docs/draw_architecture.py --check    writes nothing; its status is 1 if the picture isn't that of the texts

A thin arrow leads from a box to one of the same part whose crates it uses; one that other arrows lead to as well is left out. A thick arrow
leads from a part to one right beside or below it of which it uses a crate. A use that the picture doesn't allow is an error.
"""

from __future__ import annotations

import sys
import textwrap
from dataclasses import dataclass, field
from html import escape
from pathlib import Path
from typing import Dict, Iterator, List, Set, Tuple

HERE = Path(__file__).resolve().parent
TEXT, PICTURE, CRATES = HERE / "architecture.txt", HERE / "architecture.svg", HERE.parent / "crates.txt"

WIDTH, SIDE, MARGIN, PAD, GAP = 1240, 334, 14, 12, 16
LINE, TITLE, ROWS, BETWEEN = 15, 26, 30, 30
LETTER = 6.3  # how wide a letter is reckoned, in pixels
STYLE = """text { font: 12px sans-serif; fill: #333 } .crate { font: bold 11.5px monospace; fill: #123a5e }
.part { font: bold 14px sans-serif; fill: #111 } .band { fill: #eef3f8 } .tower { fill: #e0eaf3 } .box { fill: #fff; stroke: #8aa5bf }
.arrow { stroke: #7d90a5; stroke-width: 1.2; fill: none } .head { fill: #7d90a5 }
.bold { stroke: #3d5a78; stroke-width: 4 } .tip { fill: #3d5a78 }"""


class Wrong(Exception):
    """The texts don't fit."""


@dataclass
class Place:
    """Where something is drawn."""

    left: float = 0
    top: float = 0
    width: float = 0
    height: float = 0

    @property
    def right(self) -> float:
        """Where it ends at the right."""
        return self.left + self.width

    @property
    def bottom(self) -> float:
        """Where it ends below."""
        return self.top + self.height


@dataclass
class Box(Place):
    """Crates with what they hold. One without crates is an empty place."""

    crates: List[str] = field(default_factory=list)
    about: str = ""

    def lines(self) -> list[tuple[str, str]]:
        """What is written in the box, each line with its kind."""
        told = textwrap.wrap(self.about, int((self.width - 2 * PAD) / LETTER))
        return [(crate, "crate") for crate in self.crates] + [(line, "") for line in told]


@dataclass
class Part(Place):
    """A part of the house: its mark, its name, what it is for, and its boxes in rows."""

    mark: str = ""
    name: str = ""
    about: str = ""
    rows: List[List[Box]] = field(default_factory=list)

    def boxes(self) -> list[Box]:
        """Its boxes, from the top down."""
        return [box for row in self.rows for box in row if box.crates]

    def crates(self) -> set[str]:
        """The crates of all of its boxes."""
        return {crate for box in self.boxes() for crate in box.crates}


def read_box(text: str) -> Box:
    """A box of a row."""
    names, _, about = text.partition(":")
    return Box(crates=[name for name in names.split() if name != "-"], about=about.strip())


def parts_of(text: str) -> list[Part]:
    """The parts of the house, in the order of the text."""
    parts: list[Part] = []
    for line in text.splitlines():
        if not line.strip() or line.startswith("#"):
            continue
        if line[0].isspace():
            parts[-1].rows.append([read_box(box) for box in line.split("|")])
        else:
            name, _, about = (words.strip() for words in line.partition(":"))
            parts.append(Part(mark=name[0] if name[0] in "*+" else "", name=name.lstrip("*+ "), about=about))
    return parts


def read_uses(text: str) -> dict[str, set[str]]:
    """The crates that each crate of the product uses, by the text of crates.txt."""
    lines = [line.partition("#")[0].partition(":") for line in text.splitlines()]
    return {name.split()[0]: set(used.split()) for name, _, used in lines if name.strip() and not name.startswith("test_")}


def check_uses(parts: list[Part], uses: Dict[str, Set[str]]) -> None:
    """`Wrong`: a crate is in no box or in two, or uses one that the picture doesn't let it use."""
    rows = [(at, row, boxes) for at, part in enumerate(parts) for row, boxes in enumerate(part.rows)]
    places = [(crate, at, row) for at, row, boxes in rows for box in boxes for crate in box.crates]
    if sorted(crate for crate, _, _ in places) != sorted(uses):
        raise Wrong(f"not once in a box: {', '.join(sorted({crate for crate, _, _ in places} ^ set(uses))) or 'some crate'}")
    place_of = {crate: (at, row) for crate, at, row in places}
    for crate, (at, row) in place_of.items():
        for used in sorted(uses[crate] & set(place_of)):
            other, lower = place_of[used]
            is_of_towers = other != at and parts[at].mark == parts[other].mark == "*"
            if (other, lower) < (at, row) or is_of_towers:
                raise Wrong(f"{crate} of {parts[at].name} uses {used} of {parts[other].name}")


def reached(uses: Dict[int, Set[int]], start: int) -> set[int]:
    """All boxes to which arrows lead from a box."""
    found: set[int] = set()
    waiting = [start]
    while waiting:
        more = uses[waiting.pop()] - found
        found |= more
        waiting += more
    return found


def arrows_within(part: Part, uses: Dict[str, Set[str]]) -> list[tuple[Box, Box]]:
    """The arrows between the boxes of a part: those that no others lead to as well."""
    boxes = part.boxes()
    box_of = {crate: number for number, box in enumerate(boxes) for crate in box.crates}
    direct = {
        number: {box_of[used] for crate in box.crates for used in uses[crate] if used in box_of} - {number}
        for number, box in enumerate(boxes)
    }
    arrows = []
    for number, used in direct.items():
        beyond = {far for near in used for far in reached(direct, near)}
        arrows += [(boxes[number], boxes[other]) for other in sorted(used - beyond)]
    return arrows


def place_part(part: Part, left: float, top: float, width: float) -> None:
    """Places a part and its boxes, as high as these need."""
    part.left, part.top, part.width = left, top, width
    top += TITLE + PAD
    for row in part.rows:
        each = (width - 2 * PAD - GAP * (len(row) - 1)) / len(row)
        for number, box in enumerate(row):
            box.left, box.top, box.width = left + PAD + number * (each + GAP), top, each
        height = max(len(box.lines()) for box in row) * LINE + PAD
        for box in row:
            box.height = height
        top += height + ROWS
    part.height = top - ROWS + PAD - part.top


def stretch(part: Part, bottom: float) -> None:
    """Has a part end there, with more room between its rows."""
    more = (bottom - part.bottom) / max(len(part.rows) - 1, 1)
    for number, row in enumerate(part.rows):
        for box in row:
            box.top += number * more
    part.height = bottom - part.top


def place_storey(parts: list[Part], left: float, top: float, width: float) -> float:
    """Places parts side by side, equally high, and as wide as they have boxes side by side. Where they end."""
    shares = [1 + max(len(row) for row in part.rows) for part in parts]
    for part, share in zip(parts, shares):
        each = (width - BETWEEN * (len(parts) - 1)) * share / sum(shares)
        place_part(part, left, top, each)
        left += each + BETWEEN
    bottom = max(part.bottom for part in parts)
    for part in parts:
        stretch(part, bottom)
    return bottom


def place_all(parts: list[Part]) -> float:
    """Places all parts. Where they end."""
    side = next((at for at, part in enumerate(parts) if part.mark == "+"), 0)
    towers = [part for part in parts if part.mark == "*"]
    if not side or parts[side + 1 : side + 1 + len(towers)] != towers:
        raise Wrong("a part with `+` comes after the part that it stands beside, and before the towers")
    whole, top = WIDTH - 2 * MARGIN, float(MARGIN)
    for part in parts[: side - 1]:
        top = place_storey([part], MARGIN, top, whole) + BETWEEN
    left, beside = MARGIN + SIDE + BETWEEN, whole - SIDE - BETWEEN
    place_part(parts[side], MARGIN, top, SIDE)
    bottom = place_storey(towers, left, place_storey([parts[side - 1]], left, top, beside) + BETWEEN, beside)
    stretch(parts[side], bottom)
    for part in parts[side + 1 + len(towers) :]:
        bottom = place_storey([part], MARGIN, bottom + BETWEEN, whole)
    return bottom


def text_at(left: float, top: float, words: str, kind: str = "") -> str:
    """The shape of a text at a place."""
    named = f' class="{kind}"' if kind else ""
    return f'<text{named} x="{left:g}" y="{top:g}">{escape(words)}</text>'


def draw_part(part: Part) -> list[str]:
    """The shapes of a part without its boxes."""
    kind = "tower" if part.mark else "band"
    return [
        f'<rect class="{kind}" x="{part.left:g}" y="{part.top:g}" width="{part.width:g}" height="{part.height:g}" rx="8"/>',
        f'<text x="{part.left + PAD:g}" y="{part.top + TITLE - 5:g}"><tspan class="part">{escape(part.name)}</tspan>'
        f'<tspan dx="10">{escape(part.about)}</tspan></text>',
    ]


def draw_box(box: Box) -> list[str]:
    """The shapes of a box."""
    shapes = [f'<rect class="box" x="{box.left:g}" y="{box.top:g}" width="{box.width:g}" height="{box.height:g}" rx="5"/>']
    lines = enumerate(box.lines())
    return shapes + [text_at(box.left + PAD, box.top + PAD / 2 + (number + 1) * LINE - 3, line, kind) for number, (line, kind) in lines]


def docks(ends: list[tuple[Box, float]]) -> list[float]:
    """The places at which arrows touch boxes, side by side in the order of their other ends. Each is given by its box and its other end."""
    touched: list[float] = [0] * len(ends)
    for box in {id(box): box for box, _ in ends}.values():
        own = sorted((far, number) for number, (other, far) in enumerate(ends) if other is box)
        for place, (_, number) in enumerate(own):
            touched[number] = box.left + box.width * (place + 1) / (len(own) + 1)
    return touched


def draw_arrow(source: Box, target: Box, begin: float, end: float) -> list[str]:
    """The shapes of an arrow that begins and ends at these places of its boxes, or leads to one beside it."""
    if source.top == target.top:
        side = -1 if target.left < source.left else 1
        begin, end = (source.left, target.right) if side < 0 else (source.right, target.left)
        y = source.top + source.height / 2
        return [
            f'<path class="arrow" d="M{begin:g} {y:g}H{end - 6 * side:g}"/>',
            f'<path class="head" d="M{end - 6 * side:g} {y - 4:g}v8l{6 * side} -4z"/>',
        ]
    top, bottom = source.bottom, target.top - 6
    bend = (bottom - top) / 2
    return [
        f'<path class="arrow" d="M{begin:.5g} {top:g}C{begin:.5g} {top + bend:g} {end:.5g} {bottom - bend:g} {end:.5g} {bottom:g}"/>',
        f'<path class="head" d="M{end - 4:.5g} {bottom:g}h8l-4 6z"/>',
    ]


def draw_arrows(arrows: List[Tuple[Box, Box]]) -> list[str]:
    """The shapes of the arrows within a part."""
    down = [(source, target) for source, target in arrows if source.top != target.top]
    middles = [(source.left + source.width / 2, target.left + target.width / 2) for source, target in down]
    begins = docks([(source, far) for (source, _), (_, far) in zip(down, middles)])
    ends = docks([(target, far) for (_, target), (far, _) in zip(down, middles)])
    shapes = [shape for (source, target), begin, end in zip(down, begins, ends) for shape in draw_arrow(source, target, begin, end)]
    return shapes + [shape for source, target in arrows if source.top == target.top for shape in draw_arrow(source, target, 0, 0)]


def draw_bold_arrow(source: Part, target: Part) -> list[str]:
    """The shapes of an arrow between parts side by side, or of which one is right below the other; none between others."""
    left, right = max(source.left, target.left), min(source.right, target.right)
    top, bottom = max(source.top, target.top), min(source.bottom, target.bottom)
    if left < right and abs(target.top - source.bottom - BETWEEN) < 1:
        x, y = (left + right) / 2, source.bottom
        tip = f'<path class="tip" d="M{x - 9:g} {y + BETWEEN - 11:g}h18l-9 11z"/>'
        return [f'<path class="bold" d="M{x:g} {y:g}v{BETWEEN - 10}"/>', tip]
    if top < bottom and abs(left - right - BETWEEN) < 1:
        side = 1 if source.left < target.left else -1
        x, y = source.right if side > 0 else source.left, (top + bottom) / 2
        end = x + side * (BETWEEN - 11)
        return [f'<path class="bold" d="M{x:g} {y:g}H{end + side:g}"/>', f'<path class="tip" d="M{end:g} {y - 9:g}v18l{11 * side} -9z"/>']
    return []


def bold_arrows(parts: list[Part], uses: Dict[str, Set[str]]) -> Iterator[str]:
    """The shapes of the arrows between parts."""
    for source in parts:
        used = {crate for user in source.crates() for crate in uses[user]}
        for target in parts:
            if target is not source and used & target.crates():
                yield from draw_bold_arrow(source, target)


def picture_of(text: str, crates: str) -> str:
    """The whole picture. `Wrong`: the texts don't fit."""
    parts, uses = parts_of(text), read_uses(crates)
    check_uses(parts, uses)
    height = place_all(parts) + MARGIN
    shapes = [shape for part in parts for shape in draw_part(part)]
    shapes += bold_arrows(parts, uses)
    shapes += [shape for part in parts for shape in draw_arrows(arrows_within(part, uses))]
    shapes += [shape for part in parts for box in part.boxes() for shape in draw_box(box)]
    head = f'<svg xmlns="http://www.w3.org/2000/svg" viewBox="0 0 {WIDTH} {height:g}" width="{WIDTH}" height="{height:g}">'
    title = "<title>The crates of moo; an arrow is read as 'uses'. A part may use all parts further down, but for a tower beside it</title>"
    return "\n".join(
        [head, title, f"<style>{STYLE}</style>", f'<rect width="{WIDTH}" height="{height:g}" fill="#fff"/>', *shapes, "</svg>", ""]
    )


def main(words: list[str]) -> int:
    """Writes the picture, or says whether it is that of the texts."""
    try:
        picture = picture_of(TEXT.read_text(), CRATES.read_text())
    except Wrong as wrong:
        sys.exit(f"docs/architecture.txt: {wrong}")
    if words == ["--check"]:
        return 0 if PICTURE.is_file() and PICTURE.read_text() == picture else 1
    if words:
        sys.exit(__doc__)
    PICTURE.write_text(picture)
    return 0


if __name__ == "__main__":
    sys.exit(main(sys.argv[1:]))
