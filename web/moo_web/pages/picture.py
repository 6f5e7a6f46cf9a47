"""A picture of a tree: names in the cells of a table, and between them the lines, each object's as SVG.

A leaf has a row of its own, and each object is beside the middle of what is under it. All rows are of one height, so the lines are drawn in
units of rows and stretched to the cell, and nothing has to know how wide the reader's letters are.
"""

from __future__ import annotations

from typing import NamedTuple, Union

from moo_web.world.trees import Node

# The height of a row in the units of a drawing, and the width of the drawing.
ROW, ACROSS = 20, 40


class Name(NamedTuple):
    """A cell with an object, over so many rows."""

    number: int
    rows: int
    is_parent: bool
    kind: str = "name"


class Lines(NamedTuple):
    """A cell with the lines from an object to those under it, over so many rows. `paths` are SVG's, in a drawing of this height."""

    paths: list[str]
    rows: int
    height: int
    kind: str = "lines"


class More(NamedTuple):
    """A cell that says how many of those under an object aren't shown."""

    number: int
    more: int
    rows: int = 1
    kind: str = "more"


Rows = list[list[Union[Name, Lines, More]]]


def drawn(node: Node) -> Rows:
    """The rows of the picture of a tree."""
    rows: Rows = [[] for _ in range(height_of(node))]
    put(rows, node, 0)
    return rows


def height_of(node: Node) -> int:
    """How many rows a tree has."""
    return max(1, sum(height_of(one) for one in node.nodes) + bool(node.more))


def put(rows: Rows, node: Node, first: int) -> None:
    """Puts a tree into the rows from this one on."""
    height = height_of(node)
    heights = [height_of(one) for one in node.nodes] + [1] * bool(node.more)
    rows[first].append(Name(node.number, height, bool(heights)))
    if not heights:
        return
    tops = [sum(heights[:place]) for place in range(len(heights))]
    paths = [path_to(height, top + own / 2) for top, own in zip(tops, heights)]
    rows[first].append(Lines(paths, height, height * ROW))
    for one, top in zip(node.nodes, tops):
        put(rows, one, first + top)
    if node.more:
        rows[first + tops[-1]].append(More(node.number, node.more))


def path_to(height: int, place: float) -> str:
    """A line from the middle of a drawing of so many rows to this place, which leaves and arrives level."""
    start, end = height * ROW / 2, place * ROW
    if start == end:
        return f"M0 {start:g}H{ACROSS}"
    return f"M0 {start:g}C{ACROSS / 2:g} {start:g} {ACROSS / 2:g} {end:g} {ACROSS} {end:g}"
