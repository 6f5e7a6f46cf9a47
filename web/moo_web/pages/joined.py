"""How places are joined by their exits: walked from one of them, put on a grid, and drawn as SVG.

A place is put where the words of its exit say (`north` is up), if nothing is there, and else as near as can be. Places to which a direction
leads come first. A line that would go through a box is bent.
"""

from __future__ import annotations

import collections
from typing import NamedTuple, Optional

from moolib.values import written

from moo_web.forms.input import clipped
from moo_web.pages.pages import Visit
from moo_web.pages.sight import DESTINATION, MOST_EXITS, Exit, exits_in, leading

# So many places are drawn.
MOST_PLACES = 60
# The size of a cell of the grid, and of the box of a place in it; and how many letters of a name are in that.
ACROSS, DOWN = 172, 78
WIDTH, HEIGHT = 140, 38
LETTERS = 17
STEPS = {
    "north": (0, -1), "n": (0, -1), "south": (0, 1), "s": (0, 1), "east": (1, 0), "e": (1, 0), "west": (-1, 0), "w": (-1, 0),
    "northeast": (1, -1), "ne": (1, -1), "northwest": (-1, -1), "nw": (-1, -1), "southeast": (1, 1), "se": (1, 1),
    "southwest": (-1, 1), "sw": (-1, 1),
}  # fmt: skip
GridCell = tuple[int, int]
ExitsByPlace = dict[int, list[Exit]]


class Box(NamedTuple):
    """A place as it is drawn: its number, its name cut to a length, and its left upper corner."""

    number: int
    name: str
    x: int
    y: int


class DrawnLine(NamedTuple):
    """A line between the middles of two boxes: a path of SVG. `words` are at a place of it, unless its direction says them.

    Some lead one way alone.
    """

    path: str
    x: int
    y: int
    words: str
    is_one_way: bool


class Picture(NamedTuple):
    """The boxes and lines of a drawing of this size."""

    boxes: list[Box]
    lines: list[DrawnLine]
    width: int
    height: int


def walked(visit: Visit, start: int) -> tuple[ExitsByPlace, bool]:
    """The places that can be reached from one, each with its exits, the near ones first; and whether there are more."""
    found: ExitsByPlace = {}
    level = [start]
    while level and len(found) < MOST_PLACES:
        found.update(exits_by_place(visit, level))
        further = dict.fromkeys(exit.to for number in level for exit in found[number])
        level = [number for number in further if number in visit.world.things and number not in found]
        is_more = len(level) > MOST_PLACES - len(found)
        level = level[: MOST_PLACES - len(found)]
    return found, is_more


def exits_by_place(visit: Visit, numbers: list[int]) -> ExitsByPlace:
    """The exits of some places, in two requests at most."""
    values = visit.answers([f"get(#{number}, {written(visit.sight_names.exits)})" for number in numbers])
    read = [exits_in(value)[:MOST_EXITS] for value in values]
    visit.answers([f'get(#{to}, "{DESTINATION}")' for some in read for words, to in some if not words and to in visit.world.things])
    return {number: leading(visit, some) for number, some in zip(numbers, read)}


def step_of(words: str) -> Optional[GridCell]:
    """The direction that the words of an exit say."""
    return next((STEPS[word] for word in words.lower().replace(",", " ").split() if word in STEPS), None)


def laid_out(places: ExitsByPlace) -> dict[int, GridCell]:
    """The cell of each place. They come in the order in which they are reached."""
    start = next(iter(places))
    cells = {start: (0, 0)}
    spread(places, cells, start)
    for number, exits in places.items():
        for exit in exits:
            if exit.to in places and exit.to not in cells:
                cells[exit.to] = free_near(set(cells.values()), cells[number], (0, 0))
                spread(places, cells, exit.to)
    return cells


def spread(places: ExitsByPlace, cells: dict[int, GridCell], start: int) -> None:
    """Finds cells for all that can be reached from a place by exits that say a direction."""
    waiting = collections.deque([start])
    while waiting:
        number = waiting.popleft()
        for exit in places[number]:
            step = step_of(exit.words)
            if step and exit.to in places and exit.to not in cells:
                cells[exit.to] = free_near(set(cells.values()), cells[number], step)
                waiting.append(exit.to)


def free_near(taken: set[GridCell], cell: GridCell, step: GridCell) -> GridCell:
    """The cell in a direction from one if it isn't taken; else one as near to it as can be, which isn't in one line with what is taken."""
    wanted = (cell[0] + step[0], cell[1] + step[1])
    reach = range(-len(taken) - 1, len(taken) + 2)
    around = ((wanted[0] + dx, wanted[1] + dy) for dx in reach for dy in reach if wanted[0] + dx != cell[0] and wanted[1] + dy != cell[1])
    free = (one for one in around if one not in taken)
    return wanted if wanted not in taken else min(free, key=lambda one: (abs(one[0] - wanted[0]) + abs(one[1] - wanted[1]), one[::-1]))


def pictured(visit: Visit, places: ExitsByPlace) -> Picture:
    """The drawing of places and their exits."""
    cells = laid_out(places)
    left, top = min(x for x, _ in cells.values()), min(y for _, y in cells.values())
    at = {number: (x - left, y - top) for number, (x, y) in cells.items()}
    boxes = [
        Box(number, clipped(visit.short(number), LETTERS), x * ACROSS + (ACROSS - WIDTH) // 2, y * DOWN + (DOWN - HEIGHT) // 2)
        for number, (x, y) in at.items()
    ]
    width, height = (max(x for x, _ in at.values()) + 1) * ACROSS, (max(y for _, y in at.values()) + 1) * DOWN
    return Picture(boxes, lines_of(places, at), width, height)


def lines_of(places: ExitsByPlace, at: dict[int, GridCell]) -> list[DrawnLine]:
    """A line for each two places that are joined."""
    ways = {(number, exit.to): exit.words for number, exits in reversed(places.items()) for exit in reversed(exits) if exit.to in places}
    taken = set(at.values())
    return [
        line_between(at[number], at[to], taken, words, (to, number) not in ways)
        for (number, to), words in reversed(ways.items()) if number != to and ((to, number) not in ways or first_of(places, number, to))
    ]  # fmt: skip


def first_of(places: ExitsByPlace, number: int, other: int) -> bool:
    """Whether a place is reached before another one."""
    return next(one for one in places if one in (number, other)) == number


def line_between(start: GridCell, end: GridCell, taken: set[GridCell], words: str, is_one_way: bool) -> DrawnLine:
    """The line between two cells."""
    (x, y), (to_x, to_y) = middle_of(start), middle_of(end)
    is_bent = any(one in taken for one in between(start, end))
    bend_x, bend_y = ((ACROSS if x == to_x else 0), (DOWN if x != to_x else 0)) if is_bent else (0, 0)
    through_x, through_y = (x + to_x) // 2 + bend_x, (y + to_y) // 2 + bend_y
    path = f"M{x} {y}Q{through_x} {through_y} {to_x} {to_y}"
    step = step_of(words)
    is_said = step is not None and (start[0] + step[0], start[1] + step[1]) == end
    return DrawnLine(path, through_x - bend_x // 2, through_y - bend_y // 2, "" if is_said else clipped(words, LETTERS), is_one_way)


def middle_of(cell: GridCell) -> GridCell:
    """The middle of a cell in the drawing."""
    return cell[0] * ACROSS + ACROSS // 2, cell[1] * DOWN + DOWN // 2


def between(start: GridCell, end: GridCell) -> list[GridCell]:
    """The cells between two that are in one line; of others none."""
    (x, y), (to_x, to_y) = start, end
    far = max(abs(to_x - x), abs(to_y - y))
    if abs(to_x - x) not in (0, far) or abs(to_y - y) not in (0, far):
        return []
    return [(x + (to_x - x) // far * step, y + (to_y - y) // far * step) for step in range(1, far)]
