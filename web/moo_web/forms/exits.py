"""The exits of a room as they are typed: one on each line, a direction, a colon and the place to which it leads.

    west: The Square
    gate/out: Mill Lane         after the stroke is the way back, if it has no usual name

In the world they are a list of pairs, `{{"west", #7}, {"gate", #8}}`. A way back is one more pair in the exits of the other place.
"""

from __future__ import annotations

import dataclasses
from collections.abc import Callable, Mapping
from typing import Any, NamedTuple, Union

from moolib.batches import Item
from moolib.values import Obj, written

from moo_web.forms.entries import Entry
from moo_web.forms.forms import Ambiguous, Me, Typed, filled_lines, object_value
from moo_web.forms.input import Mistyped, clipped, test_letters
from moo_web.forms.lookup import ObjectLookup

PAIRS = (
    ("north", "south"), ("east", "west"), ("northeast", "southwest"), ("northwest", "southeast"), ("up", "down"), ("in", "out"),
    ("enter", "leave"), ("n", "s"), ("e", "w"), ("ne", "sw"), ("nw", "se"), ("u", "d"),
)  # fmt: skip
# In place of the number of an object that isn't there yet.
MADE = 1 << 40
OPPOSITES = {**dict(PAIRS), **{other: one for one, other in PAIRS}}
HINT = (
    "One on each line: a direction, a colon and a place, such as west: The Square. A way back without a usual name is written after a stroke: "
    "gate/out: The Square. A line that you take away is an exit less."
)
ANOTHER = "Write one after a stroke, such as {}/out: {}, or take the tick from ‘and back’."


class TypedExit(NamedTuple):
    """An exit: its direction, the number of the place to which it leads, and the direction that leads back, if it is known."""

    direction: str
    to: int
    back: str = ""


def typed_exits(value: Any) -> list[TypedExit] | None:
    """The exits that a value is; None, if it isn't a list of pairs of a text and an object."""
    pairs = value if isinstance(value, list) else [None]
    is_pair = [isinstance(pair, list) and len(pair) == 2 and isinstance(pair[0], str) and isinstance(pair[1], Obj) for pair in pairs]
    return [TypedExit(pair[0], pair[1].number) for pair in pairs] if all(is_pair) else None


def free_direction(exits: list[TypedExit]) -> str:
    """A direction for an exit to the place that has these exits: its way back is none of them. If all are taken it is empty."""
    taken = {one.direction.lower() for one in exits}
    return next((back for pair in PAIRS for way, back in (pair, pair[::-1]) if way not in taken), "")


def exits_text(exits: list[TypedExit], short: Callable[[int], str]) -> str:
    """Exits as they are typed. `short` gives an object by its name and number."""
    return "\n".join(f"{one.direction}: {short(one.to)}" for one in exits)


def line_exit(line: str, names: ObjectLookup, me: Me) -> TypedExit:
    """The exit of a line. `Mistyped`, `Ambiguous`: it isn't one."""
    words, colon, place = line.partition(":")
    direction, _, back = (part.strip() for part in words.partition("/"))
    if not colon:
        raise Mistyped("A direction, a colon and a place are wanted, such as west: The Square.")
    if not direction:
        raise Mistyped("The direction before the colon is missing, such as west in west: The Square.")
    test_letters(direction + back)
    return TypedExit(direction, int(object_value(place, names, me)[1:]), back or OPPOSITES.get(direction.lower(), ""))


def read_exits(text: str, known: Mapping[str, TypedExit], names: ObjectLookup, me: Me) -> list[TypedExit]:
    """The exits of all lines. A line of `known` is that exit, whatever its words are. `Mistyped`, `Ambiguous`: with the line that isn't one."""
    lines = filled_lines(text)
    found: list[TypedExit] = []
    for number, line in enumerate(lines, 1):
        try:
            one = known.get(line) or line_exit(line, names, me)
        except Ambiguous as several:
            head = line.partition(":")[0]
            choices = [("\n".join([*lines[: number - 1], f"{head}: {value}", *lines[number:]]), label) for value, label in several.choices]
            raise Ambiguous(f"Line {number}: {several.reason}", typed=choices) from None
        except Mistyped as mistyped:
            raise Mistyped(f"Line {number}: {mistyped.reason}") from None
        if line not in known and one.direction.lower() in (other.direction.lower() for other in found):
            raise Mistyped(f"Line {number}: there is an exit “{clipped(one.direction)}” already.")
        found.append(one)
    return found


def exits_value(exits: list[TypedExit], made: str = "") -> str:
    """Exits as moo writes them. `made` is the name in calls of the object that is `MADE`."""
    return "{" + ", ".join([f"{{{written(one.direction)}, {made if one.to == MADE else f'#{one.to}'}}}" for one in exits]) + "}"


@dataclasses.dataclass(frozen=True)
class ExitsEntry(Entry):
    """The exits of an object, which is `subject` in calls. `known` are those that are there, by their lines.

    `exits_of` tells the exits of another place, as far as they may be read; None, if it has none.
    """

    subject: str = ""
    known: Mapping[str, TypedExit] = dataclasses.field(default_factory=dict)
    exits_of: Callable[[int], Union[list[TypedExit], None]] = lambda number: None
    short: Callable[[int], str] = str

    def items(self, typed: Typed, names: ObjectLookup, me: Me) -> list[Item]:
        """The call that sets the exits, and those that make the ways back, if they are wanted."""
        exits = read_exits(typed.get(self.field.key, ""), self.known, names, me)
        value = exits_value(exits)
        items = [self.item(self.call(value))] if value != self.now else []
        if typed.get(f"{self.field.key}.back"):
            items += [self.item(call) for call in self.ways_back(exits, filled_lines(typed.get(self.field.key, "")))]
        return items

    def ways_back(self, exits: list[TypedExit], lines: list[str]) -> list[str]:
        """The calls that make a way back from each place to which a new exit leads. `Mistyped`: with the line for which there can't be one."""
        former = {(one.direction, one.to) for one in self.known.values()}
        there: dict[int, list[TypedExit]] = {}
        for number, (one, line) in enumerate(zip(exits, lines), 1):
            if (one.direction, one.to) in former or f"#{one.to}" == self.subject:
                continue
            try:
                there[one.to] = self.with_back(one, there.get(one.to))
            except Mistyped as mistyped:
                raise Mistyped(f"Line {number}: {mistyped.reason}") from None
        return [f"set(#{to}, {written(self.field.label)}, {exits_value(some, self.subject)})" for to, some in there.items() if some != self.exits_of(to)]

    def with_back(self, one: TypedExit, there: list[TypedExit] | None) -> list[TypedExit]:
        """The exits of the place to which an exit leads, with the way back. `Mistyped`: there can't be one."""
        place = self.short(one.to)
        exits = self.exits_of(one.to) if there is None else there
        if exits is None:
            raise Mistyped(f"{place} has no exits that you may read, so no way back can be made. Take the tick from ‘and back’.")
        here = int(self.subject[1:]) if self.subject.startswith("#") else MADE
        if any(other.to == here for other in exits):
            return exits
        if not one.back:
            raise Mistyped(f"The way back from {place} has no usual name. {ANOTHER.format(one.direction, place)}")
        if taken := next((other for other in exits if other.direction.lower() == one.back.lower()), None):
            raise Mistyped(f"{place} has an exit “{one.back}” already, to {self.short(taken.to)}. {ANOTHER.format(one.direction, place)}")
        return [*exits, TypedExit(one.back, here)]

