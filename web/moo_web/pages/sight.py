"""What somebody sees who is at a place or looks at an object: its description, its exits, who is there, and what else.

Two properties say it, of which the operator may set the names (`moo-web --description`, `--exits`). A description is a text, or a list of
texts: its lines. Exits are a list of lists such as `{"west", #7}`: words, and the place to which they lead. An object without words is an
exit as LambdaCore has it: an object of its own, with a name, whose property `dest` is the place.
"""

from __future__ import annotations

from typing import Any, NamedTuple, Optional

from moolib.values import Obj, written

from moo_web.pages.pages import Visit
from moo_web.world.asking import Refusal

DESTINATION = "dest"
# So much of a description is shown, and so many exits, people and things.
LONGEST_DESCRIPTION = 4000
MOST_EXITS, MOST_HERE = 60, 24


class Exit(NamedTuple):
    """A way out: its words, and the number of the place to which it leads; -1: it isn't known."""

    words: str
    to: int


class Sight(NamedTuple):
    """What is seen. `is_cut` is whether the description goes on; `more_people` and `more_things` are how many more there are."""

    lines: list[str]
    is_cut: bool
    exits: list[Exit]
    people: list[int]
    more_people: int
    things: list[int]
    more_things: int


def sight_calls(visit: Visit, number: int) -> list[str]:
    """What is asked for what somebody sees at an object."""
    return [f"get(#{number}, {written(name)})" for name in visit.sight_names]


def sight_of(visit: Visit, number: int) -> Sight:
    """What somebody sees at an object of the world."""
    description, exits = visit.answers(sight_calls(visit, number))
    lines, is_cut = described(description)
    here, things_of_world = visit.world.contents.get(number, ()), visit.world.things
    people = [one for one in visit.world.with_bit("player") if things_of_world[one].location == number]
    things = without(here, set(people), MOST_HERE)
    more_things = len(here) - len(people) - len(things)
    return Sight(
        lines, is_cut, leading(visit, exits_in(exits)[:MOST_EXITS]), people[:MOST_HERE], max(0, len(people) - MOST_HERE), things, more_things
    )  # fmt: skip


def described(value: Any) -> tuple[list[str], bool]:
    """The lines of a description, as far as they are shown, and whether there is more."""
    lines = [value] if isinstance(value, str) else [line for line in value if isinstance(line, str)] if isinstance(value, list) else []
    shown: list[str] = []
    left = LONGEST_DESCRIPTION
    for line in lines:
        if left <= 0:
            return shown, True
        shown.append(line if len(line) <= left else line[:left] + "…")
        left -= len(line)
    return [line for line in shown if line.strip()], left < 0


def exits_in(value: Any) -> list[tuple[str, int]]:
    """The exits in a list: the words of each, and the number of an object, which is a place if there are words."""
    found: list[tuple[str, int]] = []
    words: list[str] = []
    for item in value if isinstance(value, list) else []:
        if isinstance(item, list):
            found += exits_in(item)
        elif isinstance(item, Obj):
            found.append((", ".join(words), item.number))
            words = []
        elif isinstance(item, str):
            words.append(item)
    return found


def leading(visit: Visit, found: list[tuple[str, int]]) -> list[Exit]:
    """Exits with the places to which they lead, as far as the person may know them."""
    things = visit.world.things
    asked = [number for words, number in found if not words and number in things]
    to = dict(zip(asked, visit.answers([f'get(#{number}, "{DESTINATION}")' for number in asked])))
    return [Exit(words, number) if words else exit_of(visit, number, to.get(number)) for words, number in found]


def exit_of(visit: Visit, number: int, to: Optional[Any]) -> Exit:
    """An exit that is an object of its own. Without a destination it is itself what it leads to."""
    if to is None or isinstance(to, Refusal) or not isinstance(to, Obj):
        return Exit("", number)
    return Exit(visit.short(number), to.number)


def without(numbers: tuple[int, ...], left_out: set[int], most: int) -> list[int]:
    """At most so many of these numbers, without some."""
    found: list[int] = []
    for number in numbers:
        if len(found) == most:
            break
        if number not in left_out:
            found.append(number)
    return found
