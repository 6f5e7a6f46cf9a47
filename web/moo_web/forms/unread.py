"""Which values of an undo somebody could not read: these are put back by a wizard alone, and told to nobody else.

The journal keeps what a wizard may read. A property that is lost can't be asked for any more, so it is asked for in the world as the undo
would leave it; and rights that were a slot's own are known from the undo itself.
"""

from __future__ import annotations

from typing import Callable

from moolib.batches import Item, resolved
from moolib.calls import call_text, read_about
from moolib.slots import SETTABLE
from moolib.errors import Failed
from moolib.lines import read_line
from moolib.service import Answer
from moolib.values import Given, Obj

# So many refusals are looked at one by one.
MOST_REFUSED = 200


def items_of_lines(lines: list[str]) -> list[Item]:
    """The calls of lines, each with its line."""
    read = [read_line(line) for line in lines]
    return [Item(line.text, line.name, ("", number)) for number, line in enumerate(read, 1)]


def readable_lines(lines: list[str], me: int, ask: Callable[[list[str]], Answer]) -> list[str]:
    """The lines without those about values that this object could not read. `ask` asks as it what a batch would answer."""
    places = hidden_by_rights(lines, me)
    left = [line for place, line in enumerate(lines) if place not in places]
    unread = unread_now(left, ask)
    return [line for line in left if line not in unread]


def unread_now(lines: list[str], ask: Callable[[list[str]], Answer]) -> set[str]:
    """The lines that set a value which can't be read, once all else of the lines is done."""
    values = [line for line in lines if is_of_value(line)]
    first = [line for line in lines if not is_of_value(line)]
    unread: set[str] = set()
    for _ in range(MOST_REFUSED):
        if not values:
            return unread
        try:
            _, answer = resolved([*items_of_lines(first), *map(reading, values)], {}, ask)
        except Failed:
            break
        if answer.is_good:
            return unread
        place = answer.call - 1
        if place < len(first):
            first.pop(max(place, 0))
        else:
            unread.add(values.pop(place - len(first)))
    return unread | set(values)


def is_of_value(line: str) -> bool:
    """Whether a line gives a property a value that isn't built in."""
    call = read_about(line)
    return call is not None and call.name == "set" and bool(call.property) and call.property.lower() not in SETTABLE


def reading(line: str) -> Item:
    """The call that reads what a line sets."""
    call = read_about(line)
    assert call, "it sets a value"
    return Item(call_text("get", (call.subject, call.property)))


def hidden_by_rights(lines: list[str], me: int) -> set[int]:
    """The places of lines about slots that were somebody else's, without the letter r: their values, and their rights."""
    found: set[int] = set()
    for place, line in enumerate(lines):
        call = read_about(line)
        if call and call.name == "set_property_info" and is_hidden(call.others[1], me):
            found.add(place)
            former = read_about(lines[place - 1]) if place and is_of_value(lines[place - 1]) else None
            if former and (former.subject, former.property) == (call.subject, call.property):
                found.add(place - 1)
    return found


def is_hidden(info: Given, me: int) -> bool:
    """Whether the rights of a property keep somebody from reading it."""
    return isinstance(info, list) and info[:1] != [Obj(me)] and "r" not in str(info[1])
