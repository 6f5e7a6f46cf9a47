"""Names in the calls of programs: `$room = create(#4)` names an answer, and `$room` in a later call of the batch stands for it.

    items = read_items(["$room = create(#4)", 'set($room, "name", "Inn")'])
    calls, answer = resolved(items, {}, ask)
    names_of(items, answer.said["answers"])         {"room": "#7"}

A name is a letter, and then letters, digits and `_`, at most 64 in all. In a string `$` begins no name.
"""

from __future__ import annotations

import re
from collections.abc import Iterable, Sequence

from moolib.batches import Item

LONGEST_NAME = 64
NAME = re.compile(rf"[A-Za-z][A-Za-z0-9_]{{0,{LONGEST_NAME - 1}}}")
NAMED = re.compile(rf"[ \t]*\$({NAME.pattern})[ \t]*=[ \t]*(.*)", re.DOTALL)


class NoName(ValueError):
    """A name is used that isn't given before."""


def item_of(text: str) -> Item:
    """The call that a text is, without the name of its answer, and that name."""
    found = NAMED.fullmatch(text) if "$" in text else None
    return Item(found[2], f"${found[1]}") if found else Item(text)


def read_items(calls: Iterable[str]) -> list[Item]:
    """The calls of a batch, each with the name of its answer if it has one. `NoName`: a call uses a name that no call before it gives."""
    items: list[Item] = []
    known: set[str] = set()
    for text in calls:
        item = item_of(text)
        unknown = [name for name in item.parts[1::2] if name not in known]
        if unknown:
            raise NoName(f"{unknown[0]} names no answer of a call before it")
        if item.name:
            known.add(item.name)
        items.append(item)
    return items


def have_names(items: Iterable[Item]) -> bool:
    """Whether an answer has a name."""
    return any(item.name for item in items)


def names_of(items: Sequence[Item], answers: Sequence[str]) -> dict[str, str]:
    """What each name stands for after a batch with these answers."""
    return {item.name[1:]: answer for item, answer in sorted(zip(items, answers), key=lambda one: one[0].name or "") if item.name}
