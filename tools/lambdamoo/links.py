"""Parents and locations: loops in them, and what an object has of its ancestors."""

from __future__ import annotations

from typing import TypeVar

from lambdamoo.words import NOTHING

T = TypeVar("T")


def loop_in(links: dict[int, int]) -> int | None:
    """An object whose links lead round in a loop, or None. Each link is a key too, or NOTHING."""
    ends = {NOTHING}
    for start in links:
        path: dict[int, bool] = {}
        number = start
        while number not in ends:
            if number in path:
                return number
            path[number] = True
            number = links[number]
        ends.update(path)
    return None


def listed_otherwise(links: dict[int, int], firsts: dict[int, int], nexts: dict[int, int]) -> list[int]:
    """The objects whose lists have others than those that link to them. A list goes from its first member on by what is next to each."""
    linked: dict[int, set[int]] = {}
    for number, link in links.items():
        linked.setdefault(link, set()).add(number)
    found = []
    for number, member in firsts.items():
        wanted, listed = linked.get(number, set()), set[int]()
        while member in wanted and member not in listed:
            listed.add(member)
            member = nexts[member]
        if member != NOTHING or listed != wanted:
            found.append(number)
    return found


def owed_to_each(parents: dict[int, int], defines: dict[int, list[T]]) -> dict[int, list[T]]:
    """What each object and its ancestors define, its own first, as a list. There are no loops. Objects share lists that are equal."""
    owed: dict[int, list[T]] = {NOTHING: []}
    for start in parents:
        path = []
        number = start
        while number not in owed:
            path.append(number)
            number = parents[number]
        for number in reversed(path):
            above = owed[parents[number]]
            owed[number] = defines[number] + above if defines[number] else above
    return owed


def clash_in(parents: dict[int, int], names: dict[int, list[str | None]]) -> tuple[int, int] | None:
    """An object and the place of a name among its names that it or an ancestor has already, or None. A name may be None for none."""
    owed = owed_to_each(parents, names)
    for number, own in names.items():
        if own:
            seen = set(owed[parents[number]])
            for place, name in enumerate(own):
                if name is not None and name in seen:
                    return number, place
                seen.add(name)
    return None
