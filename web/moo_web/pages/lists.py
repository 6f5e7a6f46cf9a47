"""Pages of lists: what is under, in and of an object, and what is nowhere."""

from __future__ import annotations

from typing import Any, NamedTuple, Sequence

from moo_web.app import Reply
from moo_web.pages.pages import Visit
from moo_web.pages.sorting import Wanted, orders, sorted_list
from moo_web.paths import whole_number
from moo_web.world.things import NOTHING, Thing

# So many objects are on one page.
PAGE = 100


class Part(NamedTuple):
    """A page of something longer: its items, its number from 1 on, how many pages there are, and of how many items."""

    items: Sequence[Any]
    number: int
    pages: int
    total: int


def part_of(items: Sequence[Any], asked: str, size: int = PAGE) -> Part:
    """The page of this number. One that can't be is the first, or the last."""
    pages = max(1, -(-len(items) // size))
    number = min(whole_number(asked) or 1, pages)
    return Part(items[(number - 1) * size : number * size], number, pages, len(items))


def list_page(visit: Visit, title: str, told: str, numbers: Sequence[int], of: Thing | None = None) -> Reply:
    """A page of a list of objects, as it is wanted."""
    wanted = Wanted.of(visit.fields)
    found = sorted_list(visit, numbers, wanted)
    part = part_of(found.numbers, visit.fields.get("page", ""))
    things = [visit.world.things[number] for number in part.items if number in visit.world.things]
    return visit.page(
        "pages/list.html", heading=title, told=told, part=part, things=things, of=of, wanted=wanted, orders=list(orders(wanted)),
        unknown=found.unknown, count=len(numbers),
    )  # fmt: skip


def listed(visit: Visit, number: int, what: str) -> Reply:
    """What is under an object, in it, or its own."""
    world, of = visit.world, visit.world.thing(number)
    if what == "children":
        return list_page(visit, "Children of", "What inherits from it directly.", world.children.get(of.number, ()), of)
    if what == "contents":
        return list_page(visit, "Contents of", "What is in it directly.", world.contents.get(of.number, ()), of)
    return list_page(visit, "Owned by", "What belongs to it.", world.owned.get(of.number, []), of)


def nowhere(visit: Visit) -> Reply:
    """What is in no place."""
    return list_page(visit, "Nowhere", "What is in no place.", visit.world.contents.get(NOTHING, ()))


def roots(visit: Visit) -> Reply:
    """What has no parent."""
    return list_page(visit, "Without a parent", "What inherits from nothing.", visit.world.children.get(NOTHING, ()))
