"""The pages of what is found: objects by number and name, properties by name, values by a word in them; and what names an object."""

from __future__ import annotations

import re
from typing import Any, NamedTuple, Optional

from markupsafe import Markup
from moolib.values import written

from moo_web.app import Reply
from moo_web.pages import links
from moo_web.pages.lists import Part, part_of
from moo_web.pages.pages import Visit
from moo_web.pages.sight import DESTINATION
from moo_web.paths import url_for
from moo_web.world import finding
from moo_web.world.definers import Definers
from moo_web.world.dumped import ACCEPTS
from moo_web.world.finding import Found, Shown, ValuePlace
from moo_web.world.holdings import Holdings, NoDump
from moo_web.world.literals import STRING, spellings

LONGEST_QUERY = 256
# A search by name stops after so many.
MOST_FOUND = 1000
# So many values are shown beside the names that are found, and so many are counted there; and so many are on a page of their own.
FIRST_VALUES, FIRST_COUNTED, VALUES = 12, 100, 50
# So many letters of a value are shown before what was found in it, and after.
BEFORE, AFTER = 60, 120
ONLY_VALUES = "values"


class FoundRow(NamedTuple):
    """A place that was found, and the part of its value that shows what was found."""

    place: ValuePlace
    shown: Markup


class FoundValues(NamedTuple):
    """The values that are found: how many, whether there are more, and the part of them that is shown."""

    part: Part
    is_more: bool
    rows: list[FoundRow]


def find(visit: Visit, definers: Definers, holdings: Holdings) -> Reply:
    """What is found for a text: an object by its number, objects and properties by their names, and values."""
    query = visit.fields.get("q", "").strip()[:LONGEST_QUERY]
    number = re.fullmatch(r"#\s*(\d{1,10})", query) or re.fullmatch(r"(\d{1,10})", query)
    if number and int(number[1]) in visit.world.things:
        return visit.go(url_for("object", number=int(number[1])))
    if query and visit.fields.get("in") == ONLY_VALUES:
        return visit.page("pages/values.html", query=query, values=values(visit, holdings, query, VALUES))
    is_property = query.startswith(".") and len(query) > 1
    found = [] if is_property or not query else visit.world.names.like(query, MOST_FOUND + 1)
    part = part_of(found[:MOST_FOUND], visit.fields.get("page", ""))
    return visit.page(
        "pages/find.html", query=query, part=part, things=[visit.world.things[one] for one in part.items],
        properties=definers.found(visit, query.removeprefix(".")) if query else [],
        values=values(visit, holdings, query, FIRST_VALUES) if query and not is_property else None,
        is_property=is_property, number=int(number[1]) if number else None, is_more=len(found) > MOST_FOUND,
    )  # fmt: skip


def values(visit: Visit, holdings: Holdings, word: str, size: int) -> Optional[FoundValues]:
    """The values with a word in them, of which so many are on a page; None if they can't be searched."""
    try:
        found = finding.with_word(visit, holdings.literals(visit.world), word, finding.MOST_FOUND if size == VALUES else FIRST_COUNTED)
    except NoDump:
        return None
    part = part_of(found.places, visit.fields.get("page", "") if size == VALUES else "", size)
    rows = [FoundRow(each.place, around(each.value, word)) for each in finding.shown_places(visit, part.items)]
    return FoundValues(part, found.is_more, rows)


def around(value: Any, word: str) -> Markup:
    """The part of a value that has a word in it, which is marked. A string is without quotes."""
    text = value if isinstance(value, str) else written(value)
    places = [(text.lower().find(one), len(one)) for one in ([word.lower()] if isinstance(value, str) else spellings(word.lower()))]
    at, length = min((place for place in places if place[0] >= 0), default=(0, 0))
    first, last = max(0, at - BEFORE), at + length + AFTER
    return Markup("{}{}<mark>{}</mark>{}{}").format(
        "…" if first else "", text[first:at], text[at : at + length], text[at + length : last], "…" if last < len(text) else ""
    )


# What names an object


class Named(NamedTuple):
    """What names an object: exits that lead to it, other values, and objects that accept it."""

    exits: list[FoundRow]
    values: list[FoundRow]
    accepting: list[int]


def what_names(visit: Visit, holdings: Holdings, number: int) -> Reply:
    """The page of what names an object, which may be gone."""
    world = visit.world
    try:
        found: Optional[Found] = finding.with_number(visit, holdings.literals(world), number)
    except NoDump:
        found = None
    part = part_of(found.places if found else [], visit.fields.get("page", ""))
    return visit.page(
        "pages/named.html", number=number, thing=world.things.get(number), found=found, part=part,
        names_it=sorted_out(visit, finding.shown_places(visit, part.items), number),
        owned=len(world.owned.get(number, ())), children=len(world.children.get(number, ())), contents=len(world.contents.get(number, ())),
    )  # fmt: skip


def sorted_out(visit: Visit, shown: list[Shown], number: int) -> Named:
    """What was found, by what it is."""
    of_exits = {visit.sight_names.exits.lower(), DESTINATION}
    rows = [FoundRow(each.place, naming(visit, each.value, number)) for each in shown if each.place.name != ACCEPTS]
    exits = [row for row in rows if row.place.name.lower() in of_exits]
    others = [row for row in rows if row.place.name.lower() not in of_exits]
    return Named(exits, others, [each.place.number for each in shown if each.place.name == ACCEPTS])


def naming(visit: Visit, value: Any, number: int) -> Markup:
    """The part of a value that names an object, its objects as links."""
    text = written(value)
    # Strings are covered with as many letters, so that a number in one isn't found.
    covered = STRING.sub(lambda found: '"' * len(found[0]), text)
    at = next((found.start() for found in re.finditer(rf"#{number}(?![0-9])", covered)), 0)
    first = 0 if at <= BEFORE else covered.rfind(",", 0, at - BEFORE // 2) + 1
    last = len(text) if len(text) <= at + AFTER else covered.find(",", at + AFTER // 2)
    last = len(text) if last < 0 else last
    return Markup("{}{}{}").format("…" if first else "", links.call(visit.world, text[first:last].strip()), "…" if last < len(text) else "")

