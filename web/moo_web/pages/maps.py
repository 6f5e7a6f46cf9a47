"""The maps: pictures of who inherits from whom, of what is where, and of how places are joined.

Of a large world a part is shown, and each part of it has its own.
"""

from __future__ import annotations

import itertools

from moo_web.app import Reply
from moo_web.pages.joined import pictured, walked
from moo_web.pages.lists import part_of
from moo_web.pages.pages import Visit
from moo_web.pages.picture import drawn
from moo_web.paths import url_for, whole_number
from moo_web.world.things import NOTHING
from moo_web.world.trees import tree

# So many objects are in one picture, and so many trees one under the other.
MOST_NODES, MOST_TREES = 160, 40
# So many places are offered to start from.
MOST_CHOICES = 48


def first(visit: Visit) -> Reply:
    """The map that comes first."""
    return visit.go(url_for("tree", tree="exits"))


def map_page(visit: Visit, what: str) -> Reply:
    """A map: of all, or from one object on."""
    asked = whole_number(visit.fields.get("from", ""))
    start = asked if asked in visit.world.things else None
    return exits_page(visit, start) if what == "exits" else tree_page(visit, what, start)


def exits_page(visit: Visit, start: int | None) -> Reply:
    """The map of how places are joined: what can be reached from one, or from where the person is."""
    world = visit.world
    here = world.things[visit.number].location
    start = here if start is None and here in world.things else start
    if start is None:
        choices = list(itertools.islice((number for number in world.contents if number != NOTHING), MOST_CHOICES))
        return visit.page("pages/exits.html", start=None, here=here, choices=choices)
    places, is_more = walked(visit, start)
    return visit.page("pages/exits.html", start=start, here=here, places=places, is_more=is_more, picture=pictured(visit, places))


def tree_page(visit: Visit, what: str, start: int | None) -> Reply:
    """The map of a tree: of all, or from one object down."""
    world = visit.world
    links = world.children if what == "parents" else world.contents
    roots = links.get(NOTHING, ()) if start is None else (start,)
    if what == "places" and start is None:
        roots = tuple(number for number in roots if number in links)
    part = part_of(roots, visit.fields.get("page", ""), MOST_TREES)
    trees = tree(links, part.items, MOST_NODES)
    above = [thing.number for thing in (world.chain(start) if what == "parents" else world.places(start))][1:] if start is not None else []
    loose = len(world.contents.get(NOTHING, ())) - len(roots) if what == "places" and start is None else 0
    pictures = [drawn(one) for one in trees]
    return visit.page("pages/map.html", what=what, pictures=pictures, part=part, start=start, above=above[::-1], loose=loose)
