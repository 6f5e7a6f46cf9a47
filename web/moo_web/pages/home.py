"""The first page: where the person is, what waits for them, what happened lately, and the whole world to browse."""

from __future__ import annotations

import itertools

from moo_web.app import Reply
from moo_web.journal.history import Batches, History
from moo_web.pages.batches import Telling, without_unreadable
from moo_web.pages.pages import Visit
from moo_web.pages.sight import sight_calls, sight_of
from moo_web.world.things import NOTHING, World
from moo_web.world.trees import Node, tree

LATELY, NEWEST, YOURS = 6, 8, 12
# So many objects of each tree are on this page, and so many trees. The maps have more.
MOST_NODES, MOST_ROOTS = 48, 24
SOON = 0.3


def home(visit: Visit, history: History) -> Reply:
    """The first page of somebody who is signed in."""
    seen = visit.world
    here = seen.things[visit.number].location
    # All that the page asks for is asked in one request.
    quota, *_ = visit.answers([f'get(#{visit.number}, "ownership_quota")', *(sight_calls(visit, here) if here in seen.things else ())])
    yours, found = seen.owned.get(visit.number, ()), lately(visit, history)
    return visit.page(
        "pages/home.html", here=here, sight=sight_of(visit, here) if here in seen.things else None,
        waiting=visit.waiting, lately=found, others=by_others(visit, found),
        newest=list(itertools.islice(reversed(seen.things), NEWEST)), yours=yours[-YOURS:][::-1], yours_count=len(yours),
        quota=quota if isinstance(quota, int) else None, parents=parents_of(seen), places=places_of(seen),
        nowhere=len(seen.contents.get(NOTHING, ())), roots=len(seen.children.get(NOTHING, ())), players=len(seen.with_bit("player")),
        line=lambda batch: Telling(visit, history, batch).line(None),
    )  # fmt: skip


def lately(visit: Visit, history: History, number: int | None = None) -> Batches | None:
    """The newest batches that the person may see, all or about an object; None if the journal is still being read."""
    if visit.is_wizard:
        return history.found(None, number, LATELY, patience=SOON)
    own = [visit.number, *visit.world.owned.get(visit.number, ())]
    return without_unreadable(visit, history, history.found(visit.name, number, LATELY, patience=SOON, also=own))


def by_others(visit: Visit, found: Batches | None) -> int:
    """How many of these batches others made. To who isn't a wizard these are changes of what is theirs."""
    return sum(batch.who.lower() != visit.name.lower() for batch in found.batches) if found and not visit.is_wizard else 0


def parents_of(seen: World) -> list[Node]:
    """The tree of who inherits from whom."""
    return tree(seen.children, seen.children.get(NOTHING, ())[:MOST_ROOTS], MOST_NODES)


def places_of(seen: World) -> list[Node]:
    """The tree of what is where: places that aren't in another one."""
    nowhere = (number for number in seen.contents.get(NOTHING, ()) if number in seen.contents)
    return tree(seen.contents, list(itertools.islice(nowhere, MOST_ROOTS)), MOST_NODES)
