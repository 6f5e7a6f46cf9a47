"""The page of what differs between two numbers of the world, for wizards."""

from __future__ import annotations

from typing import Optional

from moolib.calls import Call
from moolib.errors import Failed

from moo_web.app import Reply
from moo_web.journal.differing import Differing, differing, swapped
from moo_web.journal.history import History
from moo_web.journal.segments import Accepted
from moo_web.pages.history import numbers_for
from moo_web.pages.lists import part_of
from moo_web.pages.pages import Visit
from moo_web.pages.words import sentence
from moo_web.paths import whole_number

# So many batches are gone through for a page; moo-replay has no bound.
MOST_BATCHES = 2000
PAGE = 200


def differences(visit: Visit, history: History) -> Reply:
    """What differs, of all objects or of one."""
    if not visit.is_wizard:
        return visit.refused("forbidden", 403)
    first, last = (whole_number(visit.fields.get(key, "")) for key in ("a", "b"))
    asked = visit.fields.get("o", "").strip()[:256]
    numbers = numbers_for(visit, asked)
    wrong, found = "", list[Differing]()
    if first is not None and last is not None:
        try:
            found = found_between(visit, history, first, last, numbers[0] if numbers else None)
        except Failed as failed:
            wrong = sentence(str(failed))
    if asked and len(numbers) != 1:
        found, wrong = [], f"{'Several objects are' if numbers else 'No object is'} named like “{asked}”."
    return visit.page(
        "pages/differences.html", first=first, last=last, asked=asked, wrong=wrong, part=part_of(found, visit.fields.get("page", ""), PAGE)
    )


def found_between(visit: Visit, history: History, first: int, last: int, number: Optional[int]) -> list[Differing]:
    """What differs between two numbers. `Failed`: the journal doesn't tell, or there are too many batches between them."""
    low, high = sorted((first, last))
    if high > visit.world.seq:
        raise Failed(f"the world has number {visit.world.seq} yet")
    if high - low > MOST_BATCHES:
        raise Failed(f"there are over {MOST_BATCHES:,} batches between them: moo-replay --diff goes through all")
    batches = [batch_of(history, seq) for seq in range(low + 1, high + 1)]

    def asked(petition: int) -> tuple[Call, ...]:
        made = history.petition(petition)
        return made.asked if made else ()

    found = differing(batches, asked, number)
    return found if first <= last else swapped(found)


def batch_of(history: History, seq: int) -> Accepted:
    """The batch that made a number. `Failed`: it isn't in the journal."""
    batch = history.one(seq)
    if batch is None:
        raise Failed(f"batch {seq} isn't in the journal")
    return batch
