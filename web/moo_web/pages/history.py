"""The pages of what was done: all, by an object, a person and a time, and one batch."""

from __future__ import annotations

import datetime
import re
from typing import Optional

from moolib.calls import read_or_none

from moo_web.app import Reply
from moo_web.journal.history import Batches, History
from moo_web.journal.segments import Accepted
from moo_web.pages.batches import Telling, concerns, without_unreadable
from moo_web.pages.pages import Visit
from moo_web.paths import url_for, whole_number
from moo_web.people.person import PERSON_NAME

PAGE = 50
# So many objects are offered for a name that several have.
MOST_OFFERED = 20
MOMENT = re.compile(r"[0-9]{4}-[0-9]{2}-[0-9]{2}(T[0-9]{2}:[0-9]{2}(:[0-9]{2})?)?")
DAY = datetime.timedelta(days=1)


def batches(visit: Visit, history: History) -> Reply:
    """What was done. Others than wizards see what they did themselves, and what was done with what is theirs."""
    asked, who = visit.fields.get("o", "").strip()[:256], visit.fields.get("who", "")[:64]
    numbers = numbers_for(visit, asked)
    number = numbers[0] if len(numbers) == 1 else None
    before, since, until = (visit.fields.get(key, "") for key in ("before", "since", "until"))
    found: Optional[Batches] = Batches([], 0, None)
    if number is not None or not asked:
        found = seen_by(visit, history, who, number, whole_number(before), moment_in(visit, since), moment_in(visit, until, DAY))
    return visit.page(
        "pages/history.html", found=found, number=number, asked=asked, numbers=numbers[:MOST_OFFERED], who=who, since=since, until=until,
        is_first=not before, feed=feed_of(number, who), line=lambda batch: Telling(visit, history, batch).unfolded(number),
    )  # fmt: skip


def feed_of(number: Optional[int], who: str) -> str:
    """The address of the feed of an object, or else of a person; empty if it is of neither."""
    if number is not None:
        return url_for("feed_object", number=number)
    return url_for("feed_person", name=who) if PERSON_NAME.fullmatch(who) else ""


def seen_by(
    visit: Visit, history: History, who: str, number: Optional[int], before: Optional[int], since: Optional[float], until: Optional[float]
) -> Optional[Batches]:  # fmt: skip
    """The batches that a person may see; of another person those that concern objects of theirs."""
    if visit.is_wizard:
        return history.found(who or None, number, PAGE, before, since=since, until=until)
    own = [visit.number, *visit.world.owned.get(visit.number, ())]
    found = without_unreadable(visit, history, history.found(visit.name, number, PAGE, before, also=own, since=since, until=until))
    if found and who:
        kept = [(place, batch) for place, batch in found.places if batch.who.lower() == who.lower()]
        found = found._replace(places=kept, total=len(kept) if found.further is None else found.total)
    return found


def numbers_for(visit: Visit, asked: str) -> list[int]:
    """The objects that a number or a name stands for; several, if a name isn't one object's."""
    found = re.fullmatch(r"#?\s*([0-9]{1,10})", asked)
    if found:
        return [int(found[1])]
    names = visit.world.names
    return (names.named(asked) or names.like(asked, MOST_OFFERED + 1)) if asked else []


def moment_in(visit: Visit, text: str, more: datetime.timedelta = datetime.timedelta()) -> Optional[float]:
    """The moment that was typed, in the reader's zone; with a day alone, so much later. None: it isn't one."""
    if not MOMENT.fullmatch(text):
        return None
    try:
        read = datetime.datetime.fromisoformat(text).replace(tzinfo=visit.zone.info)
        return (read + (more if len(text) == 10 else datetime.timedelta())).timestamp()
    except (ValueError, OverflowError):
        return None


def one(visit: Visit, history: History, number: int, is_done: bool = False) -> Reply:
    """One batch: what it did, with values before and after. It isn't there for those whom it doesn't concern."""
    batch = history.one(number)
    if batch is None or not concerns(visit, history, batch):
        return visit.refused("no batch", 404)
    return visit.page(
        "pages/one_batch.html", batch=batch, told=Telling(visit, history, batch).told(), here=walked_to(visit, batch),
        is_done=is_done and batch.who.lower() == visit.name.lower(),
    )  # fmt: skip


def walked_to(visit: Visit, batch: Accepted) -> Optional[int]:
    """The place where the person is, if the batch moved them; else None."""
    here = visit.world.things[visit.number].location
    has_moved = any(call and call.name == "move" and call.subject == visit.number for call in map(read_or_none, batch.calls))
    return here if has_moved and here in visit.world.things else None
