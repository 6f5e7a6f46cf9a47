"""What a person may see of the petitions of others: the calls about what is theirs, as far as they may read them."""

from __future__ import annotations

import time
from typing import NamedTuple

from moolib.calls import read_or_none
from moolib.draft import PETITIONS
from moolib.facts import TooMuch

from moo_web.forms.petitions import Petition, petitions_told
from moo_web.pages.batches import readable
from moo_web.pages.pages import Visit
from moo_web.pages.waiting import is_about_theirs, mine
from moo_web.world.door import QUESTION_SECONDS, TooLong
from moo_web.world.overseeing import Overseeing
from moo_web.world.petitioned import about, about_all


class Visible(NamedTuple):
    """The calls of a petition that a person may see, and how many others it has."""

    calls: list[str]
    hidden: int = 0


def of_others(visit: Visit, overseeing: Overseeing) -> list[Petition]:
    """The open petitions of others that are about something of this person's, who isn't a wizard, the oldest first.

    moo shows them to wizards and to who made them alone, so they are read as a wizard. `TooLong`: they are too long to be shown together.
    """
    opened = visit.index.opened.all
    numbers = {number for number, one in opened.items() if one.who != visit.number and is_about_theirs(visit.world, visit.number, one)}
    if not numbers:
        return []
    try:
        facts = overseeing.facts(visit.number, visit.world.seq, time.monotonic() + QUESTION_SECONDS, [PETITIONS])
        told = facts.value(PETITIONS)
    except TooMuch:
        raise TooLong from None
    return [one for one in petitions_told(told or []) if one.number in numbers]


def visible(visit: Visit, petition: Petition) -> Visible:
    """What a person may see of a petition. A wizard, and who made it, sees all of it."""
    if visit.is_wizard or petition.who == visit.number:
        return Visible(petition.calls)
    theirs = mine(visit.world, visit.number)
    read = [read_or_none(text) for text in petition.calls]
    shown = [is_open and call is not None and bool(about(call) & theirs) for call, is_open in zip(read, readable(visit, read))]
    calls = [text for text, is_shown in zip(petition.calls, shown) if is_shown]
    return Visible(calls, len(petition.calls) - len(calls))


def owners_asked(visit: Visit, calls: list[str], who: int) -> list[int]:
    """The owners who are asked for these calls: those of the objects that they are about, but for who asks, and wizards."""
    world = visit.world
    objects = about_all(call for call in map(read_or_none, calls) if call)
    owners = sorted({world.things[number].owner for number in objects if number in world.things})
    return [owner for owner in owners if owner in world.things and owner != who and not world.is_wizard(owner)]
