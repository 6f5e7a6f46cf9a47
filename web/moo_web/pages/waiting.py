"""How many petitions wait for a person, by what is known of the open ones without asking moo."""

from __future__ import annotations

from typing import NamedTuple, Optional

from moo_web.journal.history import History
from moo_web.world.index import Index
from moo_web.world.petitioned import OpenPetition
from moo_web.world.things import World


class Waiting(NamedTuple):
    """How many petitions of others wait for somebody's answer, and how many of their own aren't decided."""

    answer: int
    own: int


def mine(world: World, number: int) -> frozenset[int]:
    """The objects of a person of this number: those that they own, and the one that is theirs."""
    return frozenset((number, *world.owned.get(number, ())))


def is_about_theirs(world: World, number: int, one: OpenPetition) -> bool:
    """Whether an open petition is about an object of a person of this number."""
    return any(each == number or each in world.things and world.things[each].owner == number for each in one.about)


def answers_to(index: Index, history: History, petition: int) -> dict[str, str]:
    """What was answered to an open petition, by the names of who did, in small letters."""
    told, said = history.ledger.replies, index.opened.said
    if petition not in told and petition not in said:
        return {}
    return {reply.who: reply.says for reply in history.ledger.last_replies(petition)} | said.get(petition, {})


def waiting(index: Index, history: History, name: str, number: int, world: Optional[World]) -> Optional[Waiting]:
    """How many petitions wait for the person of this name and number; None if that isn't known.

    For a wizard all of others wait, but for those that an owner has done or doesn't want; for others those about what is theirs that they
    haven't answered.
    """
    if world is None or number not in world.things or not index.opened.is_known:
        return None
    count = own = 0
    for petition, one in index.opened.all.items():
        if one.who == number:
            own += 1
        elif world.is_wizard(number):
            count += not {"done", "no"} & set(answers_to(index, history, petition).values())
        elif is_about_theirs(world, number, one):
            count += name.lower() not in answers_to(index, history, petition)
    return Waiting(count, own)
