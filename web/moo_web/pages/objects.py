"""The page of an object, and that of one of its properties."""

from __future__ import annotations

import re
from typing import Any, NamedTuple

from moolib.values import written

from moo_web.app import Reply
from moo_web.journal.history import History
from moo_web.pages.actions import buttons, more, room_calls, way_to
from moo_web.pages.accepting import accept_calls, accepting
from moo_web.pages.batches import Telling, in_time
from moo_web.pages.home import lately
from moo_web.pages.lists import part_of
from moo_web.pages.pages import Visit
from moo_web.pages.sight import sight_calls, sight_of
from moo_web.world.asking import Refusal
from moo_web.world.properties import MOST, Property, grouped, names_calls, names_on, properties_of, property_calls
from moo_web.world.things import NOTHING

# So many of the objects under one, and in one, are on its page.
SOME = 24
MOST_VERBS = 200
MOST_ANCESTORS = 8
# What the bits mean. That of a programmer isn't looked at by any call.
FLAGS = {
    "player": ("player", "it is a player"),
    "programmer": ("programmer", "it has the mark of a programmer, which nothing looks at"),
    "wizard": ("wizard", "it has every right"),
    "r": ("readable", "everybody may list what it has"),
    "w": ("writable", "everybody may add to what it has, and take away from it"),
    "f": ("fertile", "everybody may make objects under it"),
}


class Verb(NamedTuple):
    """A verb of an object. `args`, `owner` and `rights` are None if the person may not read it."""

    names: str
    args: str | None
    owner: int | None
    rights: str | None


def object_page(visit: Visit, history: History, one: int) -> Reply:
    """The page of an object."""
    thing, world = visit.world.thing(one), visit.world
    chain = [above.number for above in world.chain(one)]
    # All that the page asks is asked in two requests: what there is, and then all of that.
    visit.answers([
        *names_calls(chain), *(f"verbs(#{each})" for each in chain), *accept_calls(chain), *sight_calls(visit, one),
        *room_calls(visit, one),
    ])  # fmt: skip
    names = names_on(visit, one)
    part = part_of(names.pairs, visit.fields.get("page", ""), MOST)
    visit.answers([*property_calls(one, list(part.items), chain), *verb_calls(one, visit.answers([f"verbs(#{one})"])[0])])
    verbs, inherited = verbs_of(visit, chain)
    sight = sight_of(visit, one)
    accepts, told = accepting(visit, one), properties_of(visit, one, list(part.items))
    return visit.page(
        "pages/object.html", thing=thing, above=folded(chain[1:]), places=[place.number for place in world.places(one)][1:], flags=FLAGS,
        children=world.children.get(one, ()), some=SOME, part=part, sight=sight,
        groups=grouped([each for each in told if each.is_shown], [], chain), unread=[each.name for each in told if not each.is_shown],
        unlisted=names.hidden, verbs=verbs, inherited=inherited, lately=lately(visit, history, one), accepts=accepts,
        owned=len(world.owned.get(one, ())), line=lambda batch: Telling(visit, history, batch).line(one),
        buttons=buttons(visit, one), more=more(visit, one), way=way_to(visit, one, bool(accepts.numbers)),
    )  # fmt: skip


class Ancestors(NamedTuple):
    """The ancestors of an object, from it up. Of a long chain those in the middle are left out: so many."""

    near: list[int]
    left_out: int
    far: list[int]


def folded(above: list[int]) -> Ancestors:
    """The ancestors that are shown."""
    if len(above) <= MOST_ANCESTORS:
        return Ancestors(above, 0, [])
    return Ancestors(above[: MOST_ANCESTORS - 3], len(above) - MOST_ANCESTORS + 1, above[-2:])


def verbs_of(visit: Visit, chain: list[int]) -> tuple[list[Verb] | None, list[tuple[int, list[str]]]]:
    """The verbs of the first object of a chain, None if they may not be listed; and the names of those of the others that have some."""
    listed = visit.answers([f"verbs(#{one})" for one in chain])
    others = [(one, names) for one, names in zip(chain[1:], listed[1:]) if isinstance(names, list) and names]
    if not isinstance(listed[0], list):
        return None, others
    names = listed[0][:MOST_VERBS]
    told = visit.answers(verb_calls(chain[0], names))
    return [verb_of(name, told[2 * place], told[2 * place + 1]) for place, name in enumerate(names)], others


def verb_calls(number: int, names: Any) -> list[str]:
    """What is asked of the verbs of an object, if their names may be listed."""
    count = min(len(names), MOST_VERBS) if isinstance(names, list) else 0
    return [f"{call}(#{number}, {place})" for place in range(1, count + 1) for call in ("verb_info", "verb_args")]


def verb_of(names: str, info: Any, args: Any) -> Verb:
    """A verb, of what is told of it."""
    if isinstance(info, Refusal) or isinstance(args, Refusal):
        return Verb(names, None, None, None)
    return Verb(names, " ".join(args), info[0].number, info[1])


class Level(NamedTuple):
    """A property on one object of a chain. `state` is `here`, `clear` or `hidden`."""

    number: int
    state: str
    told: Property


def one_property(visit: Visit, history: History, one: int) -> Reply:
    """The page of a property: its whole value, and what it is on each object from which it may come."""
    thing, world, name = visit.world.thing(one), visit.world, visit.fields.get("name", "")
    pair = pair_of(visit, one, name)
    if pair is None:
        return visit.page("pages/no_property.html", 404, thing=thing, name=name)
    chain = [above.number for above in world.chain(one)]
    levels = []
    for above in chain[: chain.index(pair[0]) + 1] if pair[0] in chain else chain:
        told = properties_of(visit, above, [pair])[0]
        levels.append(Level(above, "hidden" if not told.is_shown else "here" if told.source == above else "clear", told))
    is_listed = pair[0] != NOTHING
    return visit.page(
        "pages/property.html", thing=thing, name=pair[1], levels=levels, told=levels[0].told, is_listed=is_listed,
        in_time=in_time(visit, history, one, pair[1]) if levels[0].told.is_shown else [],
    )  # fmt: skip


def pair_of(visit: Visit, number: int, name: str) -> tuple[int, str] | None:
    """The definer of a property on an object, and its name as that spells it. If it may be read and not listed, the definer is -1."""
    pair = next((pair for pair in names_on(visit, number).pairs if pair[1].lower() == name.lower()), None)
    if pair is None and re.fullmatch(r"[\t -~]{1,255}", name):
        told = visit.answers([f"property_info(#{number}, {written(name)})"])[0]
        return None if isinstance(told, Refusal) else (NOTHING, name)
    return pair
