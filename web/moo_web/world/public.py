"""The public facts of a world as reading calls answer them, so that moo needn't be asked for what everybody may know."""

from __future__ import annotations

from typing import Any, Optional

from moolib.calls import Call, call_name, read_or_none
from moolib.service import Said
from moolib.slots import BUILT_IN
from moolib.values import Obj, written

from moo_web.world.things import Thing, World

OF_AN_OBJECT = ("parent", "children", "valid", "is_player")


def public_fact(world: World, text: str) -> Optional[Said]:
    """What a reading call answers, by what is known of this world; None if that has to be asked."""
    call = read_or_none(text) if call_name(text) in (*OF_AN_OBJECT, "get") else None
    what = asked_fact(call) if call else ""
    thing = world.things.get(call.subject) if call and call.subject is not None and what else None
    return Said(written(fact_of(world, thing, what))) if thing else None


def asked_fact(call: Call) -> str:
    """The public fact of an object that a call reads, as `parent` or `name`; empty if it reads something else."""
    if call.name == "get":
        name = str(call.values[1]).lower() if len(call.values) == 2 else ""
        return name if name in BUILT_IN else ""
    return call.name if call.name in OF_AN_OBJECT and len(call.values) == 1 else ""


def fact_of(world: World, thing: Thing, what: str) -> Any:
    """A fact of an object: a value."""
    if what in ("children", "contents"):
        links = world.children if what == "children" else world.contents
        return [Obj(number) for number in links.get(thing.number, ())]
    if what in ("parent", "owner", "location"):
        return Obj({"parent": thing.parent, "owner": thing.owner, "location": thing.location}[what])
    if what == "name":
        return thing.name
    return 1 if what == "valid" else int(thing.has("player" if what == "is_player" else what))
