"""A class with what inherits from it, or a room with what is in it, as a script for moo-shell: a page to look at, and a file."""

from __future__ import annotations

import re
from typing import Optional

from moolib.exporting import WITH, Exported, TooManyObjects, exported_by
from moolib.facts import Facts, TooMuch
from moolib.service import MOST_CALLS

from moo_web.app import Reply
from moo_web.pages.pages import POLICY, Visit
from moo_web.world.things import Thing

# So many calls are asked for a script. More is for moo-shell.
MOST_READ = 20_000
TEXT = "text/plain; charset=us-ascii"


def script_page(visit: Visit, number: int) -> Reply:
    """The page of the script of an object."""
    thing = visit.world.thing(number)
    what = wanted(visit, thing)
    return visit.page("pages/script.html", thing=thing, what=what, ways=WITH, made=exported(visit, thing, what), most=MOST_CALLS)


def file(visit: Visit, number: int) -> Reply:
    """The script of an object as a file."""
    thing = visit.world.thing(number)
    made = exported(visit, thing, wanted(visit, thing))
    if made is None:
        return script_page(visit, number)
    name = re.sub(r"[^a-z0-9]+", "-", thing.name.lower()).strip("-")[:40] or f"object-{number}"
    return Reply(200, made.text.encode("ascii", "replace"), TEXT, (("Content-Disposition", f'attachment; filename="{name}.moo"'), *POLICY))


def wanted(visit: Visit, thing: Thing) -> str:
    """What is exported with an object: what the address says, or what there is."""
    said = visit.fields.get("with", "")
    is_room = thing.number in visit.world.contents and thing.number not in visit.world.children
    return said if said in WITH else "contents" if is_room else "children"


def exported(visit: Visit, thing: Thing, what: str) -> Optional[Exported]:
    """The script, as far as the person may read the world; None if it is too much."""
    facts = Facts(lambda calls: visit.asker.said(visit.number, calls, visit.world.seq), MOST_READ)
    try:
        return exported_by(facts, visit.number, thing.number, what, f", of world number {visit.world.seq}")
    except (TooMuch, TooManyObjects):
        return None
