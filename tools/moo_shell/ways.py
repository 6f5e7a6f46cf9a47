"""The way on: what is like a name that isn't there, and at a prompt the line to type after a refusal, or to put back what was replaced."""

from __future__ import annotations

import contextlib
import re
from collections.abc import Callable, Mapping
from typing import TYPE_CHECKING

from moolib.batches import Item, written_calls
from moolib.calls import READING, Call, call_name, call_text, read_about, read_named, read_or_none
from moolib.errors import Failed
from moolib.lines import did_you_mean
from moolib.slots import BUILT_IN
from moolib.values import Obj, Value, written

if TYPE_CHECKING:
    from moo_shell.batches import Refused
    from moo_shell.session import Session

# A petition that is longer isn't written out.
LONGEST = 300
ASKED = re.compile(r"nor is a wizard|only a wizard")
NOT_TAKEN = re.compile(r"(#\d+) doesn't accept (#\d+)")
USED_UP = re.compile(r"the ownership_quota of (#\d+) is used up")
# What isn't told when it is replaced.
EMPTY: tuple[Value, ...] = ("", 0, [], Obj(-1))


def like_property(session: Session, text: str) -> str:
    """A property of the object of a call that is like the one that isn't there, or the only one that begins so."""
    call = read_about(text)
    if not call:
        return ""
    known = set(BUILT_IN) if call.name in ("get", "set") else set()
    # An object that the batch was to make isn't there.
    with contextlib.suppress(Failed):
        known.update(session.world.properties(session.number(str(call.subject))))
    begun = [name for name in known if call.property and name.startswith(call.property)]
    return f" (did you mean {begun[0]}?)" if len(begun) == 1 else did_you_mean(call.property, sorted(known))


def adding(session: Session, _: str, text: str) -> str:
    """The call that adds the property that a `set` lacks."""
    call = read_about(text)
    if not call or call.name != "set":
        return ""
    added = call_text("add_property", (call.subject, *call.others, [Obj(session.world.caller()), "rc"]))
    return f"{added} adds it"


def numbering(_session: Session, _reason: str, text: str) -> str:
    """How the number of an object is written that a call is given as a number or a text."""
    call = read_named(text)
    first = str(call.given[0]).removeprefix("#") if call and call.given and isinstance(call.given[0], (int, str)) else ""
    return f"an object is written #{first}" if first.isdecimal() else ""


def asking(_: Session, reason: str, text: str) -> str:
    """The petition for a call that a wizard may make."""
    call = read_named(text)
    if not call or call.name in READING or not ASKED.search(reason):
        return ""
    asked = call_text("petition", [[[call.name, *call.given]]])
    return f"{asked if len(asked) <= LONGEST else 'petition({{..}})'} asks a wizard for it"


def more(session: Session, reason: str, _: str) -> str:
    """How somebody gets a greater quota."""
    found = USED_UP.search(reason)
    if not found:
        return ""
    if session.world.built_in(session.world.caller())["wizard"]:
        return f"{found[1]}.ownership_quota = 5 gives more"
    return f'petition({{{{"set", {found[1]}, "ownership_quota", 5}}}}) asks a wizard for more'


def accepting(_session: Session, reason: str, _text: str) -> str:
    """How an object takes another one."""
    found = NOT_TAKEN.search(reason)
    return f"\\show {found[1]} tells what it accepts, and set_accept({found[1]}, {{{found[2]}}}) sets that" if found else ""


# The way on after each error that has one.
WAYS: dict[str, Callable[["Session", str, str], str]] = {
    "E_PROPNF": adding, "E_TYPE": numbering, "E_PERM": asking, "E_QUOTA": more, "E_NACC": accepting,
}  # fmt: skip


def way_on(session: Session, refused: Refused, text: str, is_alone: bool) -> str:
    """What to add to the reason of a refused call: a name that is like its property, or at a prompt what to type."""
    like = like_property(session, text) if refused.error == "E_PROPNF" else ""
    if like or session.is_script or refused.error not in WAYS:
        return like
    told = ""
    with contextlib.suppress(Failed):
        told = WAYS[refused.error](session, refused.reason, text)
    if call_name(told) == "petition" and not is_alone:
        told = f"\\fix {told}"
    return f"; {told}" if told else ""


def putting_back(session: Session, items: list[Item], names: Mapping[str, str]) -> tuple[str, str]:
    """The call that will put back what a batch does, if one does, of `recycle` its name alone; and the value that is replaced, if it is told."""
    if call_name(items[0].text) == "create" and all(gives(item, str(items[0].name)) for item in items[1:]):
        return "recycle", ""
    call = read_or_none(written_calls(items, names, {})[0]) if len(items) == 1 else None
    return replaced(session, call) if call and call.subject is not None else ("", "")


def gives(item: Item, name: str) -> bool:
    """Whether a call gives something to what has this name."""
    call = read_about(item.text)
    return call is not None and str(call.subject) == name and bool(call.others)


def replaced(session: Session, call: Call) -> tuple[str, str]:
    """The same of a call."""
    is_move = call.name == "move"
    if not is_move and (call.name not in ("set", "clear_property") or len(call.values) < 2):
        return "", ""
    thing, name = f"#{call.subject}", written("location" if is_move else call.values[1])
    was, is_clear = session.world.each([f"get({thing}, {name})", f"is_clear_property({thing}, {name})"])
    if not was.is_good:
        return "", ""
    told = "" if was.value in EMPTY else was.text
    if is_move:
        return f"move({thing}, {was.text})", told
    return (f"clear_property({thing}, {name})", "") if is_clear.text == "1" else (f"set({thing}, {name}, {was.text})", told)


def how_to_undo(session: Session, number: str) -> str:
    """How an accepted batch is undone, that of this number or the last one."""
    if not session.door.can_name:
        return f"what was accepted stays; {session.door.where().rstrip('/')}/undo/{number or session.door.seq()} undoes it in a browser"
    if session.back:
        return f"no batch is open; {session.back} puts back what was done last"
    return "no batch is open, and what was accepted stays; \\ask LINE tells before what a line replaces"
