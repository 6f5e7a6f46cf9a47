"""What goes by calls that destroy something, as it is shown at a terminal before they are sent."""

from __future__ import annotations

from collections.abc import Iterable, Mapping
from typing import TYPE_CHECKING

from moo_shell.losing import told_losses
from moolib.batches import Item, written_calls
from moolib.calls import LOSING, Call, call_name, read_or_none
from moolib.errors import Failed
from moolib.lines import counted
from moolib.values import written

if TYPE_CHECKING:
    from moo_shell.session import Session

# So many properties are named.
MOST_NAMED = 10


def is_asked_first(items: Iterable[Item]) -> bool:
    """Whether a batch has a call after which something may be gone."""
    return any(call_name(item.text) in LOSING for item in items)


def going(session: Session, items: list[Item], who: int, names: Mapping[str, str]) -> tuple[list[str], int]:
    """The lines that say what a batch would destroy, and the number of the world of which this is true. `Refused`: it would be refused."""
    done = session.batches.ask(items, who, names)
    calls = written_calls(items, names, dict(enumerate(done.answers)))
    lines = [line for call in map(read_or_none, calls) if call for line in lines_of(session, call)]
    lines += told_losses(session.door, who, calls, done.answers, done.seq, is_script=False)
    return lines, done.seq


def lines_of(session: Session, call: Call) -> list[str]:
    """What a call takes away besides values; nothing if its object isn't there yet, or if it is another call."""
    try:
        if call.name == "recycle" and call.subject is not None:
            return recycled(session, call.subject)
    except Failed:
        return []
    if call.name in ("delete_property", "delete_verb"):
        what = "property" if call.name == "delete_property" else "verb"
        return [f"{what} {written(call.values[1])} of #{call.subject} goes"]
    return []


def recycled(session: Session, number: int) -> list[str]:
    """What goes with an object, and what becomes of the objects under it and inside it."""
    said = session.world.built_in(number)
    (defined,) = session.world.each([f"properties(#{number})"])
    lines = [f'#{number} {written(said["name"])} goes']
    if said["children"]:
        lines.append(f'{counted(len(said["children"]), "object")} right under it: the parent is {said["parent"]} then')
    if said["contents"]:
        lines.append(f'{counted(len(said["contents"]), "object")} inside it: nowhere then')
    names = [str(name) for name in defined.value or []]
    if names:
        more = f" and {len(names) - MOST_NAMED} more" if len(names) > MOST_NAMED else ""
        shown = ", ".join(names[:MOST_NAMED])
        lines.append(f"its own properties go, from the objects under it too: {shown}{more}")
    return lines
