"""What calls change, one value after another: of which object, what it is in words, and the value. What undoes a call names the same."""

from __future__ import annotations

from typing import NamedTuple, Optional

from moolib.calls import Call
from moolib.slots import SETTABLE
from moolib.values import Value, written

PLAIN = {"move": "location", "chparent": "parent", "set_accept": "accepts", "set_player_flag": "player"}
VERB_WORDS = {"set_verb_info": "owner, rights and names of verb {}", "set_verb_args": "arguments of verb {}"}


class Aspect(NamedTuple):
    """What a call changes: the call's name, of which object, what in words, the property that it is if it is one, and the value that it gets.

    The value is as it is written; None if there is none of its own, or none any more.
    """

    by: str
    number: int
    what: str
    of_property: str
    value: Optional[str]

    @property
    def key(self) -> tuple[int, str]:
        """By which what undoes a call is known."""
        return self.number, self.what.lower()


def aspect_of(call: Call, is_undoing: bool = False) -> Optional[Aspect]:
    """What a call changes, if it gives something a value, or a call that undoes one."""
    number, given = call.subject, call.values
    if number is None or len(given) < 2:
        return None
    name = str(given[1])
    if call.name in ("set", "add_property"):
        return Aspect(call.name, number, name, "" if name.lower() in SETTABLE else name, written(given[2]))
    if call.name in ("clear_property", "delete_property"):
        return None if is_undoing and call.name == "delete_property" else Aspect(call.name, number, name, name, None)
    if call.name == "set_property_info":
        # A property that gets another name is known by that one.
        name = name if is_undoing else name_given(name, given[2])
        return Aspect(call.name, number, f"owner and rights of {name}", name, written(given[2]))
    what = PLAIN.get(call.name) or VERB_WORDS.get(call.name, "").format(name)
    return Aspect(call.name, number, what, "", written(given[-1])) if what else None


def name_given(name: str, info: Value) -> str:
    """The name that a property has after its owner and rights were set."""
    return str(info[2]) if isinstance(info, list) and len(info) == 3 else name
