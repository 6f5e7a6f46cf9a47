"""What an object has: marks, slots and verbs, with the calls that tell them."""

from __future__ import annotations

import dataclasses
from typing import Iterable, NamedTuple, Optional, Union

from moolib.calls import Call
from moolib.values import Obj, Value, written

PROPERTY_LETTERS, VERB_LETTERS = "rwc", "rwxd"
# The prepositions of verbs, each with all its words, in the order of their numbers in LambdaMOO's files.
PREPOSITIONS = (
    "with/using", "at/to", "in front of", "in/inside/into", "on top of/on/onto/upon", "out of/from inside/from", "over", "through",
    "under/underneath/beneath", "behind", "beside", "for/about", "is", "as", "off/off of",
)  # fmt: skip
# The bits of an object, in the order in which a dump has them; its built-in properties; and those that `set` changes.
BITS = ("player", "programmer", "wizard", "r", "w", "f")
BUILT_IN = ("name", "owner", "location", "contents", "programmer", "wizard", "r", "w", "f")
SETTABLE = ("name", "owner", "programmer", "wizard", "r", "w", "f")
# What an object has besides slots and verbs, with the call that tells it.
MARKS = {
    "parent": "parent(#{})", "accept": "accept_list(#{})", "player": "is_player(#{})",
    **{name: f'get(#{{}}, "{name}")' for name in ("name", "owner", "location", "programmer", "wizard", "r", "w", "f")},
}  # fmt: skip


class Slot(NamedTuple):
    """A property on an object: its owner there, its letters, and its value; None if it is clear."""

    owner: int
    perms: str
    value: Optional[Value]


class Fresh(NamedTuple):
    """A slot as it comes from this object: clear, with that one's letters, and its owner unless they give it to the object's."""

    origin: int


@dataclasses.dataclass(eq=False)
class Verb:
    """A verb. `info` and `args` are None until they are read; `place` is where it is read, from 1 on."""

    names: str
    place: int = 0
    info: Optional[tuple[int, str]] = None
    args: Optional[tuple[str, ...]] = None


State = Union[Slot, Fresh, None]


def letters_of(perms: str, letters: str) -> str:
    """The letters of rights, small and in their order."""
    return "".join(letter for letter in letters if letter in perms.lower())


def is_true(value: Value) -> int:
    """Whether a value counts as true, as 1 or 0."""
    return int(not isinstance(value, Obj) and isinstance(value, (int, str, list)) and bool(value))


def number_of(value: Value) -> int:
    """The number of an object."""
    assert isinstance(value, Obj)
    return value.number


def matches(name: str, word: str) -> bool:
    """Whether a name of a verb, with its first star, matches a word."""
    front, star, back = name.lower().partition("*")
    if not star:
        return front == word.lower()
    rest = word.lower().removeprefix(front)
    return word.lower().startswith(front) and (not back or back.startswith(rest))


def slot_calls(number: int, name: str) -> tuple[str, str, str]:
    """What is asked for a slot: its owner and letters, whether it is clear, and its value."""
    place = f"#{number}, {written(name)}"
    return f"property_info({place})", f"is_clear_property({place})", f"get({place})"


def first_calls(calls: Iterable[Call]) -> list[str]:
    """What a draft on which these calls are run will most likely want to know, so that it is asked for at once."""
    wanted: list[str] = []
    for call in calls:
        number, about = call.subject, call.values[1] if len(call.values) > 1 else None
        if number is None or number < 0:
            continue
        wanted += [text.format(number) for text in FIRST.get(call.name, ())]
        if call.name == "set" and str(about).lower() in SETTABLE:
            wanted.append(MARKS[str(about).lower()].format(number))
        elif call.name in OF_SLOTS and isinstance(about, str):
            wanted += slot_calls(number, about)
    return wanted


OF_SLOTS = ("set", "clear_property", "set_property_info", "delete_property")
FIRST = {
    "create": (), "move": (MARKS["location"],), "chparent": (MARKS["parent"], "children(#{})"), "set_accept": (MARKS["accept"],),
    "set_player_flag": (MARKS["player"],), "add_verb": ("verbs(#{})",), "delete_verb": ("verbs(#{})",), "set_verb_info": ("verbs(#{})",),
    "set_verb_args": ("verbs(#{})",), "add_property": ("children(#{})", "properties(#{})"),
    "delete_property": ("children(#{})", "properties(#{})"), "recycle": (*MARKS.values(), "children(#{})", "properties(#{})", "verbs(#{})"),
}  # fmt: skip
