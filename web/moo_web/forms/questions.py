"""Questions to moo for a person about a change: what its calls would answer, and what is there before it."""

from __future__ import annotations

import time
from typing import NamedTuple

from moolib.calls import OF_VERBS, read_or_none
from moolib.service import Said
from moolib.values import written

from moo_web.world.asking import Asker, batch_asked
from moo_web.world.door import Answer, Door, Unreachable

PATIENCE = 10.0
LONGEST_WORD = 60
# Of how many calls it is read what is there before them.
MOST_BEFORE = 300


class Questions:
    """Asks a moo in the name of persons, without changing anything. `Unreachable`: no answer came in time."""

    def __init__(self, door: Door, patience: float = PATIENCE) -> None:
        self.door, self.patience = door, patience
        self.reader = Asker(door)

    def ask(self, programmer: int, calls: list[str], at: int | None = None) -> Answer:
        """What a batch would answer. `Moved`: the world doesn't have the number `at`. `Failed`: it is longer than moo takes."""
        return batch_asked(self.door, programmer, calls, at, time.monotonic() + self.patience)

    def number(self) -> int:
        """The world's number."""
        seq = self.door.asked("GET", "/seq", None, time.monotonic() + self.patience).said.get("seq")
        if not isinstance(seq, int):
            raise Unreachable
        return seq

    def read(self, programmer: int, calls: list[str], at: int) -> list[Said]:
        """What each reading call answers, by itself, in the world of the number `at`. `Moved`: it has another one."""
        return self.reader.said(programmer, calls, at)


class Before(NamedTuple):
    """What a reading call answered before a change, with the words for it."""

    call: str
    what: str


# By the name of a call: the reading calls that tell what it changes, of its first two values, and the words for each; none for the name of
# a property that it names.
READS = {
    "set": (("get({}, {})", ""),),
    "clear_property": (("get({}, {})", ""), ("is_clear_property({}, {})", "clear")),
    "delete_property": (("get({}, {})", ""), ("property_info({}, {})", "owner and rights")),
    "set_property_info": (("property_info({}, {})", "owner and rights"),),
    "set_verb_info": (("verb_info({}, {})", "owner, rights and names"),),
    "set_verb_args": (("verb_info({}, {})", "owner, rights and names"), ("verb_args({}, {})", "arguments")),
    "delete_verb": (("verb_info({}, {})", "owner, rights and names"), ("verb_args({}, {})", "arguments")),
    "move": (('get({}, "location")', "where it is"),),
    "chparent": (("parent({})", "parent"),),
    "recycle": (('get({}, "name")', "name"), ("children({})", "children"), ('get({}, "contents")', "in it")),
    "set_player_flag": (("is_player({})", "a player"),),
    "set_accept": (("accept_list({})", "accepts"),),
}


def reads_before(text: str) -> list[Before]:
    """The reading calls that tell what a call changes. None, if it makes something new or only reads."""
    call = read_or_none(text)
    reads = READS.get(call.name, ()) if call else ()
    if not call or not reads or call.subject is None:
        return []
    about = call.values[1] if len(call.values) > 1 else None
    if reads[0][0].count("{}") > 1 and not isinstance(about, (int, str) if call.name in OF_VERBS else str):
        return []
    given = [written(value) for value in call.values[:2]]
    return [Before(read.format(*given), words or str(about)[:LONGEST_WORD]) for read, words in reads]


def befores_of(calls: list[str]) -> list[list[Before]]:
    """The same of each of these calls; of those after the first 300 nothing is asked."""
    return [reads_before(call) for call in calls[:MOST_BEFORE]] + [[] for _ in calls[MOST_BEFORE:]]
