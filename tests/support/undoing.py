"""Random worlds and random batches of all calls, and dumps without what an undo leaves: for tests of what undoes a batch."""

from __future__ import annotations

import random
from typing import Any, Optional

from moo_client import Obj
from moolib.calls import Call
from moolib.values import read, written

WORDS = ("size", "colour", "taste", "weight", "lit", "note")
VERB_NAMES = ("look", "get take", "put*", "drop", "l*ook examine", "give", "*")
OBJECTS, PREPOSITIONS = ("this", "any", "none"), ("in", "any", "none")
BUILT_IN = ("name", "programmer", "wizard", "r", "w", "f", "owner")
CALLS = (
    "create chparent move set set set set_built set_player_flag set_accept add_property add_property delete_property set_property_info "
    "set_property_info clear_property clear_property add_verb add_verb delete_verb set_verb_info set_verb_args quota get"
).split()


class Generator:
    """Makes random calls about a world of objects with these numbers. `wizard` isn't made less than one."""

    def __init__(self, rng: random.Random, numbers: list[int]) -> None:
        self.rng, self.numbers = rng, numbers

    def object(self) -> str:
        """An object."""
        return f"#{self.rng.choice(self.numbers)}"

    def value(self, depth: int = 0) -> str:
        """A value."""
        rng = self.rng
        kind = rng.randrange(5 if depth < 2 else 4)
        if kind == 0:
            return str(rng.choice((0, 1, -7, 2**63 - 1, rng.randrange(100))))
        if kind == 1:
            return written("".join(rng.choice('ab "\\$,(') for _ in range(rng.randrange(6))))
        if kind == 2:
            return self.object()
        if kind == 3:
            return "E_PERM"
        return "{" + ", ".join(self.value(depth + 1) for _ in range(rng.randrange(3))) + "}"

    def word(self) -> str:
        """The name of a property, in any case."""
        word = self.rng.choice(WORDS)
        return f'"{self.rng.choice((word, word, word.upper()))}"'

    def letters(self, of: str = "rwc") -> str:
        """Rights."""
        return '"' + "".join(letter for letter in of if self.rng.random() < 0.5) + '"'

    def verb(self) -> str:
        """A verb, by its number or a word."""
        return str(self.rng.randrange(1, 4)) if self.rng.random() < 0.6 else self.rng.choice(('"look"', '"take"', '"dr"', '"put"', '"x"'))

    def arguments(self) -> str:
        """Arguments of a verb."""
        direct, preposition, indirect = (self.rng.choice(kinds) for kinds in (OBJECTS, PREPOSITIONS, OBJECTS))
        return written([direct, preposition, indirect])

    def call(self, name: Optional[str] = None) -> str:
        """A call of this name, or of any."""
        rng, it = self.rng, self.object()
        name = name or rng.choice(CALLS)
        parent = "#-1" if rng.random() < 0.15 else self.object()
        if name == "create":
            return f"create({parent}{rng.choice(('', '', ', #-1', f', {self.object()}'))})"
        if name in ("chparent", "move"):
            return f"{name}({it}, {parent})"
        if name == "set":
            return f"set({it}, {self.word()}, {self.value()})"
        if name == "set_built":
            what = rng.choice(BUILT_IN)
            value = {"name": written("n" * rng.randrange(4)), "owner": self.object()}.get(what, str(rng.randrange(2)))
            return f'set({it}, "{what}", {1 if what == "wizard" and it == "#3" else value})'
        if name == "quota":
            return rng.choice((f'add_property({it}, "ownership_quota", {rng.randrange(1, 9)}, {{{self.object()}, {self.letters()}}})',
                               f'set({it}, "ownership_quota", {rng.randrange(1, 9)})', f'clear_property({it}, "ownership_quota")'))
        if name == "set_player_flag":
            return f"set_player_flag({it}, {rng.randrange(2)})"
        if name == "set_accept":
            return f"set_accept({it}, {rng.choice(('0', '{}', '{' + self.object() + '}'))})"
        if name == "add_property":
            return f"add_property({it}, {self.word()}, {self.value()}, {{{self.object()}, {self.letters()}}})"
        if name in ("delete_property", "clear_property"):
            return f"{name}({it}, {self.word()})"
        if name == "set_property_info":
            renamed = rng.choice(("", "", f", {self.word()}"))
            return f"set_property_info({it}, {self.word()}, {{{self.object()}, {self.letters()}{renamed}}})"
        return self.call_of_verbs(name, it)

    def call_of_verbs(self, name: str, it: str) -> str:
        """The same of a call about verbs, or one that reads, or any of an object alone."""
        names = written(self.rng.choice(VERB_NAMES))
        if name == "add_verb":
            return f"add_verb({it}, {{{self.object()}, {self.letters('rwxd')}, {names}}}, {self.arguments()})"
        if name == "delete_verb":
            return f"delete_verb({it}, {self.verb()})"
        if name == "set_verb_info":
            return f"set_verb_info({it}, {self.verb()}, {{{self.object()}, {self.letters('rwxd')}, {names}}})"
        if name == "set_verb_args":
            return f"set_verb_args({it}, {self.verb()}, {self.arguments()})"
        return f"recycle({it})" if name == "recycle" else f'get({it}, "name")'


def items_in(dump: str) -> list[tuple[str, Any]]:
    """The lines of a dump that have values: each word with its value."""
    return [(word, read(rest)) for word, _, rest in (line.partition(" ") for line in dump.splitlines()) if rest.startswith("{")]


def without_numbers(dump: str, renamed: dict[int, int]) -> list[str]:
    """A dump without counters, orders of definitions and of verbs, and numbers of petitions. Objects that were made again get the number
    that they had, but for what values name."""

    def same(value: Any) -> Any:
        return Obj(renamed.get(value.number, value.number)) if isinstance(value, Obj) else value

    found = []
    for word, given in items_in(dump):
        if word == "petition":
            given = [0, *given[1:]]
        elif word == "slot":
            given = [*map(same, given[:5]), *given[5:]]
        else:
            given = [*map(same, given[:-1]), given[-1]]
        found.append(f"{word} {written(given)}")
    return sorted(found)


def numbers_in(dump: str) -> list[int]:
    """The numbers of the objects of a dump."""
    return [given[0].number for word, given in items_in(dump) if word == "object"]


def asked_for(calls: list[str]) -> str:
    """The petition of these calls."""
    return f"petition({written([[call.name, *call.values] for call in map(Call.read, calls)])})"
