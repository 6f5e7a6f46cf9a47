"""The database that a world came from: what a dump of the world lacks of it."""

from __future__ import annotations

from typing import NamedTuple, Optional

from lambdamoo.database import Database, Thing
from lambdamoo.links import owed_to_each
from lambdamoo.losses import CLOCKS, CONNECTIONS, MORE_LINES, NO_CONNECTIONS, OLD_PROGRAM, TASKS, Losses
from lambdamoo.programs import Header
from lambdamoo.texts import opened
from lambdamoo.words import VERSION, escaped


class Kept(NamedTuple):
    """A verb of a database: its header, and its program if it has one."""

    header: Header
    program: Optional[list[str]]


class Origin:
    """The database that a world came from, and what a dump of it lacks."""

    def __init__(self, path: str | None, losses: Losses) -> None:
        # by object, its verbs in their order, each with its program if it has one
        self.programs: dict[int, list[Kept]] = {}
        # by object and what a dump has, how names are spelled
        self.objects: dict[tuple[int, str], str] = {}
        self.properties: dict[tuple[int, str], str] = {}
        self.verbs: dict[tuple[int, str], str] = {}
        # by object, definer and name in a dump, the literal there and the lines here
        self.values: dict[tuple[int, int, str], tuple[str, str]] = {}
        if path is None:
            return
        with opened(path) as stream:
            database = Database(stream, Losses(), keep_lacking=True)
        for kind in (CLOCKS, TASKS, CONNECTIONS, NO_CONNECTIONS, MORE_LINES):
            if kind in database.losses.counts:
                losses.note(kind, f"{database.losses.first(kind)} of {path}", database.losses.counts[kind])
        if database.version < VERSION:
            losses.note(OLD_PROGRAM, f"{path}, line 1", len(database.programs))
        parents = {number: thing.parent for number, thing in database.things.items()}
        owed = owed_to_each(parents, {number: [(number, name) for name in thing.defines] for number, thing in database.things.items()})
        for number, thing in database.things.items():
            self.take_object(number, thing, owed[number])
            self.take_verbs(number, thing, database.programs)

    def take_object(self, number: int, thing: Thing, owed: list[tuple[int, str]]) -> None:
        """Notes the names and the values of an object that a dump spells in another way."""
        if thing.name != thing.spelled:
            self.objects[number, thing.name] = thing.spelled
        for name in thing.defines:
            if escaped(name) != name:
                self.properties[number, escaped(name)] = name
        for place, spelled in thing.changed.items():
            literal = thing.values[place][0]
            if place < len(owed) and literal is not None:
                definer, name = owed[place]
                self.values[number, definer, escaped(name)] = literal, "\n".join(spelled)

    def take_verbs(self, number: int, thing: Thing, programs: dict[tuple[int, int], list[str]]) -> None:
        """Notes the headers of an object's verbs, and their programs."""
        for verb in thing.verbs:
            if verb.names != verb.spelled:
                self.verbs[number, verb.names] = verb.spelled
        if thing.verbs:
            headers = (Header.of(verb.names, verb.owner, verb.rights, verb.preposition) for verb in thing.verbs)
            self.programs[number] = [Kept(header, programs.get((number, place))) for place, header in enumerate(headers)]
