#!/usr/bin/env python3
"""Writes the world of a LambdaMOO database as a dump of moo."""

from __future__ import annotations

import argparse
import sys
from collections.abc import Iterator, Mapping

from lambdamoo.accepting import Accepting
from lambdamoo.database import Database, Thing
from lambdamoo.links import clash_in, owed_to_each
from lambdamoo.losses import REFUSED_BYTES, REFUSED_FLOATS, STRANGE_NAMES, STRANGE_VERBS, Losses, add_words
from lambdamoo.texts import Broken, finish, opened
from lambdamoo.words import FLAGS, PLACES, PROPERTY_RIGHTS, VERB_RIGHTS, escaped, may_name_property, quoted
from moolib.slots import PREPOSITIONS

TOOL = "from_lambdamoo"

ABOUT = """\
Reads a database file of LambdaMOO, format version 1 to 4, and writes its world
to standard output, as 'moo dump' writes one: objects, parents, locations,
flags, properties with their values, and the headers of verbs. The world has
seq 0, no petitions, and no accept lists unless --accept makes them.

What moo can't hold is reported on standard error by kind, with the count and
the place of the first. Verb programs are always left out: keep the database
file, from which to_lambdamoo.py takes them again. Nothing is written unless
the whole file was read.
"""
ENDING = """\
  from_lambdamoo.py --check --all core.db
  from_lambdamoo.py core.db | moo load world.db -
  from_lambdamoo.py core.db >core.dump
  from_lambdamoo.py --floats text --bytes escape core.db >core.dump

The status is 0 if the dump was written, 1 if the file is broken (with its
line) or something is refused, 2 if the words are wrong.
"""


def letters(rights: dict[str, int], number: int) -> str:
    """The letters of the rights in a number."""
    return "".join(letter for letter, worth in rights.items() if number & worth)


class Dump:
    """The dump of a database. Properties and verbs that moo can't hold are reported."""

    def __init__(self, database: Database, losses: Losses, accepts: Mapping[int, str] = {}) -> None:
        self.things = database.things
        self.accepts = accepts
        self.top = database.top
        self.losses = losses
        self.bytes = database.bytes
        self.parents = {number: thing.parent for number, thing in self.things.items()}
        self.defines = {number: self.names(number, thing) for number, thing in self.things.items()}
        self.owed = owed_to_each(self.parents, self.defines)
        self.check_values()
        self.check_names()
        self.check_verbs()

    def names(self, number: int, thing: Thing) -> list[tuple[str, str] | None]:
        """For each property that an object defines the middle of the lines of its slots, and its name, or None if it is left out."""
        named: list[tuple[str, str] | None] = []
        for place, spelled in enumerate(thing.defines):
            line = f"#{number}, line {thing.defined_at + place}"
            name = escaped(spelled)
            if name != spelled:
                self.losses.note(self.bytes, line)
            if may_name_property(name):
                named.append((f"#{number}, {quoted(name)}", name.lower()))
            else:
                self.losses.note(STRANGE_NAMES, line)
                named.append(None)
        return named

    def check_values(self) -> None:
        """Each object has as many values as it and its ancestors define properties."""
        for number, thing in self.things.items():
            wanted = len(self.owed[number])
            if len(thing.values) != wanted:
                reason = f"#{number} and its ancestors define {wanted} properties, and here are {len(thing.values)} values"
                raise Broken(thing.values_at, reason)

    def check_names(self) -> None:
        """No object defines a name twice, or one that an ancestor defines."""
        folded = {number: [named and named[1] for named in own] for number, own in self.defines.items()}
        clash = clash_in(self.parents, folded)
        if clash:
            number, place = clash
            raise Broken(self.things[number].defined_at + place, f"#{number} or an ancestor already defines a property of this name")

    def check_verbs(self) -> None:
        """Reports verbs without a name."""
        for number, thing in self.things.items():
            for verb in thing.verbs:
                if not verb.names.strip(" "):
                    self.losses.note(STRANGE_VERBS, f"#{number}, line {verb.line}")

    def pieces(self) -> Iterator[str]:
        """The texts of the dump, in their order."""
        yield f"seq 0\ntop #{self.top}\n"
        for number, thing in self.things.items():
            yield self.object_line(number, thing)
            for named in self.defines[number]:
                if named:
                    yield f"property {{{named[0]}}}\n"
            yield from self.slot_lines(number, thing)
            yield from self.verb_lines(number, thing)
        yield "end\n"

    def object_line(self, number: int, thing: Thing) -> str:
        """The line of an object."""
        flags = ", ".join("1" if thing.flags & worth else "0" for worth in FLAGS.values())
        links = f"#{thing.owner}, #{thing.parent}, #{thing.location}"
        return f"object {{#{number}, {quoted(thing.name)}, {links}, {flags}, {self.accepts.get(number, '0')}}}\n"

    def slot_lines(self, number: int, thing: Thing) -> Iterator[str]:
        """The lines of an object's slots."""
        front = f"slot {{#{number}, "
        for named, (value, owner, rights) in zip(self.owed[number], thing.values):
            if named:
                state = "0" if value is None else f"1, {value}"
                yield f'{front}{named[0]}, #{owner}, "{letters(PROPERTY_RIGHTS, rights)}", {state}}}\n'

    def verb_lines(self, number: int, thing: Thing) -> Iterator[str]:
        """The lines of an object's verbs."""
        for verb in thing.verbs:
            if verb.names.strip(" "):
                places = PLACES[verb.rights >> 4 & 3], PLACES[verb.rights >> 6]
                preposition = {-1: "none", -2: "any"}.get(verb.preposition) or PREPOSITIONS[verb.preposition]
                given = f'"{letters(VERB_RIGHTS, verb.rights)}", "{places[0]}", "{preposition}", "{places[1]}"'
                yield f"verb {{#{number}, {quoted(verb.names)}, #{verb.owner}, {given}}}\n"


def read_words(words: list[str]) -> argparse.Namespace:
    """What the words of the command line ask for."""
    reader = argparse.ArgumentParser(
        prog=f"{TOOL}.py", description=ABOUT, epilog=ENDING, formatter_class=argparse.RawDescriptionHelpFormatter
    )
    reader.add_argument("database", metavar="DB", help="the database file; - is standard input")
    reader.add_argument("--floats", choices=("text", "refuse"), default="refuse", help="make floats strings, or refuse them (the default)")
    reader.add_argument(
        "--bytes",
        choices=("escape", "refuse"),
        default="refuse",
        help="write bytes that no string of moo holds as ~XX, as encode_binary does, or refuse them (the default)",
    )
    reader.add_argument("--accept", action="store_true", help="make accept lists of verbs accept that only say yes or no or name classes")
    add_words(reader, "dump")
    return reader.parse_args(words)


def convert(asked: argparse.Namespace) -> int:
    """Writes the dump, and answers the status."""
    losses = Losses(asked.all)
    with opened(asked.database) as stream:
        database = Database(stream, losses, asked.floats, asked.bytes, keep_lacking=asked.accept)
        dump = Dump(database, losses, Accepting(database, losses).lists if asked.accept else {})
    is_refused = REFUSED_FLOATS in losses.counts or REFUSED_BYTES in losses.counts
    return losses.end(TOOL, "dump", asked, dump.pieces(), is_refused)


def main(words: list[str]) -> int:
    """Does what the words ask for, and answers the status."""
    asked = read_words(words)
    return finish(TOOL, lambda: convert(asked))


if __name__ == "__main__":
    sys.exit(main(sys.argv[1:]))
