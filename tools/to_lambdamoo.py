#!/usr/bin/env python3
"""Writes the world of a dump of moo as a LambdaMOO database."""

from __future__ import annotations

import argparse
import sys
from collections.abc import Iterator

from lambdamoo.doubts import Doubts
from lambdamoo.dump import Dump, Item, plain
from lambdamoo.losses import NO_PROGRAM, Losses, add_words
from lambdamoo.origin import Origin
from lambdamoo.programs import Header, Matching
from lambdamoo.texts import finish, opened
from lambdamoo.words import FLAGS, NOTHING, VERSION

TOOL = "to_lambdamoo"

ABOUT = f"""\
Reads a dump of moo and writes its world to standard output, as a database file
of LambdaMOO, format version {VERSION}. A verb gets the program that DB has for a verb
of the same names and arguments on the same object; else for one of the same
names, else for the one at its place. Each verb whose program isn't certain is
reported. Floats, bytes that no string of moo holds, long strings and deep lists
are those of DB again if the dump has what from_lambdamoo.py wrote for them.

What a database can't hold is reported on standard error by kind, with the
count and the place of the first. Nothing is written unless the whole dump was
read.
"""
ENDING = """\
  moo dump world.db | to_lambdamoo.py - --programs core.db >new.db
  moo dump world.db | to_lambdamoo.py - --programs core.db --check --all

The status is 0 if the database was written, 1 if a file is broken (with its
line) or --strict refuses, 2 if the words are wrong.
"""


def header_of(names: str, text: str) -> Header:
    """The header of a verb of a dump, from its names and what is written of it in a database."""
    _, owner, rights, preposition, _ = text.split("\n")
    return Header.of(names, int(owner), int(rights), int(preposition))


class Writer:
    """The database of a dump, with what the dump lacks of the database that the world came from."""

    def __init__(self, dump: Dump, origin: Origin, losses: Losses) -> None:
        self.dump = dump
        self.items = dump.items
        self.top = dump.top
        self.origin = origin
        self.losses = losses
        self.programs = self.placed()
        self.first_child, self.next_child = linked(self.items, "parent")
        self.first_inside, self.next_inside = linked(self.items, "location")

    def placed(self) -> dict[tuple[int, int], list[str]]:
        """The program of each verb that has one, by its object and number."""
        placed: dict[tuple[int, int], list[str]] = {}
        for number, item in self.items.items():
            placed.update(self.placed_on(number, item))
        for number, kept in self.origin.programs.items():
            if number not in self.items:
                Doubts(number, kept, {}, self.losses).tell_gone()
        return placed

    def placed_on(self, number: int, item: Item) -> dict[tuple[int, int], list[str]]:
        """The same of one object. Each program without a verb, each verb without a program and each doubt is reported."""
        placed: dict[tuple[int, int], list[str]] = {}
        kept = self.origin.programs.get(number, [])
        before, now = [verb.header for verb in kept], [header_of(names, text) for names, text in item.verbs]
        found = Matching(before, now).found
        is_untouched = self.dump.seq == 0 and before == now
        doubts = Doubts(number, kept, found, self.losses)
        for place, (names, _) in enumerate(item.verbs):
            match = found.get(place)
            where = f"#{number}:{place}, line {item.verb_lines[place]}"
            program = kept[match.place].program if match else None
            if match is None or program is None:
                self.losses.note(NO_PROGRAM, where)
                continue
            placed[number, place] = program
            if not is_untouched:
                doubts.tell(match, names, where)
        doubts.tell_gone()
        return placed

    def pieces(self) -> Iterator[str]:
        """The texts of the database, in their order."""
        players = [number for number, item in self.items.items() if item.flags & FLAGS["player"]]
        yield f"** LambdaMOO Database, Format Version {VERSION} **\n{self.top + 1}\n{len(self.programs)}\n0\n{len(players)}\n"
        for number in players:
            yield f"{number}\n"
        for number in range(self.top + 1):
            if number in self.items:
                yield from self.object_lines(number, self.items[number])
            else:
                yield f"#{number} recycled\n"
        for (number, place), code in sorted(self.programs.items()):
            yield f"#{number}:{place}\n" + "".join(f"{line}\n" for line in code) + ".\n"
        yield "0 clocks\n0 queued tasks\n0 suspended tasks\n0 active connections with listeners\n"

    def object_lines(self, number: int, item: Item) -> Iterator[str]:
        """The texts of an object."""
        inside = self.first_inside.get(number, NOTHING), self.next_inside.get(number, NOTHING)
        below = self.first_child.get(number, NOTHING), self.next_child.get(number, NOTHING)
        yield f"#{number}\n{self.origin.objects.get((number, item.name), item.name)}\n\n{item.flags}\n{item.owner}\n"
        yield f"{item.location}\n{inside[0]}\n{inside[1]}\n"
        yield f"{item.parent}\n{below[0]}\n{below[1]}\n{len(item.verbs)}\n"
        for names, text in item.verbs:
            yield self.origin.verbs.get((number, names), names) + text
        yield f"{len(item.defines)}\n"
        for _, name in item.defines:
            yield f"{self.origin.properties.get((number, plain(name)), plain(name))}\n"
        yield f"{len(item.slots)}\n"
        for definer, name, text in item.slots:
            yield self.as_it_was(number, definer, name, text)

    def as_it_was(self, number: int, definer: str, name: str, text: str) -> str:
        """The text of a slot, with the value as the database had it if the dump has what stands for that."""
        found = self.origin.values.get((number, int(definer), plain(name)))
        if found is None:
            return text
        literal, spelled = found
        value, owner, rights, _ = text.rsplit("\n", 3)
        return f"{spelled}\n{owner}\n{rights}\n" if value == "\n".join(self.dump.value(literal, Losses())) else text


def linked(items: dict[int, Item], link: str) -> tuple[dict[int, int], dict[int, int]]:
    """For each object the first of those that link to it, and for each of these the next, ascending. Nothing is linked to #-1."""
    first: dict[int, int] = {}
    following: dict[int, int] = {}
    last: dict[int, int] = {}
    for number, item in items.items():
        holder = getattr(item, link)
        if holder == NOTHING:
            continue
        if holder in last:
            following[last[holder]] = number
        else:
            first[holder] = number
        last[holder] = number
    return first, following


def read_words(words: list[str]) -> argparse.Namespace:
    """What the words of the command line ask for."""
    reader = argparse.ArgumentParser(
        prog=f"{TOOL}.py", description=ABOUT, epilog=ENDING, formatter_class=argparse.RawDescriptionHelpFormatter
    )
    reader.add_argument("dump", metavar="DUMP", help="the dump; - is standard input")
    reader.add_argument("--programs", metavar="DB", help="the database file that the world came from")
    add_words(reader, "database")
    asked = reader.parse_args(words)
    if asked.dump == asked.programs == "-":
        reader.error("DUMP and DB can't both be standard input")
    return asked


def convert(asked: argparse.Namespace) -> int:
    """Writes the database, and answers the status."""
    losses = Losses(asked.all)
    with opened(asked.dump) as stream:
        dump = Dump(stream, losses)
    writer = Writer(dump, Origin(asked.programs, losses), losses)
    return losses.end(TOOL, "database", asked, writer.pieces())


def main(words: list[str]) -> int:
    """Does what the words ask for, and answers the status."""
    asked = read_words(words)
    return finish(TOOL, lambda: convert(asked))


if __name__ == "__main__":
    sys.exit(main(sys.argv[1:]))
