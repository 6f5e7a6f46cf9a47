"""What a conversion leaves out or changes: kinds of it, each with a word for the command line, and how many there are of each."""

from __future__ import annotations

import argparse
import sys
from collections.abc import Collection, Iterable
from typing import NamedTuple

from lambdamoo.texts import write_out


class Kind(NamedTuple):
    """A kind of loss: its word for `--allow`, and what is told of it."""

    word: str
    text: str


# What a dump can't hold of a database.
PROGRAMS = Kind("programs", "verb programs, which moo doesn't keep")
FLOATS = Kind("floats", "floats, written as strings")
REFUSED_FLOATS = Kind("floats", "floats, refused (use --floats text to write them as strings)")
BYTES = Kind("bytes", "strings with bytes other than 9 and 32 to 126, written as ~XX")
REFUSED_BYTES = Kind("bytes", "strings with bytes other than 9 and 32 to 126, refused (use --bytes escape to write these bytes as ~XX)")
LONG_STRINGS = Kind("strings", "strings over 65,535 bytes, cut there")
DEEP_LISTS = Kind("lists", "lists over 32 deep, replaced by E_MAXREC")
HANDLES = Kind("handles", "old handles, left out")
OLD_FLAGS = Kind("flags", "objects with the obsolete flags 8 or 64, left out")
STRANGE_PARENTS = Kind("parents", "parents that aren't objects, replaced by #-1")
STRANGE_PLACES = Kind("locations", "locations that aren't objects, replaced by #-1")
CHILDREN = Kind("children", "lists of children that differ from the parents (the parents count)")
CONTENTS = Kind("contents", "lists of contents that differ from the locations (the locations count)")
PLAYERS = Kind("players", "players in the list or by their flag, but not both (the flag counts)")
OWN_CLEAR = Kind("clear", "clear values on the object that defines the property, replaced by 0")
TASKS = Kind("tasks", "queued and suspended tasks, left out")
CLOCKS = Kind("clocks", "clocks, left out")
CONNECTIONS = Kind("connections", "connections, left out")
NO_CONNECTIONS = Kind("connections", "missing lists of connections, as in an older server's file or one that was cut short")
MORE_LINES = Kind("lines", "lines after the list of connections, left out")
STRANGE_NAMES = Kind("properties", "properties whose name is empty, built in or over 255 bytes, left out")
STRANGE_VERBS = Kind("verbs", "verbs without a name, left out")
OTHER_ACCEPTS = Kind("accept", "verbs accept that do more than to say yes or no or to name classes: nothing is accepted there")

# What a database can't hold of a dump, or what isn't sure.
BATCHES = Kind("seq", "counts of accepted batches, left out")
ACCEPT_LISTS = Kind("accept", "accept lists, left out")
PETITIONS = Kind("petitions", "petitions, left out")
WIDE = Kind("integers", "integers over 32 bits, which a server with 32-bit integers can't read")
NO_PROGRAM = Kind("programs", "verbs without a program")
NO_VERB = Kind("gone", "programs without a verb in the dump, left out")
OLD_PROGRAM = Kind("old", "programs from an older format version, written unchanged")
BY_NAMES = Kind("arguments", "programs given by their names to a verb of other arguments")
BY_PLACE = Kind("place", "programs given by their place to a verb of other names")
SHIFTED = Kind("place", "programs given by their names to a verb that may be the one renamed, if the one after it was added")
TWINS = Kind("twins", "programs given by their order to one of several verbs of the same names and arguments")
NAMESAKES = Kind("twins", "programs given by their arguments to one of several verbs of the same names, of which some have changed")
IN_DOUBT = Kind("doubt", "programs given by their names and arguments to a verb that may be another one renamed, or a new one")
MOVED = Kind("order", "programs given by their names to a verb that has another place among the object's verbs")


class Losses:
    """What is left out or changed: how many of each kind, and the places, of which without `keeps_all` the first is kept."""

    def __init__(self, keeps_all: bool = False) -> None:
        self.keeps_all = keeps_all
        self.counts: dict[Kind, int] = {}
        self.places: dict[Kind, list[str]] = {}

    def note(self, kind: Kind, where: str, count: int = 1) -> None:
        """Counts one more of a kind, or several at one place."""
        if count:
            places = self.places.setdefault(kind, [])
            if self.keeps_all or not places:
                places.append(where)
            self.counts[kind] = self.counts.get(kind, 0) + count

    def first(self, kind: Kind) -> str:
        """The first place of a kind that there is."""
        return self.places[kind][0]

    def report(self, tool: str) -> None:
        """Writes a line for each kind to standard error, and if all were kept one for each place."""
        for kind, count in self.counts.items():
            sys.stderr.write(f"{tool}: {kind.text}: {count}, first at {self.first(kind)}\n")
            if self.keeps_all:
                sys.stderr.writelines(f"{tool}:     {where}\n" for where in self.places[kind])

    def beyond(self, allowed: Collection[str]) -> list[str]:
        """The words of the kinds that there are and that aren't allowed."""
        return sorted({kind.word for kind in self.counts} - set(allowed))

    def end(self, tool: str, what: str, asked: argparse.Namespace, pieces: Iterable[str], is_refused: bool = False) -> int:
        """Reports the losses, and writes what a tool makes, unless they aren't allowed or this is a check alone. Answers the status."""
        self.report(tool)
        beyond = self.beyond(asked.allow) if asked.strict else []
        if is_refused or beyond:
            why = f": --strict, and {', '.join(beyond)} not allowed" if beyond else ""
            sys.stderr.write(f"{tool}: no {what} was written{why}\n")
            return 1
        if not asked.check:
            write_out(pieces)
        return 0


def words_of(text: str) -> list[str]:
    """The words of kinds in a text, with commas between them. `argparse.ArgumentTypeError`: one isn't such a word."""
    known = {kind.word for kind in globals().values() if isinstance(kind, Kind)}
    words = [word.strip() for word in text.split(",") if word.strip()]
    for word in words:
        if word not in known:
            raise argparse.ArgumentTypeError(f"{word} isn't one of {', '.join(sorted(known))}")
    return words


def add_words(reader: argparse.ArgumentParser, what: str) -> None:
    """Adds the words of the command line about losses. `what` is what the tool makes."""
    reader.add_argument("--strict", action="store_true", help="write nothing, with status 1, if anything is left out or changed")
    reader.add_argument(
        "--allow", metavar="WORD,..", type=words_of, default=[], help="with --strict: but for these kinds of it, as programs,seq"
    )
    reader.add_argument("--all", action="store_true", help="report each place, and not only the first of each kind")
    reader.add_argument("--check", action="store_true", help=f"report what would be left out or changed, and write no {what}")
