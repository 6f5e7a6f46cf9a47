"""LambdaMOO's database files of format versions 1 to 4, read whole."""

from __future__ import annotations

import re
from collections.abc import Iterable
from typing import Optional, Tuple

from lambdamoo import stunt
from lambdamoo.links import listed_otherwise, loop_in
from lambdamoo.losses import (
    BYTES, CHILDREN, CLOCKS, CONNECTIONS, CONTENTS, DEEP_LISTS, FLOATS, HANDLES, LONG_STRINGS, MORE_LINES, NO_CONNECTIONS, OLD_FLAGS,
    OWN_CLEAR, PLAYERS, PROGRAMS, REFUSED_BYTES, REFUSED_FLOATS, STRANGE_PARENTS, STRANGE_PLACES, TASKS, Kind, Losses,
)  # fmt: skip
from lambdamoo.texts import Broken, Lines, shown
from lambdamoo.words import (
    CLEAR, DEEPEST_LIST, ERROR, FLAGS, FLOAT, INTEGER, LIST, NOTHING, OBJECT, OBSOLETE_FLAGS, STRANGE_BYTE, STRING, VERSION, escaped, quoted,
)  # fmt: skip
from moolib.slots import PREPOSITIONS
from moolib.values import ERRORS, GREATEST_INTEGER, GREATEST_OBJECT, LEAST_INTEGER, LEAST_OBJECT, LONGEST_STRING

# A value of a file as a literal, or None for a clear one, with its owner and rights.
Value = Tuple[Optional[str], int, int]

FIRST_LINE = re.compile(r"\*\* LambdaMOO Database, Format Version ([0-9]{1,9}) \*\*")
PROGRAM = re.compile(r"#([0-9]{1,10}):([0-9]{1,10})")
CONNECTED = re.compile(r"([0-9]{1,10}) active connections(?: with listeners)?")


class Verb:
    """A verb's header. Its names are as a dump has them, and spelled as in the file. So are its rights, places and preposition."""

    __slots__ = ("names", "spelled", "owner", "rights", "preposition", "line")

    def __init__(self, names: str, spelled: str, owner: int, rights: int, preposition: int, line: int) -> None:
        self.names = names
        self.spelled = spelled
        self.owner = owner
        self.rights = rights
        self.preposition = preposition
        self.line = line


class Thing:
    """An object of a database file. Values are literals, or None for clear ones, with an owner and rights.

    The names of properties are as in the file. The object's own is as a dump has it, and spelled as in the file. `changed` has the lines in
    the file of each value, by its place, that a dump can't hold as it is; it is filled if the database keeps what a dump lacks.
    """

    line: int
    name: str
    spelled: str
    flags: int
    owner: int
    location: int
    contents: int
    next: int
    parent: int
    child: int
    sibling: int
    verbs: list[Verb]
    defines: list[str]
    defined_at: int
    values: list[Value]
    values_at: int
    changed: dict[int, list[str]]

    __slots__ = tuple(__annotations__)


class Database:
    """A database file of LambdaMOO, format versions 1 to 4. What moo can't hold is reported while it is read."""

    def __init__(
        self, stream: Iterable[str], losses: Losses, floats: str = "text", odd_bytes: str = "escape", keep_lacking: bool = False
    ) -> None:
        self.lines = Lines(stream)
        self.losses = losses
        self.floats = FLOATS if floats == "text" else REFUSED_FLOATS
        self.bytes = BYTES if odd_bytes == "escape" else REFUSED_BYTES
        # whether programs are kept, and the values that a dump can't hold
        self.keep_lacking = keep_lacking
        # the lines of the present value if they are kept, and whether a dump changes it
        self.spelled: list[str] = []
        self.is_changed = False
        self.things: dict[int, Thing] = {}
        self.programs: dict[tuple[int, int], list[str]] = {}
        self.here = ""
        self.read()

    # ---- the file

    def read(self) -> None:
        """Reads the whole file."""
        lines = self.lines
        self.version = self.read_version()
        self.top = lines.count("objects") - 1
        program_count = lines.count("programs")
        lines.next()
        players = [lines.object("a player") for _ in range(lines.count("players"))]
        for number in range(self.top + 1):
            self.read_object(number)
        for _ in range(program_count):
            self.read_program()
        self.read_tasks()
        self.read_connections()
        self.check_players(players)
        self.check_links()

    def read_version(self) -> int:
        """The version that the first line names. `stunt.Later`: it is one of a later server."""
        named = FIRST_LINE.fullmatch(self.lines.next())
        if not named:
            raise self.lines.broken("this isn't a LambdaMOO database of format version 1 to 4")
        version = int(named[1])
        if version > VERSION:
            raise stunt.Later(self.lines.number, version)
        if version < 1:
            raise self.lines.broken(f"format version {version} can't be read, only 1 to 4 can")
        return version

    def where(self) -> str:
        """The place of the line read last."""
        return f"{self.here}, line {self.lines.number}"

    def note(self, kind: Kind) -> None:
        """Tells of the line read last."""
        self.losses.note(kind, self.where())

    # ---- objects

    def read_object(self, number: int) -> None:
        """Reads an object, or that it was recycled."""
        lines = self.lines
        line = lines.next()
        if line == f"#{number} recycled":
            return
        if line != f"#{number}":
            raise lines.broken(f"'#{number}' or '#{number} recycled' is wanted here, and not {shown(line)}")
        self.here = f"#{number}"
        thing = self.things[number] = Thing()
        thing.line = lines.number
        thing.name, thing.spelled = self.name()
        if lines.next():
            self.note(HANDLES)
        thing.flags = lines.integer(0, 255, "a sum of flags")
        if thing.flags & OBSOLETE_FLAGS:
            self.note(OLD_FLAGS)
        thing.owner = lines.object("the owner")
        thing.location = lines.object("the location")
        thing.contents = lines.object("the first of the contents")
        thing.next = lines.object("the next of the contents")
        thing.parent = lines.object("the parent")
        thing.child = lines.object("the first child")
        thing.sibling = lines.object("the next child")
        thing.verbs = [self.read_verb() for _ in range(lines.count("verbs"))]
        defined = lines.count("properties")
        thing.defined_at = lines.number + 1
        thing.defines = [lines.next() for _ in range(defined)]
        count = lines.count("values")
        thing.values_at = lines.number
        thing.changed = {}
        thing.values = [self.read_slot(thing, place, place < defined) for place in range(count)]

    def read_verb(self) -> Verb:
        """A verb's header."""
        lines = self.lines
        names, spelled = self.name()
        line = lines.number
        owner = lines.object("the owner of a verb")
        rights = lines.integer(0, 255, "the rights and places of a verb")
        if (rights >> 4 & 3) > 2 or (rights >> 6) > 2:
            raise lines.broken("a place of the verb isn't one of none, any and this")
        preposition = lines.integer(-2, len(PREPOSITIONS) - 1, "the preposition of a verb")
        return Verb(names, spelled, owner, rights, preposition, line)

    def read_slot(self, thing: Thing, place: int, own: bool) -> Value:
        """A value's literal, or None for a clear one, with the owner and the rights. One on the definer itself can't be clear."""
        self.spelled, self.is_changed = [], False
        kind = self.next_of_value()
        value = None if kind == CLEAR else self.value(kind)
        if self.is_changed and self.keep_lacking:
            thing.changed[place] = self.spelled
        if own and value is None:
            self.note(OWN_CLEAR)
            value = "0"
        return value, self.lines.object("the owner of a value"), self.lines.integer(0, 7, "the rights of a value")

    # ---- values

    def next_of_value(self) -> str:
        """The next line, which is a part of the present value."""
        line = self.lines.next()
        self.spelled.append(line)
        return line

    def number_of_value(self, least: int, greatest: int, what: str) -> int:
        """The same of a line that is a number."""
        number = self.lines.integer(least, greatest, what)
        self.spelled.append(str(number))
        return number

    def value(self, kind: str, depth: int = 0) -> str:
        """The literal of a value of this type, in lists so deep. It isn't clear."""
        if kind != LIST:
            return self.plain(kind)
        count = self.number_of_value(0, GREATEST_OBJECT + 1, "the number of values in a list")
        if depth == DEEPEST_LIST:
            self.note(DEEP_LISTS)
            self.is_changed = True
            self.skip(count)
            return "E_MAXREC"
        return "{" + ", ".join(self.value(self.next_of_value(), depth + 1) for _ in range(count)) + "}"

    def skip(self, count: int) -> None:
        """Passes over so many values, however deep their lists are."""
        while count:
            count -= 1
            kind = self.next_of_value()
            if kind == LIST:
                count += self.number_of_value(0, GREATEST_OBJECT + 1, "the number of values in a list")
            else:
                self.plain(kind)

    def plain(self, kind: str) -> str:
        """The literal of a value that isn't a list, and isn't clear."""
        if kind == INTEGER:
            return str(self.number_of_value(LEAST_INTEGER, GREATEST_INTEGER, "an integer"))
        if kind == STRING:
            return quoted(self.text())
        if kind == OBJECT:
            return f"#{self.number_of_value(LEAST_OBJECT, GREATEST_OBJECT, 'an object')}"
        if kind == ERROR:
            return ERRORS[self.number_of_value(0, len(ERRORS) - 1, "the number of an error")]
        if kind == FLOAT:
            text = self.text()
            self.note(self.floats)
            self.is_changed = True
            return quoted(text)
        raise self.lines.broken(f"the type of a value is wanted here (0 to 5, or 9), and not {shown(kind)}")

    def name(self) -> tuple[str, str]:
        """The next line as a string that moo can hold, and as it is spelled."""
        self.spelled = []
        return self.text(), self.spelled[0]

    def text(self) -> str:
        """The next line as a string that moo can hold."""
        text = self.next_of_value()
        if STRANGE_BYTE.search(text):
            self.note(self.bytes)
            self.is_changed = True
            text = escaped(text)
        if len(text) > LONGEST_STRING:
            self.note(LONG_STRINGS)
            self.is_changed = True
            text = text[:LONGEST_STRING]
        return text

    # ---- programs

    def read_program(self) -> None:
        """Reads the program of a verb."""
        lines = self.lines
        line = lines.next()
        named = PROGRAM.fullmatch(line)
        if not named:
            raise lines.broken(f"the object and the number of a verb with a program are wanted here, and not {shown(line)}")
        key = int(named[1]), int(named[2])
        thing = self.things.get(key[0])
        if not thing or key[1] >= len(thing.verbs):
            raise lines.broken(f"there is no verb {line}")
        if key in self.programs:
            raise lines.broken(f"the verb {line} has a second program")
        self.losses.note(PROGRAMS, f"{line}, line {lines.number}")
        code: list[str] = []
        while True:
            line = lines.next()
            if line == ".":
                break
            if self.keep_lacking:
                code.append(line)
        self.programs[key] = code

    # ---- tasks and connections

    def read_tasks(self) -> None:
        """Passes over clocks and tasks."""
        clocks = self.counted("clocks")
        self.here = "the clocks"
        self.losses.note(CLOCKS, self.where(), clocks)
        for _ in range(clocks):
            self.lines.next()
        queued = self.counted("queued tasks")
        self.here = "the tasks"
        self.losses.note(TASKS, self.where(), queued)
        suspended = self.counted("suspended tasks", among_others=queued > 0)
        self.losses.note(TASKS, self.where(), suspended)
        self.suspended = suspended

    def counted(self, what: str, among_others: bool = False) -> int:
        """How many of something the next line tells, or the next one that tells it."""
        pattern = re.compile(f"([0-9]{{1,10}}) {what}")
        while True:
            line = self.lines.next()
            found = pattern.fullmatch(line)
            if found:
                return int(found[1])
            if not among_others:
                raise self.lines.broken(f"the number of {what} is wanted here, and not {shown(line)}")

    def read_connections(self) -> None:
        """Passes over the connections, which older files don't have."""
        self.here = "the connections"
        while True:
            line = self.lines.more()
            if line is None:
                self.note(NO_CONNECTIONS)
                return
            found = CONNECTED.fullmatch(line)
            if found:
                break
            if not self.suspended:
                raise self.lines.broken(f"the number of active connections is wanted here, and not {shown(line)}")
        self.losses.note(CONNECTIONS, self.where(), int(found[1]))
        for _ in range(int(found[1])):
            self.lines.next()
        while self.lines.more() is not None:
            self.note(MORE_LINES)

    # ---- the whole

    def check_players(self, players: list[int]) -> None:
        """Tells of players by the list or by the flag alone."""
        flagged = {number for number, thing in self.things.items() if thing.flags & FLAGS["player"]}
        for number in sorted(flagged.symmetric_difference(players)):
            self.losses.note(PLAYERS, f"#{number}")

    def check_links(self) -> None:
        """Parents and locations are objects or NOTHING, without loops; lists of children and contents that differ are reported."""
        for link, kind in (("parent", STRANGE_PARENTS), ("location", STRANGE_PLACES)):
            for number, thing in self.things.items():
                if getattr(thing, link) != NOTHING and getattr(thing, link) not in self.things:
                    self.losses.note(kind, f"#{number}, line {thing.line}")
                    setattr(thing, link, NOTHING)
            looped = loop_in({number: getattr(thing, link) for number, thing in self.things.items()})
            if looped is not None:
                raise Broken(self.things[looped].line, f"the {link}s of #{looped} lead back to it")
        self.check_lists("parent", "child", "sibling", CHILDREN)
        self.check_lists("location", "contents", "next", CONTENTS)

    def check_lists(self, link: str, first: str, following: str, kind: Kind) -> None:
        """Tells of each object whose list holds others than those that link to it."""
        links, firsts, nexts = ({number: getattr(thing, each) for number, thing in self.things.items()} for each in (link, first, following))
        for number in listed_otherwise(links, firsts, nexts):
            self.losses.note(kind, f"#{number}, line {self.things[number].line}")
