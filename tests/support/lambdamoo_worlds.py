"""Worlds for the tests of the LambdaMOO converters: made at random, written as texts of either kind, and read from these.

Nothing here uses the converters.
"""

from __future__ import annotations

import dataclasses
import re
import typing
from random import Random
from typing import Any, Iterable

ERRORS = ["E_NONE", "E_TYPE", "E_DIV", "E_PERM", "E_PROPNF", "E_VERBNF", "E_VARNF", "E_INVIND"] + [
    "E_RECMOVE", "E_MAXREC", "E_RANGE", "E_ARGS", "E_NACC", "E_INVARG", "E_QUOTA", "E_FLOAT"
]
SETS = ["with/using", "at/to", "in front of", "in/inside/into", "on top of/on/onto/upon", "out of/from inside/from", "over", "through"] + [
    "under/underneath/beneath", "behind", "beside", "for/about", "is", "as", "off/off of"
]
FLAGS = ["player", "programmer", "wizard", "r", "w", "f"]
FLAG_BITS = [1, 2, 4, 16, 32, 128]
PLACES = ["none", "any", "this"]
CLEAR = None
# For each object the first of those that are in its list, and for each of those the next.
Lists = tuple[dict[int, int], dict[int, int]]


@dataclasses.dataclass(frozen=True)
class ObjectValue:
    """The value that an object is."""

    number: int


@dataclasses.dataclass(frozen=True)
class ErrorValue:
    """The value that an error is."""

    name: str


@dataclasses.dataclass
class Verb:
    """A verb, and its program if it has one and the text tells programs."""

    names: str
    owner: int
    letters: str
    places: typing.Tuple[str, str, str]
    program: typing.Optional[typing.List[str]] = None


@dataclasses.dataclass
class Slot:
    """A property on an object; the value is CLEAR or a value."""

    value: object
    owner: int
    letters: str


@dataclasses.dataclass
class Thing:
    """An object. Its slots are those of its own properties, then its parent's, and so on."""

    name: str
    owner: int = 0
    parent: int = -1
    location: int = -1
    flags: typing.List[str] = dataclasses.field(default_factory=list)
    defines: typing.List[str] = dataclasses.field(default_factory=list)
    slots: typing.List[Slot] = dataclasses.field(default_factory=list)
    verbs: typing.List[Verb] = dataclasses.field(default_factory=list)


@dataclasses.dataclass
class World:
    """A world by the numbers of its objects, and the greatest number that was given."""

    top: int
    things: typing.Dict[int, Thing]

    def chain(self, number: int) -> list[int]:
        """The object and its ancestors."""
        found = []
        while number != -1:
            found.append(number)
            number = self.things[number].parent
        return found

    def owed(self, number: int) -> list[tuple[int, str]]:
        """The definer and the name of each property that the object has."""
        return [(definer, name) for definer in self.chain(number) for name in self.things[definer].defines]

    def without_programs(self) -> World:
        """The world as a dump can tell it."""
        things = {}
        for number, thing in self.things.items():
            verbs = [dataclasses.replace(verb, program=None) for verb in thing.verbs]
            things[number] = dataclasses.replace(thing, verbs=verbs)
        return World(self.top, things)


# ---- worlds at random

NAMES = ["", "a", "brass lamp", "tab\there", 'say "hi"', "back\\slash", " blanks ", "~tilde~", "#5", "{}", "0", "\\\"", "x" * 300]
PROPERTY_NAMES = ["description", "Key", "two words", "tab\tname", 'quo"te', "back\\slash", "a" * 255, "#1", "1", "key2", " r", "n"]
VERB_NAMES = ["look", "l*ook", "g*et take", "get", "put", "put", 'say "', "tab\tverb", " blank", "*", "x\\y"]
CODE = ["return 1;", "", "  if (x)", "..", "#0:0", '"a string";', "0 clocks", " ."]


def random_value(random: Random, depth: int = 0) -> object:
    """A value of any type. Lists nest at most 32 deep, as in moo."""
    kind = random.randrange(6 if depth < 32 else 4)
    if kind == 0:
        return random.choice([0, 1, -1, 7, 2**31 - 1, -(2**31), random.randrange(-1000, 1000)])
    if kind == 1:
        return ObjectValue(random.choice([-1, 0, 5, -3, 2**31 - 1, -(2**31)]))
    if kind == 2:
        return random.choice(NAMES)
    if kind == 3:
        return ErrorValue(random.choice(ERRORS))
    return [random_value(random, depth + 1) for _ in range(random.choice([0, 0, 1, 1, 2]))]


def random_links(random: Random, numbers: Iterable[int]) -> dict[int, int]:
    """For each number another one or -1, without loops and in no order of the numbers."""
    order = list(numbers)
    random.shuffle(order)
    links = {}
    for place, number in enumerate(order):
        links[number] = random.choice(order[max(0, place - 8) : place]) if place and random.random() < 0.85 else -1
    return links


def random_letters(random: Random, letters: str) -> str:
    """Some of the letters, in their order."""
    return "".join(letter for letter in letters if random.random() < 0.5)


def random_verb(random: Random) -> Verb:
    """A verb, with a program or without."""
    places = random.choice(PLACES), random.choice(["none", "any", *SETS]), random.choice(PLACES)
    program = [random.choice(CODE) for _ in range(random.randrange(4))] if random.random() < 0.7 else None
    return Verb(random.choice(VERB_NAMES), random.randrange(-1, 9), random_letters(random, "rwxd"), places, program)


def random_world(random: Random, size: int) -> World:
    """A world of objects up to this number, some of which are gone."""
    numbers = [number for number in range(size) if random.random() < 0.85]
    parents, locations = random_links(random, numbers), random_links(random, numbers)
    world = World(size - 1, {})
    for number in numbers:
        flags = [flag for flag in FLAGS if random.random() < 0.3]
        thing = Thing(random.choice(NAMES), random.randrange(-2, size), parents[number], locations[number], flags)
        thing.verbs = [random_verb(random) for _ in range(random.choice([0, 0, 1, 3]))]
        world.things[number] = thing
    # Ancestors come before what is under them, so that no name is given that an ancestor has.
    for number in sorted(numbers, key=lambda number: len(world.chain(number))):
        taken = {name.lower() for _, name in world.owed(number)}
        for name in random.sample(PROPERTY_NAMES, random.choice([0, 0, 1, 2])):
            if name.lower() not in taken:
                world.things[number].defines.append(name)
    for number, thing in world.things.items():
        for definer, _ in world.owed(number):
            value = CLEAR if definer != number and random.random() < 0.5 else random_value(random)
            thing.slots.append(Slot(value, random.randrange(-1, 9), random_letters(random, "rwc")))
    return world


# ---- as a database of LambdaMOO


def value_lines(value: object) -> list[str]:
    """The lines of a value in a database."""
    if value is CLEAR:
        return ["5"]
    if isinstance(value, ObjectValue):
        return ["1", str(value.number)]
    if isinstance(value, ErrorValue):
        return ["3", str(ERRORS.index(value.name))]
    if isinstance(value, str):
        return ["2", value]
    if isinstance(value, list):
        return ["4", str(len(value)), *(line for item in value for line in value_lines(item))]
    return ["0", str(value)]


def lists_of(world: World, link: str, random: Random) -> Lists:
    """For each object the first of those that link to it, and for each of those the next, in an order of no meaning."""
    first: dict[int, int] = {}
    following: dict[int, int] = {}
    members = list(world.things)
    random.shuffle(members)
    for number in members:
        holder = getattr(world.things[number], link)
        if holder != -1:
            following[number] = first.get(holder, -1)
            first[holder] = number
    return first, following


def bits(letters: str, order: str) -> int:
    """The number of these rights. The first letter of the order counts 1, the next 2 and so on."""
    return sum(1 << place for place, letter in enumerate(order) if letter in letters)


def verb_lines(verb: Verb) -> list[str]:
    """The lines of a verb's header in a database."""
    direct, preposition, indirect = verb.places
    rights = bits(verb.letters, "rwxd") + 16 * PLACES.index(direct) + 64 * PLACES.index(indirect)
    number = -1 if preposition == "none" else -2 if preposition == "any" else SETS.index(preposition)
    return [verb.names, str(verb.owner), str(rights), str(number)]


def thing_lines(number: int, thing: Thing, children: Lists, contents: Lists) -> list[str]:
    """The lines of an object in a database, given its lists."""
    flags = sum(FLAG_BITS[FLAGS.index(flag)] for flag in thing.flags)
    lines = [f"#{number}", thing.name, "", str(flags), str(thing.owner), str(thing.location)]
    lines += [str(contents[0].get(number, -1)), str(contents[1].get(number, -1)), str(thing.parent)]
    lines += [str(children[0].get(number, -1)), str(children[1].get(number, -1)), str(len(thing.verbs))]
    for verb in thing.verbs:
        lines += verb_lines(verb)
    lines += [str(len(thing.defines)), *thing.defines, str(len(thing.slots))]
    for slot in thing.slots:
        lines += [*value_lines(slot.value), str(slot.owner), str(bits(slot.letters, "rwc"))]
    return lines


def database_text(world: World, random: Random, version: int = 4) -> str:
    """The world as a database of LambdaMOO, its lists of children, contents and players in an order of no meaning."""
    children, contents = lists_of(world, "parent", random), lists_of(world, "location", random)
    players = [number for number, thing in world.things.items() if "player" in thing.flags]
    random.shuffle(players)
    programs = []
    for number, thing in world.things.items():
        for place, verb in enumerate(thing.verbs):
            if verb.program is not None:
                programs.append([f"#{number}:{place}", *verb.program, "."])
    lines = [f"** LambdaMOO Database, Format Version {version} **", str(world.top + 1), str(len(programs)), "0", str(len(players))]
    lines += map(str, players)
    for number in range(world.top + 1):
        if number in world.things:
            lines += thing_lines(number, world.things[number], children, contents)
        else:
            lines.append(f"#{number} recycled")
    for program in programs:
        lines += program
    lines += ["0 clocks", "0 queued tasks", "0 suspended tasks", "0 active connections with listeners"]
    return "".join(f"{line}\n" for line in lines)


class DatabaseReader:
    """Reads a database of LambdaMOO that is whole. Whatever isn't as it should be is an AssertionError."""

    def __init__(self, text: str) -> None:
        assert text.endswith("\n"), "the last line ends"
        self.lines = text[:-1].split("\n")
        self.place = 0

    def line(self) -> str:
        """The next line."""
        self.place += 1
        return self.lines[self.place - 1]

    def number(self) -> int:
        """The next line, a number."""
        line = self.line()
        assert re.fullmatch("0|-?[1-9][0-9]*", line), f"line {self.place} is a number: {line!r}"
        return int(line)

    def value(self) -> object:
        """The next value, or CLEAR."""
        kind = self.number()
        if kind == 5:
            return CLEAR
        if kind == 4:
            return [self.value() for _ in range(self.number())]
        if kind == 2:
            return self.line()
        number = self.number()
        assert kind in (0, 1, 3), f"line {self.place}: a kind of value"
        return number if kind == 0 else ObjectValue(number) if kind == 1 else ErrorValue(ERRORS[number])

    def verb(self) -> Verb:
        """The header of a verb."""
        names, owner, rights, preposition = self.line(), self.number(), self.number(), self.number()
        assert rights < 256, "the rights of a verb have eight bits"
        letters = "".join(letter for place, letter in enumerate("rwxd") if rights >> place & 1)
        spelled = {-1: "none", -2: "any"}.get(preposition) or SETS[preposition]
        return Verb(names, owner, letters, (PLACES[rights >> 4 & 3], spelled, PLACES[rights >> 6]))

    def slot(self) -> Slot:
        """A value with its owner and rights."""
        value, owner, rights = self.value(), self.number(), self.number()
        return Slot(value, owner, "".join(letter for place, letter in enumerate("rwc") if rights >> place & 1))

    def thing(self) -> tuple[Thing, tuple[int, int], tuple[int, int]]:
        """An object, with the four ends of its lists."""
        thing = Thing(self.line())
        assert self.line() == "", "the handles are an empty line"
        flags = self.number()
        thing.flags = [flag for flag, bit in zip(FLAGS, FLAG_BITS) if flags & bit]
        assert flags == sum(FLAG_BITS[FLAGS.index(flag)] for flag in thing.flags), "no other flag is set"
        thing.owner, thing.location = self.number(), self.number()
        contents = self.number(), self.number()
        thing.parent = self.number()
        children = self.number(), self.number()
        thing.verbs = [self.verb() for _ in range(self.number())]
        thing.defines = [self.line() for _ in range(self.number())]
        thing.slots = [self.slot() for _ in range(self.number())]
        return thing, children, contents

    def world(self) -> World:
        """The world of the whole text."""
        assert self.line() == "** LambdaMOO Database, Format Version 4 **"
        world = World(self.number() - 1, {})
        programs = self.number()
        assert self.number() == 0
        players = [self.number() for _ in range(self.number())]
        lists = {}
        for number in range(world.top + 1):
            line = self.line()
            if line != f"#{number} recycled":
                assert line == f"#{number}", f"line {self.place} begins #{number}: {line!r}"
                world.things[number], *lists[number] = self.thing()
        for _ in range(programs):
            self.program(world)
        assert self.lines[self.place :] == ["0 clocks", "0 queued tasks", "0 suspended tasks", "0 active connections with listeners"]
        assert sorted(players) == [number for number, thing in world.things.items() if "player" in thing.flags], "players have the flag"
        for place, link in enumerate(("parent", "location")):
            self.check_lists(world, link, {number: ends[place] for number, ends in lists.items()})
        for number, thing in world.things.items():
            assert len(thing.slots) == len(world.owed(number)), f"#{number} has the slots that it is owed"
        return world

    def program(self, world: World) -> None:
        """Reads a program, and gives it to its verb."""
        found = re.fullmatch("#([0-9]+):([0-9]+)", self.line())
        assert found, f"line {self.place} names a verb"
        number, place = map(int, found.groups())
        verb = world.things[number].verbs[place]
        assert verb.program is None, "a verb has one program"
        verb.program = []
        line = self.line()
        while line != ".":
            verb.program.append(line)
            line = self.line()

    @staticmethod
    def check_lists(world: World, link: str, ends: dict[int, tuple[int, int]]) -> None:
        """Each object's list holds those that link to it, each once."""
        linked: dict[int, set[int]] = {number: set() for number in world.things}
        for number, thing in world.things.items():
            if getattr(thing, link) != -1:
                linked[getattr(thing, link)].add(number)
            else:
                assert ends[number][1] == -1, f"nothing comes after #{number}, whose {link} is #-1"
        for number, wanted in linked.items():
            found = set()
            member = ends[number][0]
            while member != -1:
                assert member not in found, f"#{member} is once in a list of #{number}"
                found.add(member)
                member = ends[member][1]
            assert found == wanted, f"the list of #{number} by {link}"


def read_database(text: str) -> World:
    """The world of a database."""
    return DatabaseReader(text).world()


# ---- as a dump of moo


def literal(value: object) -> str:
    """The literal of a value."""
    if isinstance(value, ObjectValue):
        return f"#{value.number}"
    if isinstance(value, ErrorValue):
        return value.name
    if isinstance(value, str):
        return '"' + "".join("\\" + letter if letter in '"\\' else letter for letter in value) + '"'
    if isinstance(value, list):
        return "{" + ", ".join(map(literal, value)) + "}"
    return str(value)


def dump_text(world: World) -> str:
    """The world as a dump of moo, with seq 0, no accept lists and no petitions."""
    lines = ["seq 0", f"top #{world.top}"]
    for number, thing in sorted(world.things.items()):
        flags = [int(flag in thing.flags) for flag in FLAGS]
        links = map(ObjectValue, (thing.owner, thing.parent, thing.location))
        lines.append("object " + literal([ObjectValue(number), thing.name, *links, *flags, 0]))
        lines += ["property " + literal([ObjectValue(number), name]) for name in thing.defines]
        for (definer, name), slot in zip(world.owed(number), thing.slots):
            state: list[object] = [0] if slot.value is CLEAR else [1, slot.value]
            values = [ObjectValue(number), ObjectValue(definer), name, ObjectValue(slot.owner), slot.letters, *state]
            lines.append("slot " + literal(values))
        for verb in thing.verbs:
            values = [ObjectValue(number), verb.names, ObjectValue(verb.owner), verb.letters, *verb.places]
            lines.append("verb " + literal(values))
    return "\n".join([*lines, "end", ""])


TOKENS = re.compile(r'#(-?[0-9]+)|(-?[0-9]+)|"((?:[^"\\]|\\.)*)"|(E_[A-Z]+)|(\{)|(\})|, ')


def read_literal(text: str) -> Any:
    """The value of a literal that is right."""
    stack: list[list[Any]] = [[]]
    place = 0
    while place < len(text):
        token = TOKENS.match(text, place)
        assert token, f"no literal at {place}: {text!r}"
        place = token.end()
        if token[5]:
            stack.append([])
        elif token[6]:
            closed = stack.pop()
            stack[-1].append(closed)
        elif token[1] is not None:
            stack[-1].append(ObjectValue(int(token[1])))
        elif token[2] is not None:
            stack[-1].append(int(token[2]))
        elif token[3] is not None:
            stack[-1].append(re.sub(r"\\(.)", r"\1", token[3]))
        elif token[4]:
            stack[-1].append(ErrorValue(token[4]))
    return stack[0][0]


def read_dump(text: str) -> World:
    """The world of a dump that is right, without what no database can tell."""
    lines = text.splitlines()
    world = World(int(lines[1][len("top #") :]), {})
    for line in lines[2:-1]:
        word, _, rest = line.partition(" ")
        values = read_literal(rest)
        number = values[0].number if word != "petition" else None
        if word == "object":
            owner, parent, location = (value.number for value in values[2:5])
            flags = [flag for flag, given in zip(FLAGS, values[5:11]) if given]
            world.things[number] = Thing(values[1], owner, parent, location, flags)
        elif word == "property":
            world.things[number].defines.append(values[1])
        elif word == "slot":
            value = values[6] if values[5] else CLEAR
            world.things[number].slots.append(Slot(value, values[3].number, values[4]))
        elif word == "verb":
            world.things[number].verbs.append(Verb(values[1], values[2].number, values[3], (values[4], values[5], values[6])))
    return world
