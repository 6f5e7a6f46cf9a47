"""Dumps of moo, read whole, with values as a database has them."""

from __future__ import annotations

import re
from collections.abc import Iterable

from dump_reasons import of_bytes, of_line, of_preposition, of_value
from lambdamoo.links import clash_in, loop_in, owed_to_each
from lambdamoo.losses import ACCEPT_LISTS, BATCHES, PETITIONS, WIDE, Losses
from lambdamoo.texts import Broken, Lines, shown
from lambdamoo.words import (
    CLEAR, DEEPEST_LIST, ERROR, FLAGS, INTEGER, LIST, NOTHING, OBJECT, PLACES, PROPERTY_RIGHTS, STRING, VERB_RIGHTS, may_name_property,
)  # fmt: skip
from moolib.slots import PREPOSITIONS
from moolib.values import ERRORS, GREATEST_INTEGER, GREATEST_OBJECT, LEAST_INTEGER, LEAST_OBJECT

NOT_HERE = "a dump doesn't have such a line here"
VALUES = '12, #4, "a text", E_PERM or {1, #2}'

# The texts that a dump has, each spelled in one way.
DECIMAL = r"(?:0|-?[1-9][0-9]{0,18})"
PLAIN = r"[\t !#-\[\]-~]*"
STRING_BYTES = rf'{PLAIN}(?:\\["\\]{PLAIN})*'
NUMBER = rf"#({DECIMAL})"
TEXT = rf'"({STRING_BYTES})"'
OBJECT_LIST = rf"\{{(?:#{DECIMAL}(?:, #{DECIMAL})*)?\}}"
OBJECT_LINE = re.compile(
    rf"object \{{{NUMBER}, {TEXT}, {NUMBER}, {NUMBER}, {NUMBER}, ([01]), ([01]), ([01]), ([01]), ([01]), ([01]), (0|{OBJECT_LIST})\}}"
)
PROPERTY_LINE = re.compile(rf"property \{{{NUMBER}, {TEXT}\}}")
SLOT_LINE = re.compile(rf'slot \{{{NUMBER}, {NUMBER}, {TEXT}, {NUMBER}, "(r?w?c?)", (?:0|1, (.*))\}}')
VERB_LINE = re.compile(
    rf'verb \{{{NUMBER}, {TEXT}, {NUMBER}, "(r?w?x?d?)", "(this|any|none)", "([a-z/ ]*)", "(this|any|none)"\}}'
)
PETITION_LINE = re.compile(rf"petition \{{([1-9][0-9]*), {NUMBER}, (\{{.*\}})\}}")
TOKEN = re.compile(rf"(?P<integer>{DECIMAL})|#(?P<object>{DECIMAL})|\"(?P<string>{STRING_BYTES})\"|(?P<error>E_[A-Z]+)|\{{")
BACKSLASHED = re.compile(r"\\(.)")

PREPOSITION_NUMBERS = {"none": -1, "any": -2, **{text: number for number, text in enumerate(PREPOSITIONS)}}
PLACE_NUMBERS = {text: number for number, text in enumerate(PLACES)}
ERROR_NUMBERS = {text: number for number, text in enumerate(ERRORS)}
NARROW = range(-(2**31), 2**31)

# The lines about an object come in this order, and petitions come last.
OBJECT_RANK, PROPERTY_RANK, SLOT_RANK, VERB_RANK, PETITION_RANK = range(5)


def plain(text: str) -> str:
    """The string of a literal's bytes between its quotes."""
    return BACKSLASHED.sub(r"\1", text) if "\\" in text else text


def rights_number(rights: dict[str, int], letters: str) -> int:
    """The number of the rights with these letters."""
    return sum(rights[letter] for letter in letters)


class Item:
    """An object of a dump: its row, what it defines, and its slots and verbs as they are written in a database."""

    line: int
    name: str
    owner: int
    parent: int
    location: int
    flags: int
    defines: list[tuple[str, str]]
    slots: list[tuple[str, str, str]]
    verbs: list[tuple[str, str]]
    verb_lines: list[int]

    __slots__ = tuple(__annotations__)


class Dump:
    """A dump, read line by line. What a database can't hold is reported while it is read."""

    def __init__(self, stream: Iterable[str], losses: Losses) -> None:
        self.lines = Lines(stream)
        self.losses = losses
        self.items: dict[int, Item] = {}
        self.rank = OBJECT_RANK
        self.item: Item | None = None
        # the digits of the present object's number
        self.number = str(NOTHING)
        # Texts that come often, so that each is kept once.
        self.texts: dict[str, str] = {}
        self.read()
        self.check()

    # ---- lines

    def read(self) -> None:
        """Reads the whole dump."""
        self.seq = self.heading("seq ([0-9]{1,19})")
        self.losses.note(BATCHES, "line 1", int(self.seq != 0))
        self.top = self.heading("top #(0|-1|[1-9][0-9]{0,9})")
        if not NOTHING <= self.top <= GREATEST_OBJECT:
            raise self.lines.broken("the greatest number of an object is out of range")
        while True:
            line = self.lines.next()
            word = line[: line.find(" ")]
            if word == "slot":
                self.read_slot(line)
            elif word == "object":
                self.read_object(line)
            elif word == "property":
                self.read_property(line)
            elif word == "verb":
                self.read_verb(line)
            elif word == "petition":
                self.read_petition(line)
            elif line == "end":
                break
            else:
                raise self.strange(line)
        if self.lines.more() is not None:
            raise self.lines.broken("there is more after the end of the dump")

    def heading(self, pattern: str) -> int:
        """The number in a line of the heading."""
        line = self.lines.next()
        found = re.fullmatch(pattern, line)
        if not found:
            raise self.lines.broken(f"{of_bytes(line) or 'a dump begins with a line `seq N` and a line `top #N`'}: {shown(line)}")
        return int(found[1])

    def strange(self, line: str) -> Broken:
        """The fault of a line that no dump has there."""
        return self.lines.broken(f"{of_line(line) or NOT_HERE}: {shown(line)}")

    def parts(self, pattern: re.Pattern[str], line: str, rank: int) -> tuple[Item, re.Match[str]]:
        """The parts of a line about the present object. A line of a lower rank can't follow one of a higher rank."""
        found = pattern.fullmatch(line)
        if not found:
            raise self.strange(line)
        if self.item is None or found[1] != self.number:
            raise self.lines.broken(f"a line about #{found[1]} comes after that of another object: {shown(line)}")
        if rank < self.rank:
            raise self.lines.broken(f"properties come first, then slots, then verbs: {shown(line)}")
        self.rank = rank
        return self.item, found

    def object_number(self, digits: str) -> int:
        """The number of an object."""
        number = int(digits)
        if not LEAST_OBJECT <= number <= GREATEST_OBJECT:
            raise self.lines.broken(f"#{digits} isn't the number of an object")
        return number

    def read_object(self, line: str) -> None:
        """Reads the line of an object."""
        found = OBJECT_LINE.fullmatch(line)
        if not found or self.rank == PETITION_RANK:
            raise self.strange(line)
        number = self.object_number(found[1])
        if not int(self.number) < number <= self.top:
            raise self.lines.broken(f"#{number} is not above the object before it, or is above the greatest number")
        self.rank = OBJECT_RANK
        self.number = found[1]
        item = self.item = self.items[number] = Item()
        item.line = self.lines.number
        item.name = plain(found[2])
        item.owner, item.parent, item.location = (self.object_number(found[place]) for place in (3, 4, 5))
        item.flags = sum(worth for place, worth in enumerate(FLAGS.values()) if found[6 + place] == "1")
        if found[12] != "0":
            self.losses.note(ACCEPT_LISTS, f"#{number}, line {item.line}")
        item.defines, item.slots, item.verbs, item.verb_lines = [], [], [], []

    def read_property(self, line: str) -> None:
        """Reads the line of a property that the present object defines."""
        item, found = self.parts(PROPERTY_LINE, line, PROPERTY_RANK)
        if not may_name_property(plain(found[2])):
            raise self.lines.broken("a property can't have such a name")
        item.defines.append((self.number, found[2]))

    def read_slot(self, line: str) -> None:
        """Reads the line of a slot of the present object."""
        item, found = self.parts(SLOT_LINE, line, SLOT_RANK)
        _, definer, name, owner, letters, value = found.groups()
        name = self.texts.setdefault(name, name)
        definer = self.texts.setdefault(definer, definer)
        lines = [CLEAR] if value is None else self.value(value, self.losses)
        lines += [str(self.object_number(owner)), str(rights_number(PROPERTY_RIGHTS, letters)), ""]
        text = "\n".join(lines)
        if value is None:
            text = self.texts.setdefault(text, text)
        item.slots.append((definer, name, text))

    def read_verb(self, line: str) -> None:
        """Reads the line of a verb of the present object."""
        item, found = self.parts(VERB_LINE, line, VERB_RANK)
        _, names, owner, letters, direct, preposition, indirect = found.groups()
        if preposition not in PREPOSITION_NUMBERS:
            raise self.lines.broken(of_preposition(preposition))
        rights = rights_number(VERB_RIGHTS, letters) + (PLACE_NUMBERS[direct] << 4) + (PLACE_NUMBERS[indirect] << 6)
        names = plain(names)
        if not names.strip(" "):
            raise self.lines.broken("a verb needs a name")
        item.verbs.append((names, f"\n{self.object_number(owner)}\n{rights}\n{PREPOSITION_NUMBERS[preposition]}\n"))
        item.verb_lines.append(self.lines.number)

    def read_petition(self, line: str) -> None:
        """Reads the line of a petition, which is only reported."""
        found = PETITION_LINE.fullmatch(line)
        if not found:
            raise self.strange(line)
        self.value(found[3], Losses())
        self.rank = PETITION_RANK
        self.losses.note(PETITIONS, f"line {self.lines.number}")

    # ---- values

    def value(self, text: str, losses: Losses) -> list[str]:
        """The lines in a database of the value whose literal is this text."""
        lines: list[str] = []
        if self.add_value(text, 0, 0, lines, losses) < len(text):
            raise self.no_value(text)
        return lines

    def no_value(self, text: str) -> Broken:
        """The fault of a text that isn't a literal."""
        why = of_value(text)
        return self.lines.broken(f"{why}: {shown(text)}" if why else f"{shown(text)} isn't a value: {VALUES}")

    def add_value(self, text: str, start: int, depth: int, lines: list[str], losses: Losses) -> int:
        """Adds the lines of the value that starts at a place of the text, in lists so deep, and answers the place after it."""
        token = TOKEN.match(text, start)
        if not token:
            raise self.no_value(text)
        if token[0] != "{":
            self.add_plain(lines, token.lastgroup, token[token.lastgroup or 0], losses)
            return token.end()
        if depth == DEEPEST_LIST:
            raise self.lines.broken(f"lists nest over {DEEPEST_LIST} deep")
        lines.append(LIST)
        counted_at = len(lines)
        lines.append("0")
        place = token.end()
        count = 0
        while count or text[place : place + 1] != "}":
            place = self.add_value(text, place, depth + 1, lines, losses)
            count += 1
            if text[place : place + 1] == "}":
                break
            if text[place : place + 2] != ", ":
                raise self.no_value(text)
            place += 2
        lines[counted_at] = str(count)
        return place + 1

    def add_plain(self, lines: list[str], kind: str | None, text: str, losses: Losses) -> None:
        """Adds the lines of a value that isn't a list."""
        if kind == "integer":
            number = int(text)
            if not LEAST_INTEGER <= number <= GREATEST_INTEGER:
                raise self.lines.broken(f"{text} isn't an integer of 64 bits")
            if number not in NARROW:
                losses.note(WIDE, f"#{self.number}, line {self.lines.number}")
            lines += [INTEGER, text]
        elif kind == "object":
            self.object_number(text)
            lines += [OBJECT, text]
        elif kind == "string":
            lines += [STRING, plain(text)]
        elif text in ERROR_NUMBERS:
            lines += [ERROR, str(ERROR_NUMBERS[text])]
        else:
            raise self.lines.broken(f"{text} isn't an error")

    # ---- the whole

    def check(self) -> None:
        """Parents and locations are objects or #-1, without loops, and each object has exactly the slots that its chain owes it."""
        for link in ("parent", "location"):
            links = {number: getattr(item, link) for number, item in self.items.items()}
            for number, other in links.items():
                if other != NOTHING and other not in self.items:
                    raise Broken(self.items[number].line, f"the {link} of #{number} isn't an object")
            looped = loop_in(links)
            if looped is not None:
                raise Broken(self.items[looped].line, f"the {link}s of #{looped} lead back to it")
        parents = {number: item.parent for number, item in self.items.items()}
        clash = clash_in(parents, {number: [plain(name).lower() for _, name in item.defines] for number, item in self.items.items()})
        if clash:
            number, place = clash
            raise Broken(self.items[number].line + 1 + place, f"#{number} or an ancestor already defines a property of this name")
        self.owed = owed_to_each(parents, {number: item.defines for number, item in self.items.items()})
        for number, item in self.items.items():
            self.check_slots(number, item)

    def check_slots(self, number: int, item: Item) -> None:
        """The slots of an object are those that are owed to it, in that order."""
        owed = self.owed[number]
        first_line = item.line + 1 + len(item.defines)
        for place, (slot, wanted) in enumerate(zip(item.slots, owed)):
            if slot[0] != wanted[0] or slot[1] != wanted[1]:
                raise Broken(first_line + place, f"the slot of #{wanted[0]}'s property \"{wanted[1]}\" is wanted here")
            if place < len(item.defines) and slot[2].startswith(f"{CLEAR}\n"):
                raise Broken(first_line + place, f"#{number} defines this property, so its slot can't be clear")
        if len(item.slots) != len(owed):
            reason = f"#{number} has {len(item.slots)} slots, and {len(owed)} are owed to it"
            raise Broken(first_line + min(len(item.slots), len(owed)), reason)
