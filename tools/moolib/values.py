"""Values of a world and their literals, as the service reads and writes them (docs/CALLS.md; LambdaMOO Programmer's Manual, 4.1.1).

    read('{1, {#2, "a"}, E_PERM}')      [1, [Obj(2), "a"], ErrorValue("E_PERM")]
    written([Obj(2), 'say "hi"'])       '{#2, "say \\"hi\\""}'

A value is an integer of 64 bits, a string, an object, an error or a list of values.
"""

from __future__ import annotations

import dataclasses
import re
from typing import List, Union, cast

LEAST_INTEGER, GREATEST_INTEGER = -(2**63), 2**63 - 1
LEAST_OBJECT, GREATEST_OBJECT = -(2**31), 2**31 - 1
LONGEST_STRING = 65_535
# So deep lists nest.
DEEPEST = 32
BLANKS = " \t"


@dataclasses.dataclass(frozen=True, order=True)
class Obj:
    """An object, by its number: `Obj(4)` is #4."""

    number: int

    def __int__(self) -> int:
        return self.number

    def __str__(self) -> str:
        return f"#{self.number}"


@dataclasses.dataclass(frozen=True)
class ErrorValue:
    """An error that is a value, as `ErrorValue("E_PERM")`."""

    name: str

    def __str__(self) -> str:
        return self.name


@dataclasses.dataclass(frozen=True)
class Name:
    """A name in place of a value of a call: it stands for the answer of an earlier call of the same batch. `Name("room")` is $room."""

    text: str

    def __str__(self) -> str:
        return f"${self.text}"


Value = Union[int, str, Obj, ErrorValue, List["Value"]]
# What a call is given: a value, or a name in the place of one.
Given = Union[int, str, Obj, ErrorValue, Name, List["Given"]]


class NoValue(ValueError):
    """A text isn't a value."""


class TooGreat(NoValue):
    """A value is greater than worlds hold. The message says what is, and how great it may be."""


# What errors are called, in the order of their numbers in LambdaMOO's files.
ERRORS = tuple(
    "E_NONE E_TYPE E_DIV E_PERM E_PROPNF E_VERBNF E_VARNF E_INVIND E_RECMOVE E_MAXREC E_RANGE E_ARGS E_NACC E_INVARG E_QUOTA E_FLOAT".split()
)
LETTERS = r"[\t !#-\[\]-~]*"
# A value, a name, or the brace that begins a list; and the sign after it, if there is one.
VALUE = re.compile(
    rf'[ \t]*(?:\#(-?[0-9]+)|"({LETTERS}(?:\\[\t -~]{LETTERS})*)"|(-?[0-9]+)|([Ee]\w*)|\$([A-Za-z_]\w*)|(\{{))[ \t]*([,}})]?)',
    re.ASCII,
)
SIGN = re.compile(r"[ \t]*([,})]?)")
STRING_OR_OBJECT = re.compile(r'("(?:[^"\\]|\\.)*"|#-?\d{1,10})')
BACKSLASHED = re.compile(r"\\(.)")
TO_ESCAPE = re.compile(r'(["\\])')
STRANGE = re.compile(r"[^\t -~]")


def read(text: str) -> Value:
    """The value whose literal a text is, with blanks around it, the names of errors in capitals. `NoValue`: it isn't one, or too great."""
    values, place = given_at(text, 0, "", any_case=False, has_names=False)
    if len(values) != 1 or text[place:].strip(BLANKS):
        raise NoValue(f"no value: {text[:200]!r}")
    return cast("Value", values[0])


def cut_at_objects(text: str) -> list[str]:
    """The text of values or of a call, cut at its strings and its objects: these are at the odd places. A number in a string isn't an object."""
    return STRING_OR_OBJECT.split(text)


def given_at(text: str, place: int, end: str, any_case: bool, has_names: bool, levels: int = DEEPEST) -> tuple[list[Given], int]:
    """The values with commas between them, one at least, at this place of a text, up to the sign `end`; and the place after that.

    `any_case` is of errors' names, and `has_names` is whether a name may be in the place of a value. Lists nest so deep in them at most.
    """
    given: list[Given] = []
    sign = ","
    while sign == ",":
        found = VALUE.match(text, place)
        if not found:
            raise NoValue(f"no value: {text[:200]!r}")
        number, inside, digits, word, name, brace, sign = found.groups()
        place = found.end()
        if number is not None:
            given.append(Obj(object_number(number)))
        elif inside is not None:
            given.append(string(inside))
        elif digits is not None:
            given.append(integer(digits))
        elif word is not None:
            given.append(error_value(word, any_case))
        elif brace is not None:
            if not levels:
                raise TooGreat(f"lists are at most {DEEPEST} deep")
            some, place = ([], place) if sign == "}" else given_at(text, found.end(6), "}", any_case, has_names, levels - 1)
            given.append(some)
            after = SIGN.match(text, place)
            assert after
            sign, place = after[1], after.end()
        elif has_names:
            given.append(Name(name))
        else:
            raise NoValue(f"no value: {text[:200]!r}")
    if sign != end:
        raise NoValue(f"no value: {text[:200]!r}")
    return given, place


def error_value(word: str, any_case: bool) -> ErrorValue:
    """The error of this name."""
    name = word.upper() if any_case else word
    if name not in ERRORS:
        raise NoValue(f"no error: {word[:200]!r}")
    return ErrorValue(name)


def integer(digits: str) -> int:
    """An integer of these digits. `TooGreat`: it has over 64 bits."""
    # Python refuses to read thousands of digits, with a ValueError of its own.
    number = int(digits) if len(digits) < 1000 else GREATEST_INTEGER + 1
    if not LEAST_INTEGER <= number <= GREATEST_INTEGER:
        raise TooGreat(f"{digits[:40]} is too great: a number has 64 bits")
    return number


def object_number(digits: str) -> int:
    """The number of an object of these digits. `TooGreat`: it has over 32 bits."""
    number = int(digits) if len(digits) < 1000 else GREATEST_OBJECT + 1
    if not LEAST_OBJECT <= number <= GREATEST_OBJECT:
        raise TooGreat(f"#{digits[:40]} is too great: the number of an object has 32 bits")
    return number


def string(inside: str) -> str:
    """The string of what is between two quotes. `TooGreat`: it is too long."""
    said = BACKSLASHED.sub(r"\1", inside) if "\\" in inside else inside
    if len(said) > LONGEST_STRING:
        raise TooGreat(f"a text has {len(said):,} letters, and {LONGEST_STRING:,} can be kept")
    return said


def written(value: object) -> str:
    """The literal of a value; a tuple is a list, and a `Name` is written as it is.

    `TypeError`: it isn't one. `ValueError`: a string has other letters than tabs and printing ASCII; `TooGreat`, a kind of that: it is
    greater than worlds hold.
    """
    return written_in(value, DEEPEST)


def written_in(value: object, levels: int) -> str:
    """The same of a value in which lists nest so deep at most."""
    if isinstance(value, str):
        return written_string(value)
    if isinstance(value, Obj):
        return f"#{object_number(str(value.number))}"
    if isinstance(value, int):
        return str(integer(str(int(value))))
    if isinstance(value, (ErrorValue, Name)):
        return str(value)
    if isinstance(value, (list, tuple)):
        if not levels:
            raise TooGreat(f"lists are at most {DEEPEST} deep")
        return "{" + ", ".join([written_in(item, levels - 1) for item in value]) + "}"
    raise TypeError(f"{type(value).__name__} is no value of a world")


def written_string(text: str) -> str:
    """The literal of a string."""
    if STRANGE.search(text):
        raise ValueError("a string holds tabs, spaces and printing ASCII alone")
    if len(text) > LONGEST_STRING:
        raise TooGreat(f"a text has {len(text):,} letters, and {LONGEST_STRING:,} can be kept")
    return '"' + TO_ESCAPE.sub(r"\\\1", text) + '"'
