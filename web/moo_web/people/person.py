"""Who somebody is: a name, and the number as which moo is asked."""

from __future__ import annotations

import re
from typing import NamedTuple

from moo_web.people.file import Wrong

PERSON_NAME = re.compile(r"[A-Za-z0-9][A-Za-z0-9._-]{0,63}")
LARGEST_NUMBER = 2_147_483_647


class Person(NamedTuple):
    """Somebody who is known, by the programmer's number as which moo is asked."""

    name: str
    number: int


def test_name(name: str) -> None:
    """`Wrong`: nobody can have this name."""
    if not PERSON_NAME.fullmatch(name):
        raise Wrong("a name has 1 to 64 letters, digits, '.', '_' and '-', and begins with a letter or a digit")


def test_number(number: int) -> None:
    """`Wrong`: no object can have this number."""
    if not 0 <= number <= LARGEST_NUMBER:
        raise Wrong(f"a number is from 0 to {LARGEST_NUMBER}")
