"""The words and the limits of a dump and of a database, and strings as both have them."""

from __future__ import annotations

import re

# The format version that is written; it and those before it are read.
VERSION = 4

NOTHING = -1
# Lists nest 32 deep in moo. A line of a dump is a list too, which isn't counted.
DEEPEST_LIST = 32
LONGEST_NAME = 255

PLACES = ("none", "any", "this")
FLAGS = {"player": 1, "programmer": 2, "wizard": 4, "r": 16, "w": 32, "f": 128}
OBSOLETE_FLAGS = 8 | 64
PROPERTY_RIGHTS = {"r": 1, "w": 2, "c": 4}
VERB_RIGHTS = {"r": 1, "w": 2, "x": 4, "d": 8}
BUILT_IN_NAMES = frozenset("name owner location contents programmer wizard r w f".split())

# The types of values in a file.
INTEGER, OBJECT, STRING, ERROR, LIST, CLEAR, FLOAT = "0", "1", "2", "3", "4", "5", "9"

STRANGE_BYTE = re.compile(r"[^\t -~]")
ESCAPED_BYTE = re.compile(r"[^\t -}]")


def may_name_property(name: str) -> bool:
    """Whether a property may have a name."""
    return 0 < len(name) <= LONGEST_NAME and name.lower() not in BUILT_IN_NAMES


def escaped(text: str) -> str:
    """A string with each byte that moo's strings can't hold as ~XX, as encode_binary does; then a tilde is ~7E too."""
    if not STRANGE_BYTE.search(text):
        return text
    return ESCAPED_BYTE.sub(lambda byte: f"~{ord(byte[0]):02X}", text)


def quoted(text: str) -> str:
    """The literal of a string."""
    return '"' + text.replace("\\", "\\\\").replace('"', '\\"') + '"'
