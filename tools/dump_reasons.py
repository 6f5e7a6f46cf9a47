"""Why a line isn't one that a dump of moo has, in the words of `moo load`. It is asked of lines that were refused already."""

from __future__ import annotations

import re

from lambdamoo.words import PROPERTY_RIGHTS, VERB_RIGHTS
from moolib.slots import BITS, PREPOSITIONS

WORDS = ("object", "property", "slot", "verb", "petition", "end")
STRING = re.compile(r'"(?:[^"\\]|\\.)*"')
PIECE = re.compile(r"\s*,\s*|[{}]")
BYTE_ORDER_MARK = "\xef\xbb\xbf"
# The values of an object's line up to its bits, and of the others up to their rights.
BEFORE_BITS = re.compile(r'object \{#-?\d+, "(?:[^"\\]|\\.)*", #-?\d+, #-?\d+, #-?\d+, (.*)\}')
BEFORE_SLOT_RIGHTS = re.compile(r'slot \{#-?\d+, #-?\d+, "(?:[^"\\]|\\.)*", #-?\d+, "([A-Za-z]*)", ')
BEFORE_VERB_RIGHTS = re.compile(r'verb \{#-?\d+, "(?:[^"\\]|\\.)*", #-?\d+, "([A-Za-z]*)", ')


def of_bytes(text: str) -> str:
    """What is wrong with the bytes of a line, each a letter of Latin-1; or nothing."""
    if text.startswith(BYTE_ORDER_MARK):
        return "a byte order mark is before it"
    if text.endswith("\r"):
        return "the line ends in a carriage return"
    if not text.strip():
        return "a blank line"
    if re.search(r"[^\t -~]", text):
        return "a byte in a text that is neither a tab nor printing ASCII"
    return ""


def of_spaces(text: str) -> str:
    """What is wrong with the spaces and brackets of a line; or nothing."""
    bare = STRING.sub("", text)
    if '"' in bare:
        return 'a text without its closing "'
    depth = 0
    for piece in (found[0] for found in PIECE.finditer(bare)):
        if "," in piece and piece != ", ":
            return "a value is followed by ', '"
        depth += (piece == "{") - (piece == "}")
        if depth < 0:
            return "a '}' without its '{'"
    if depth:
        return "the list isn't closed by a '}'"
    if re.search(r"^\s|\s\s(?!,)|\{\s|\s\}|\s$", STRING.sub("0", text)):
        return "a dump has one space after each comma, and no others"
    return ""


def of_rights(text: str) -> str:
    """What is wrong with the letters of rights in the line of a slot or a verb; or nothing."""
    for form, rights in ((BEFORE_SLOT_RIGHTS, PROPERTY_RIGHTS), (BEFORE_VERB_RIGHTS, VERB_RIGHTS)):
        found = form.match(text)
        if not found:
            continue
        strange = [letter for letter in found[1].lower() if letter not in rights]
        if strange:
            return f"{strange[0]!r} isn't one of the letters {''.join(rights)}"
        right = "".join(letter for letter in rights if letter in found[1].lower())
        if right != found[1]:
            return f'a dump writes "{right}" for "{found[1]}"'
    return ""


def of_bits(text: str) -> str:
    """What is wrong with the bits in the line of an object; or nothing."""
    found = BEFORE_BITS.fullmatch(text)
    values = found[1].split(", ") if found else []
    for name, value in zip(BITS, values):
        if value not in ("0", "1"):
            return f"the {name} isn't 0 or 1"
    return f"the {BITS[len(values)]} is missing" if found and len(values) < len(BITS) else ""


def of_line(text: str) -> str:
    """Why a line isn't one that a dump has; or nothing, if nothing is known."""
    wrong = of_bytes(text)
    if not wrong and text.partition(" ")[0] not in WORDS:
        return f"a line begins with {', '.join(WORDS[:-1])}, or is {WORDS[-1]!r}"
    return wrong or of_spaces(text) or of_bits(text) or of_rights(text)


def of_value(text: str) -> str:
    """Why a text isn't a value; or nothing, if nothing is known."""
    return of_bytes(text) or of_spaces(text)


def of_preposition(text: str) -> str:
    """Why a text isn't a preposition: a dump has each with all its other words."""
    meant = next((phrases for phrases in PREPOSITIONS if text.lower() in phrases.split("/")), "")
    return f'a dump writes "{meant}" for "{text}"' if meant else f"{text!r} isn't a preposition"
