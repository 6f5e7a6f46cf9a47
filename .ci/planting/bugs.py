"""Small bugs for a body: each is another text for a few of its tokens. Which of them compile shows only when they are tried."""
from __future__ import annotations

import hashlib
import re
from typing import Iterator, NamedTuple

from planting.declared import Declared
from planting.functions import CLOSES, Function, Token, closing, next_of

SWAPPED = {
    "==": "!=", "!=": "==", "<": "<=", "<=": "<", ">": ">=", ">=": ">", "&&": "||", "||": "&&", "+": "-", "-": "+", "+=": "-=", "-=": "+=",
    "true": "false", "false": "true",
}
METHODS = {
    "min": "max", "max": "min", "first": "last", "last": "first", "is_some": "is_none", "is_none": "is_some", "any": "all", "all": "any",
}
# What a statement that may be left out doesn't begin with.
KEPT = ("let", "return", "for", "if", "while", "match", "loop", "break", "continue", "unreachable", "prove", "ghost", "else")
NUMBER = re.compile(r"\d[\d_]*")
NAME = re.compile(r"[a-z_]\w*")


class Bug(NamedTuple):
    """A bug: its kind, and the new text for what is from here to there."""

    kind: str
    begin: int
    end: int
    new: str


def operators(body: list[Token], at: int, text: str) -> Iterator[Bug]:
    """An operator, a truth value, a number or a method in place of another; a `!` left out."""
    token, before, after = body[at], body[at - 1], body[at + 1]
    is_spaced = text[token.begin - 1].isspace() and text[token.end].isspace()
    if token.text in ("true", "false") or (token.text in SWAPPED and is_spaced):
        yield Bug("another operator", token.begin, token.end, SWAPPED[token.text])
    elif token.text == "!" and after.begin == token.end and not NAME.fullmatch(before.text):
        yield Bug("no negation", token.begin, token.end, "")
    elif NUMBER.fullmatch(token.text) and before.text != ".":
        number = int(token.text.replace("_", ""))
        yield Bug("a number more", token.begin, token.end, str(number + 1))
        if number:
            yield Bug("a number less", token.begin, token.end, str(number - 1))
    elif token.text in METHODS and before.text == "." and after.text == "(":
        yield Bug("another method", token.begin, token.end, METHODS[token.text])


def conditions(body: list[Token], at: int, text: str) -> Iterator[Bug]:
    """A condition that is turned."""
    if body[at].text in ("if", "while") and body[at + 1].text != "let":
        end = next_of(body, at + 1, "{", "=>")
        begin, until = body[at + 1].begin, body[end - 1].end
        yield Bug("a turned condition", begin, until, f"!({text[begin:until]})")


def statements(body: list[Token], at: int, text: str) -> Iterator[Bug]:
    """A statement that is left out."""
    if body[at - 1].text in ("{", ";", "}") and re.match(r"\w", body[at].text) and body[at].text not in KEPT:
        end = next_of(body, at, ";", *CLOSES.values())
        if end < len(body) and body[end].text == ";":
            yield Bug("a statement left out", body[at].begin, body[end].end, "")


def answers(body: list[Token], at: int, text: str) -> Iterator[Bug]:
    """A `Some` that is given as `None`."""
    if body[at].text == "Some" and body[at + 1].text == "(" and body[at - 1].text in ("{", ";", "return", "=>"):
        end = closing(body, at + 1)
        if body[end + 1].text in ("}", ";", ","):
            yield Bug("None", body[at].begin, body[end].end, "None")


def parameters(function: Function) -> dict[str, str]:
    """The types of the parameters, as they are written."""
    words = function.signature
    opens = next_of(words, 0, "(")
    found: dict[str, str] = {}
    for at in range(opens, closing(words, opens)):
        if words[at].text == ":" and NAME.fullmatch(words[at - 1].text):
            end = next_of(words, at + 1, ",", ")")
            found[words[at - 1].text] = " ".join(token.text for token in words[at + 1 : end])
    return found


def shape(argument: str, types: dict[str, str]) -> str:
    """What an argument that may be exchanged looks like: its type, if it is a parameter; else whether it is a name, a field or a number."""
    bare = argument.lstrip("&").replace("mut ", "")
    if bare in types:
        return argument[: -len(bare)] + types[bare]
    return "name" if NAME.fullmatch(bare) else "number" if NUMBER.fullmatch(bare) else "field" if re.fullmatch(r"[\w.]+", bare) else ""


def exchanged(function: Function, at: int, text: str) -> Iterator[Bug]:
    """Two arguments of a call side by side that look alike, each in the place of the other."""
    body, types = function.body, parameters(function)
    if body[at].text != "(" or not NAME.fullmatch(body[at - 1].text) or body[at - 1].text in KEPT:
        return
    end = closing(body, at)
    cuts = [at, *(place for place in range(at + 1, end) if body[place].text == "," and next_of(body, at + 1, ",") <= place), end]
    parts = [(body[one + 1].begin, body[other - 1].end) for one, other in zip(cuts, cuts[1:]) if one + 1 < other]
    for (begin, until), (other, last) in zip(parts, parts[1:]):
        one, two = text[begin:until], text[other:last]
        if one != two and shape(one, types) and shape(one, types) == shape(two, types):
            yield Bug("exchanged arguments", begin, last, two + text[until:other] + one)


def other_parameters(function: Function, at: int) -> Iterator[Bug]:
    """Another parameter of the same type."""
    types, token = parameters(function), function.body[at]
    if token.text in types and function.body[at - 1].text not in (".", ":", "::") and function.body[at + 1].text != ":":
        for other in (name for name, kind in types.items() if name != token.text and kind == types[token.text]):
            yield Bug("another parameter", token.begin, token.end, other)


def is_matched(body: list[Token], at: int) -> bool:
    """Whether the form of an enum whose name is at a place is in a pattern."""
    end = closing(body, at + 1) + 1 if body[at + 1].text in ("(", "{") else at + 1
    return end < len(body) and body[end].text in ("=>", "|")


def matched_forms(body: list[Token]) -> set[tuple[str, str]]:
    """The enums and their forms that are in patterns of a body."""
    places = (at for at in range(2, len(body)) if body[at - 1].text == "::")
    return {(body[at - 2].text, body[at].text) for at in places if at + 1 < len(body) and is_matched(body, at)}


def others(body: list[Token], at: int, declared: Declared) -> Iterator[Bug]:
    """Another field of the same type, or another form of the same enum with the same values. A pattern that is there twice doesn't compile."""
    token, before = body[at], body[at - 1].text
    if before == "." and body[at + 1].text != "(":
        for name in declared.fields.get(token.text, []):
            yield Bug("another field", token.begin, token.end, name)
    if before == "::" and at > 1:
        enum = body[at - 2].text
        met = matched_forms(body) if is_matched(body, at) else set()
        for name in declared.forms.get((enum, token.text), []):
            if (enum, name) not in met:
                yield Bug("another form", token.begin, token.end, name)


def all_bugs(function: Function, text: str, declared: Declared) -> Iterator[Bug]:
    """Every bug that is known for a body."""
    for at in range(1, len(function.body) - 1):
        for kind in (operators, conditions, statements, answers):
            yield from kind(function.body, at, text)
        yield from exchanged(function, at, text)
        yield from other_parameters(function, at)
        yield from others(function.body, at, declared)


def mark(function: Function, bug: Bug, text: str) -> str:
    """A number that stays the same as long as the function's name and the text of the bug do."""
    told = f"{function.file} {function.path} {bug.kind} {text[bug.begin : bug.end]} {bug.new}"
    return hashlib.sha256(told.encode()).hexdigest()


def bugs_of(function: Function, text: str, declared: Declared) -> list[Bug]:
    """The bugs of a body, those of different kinds first; otherwise in an order that stays."""

    def place(bug: Bug) -> tuple[str, int]:
        """Two bugs with one text have one mark: the first in the body comes first."""
        return mark(function, bug, text), bug.begin

    left = sorted(set(all_bugs(function, text, declared)), key=place)
    ordered: list[Bug] = []
    while left:
        kinds = {bug.kind: bug for bug in reversed(left)}
        ordered += sorted(kinds.values(), key=place)
        left = [bug for bug in left if bug not in ordered]
    return ordered


def planted(text: str, bug: Bug) -> str:
    """The text with the bug, in as many lines."""
    lost = text[bug.begin : bug.end].count("\n") - bug.new.count("\n")
    return text[: bug.begin] + bug.new + "\n" * lost + text[bug.end :]
