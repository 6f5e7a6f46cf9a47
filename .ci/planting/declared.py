"""What the structs and enums of a crate declare, as far as a bug may take one name for another."""
from __future__ import annotations

from typing import Iterable, Iterator, NamedTuple

from planting.functions import Token, closing, next_of, tokens_of


class Declared(NamedTuple):
    """For a field the others of its struct with the same type; for an enum and a form of it the other forms with the same values."""

    fields: dict[str, list[str]]
    forms: dict[tuple[str, str], list[str]]


def parts(tokens: list[Token]) -> Iterator[list[str]]:
    """The words of each part between commas, without attributes and `pub`."""
    at = 0
    while at < len(tokens):
        end = next_of(tokens, at, ",")
        words = tokens[at:end]
        while words and words[0].text == "#":
            words = words[closing(words, 1) + 1 :]
        if words and words[0].text == "pub":
            words = words[closing(words, 1) + 1 :] if words[1].text == "(" else words[1:]
        if words and words[0].text != "ghost":
            yield [token.text for token in words]
        at = end + 1


def alike(named: list[tuple[str, str]]) -> Iterator[tuple[str, str]]:
    """The pairs of different names with the same text."""
    return ((one, other) for one, text in named for other, same in named if one != other and text == same)


def declared_in(texts: Iterable[str]) -> Declared:
    """What these sources declare."""
    found = Declared({}, {})
    for text in texts:
        tokens = tokens_of(text)
        for at, token in enumerate(tokens):
            if token.text not in ("struct", "enum"):
                continue
            opens = next_of(tokens, at, "{", ";")
            if opens >= len(tokens) or tokens[opens].text == ";":
                continue
            told = list(parts(tokens[opens + 1 : closing(tokens, opens)]))
            if token.text == "struct":
                for one, other in alike([(words[0], " ".join(words[2:])) for words in told]):
                    found.fields.setdefault(one, []).append(other)
            else:
                for one, other in alike([(words[0], " ".join(words[1:])) for words in told]):
                    found.forms.setdefault((tokens[at + 1].text, one), []).append(other)
    return found
