"""Calls whose answers have names: what each name stands for, though a service takes no names.

A call of a batch may use the answer of an earlier call of the same batch by its name. So the batch is asked first, with what these answers
are expected to be, until each is what the service says it would be (`resolved`). Then it is sent for the world of that very number (`at`),
so that the answers can't be others.
"""

from __future__ import annotations

import dataclasses
import functools
from collections.abc import Callable, Mapping
from typing import Optional

from moolib.calls import call_name
from moolib.errors import Failed
from moolib.lines import pieces, value_of
from moolib.service import LONGEST_BODY, Answer

# So often a batch is asked until all names are known.
MOST_ROUNDS = 32
# What calls would answer in the world of one number.
Ask = Callable[[list[str]], Answer]


@dataclasses.dataclass(frozen=True)
class Item:
    """A call as it was written, the name of its answer if it has one, and its file and line."""

    text: str
    name: Optional[str] = None
    place: Optional[tuple[str, int]] = None

    @functools.cached_property
    def parts(self) -> list[str]:
        """The text, cut at the names in it: these are at the odd places."""
        parts: list[str] = []
        between: list[str] = []
        for kind, piece in pieces(self.text) if "$" in self.text else [("other", self.text)]:
            if kind == "name":
                parts += ["".join(between), piece]
                between = []
            else:
                between.append(piece)
        return [*parts, "".join(between)]

    @property
    def names(self) -> set[str]:
        """The names that the call uses."""
        return set(self.parts[1::2])

    def filled(self, values: Mapping[str, str], longest: int) -> str:
        """The text with the values of its names in their place. `Failed`: a name has none, or the text has more letters than that."""
        parts = [part if place % 2 == 0 else value_of(part, values) for place, part in enumerate(self.parts)]
        if sum(map(len, parts)) > longest:
            raise Failed(f"the batch has over {LONGEST_BODY:,} letters with the values of its names")
        return "".join(parts)


def local_names(items: list[Item]) -> bool:
    """Whether a call uses the answer of an earlier one."""
    known: set[str] = set()
    for item in items:
        if known & item.names:
            return True
        if item.name:
            known.add(item.name)
    return False


def written_calls(items: list[Item], names: Mapping[str, str], expected: Mapping[int, str]) -> list[str]:
    """The calls with the values of their names, up to the first one with a name whose answer isn't expected yet.

    `Failed`: a name has no value, or the calls are longer than a service takes; with the place of the call.
    """
    values = dict(names)
    unknown: set[str] = set()
    calls = []
    left = LONGEST_BODY
    for place, item in enumerate(items):
        if unknown & item.names:
            break
        try:
            calls.append(item.filled(values, left))
            left -= len(calls[-1])
        except Failed as failed:
            raise Failed(failed.reason, item.place) from None
        if item.name:
            unknown.discard(item.name)
            if place in expected:
                values[item.name] = expected[place]
            else:
                unknown.add(item.name)
    return calls


def first_expected(items: list[Item], last: Answer) -> dict[int, str]:
    """What calls of `create` answer, by their places, if nothing else makes objects: the numbers after the greatest one, which is asked."""
    if not last.is_good:
        return {}
    number = int(last.said["answers"][0].lstrip("#"))
    expected = {}
    for place, item in enumerate(items):
        if call_name(item.text) == "create":
            number += 1
            if item.name:
                expected[place] = f"#{number}"
    return expected


def resolved(items: list[Item], names: Mapping[str, str], ask: Ask) -> tuple[list[str], Answer]:
    """The calls, each with what the names before it stand for, and what the service answers to them.

    `ask` raises what ends the trying, as when the world moves on. Numbers of new objects are guessed, and then asked all at once. Each
    other answer that a name stands for, and that depends on such an answer itself, takes a round more. `Failed`: that are too many.
    """
    expected = first_expected(items, ask(["max_object()"]))
    for _ in range(MOST_ROUNDS):
        calls = written_calls(items, names, expected)
        good = answer = ask(calls)
        if not answer.is_good and answer.call > 1:
            good = ask(calls[: answer.call - 1])
        came = {place: text for place, text in enumerate(good.said.get("answers", [])) if items[place].name}
        if all(expected.get(place) == text for place, text in came.items()):
            return calls, answer
        expected.update(came)
    raise Failed(f"names stand for answers that depend on each other over {MOST_ROUNDS} deep")
