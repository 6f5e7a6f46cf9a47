"""Names: those for who calls and where, those for what is made, and names with their values in a file, as `$hall = #5` on a line each."""

from __future__ import annotations

import contextlib
import itertools
from collections.abc import Collection, Iterable, Mapping
from pathlib import Path
from typing import TYPE_CHECKING, Optional

from moo_shell.files import read_lines
from moolib.errors import Failed
from moolib.lines import did_you_mean, read_line
from moolib.values import cut_at_objects, read

if TYPE_CHECKING:
    from moo_shell.session import Session

ME, HERE = "$me", "$here"
# In a world of at most so many objects a name without a value is looked for among the names of objects.
MOST_LOOKED_AT = 10_000
# A shorter one is in too many names by chance.
SHORTEST_PART = 3


def is_value(text: str) -> bool:
    """Whether a text is a value as worlds hold them."""
    try:
        read(text)
    except ValueError:
        return False
    return True


def names_in_file(file: Path) -> dict[str, str]:
    """The names that a file of names has, with their values."""
    held: dict[str, str] = {}
    for number, text in enumerate(read_lines(file), 1):
        line = read_line(text)
        if line.kind == "value" and line.name and is_value(line.text):
            held[line.name] = line.text
        elif line.kind != "empty":
            raise Failed("a file of names has lines such as `$hall = #5` alone", (str(file), number))
    return held


def text_of_names(names: Mapping[str, str]) -> str:
    """The text of a file of names."""
    return "".join(f"{name} = {value}\n" for name, value in sorted(names.items()))


def new_name(taken: Collection[str]) -> str:
    """A name for what a command of LambdaMOO makes, that isn't taken: `$new`, `$new2` and so on."""
    return next(name for name in (f"$new{number if number > 1 else ''}" for number in itertools.count(1)) if name not in taken)


def with_made(text: str, made: Mapping[str, Optional[str]]) -> str:
    """A line with the names of what the open batch makes in the place of numbers, which others may get before it is sent.

    `Failed`: one has no name, or its name is that of something else at the end of the batch.
    """
    parts = []
    for piece in cut_at_objects(text):
        name = made.get(piece, piece)
        if name is None:
            raise Failed(f"{piece} is made by the open batch and has no name there that lasts: `end` sends the batch first")
        parts.append(name)
    return "".join(parts)


def own_values(session: Session, wanted: set[str]) -> dict[str, str]:
    """Those of the wanted names that stand for who calls, and for the place of that."""
    if not wanted & {ME, HERE}:
        return {}
    who = session.world.caller()
    own = {ME: f"#{who}"}
    if HERE in wanted:
        (place,) = session.world.each([f'get(#{who}, "location")'])
        if place.text == "#-1":
            raise Failed("you are nowhere: move($me, #5) goes to a place")
        own[HERE] = place.text
    return own


def value_for(session: Session, name: str, known: Iterable[str]) -> str:
    """What may be meant by a name that has no value, or at a prompt how it gets one."""
    if name in session.given:
        return ": it is the answer of a call of this batch, and known when that is sent"
    like = did_you_mean(name, {*known, *session.given})
    if like or session.is_script:
        return like
    value = "#5"
    with contextlib.suppress(Failed):
        if len(name) > SHORTEST_PART and session.world.each(["max_object()"])[0].value.number <= MOST_LOOKED_AT:
            value = f"#{session.world.number_named(name[1:])}"
    return f"; {name} = {value} gives it one"
