"""The text of a script for moo-shell: objects that it makes and that it only names, each by a name, and its calls in batches.

    names = ObjectNames(5, {26: "generic apple", 1: "Root Class"}.get)
    names.add(26)                       "$generic_apple"
    names.text([Obj(26), Obj(1)])       "{$generic_apple, $root_class}"
    names.outside                       {1: "$root_class"}
    calls_in_batches(["$generic_apple = create($root)"])
"""

from __future__ import annotations

import re
from collections.abc import Callable, Iterable, Iterator
from typing import Optional

from moolib.service import MOST_CALLS
from moolib.values import Name, Obj, Value, written

LONGEST_NAME = 40
# Names that mean something else to the shell.
TAKEN = {"me", "player", "here"}
# So many calls, and so many letters of them, are in one batch.
MOST_LETTERS = 600_000


class ObjectNames:
    """The names of objects in a script. `person` is who exports it: there that is who runs it, `$me`. `name_of` gives an object's own name."""

    def __init__(self, person: int, name_of: Callable[[int], Optional[str]]) -> None:
        self.known, self.name_of = {person: "$me"}, name_of
        self.used = set(TAKEN)
        # The objects that the script names and doesn't make, in the order in which they come.
        self.outside: dict[int, str] = {}

    def add(self, number: int) -> str:
        """The name of an object that the script makes."""
        self.known[number] = f"${self.free(number, self.name_of(number) or '')}"
        return self.known[number]

    def free(self, number: int, name: str) -> str:
        """A name that isn't used yet, like that of the object."""
        front = re.sub(r"[^a-z0-9]+", "_", name.lower()).strip("_")[:LONGEST_NAME].strip("_")
        front = front if re.match("[a-z]", front) else f"object_{front or number}"
        made = front if front not in self.used else f"{front}_{number}"
        while made in self.used:
            made += "_"
        self.used.add(made)
        return made

    def of(self, number: int) -> str:
        """An object as the script writes it. One that has no name yet isn't made by the script, and gets one."""
        if number < 0:
            return f"#{number}"
        if number not in self.known:
            self.outside[number] = self.add(number)
        return self.known[number]

    def text(self, value: Value) -> str:
        """The literal of a value, its objects by their names."""
        return written(self.named(value))

    def named(self, value: Value) -> object:
        """A value with names in place of objects."""
        if isinstance(value, Obj):
            return Name(self.of(value.number)[1:]) if value.number >= 0 else value
        return [self.named(item) for item in value] if isinstance(value, list) else value


def calls_in_batches(calls: Iterable[str]) -> Iterator[str]:
    """The lines of batches with these calls: one, if they aren't too many."""
    batch: list[str] = []
    letters = 0
    for call in calls:
        if len(batch) == MOST_CALLS or (batch and letters + len(call) > MOST_LETTERS):
            yield from ("begin", *batch, "end", "")
            batch, letters = [], 0
        batch.append(call)
        letters += len(call)
    if batch:
        yield from ("begin", *batch, "end")
