"""Which objects define a property of a name, as far as a person may list their properties.

The names are learned by a wizard's number, once somebody searches, and then kept up with what changes. Each answer is then asked for again
by the person who searches, so that nobody learns of a property that moo wouldn't list for them.
"""

from __future__ import annotations

import threading
from typing import Iterable, NamedTuple

from moo_web.world.asking import Asker, Onlooker
from moo_web.world.door import QUESTION_SECONDS, Unreachable
from moo_web.world.index import Index
from moo_web.world.things import World

MOST_FOUND = 100
# So many of the names that fit are asked for again.
MOST_ASKED = 1000


class Defined(NamedTuple):
    """A property that an object defines."""

    number: int
    name: str


class Definers:
    """The names of the properties that each object of a world defines."""

    def __init__(self, index: Index, asker: Asker) -> None:
        self.index, self.asker = index, asker
        self.turn = threading.Lock()
        self.names: dict[int, list[str]] | None = None

    def found(self, onlooker: Onlooker, query: str) -> list[Defined]:
        """The properties that the person may list with this text in their names, in any case: at most a hundred, the same name first."""
        wanted = query.lower()
        hits = sorted(
            (name.lower() != wanted, not name.lower().startswith(wanted), name.lower(), number, name)
            for number, names in self.known(onlooker).items() for name in names if wanted in name.lower()
        )[:MOST_ASKED]  # fmt: skip
        numbers = list(dict.fromkeys(hit[3] for hit in hits))
        may = onlooker.answers([f"properties(#{number})" for number in numbers])
        listed = {(number, name) for number, names in zip(numbers, may) if isinstance(names, list) for name in names}
        return [Defined(number, name) for *_, number, name in hits if (number, name) in listed][:MOST_FOUND]

    def known(self, onlooker: Onlooker) -> dict[int, list[str]]:
        """All names, in the world of this onlooker."""
        if not self.turn.acquire(timeout=QUESTION_SECONDS):
            raise Unreachable
        try:
            return self.brought_up(onlooker)
        finally:
            self.turn.release()

    def brought_up(self, onlooker: Onlooker) -> dict[int, list[str]]:
        """All names, after what may have changed was asked for again."""
        world, index = onlooker.world, self.index
        wizards = world.with_bit("wizard")
        if not wizards:
            return {}
        changed = index.taken_definers()
        names = {} if changed is None or self.names is None else self.names.copy()
        numbers = [number for number in (names_of(world, changed) if self.names is not None else world.things) if number in world.things]
        for number in changed or ():
            names.pop(number, None)
        try:
            defined = self.asker.answers(wizards[0], [f"properties(#{number})" for number in numbers], world.seq)
        except BaseException:
            index.forget_definers()
            raise
        names.update((number, some) for number, some in zip(numbers, defined) if isinstance(some, list) and some)
        self.names = names
        return names


def names_of(world: World, changed: set[int] | None) -> Iterable[int]:
    """The objects whose names are to be asked for again."""
    return world.things if changed is None else sorted(changed)
