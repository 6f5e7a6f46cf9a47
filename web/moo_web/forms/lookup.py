"""The objects of a world by their names, for forms to ask about."""

from __future__ import annotations

from moo_web.world.things import Thing, World, cut_name

# So many objects are offered.
MOST_OFFERED = 100
LONGEST_LABEL = 50


class ObjectLookup:
    """Finds the objects of a world by what people type, and says which they are."""

    def __init__(self, world: World) -> None:
        self.world = world

    def is_object(self, number: int) -> bool:
        """Whether there is an object of this number."""
        return number in self.world.things

    def named(self, word: str) -> list[tuple[int, str]]:
        """The objects of just this name, in any case of letters, each with words that tell it from others."""
        return [(number, self.label(self.world.things[number])) for number in self.world.names.named(word)]

    def like(self, word: str) -> list[tuple[int, str]]:
        """The objects with this word in their names, those that begin with it first."""
        return [(number, self.label(self.world.things[number])) for number in self.world.names.like(word, MOST_OFFERED)]

    def short(self, number: int) -> str:
        """An object by its name and number."""
        thing = self.world.things.get(number)
        if thing is None:
            return "nothing" if number < 0 else f"#{number}"
        return f"{cut_name(thing.name.strip(), LONGEST_LABEL)} #{number}"

    def label(self, thing: Thing) -> str:
        """An object in words that tell it from others of its name."""
        where = f"in {self.short(thing.location)}" if thing.location >= 0 else "nowhere"
        kind = f", under {self.short(thing.parent)}" if thing.parent >= 0 else ""
        return f"{self.short(thing.number)}, {where}{kind}"
