"""What calls answer in the world of one number, read in groups and kept: what a draft of that world is made from.

    facts = Facts(lambda calls: service.alone(3, calls))
    facts.read(["valid(#4)", "valid(#5)"])
    facts.value("valid(#4)")                    1
"""

from __future__ import annotations

from typing import Any, Callable, Iterable, Optional

from moolib.service import Answer, Said

# moo answers a thousand such calls in some 6 ms.
MOST_READ = 100_000
IS_WIZARD = 'get(#{}, "wizard")'


class TooMuch(Exception):
    """More would have to be read than may be, or an answer is too long."""


class Facts:
    """Answers to reading calls. `asked` answers some at once; at most so many are asked."""

    def __init__(self, asked: Callable[[list[str]], list[Said]], most: int = MOST_READ) -> None:
        self.asked, self.left = asked, most
        self.known: dict[str, Any] = {}

    def read(self, calls: Iterable[str]) -> None:
        """Reads those that aren't known yet. `TooMuch`: these are too many. What `asked` raises comes through."""
        new = [call for call in dict.fromkeys(calls) if call not in self.known]
        if len(new) > self.left:
            raise TooMuch
        self.left -= len(new)
        if new:
            self.known.update(zip(new, map(value_of, self.asked(new))))

    def value(self, call: str) -> Any:
        """What a call answers; None if it is refused."""
        if call not in self.known:
            self.read([call])
        return self.known[call]


def value_of(said: Said) -> Any:
    """The value of an answer, None of a refusal. `TooMuch`: the answer is too long."""
    if said.is_good:
        return said.value
    if not said.text.startswith("E_"):
        raise TooMuch
    return None


# What some reading calls answer an object, each by itself.
Asked = Callable[[int, list[str]], list[Said]]


class Overseer:
    """Reads facts by the number of a wizard, since nobody else may read all; in a world without one by the number of who asks."""

    def __init__(self) -> None:
        self.wizard: Optional[int] = None

    def facts(self, programmer: int, asked: Asked, wizard: Callable[[], Optional[int]], first: list[str]) -> Facts:
        """The facts of a world, of which some are wanted first. `wizard` looks for one, if the last one isn't a wizard any more.

        `TooMuch`: as `Facts.read` has it. What `asked` and `wizard` raise comes through.
        """
        reader = programmer if self.wizard is None else self.wizard
        test = IS_WIZARD.format(reader)
        facts = Facts(lambda calls: asked(reader, calls))
        facts.read([test, *first])
        if facts.value(test) == 1:
            self.wizard = reader
            return facts
        found = self.wizard = wizard()
        other = programmer if found is None else found
        facts = Facts(lambda calls: asked(other, calls))
        facts.read(first)
        return facts


def wizard_in(page: Callable[[int], Answer]) -> Optional[int]:
    """A wizard of a world, whose objects come in pages from a number on; None if there is none."""
    first: Optional[int] = 0
    while first is not None:
        said = page(first).said
        for one in said.get("objects", ()):
            if one["wizard"] == 1:
                return int(one["number"][1:])
        after = said.get("next")
        first = None if after is None else int(after[1:])
    return None
