"""Which objects accepted batches are about: those that their calls name, and those that they made.

What a petition asks for counts when it is granted. No answer has the numbers of the objects that a granted petition made. But each `create`
takes the number after the last one, so these objects are counted, and the next number that an answer has tells theirs.
"""

from __future__ import annotations

from typing import Callable, NamedTuple

from moolib.calls import Call, read_or_none

from moo_web.journal.segments import Accepted


class Wish(NamedTuple):
    """What a petition names, and how many objects it would make."""

    objects: frozenset[int] = frozenset()
    makes: int = 0


class BatchSubjects(NamedTuple):
    """A batch, the objects that it names or made, and those that it made besides: as the n-th that were counted."""

    accepted: Accepted
    objects: frozenset[int]
    counted: tuple[int, ...]


def wish_of(call: Call) -> Wish:
    """What the petition that this call makes asks for."""
    return Wish(call.objects, sum(asked.name == "create" for asked in call.asked))


def wishes_of(accepted: Accepted) -> dict[int, Wish]:
    """The petitions that a batch made, by their numbers."""
    read = ((read_or_none(text), answer) for text, answer in accepted.answered if answer.isdigit())
    return {int(answer): wish_of(call) for call, answer in read if call and call.name == "petition"}


class Subjects:
    """Tells of batches, one after another, which objects they are about. `wish` is asked for a petition that none of these batches made."""

    def __init__(self, wish: Callable[[int], Wish]) -> None:
        self.wish = wish
        self.wishes: dict[int, Wish] = {}
        # How many objects were made, and the number before that of the first one, if it is known.
        self.count, self.base, self.is_based = 0, 0, False

    def tell(self, accepted: Accepted) -> BatchSubjects:
        """The same of the next batch."""
        found: set[int] = set()
        counted: list[int] = []
        self.wishes.update(wishes_of(accepted))
        for text, answer in accepted.answered:
            call = read_or_none(text)
            if call is None or call.name == "petition":
                continue
            found |= call.objects
            if call.name == "create":
                self.count += 1
                number = call.made(answer)
                if number is None:
                    counted.append(self.count)
                else:
                    found.add(number)
                    self.learn(number)
            elif call.petition is not None:
                counted += self.end(call.name, call.petition, found)
        return BatchSubjects(accepted, frozenset(number for number in found if number >= 0), tuple(counted))

    def end(self, name: str, number: int, found: set[int]) -> range:
        """Takes in that a petition was granted or declined, and gives which counted objects that made."""
        wish = self.wishes.pop(number, None)
        if name != "grant":
            return range(0)
        wish = wish or self.wish(number)
        found |= wish.objects
        self.count += wish.makes
        return range(self.count - wish.makes + 1, self.count + 1)

    def learn(self, top: int) -> None:
        """Takes in the number of the object that was made last."""
        self.base, self.is_based = top - self.count, True

    def objects_of(self, told: BatchSubjects) -> frozenset[int]:
        """All objects of a batch."""
        return told.objects | {self.base + place for place in told.counted}
