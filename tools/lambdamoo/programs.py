"""Which program is that of which verb, though verbs were added, deleted and renamed since.

On each object verbs are matched by their names and arguments, then by their names, then by their place. What isn't certain is told: also a
verb of the same names and arguments, if what happened may be read in another way.
"""

from __future__ import annotations

from collections.abc import Callable, Collection, Hashable
from typing import NamedTuple, Optional

from lambdamoo.losses import BY_NAMES, BY_PLACE, MOVED, NAMESAKES, SHIFTED, TWINS, Kind
from lambdamoo.readings import MORE, Readings

# The bits of a verb's number above its rights: its direct and indirect objects.
ARGUMENTS_SHIFT = 4


class Header(NamedTuple):
    """A verb without its program: its names, its arguments (the bits of its objects, and its preposition), and its owner and rights."""

    names: str
    arguments: tuple[int, int]
    others: tuple[int, int]

    @staticmethod
    def of(names: str, owner: int, rights: int, preposition: int) -> Header:
        """The header with these values of a database."""
        return Header(names, (rights >> ARGUMENTS_SHIFT, preposition), (owner, rights & (1 << ARGUMENTS_SHIFT) - 1))


class Match(NamedTuple):
    """The place that a verb had; why that isn't certain, or None; else the other places that it may have had, with None if it may be new."""

    place: int
    doubt: Optional[Kind]
    others: Collection[Optional[int]] = ()


class Matching:
    """The verbs of one object, matched with those that it had: `found` has a match for each place of a verb that had one."""

    def __init__(self, before: list[Header], now: list[Header]) -> None:
        self.before, self.now = before, now
        self.places: dict[int, int] = {}
        self.doubts: dict[int, Kind] = {}
        self.left = dict.fromkeys(range(len(before)))
        self.match_by(lambda header: header, None)
        self.match_by(lambda header: header[:2], None)
        self.doubt_twins()
        self.match_by(lambda header: header.names, BY_NAMES)
        self.match_by_place()
        self.doubt_renamed()
        self.doubt_order()
        self.others = self.read_otherwise()

    @property
    def found(self) -> dict[int, Match]:
        """For each place of a verb that was there before: the place that it had, and the doubt."""
        return {place: Match(was, self.doubts.get(place), self.others.get(place, ())) for place, was in self.places.items()}

    def take(self, place: int, was: int, doubt: Optional[Kind]) -> None:
        """Notes that a verb had another's place."""
        self.places[place] = was
        del self.left[was]
        if doubt:
            self.doubts[place] = doubt

    def match_by(self, key: Callable[[Header], Hashable], doubt: Optional[Kind]) -> None:
        """Matches the verbs that are left and have the same key, in their order."""
        waiting: dict[Hashable, list[int]] = {}
        for was in reversed(self.left):
            waiting.setdefault(key(self.before[was]), []).append(was)
        for place, header in enumerate(self.now):
            if place not in self.places and waiting.get(key(header)):
                self.take(place, waiting[key(header)].pop(), doubt)

    def doubt_twins(self) -> None:
        """Which of several verbs of the same names and arguments is which can't be known."""
        for place in self.places:
            wanted = self.now[place][:2]
            if any([header[:2] for header in verbs].count(wanted) > 1 for verbs in (self.before, self.now)):
                self.doubts[place] = TWINS
            elif self.have_changed(wanted[0]):
                self.doubts[place] = NAMESAKES

    def have_changed(self, names: str) -> bool:
        """Whether there are several verbs of these names, and their arguments aren't those that they were."""
        before, now = (sorted(header.arguments for header in verbs if header.names == names) for verbs in (self.before, self.now))
        return before != now and max(len(before), len(now)) > 1

    def match_by_place(self) -> None:
        """Matches a verb that is left with one that may have been at its place, since verbs never change their order."""
        for place in range(len(self.now)):
            was = self.place_before(place) if place not in self.places else None
            if was is not None:
                self.take(place, was, BY_PLACE)

    def place_before(self, place: int) -> Optional[int]:
        """The place that a verb of new names had: the only one between its neighbours' with its arguments, or else the same one, if it is left."""
        least = max((was for other, was in self.places.items() if other < place), default=-1)
        most = min((was for other, was in self.places.items() if other > place), default=len(self.before))
        between = [was for was in self.left if least < was < most]
        alike = [was for was in between if self.before[was].arguments == self.now[place].arguments]
        if len(alike) == 1:
            return alike[0]
        return place if place in self.left else None

    def doubt_renamed(self) -> None:
        """If the last verb was added, the one before it may be the verb whose program the last one has, and so on, one of them renamed.

        A verb that is renamed keeps its arguments, and its place among the others.
        """
        run: list[int] = []
        for place in sorted(self.places, reverse=True):
            if run and self.now[place].arguments != self.before[self.places[run[-1]]].arguments:
                break
            run.append(place)
        if any(self.doubts.get(place) in (BY_NAMES, BY_PLACE) for place in run):
            for place in run:
                self.doubts.setdefault(place, SHIFTED)

    def doubt_order(self) -> None:
        """Doubts each verb with a later place than it had, or another one among the others: it was deleted and added, or others were renamed."""
        for place, was in self.places.items():
            if place > was or any((other < place) != (others < was) for other, others in self.places.items() if other != place):
                self.doubts.setdefault(place, MOVED)

    def read_otherwise(self) -> dict[int, list[Optional[int]]]:
        """For each verb without a doubt that by another reading had another place, or is new: these places, and None.

        If all verbs have the names and arguments that they had, each other reading needs two changes more.
        """
        before, now = ([header[:2] for header in verbs] for verbs in (self.before, self.now))
        sure = sorted(self.places.keys() - self.doubts.keys())
        if before == now or not sure:
            return {}
        readings = Readings(before, now, MORE if self.is_possible() else MORE + 1)
        found = {place: [other for other in readings.of(place) if other != self.places[place]] for place in sure}
        return {place: others for place, others in found.items() if others}

    def is_possible(self) -> bool:
        """Whether this may have happened: no verb has another place among the others, and those that were there before are the first."""
        found = [self.places[place] for place in sorted(self.places)]
        return found == sorted(found) and sorted(self.places) == list(range(len(found)))
