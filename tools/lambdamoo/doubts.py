"""What is told of the programs that the verbs of an object get, and of those that none of them gets."""

from __future__ import annotations

from collections.abc import Collection, Mapping, Sequence
from typing import Optional

from lambdamoo.losses import IN_DOUBT, NO_VERB, Losses
from lambdamoo.origin import Kept
from lambdamoo.programs import Match
from lambdamoo.texts import shown


class Doubts:
    """What isn't certain of the programs on one object, told as it is noted. `kept` has the verbs that the object had."""

    def __init__(self, number: int, kept: Sequence[Kept], found: Mapping[int, Match], losses: Losses) -> None:
        self.number, self.kept, self.losses = number, kept, losses
        matched = {match.place for match in found.values()}
        # by the place of its verb before each program without a verb, with the verbs that may be that one
        self.gone: dict[int, list[str]] = {
            place: [] for place, verb in enumerate(kept) if verb.program is not None and place not in matched
        }

    def tell(self, match: Match, names: str, where: str) -> None:
        """Reports why it isn't certain that a verb of these names has its own program.

        If it may be a verb whose program has no verb now, that is told with the program.
        """
        if match.doubt:
            was = self.kept[match.place].header.names
            self.losses.note(match.doubt, where if was == names else f"{where}, which was {shown(was)}")
        for other in match.others:
            if other in self.gone:
                self.gone[other].append(where)
        if not self.gone.keys() >= set(match.others):
            self.losses.note(IN_DOUBT, f"{where}, which {self.may_be(match.others)}")

    def may_be(self, others: Collection[Optional[int]]) -> str:
        """What a verb may be else: one that was at one of these places, or with None a new one."""
        names = [shown(self.kept[other].header.names) for other in others if other is not None]
        found = [f"may have been {names[0]}" + (f" or one of {len(names) - 1} others" if names[1:] else "")] if names else []
        return ", or ".join(found + ["may be new"] * (None in others))

    def tell_gone(self) -> None:
        """Reports the programs without a verb."""
        for place, takers in self.gone.items():
            unless = f", unless {', or '.join(takers)}, is that verb" if takers else ""
            self.losses.note(NO_VERB, f"#{self.number}:{shown(self.kept[place].header.names)}{unless}")
