"""The petitions that the journal tells of: whose each is, what it names, who has answered it, and what ended it."""

from __future__ import annotations

from typing import NamedTuple

from moo_web.journal.tables import PetitionEvent


class PetitionReply(NamedTuple):
    """The place of a batch by which somebody answered a petition, who that was, in small letters, and what they said."""

    place: int
    who: str
    says: str


class Ledger:
    """All petitions of a journal, by their numbers. After an older world was put in place a number may be given again: the last one counts."""

    def __init__(self) -> None:
        # What a petition names, for its grant.
        self.named: dict[int, set[int]] = {}
        # By a person's name the petitions that they made, each with the place of its batch.
        self.of_people: dict[str, list[tuple[int, int]]] = {}
        # By a petition's number the places of the batch that made it and of the one that ended it, and its answers.
        self.made: dict[int, int] = {}
        self.ended: dict[int, int] = {}
        self.replies: dict[int, list[PetitionReply]] = {}

    def take(self, event: PetitionEvent, place: int) -> None:
        """Notes a petition that was made, answered or ended by the batch at a place."""
        number = event.number
        if event.says:
            self.replies.setdefault(number, []).append(PetitionReply(place, event.who, event.says))
        elif event.who:
            self.named[number] = set(event.named)
            self.of_people.setdefault(event.who, []).append((number, place))
            self.made[number] = place
            self.ended.pop(number, None)
            self.replies.pop(number, None)
        else:
            self.ended[number] = place

    def decided_of(self, who: str, count: int) -> list[int]:
        """The numbers of the last petitions of a person that were ended, the newest first."""
        theirs = reversed(self.of_people.get(who.lower(), []))
        return [number for number, place in theirs if number in self.ended and self.made[number] == place][:count]

    def last_replies(self, number: int) -> list[PetitionReply]:
        """The answers to a petition: the last one of each person, the oldest first."""
        last = {reply.who: reply for reply in list(self.replies.get(number, ()))}
        return sorted(last.values())
