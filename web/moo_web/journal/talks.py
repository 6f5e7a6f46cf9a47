"""What people said of petitions, by the journal: why each was made, what was answered, and how it ended."""

from __future__ import annotations

from collections.abc import Collection
from typing import NamedTuple, Optional

from moolib.calls import Call, call_name

from moo_web.journal.history import History
from moo_web.journal.segments import Accepted


class Spoken(NamedTuple):
    """What somebody answered to a petition: who, what (one of `SAYS`), the words, the moment, and the number of the batch."""

    who: str
    says: str
    words: str
    t: float
    seq: int


class Talk(NamedTuple):
    """A petition as the journal has it: the batch that made it, the answers, each person's last, and the batch that ended it."""

    number: int
    asked: Accepted
    answers: list[Spoken]
    ended: Optional[Accepted] = None

    @property
    def calls(self) -> list[Call]:
        """The calls that it asks for."""
        made = self.asked.made_petition(self.number)
        return Call.read(made).asked if made else []

    @property
    def word(self) -> str:
        """The word that came with its end; empty if there was none, or it is open."""
        return self.ended.note.words if self.ended else ""

    @property
    def is_asked_again(self) -> bool:
        """Whether who made it took it back and asked once more, in one batch."""
        return self.ended is not None and any(call_name(call) == "petition" for call in self.ended.calls)

    @property
    def is_granted(self) -> bool:
        """Whether it was granted."""
        calls = map(Call.read, self.ended.calls) if self.ended else ()
        return any(call.name == "grant" and call.petition == self.number for call in calls)

    @property
    def changed(self) -> float:
        """The moment of the last thing that was said of it."""
        return max([self.asked.t, *(one.t for one in self.answers), *([self.ended.t] if self.ended else [])])

    def says(self, who: str) -> str:
        """What a person answered last; empty, if nothing."""
        return next((one.says for one in self.answers if one.who.lower() == who.lower()), "")

    @property
    def done_by(self) -> Optional[Spoken]:
        """Who did what it asks for, as the owner."""
        return next((one for one in self.answers if one.says == "done"), None)


def talks_of(history: History, numbers: Collection[int]) -> dict[int, Talk]:
    """What was said of these petitions. Those that the journal doesn't have, or not yet, are left out."""
    found = {}
    with history.caught_up() as is_read:
        for number in numbers if is_read else ():
            if (talk := talk_of(history, number)) is not None:
                found[number] = talk
    return found


def decided_of(history: History, who: str, count: int) -> list[Talk]:
    """The last petitions of a person that were granted or declined, the newest first: at most so many."""
    with history.caught_up() as is_read:
        numbers = history.ledger.decided_of(who, count) if is_read else []
        return [talk for number in numbers if (talk := talk_of(history, number)) is not None and talk.ended]


def talk_of(history: History, number: int) -> Optional[Talk]:
    """The same of one, of a journal that was read."""
    ledger = history.ledger
    replies = ledger.last_replies(number)
    ended = ledger.ended.get(number)
    places = [place for place in (ledger.made.get(number), ended, *(reply.place for reply in replies)) if place is not None]
    batches = dict(history.read(sorted(set(places))))
    asked = batches.get(ledger.made.get(number, -1))
    if asked is None:
        return None
    given = [(reply, batches[reply.place]) for reply in replies if reply.place in batches]
    answers = [Spoken(batch.who, reply.says, batch.note.words, batch.t, batch.seq) for reply, batch in given]
    return Talk(number, asked, answers, None if ended is None else batches.get(ended))
