"""The batches that were accepted lately, so that one that is sent a second time is known."""

from __future__ import annotations

from collections.abc import Mapping
from typing import NamedTuple

from moo_web.journal.history import History, StillRead
from moo_web.journal.segments import Accepted
from moo_web.journal.tables import sum_of
from moo_web.journal.jobs import Busy
from moo_web.journal.writer import Writer
from moo_web.paths import whole_number

MOST_LETTERS = 1 << 24


class Seen(NamedTuple):
    """Which preview somebody saw: the world's number, and the sums of the preview and of its calls."""

    at: int
    seen: str
    sent: str

    @staticmethod
    def read(fields: Mapping[str, str]) -> Seen | None:
        """The same of the fields of a form; None if there is none."""
        at = whole_number(fields.get("seen.at", ""))
        return None if at is None else Seen(at, fields.get("seen.all", ""), fields.get("seen.calls", ""))


class Recent:
    """The batches that were accepted, by whom and by their calls: the last ones in memory, older ones in the journal.

    At most so many are in memory, and of all their calls and answers at most so many letters.
    """

    def __init__(self, writer: Writer, history: History, most: int = 5000, letters: int = MOST_LETTERS) -> None:
        self.history, self.most, self.letters = history, most, letters
        self.first, self.held = writer.seq, 0
        self.kept: dict[int, tuple[str, str, Accepted]] = {}
        writer.listeners.append(self.take)

    def take(self, accepted: Accepted) -> None:
        """Remembers one more."""
        self.kept[accepted.seq] = (accepted.who, sum_of(accepted.calls), accepted)
        self.held += accepted.letters
        while len(self.kept) > self.most or self.held > self.letters:
            self.first = next(iter(self.kept))
            self.held -= self.kept.pop(self.first)[2].letters

    def same(self, who: str, seen: Seen) -> Accepted | None:
        """A batch of this person with the calls that were seen, accepted since. `Busy`: the journal is still being read."""
        kept = [one for seq, one in list(self.kept.items()) if seq > seen.at]
        found = next((one for name, calls, one in kept if name == who and calls == seen.sent), None)
        if found or seen.at >= self.first:
            return found
        try:
            return self.history.same(who, seen.sent, seen.at)
        except StillRead:
            raise Busy from None
