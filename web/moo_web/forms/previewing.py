"""What a preview is: the calls of a batch with what each would answer, and what is there before it."""

from __future__ import annotations

import dataclasses

from moolib.losses import Losses
from moolib.service import Said

from moo_web.forms.questions import Before
from moo_web.journal.tables import sum_of


@dataclasses.dataclass(frozen=True)
class BatchRefusal:
    """Why a batch would be refused: the number of the call, from 1 on, or 0; the error, and moo's sentence. `why` may be empty."""

    call: int
    error: str
    why: str


@dataclasses.dataclass(frozen=True)
class Change:
    """A call, what it would answer, and what is there before it: each with its words. The answer is empty if the batch is refused."""

    call: str
    answer: str
    before: tuple[tuple[Before, Said], ...] = ()


@dataclasses.dataclass(frozen=True)
class Preview:
    """What a batch would do to the world of the number `seq`. `inner` are the calls of a petition that it grants.

    `losses` are the values that it would destroy or replace.
    """

    seq: int
    changes: tuple[Change, ...]
    refusal: BatchRefusal | None = None
    inner: tuple[Change, ...] = ()
    losses: Losses = Losses()

    @property
    def calls(self) -> list[str]:
        """The calls, as they would be sent."""
        return [change.call for change in self.changes]

    @property
    def seen(self) -> str:
        """A sum of all that is shown of it, but for the world's number."""
        rows = [
            [change.call, change.answer, [[before.call, said.text, said.is_good] for before, said in change.before]] for change in (
                *self.changes, *self.inner
            )
        ]
        return sum_of([rows, dataclasses.astuple(self.refusal) if self.refusal else None, self.losses.rows])

    @property
    def sent(self) -> str:
        """A sum of the calls."""
        return sum_of(self.calls)
