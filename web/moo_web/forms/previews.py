"""A batch on its way: what it would do, and then doing it, once.

    preview = previews.of(person, items)         nothing changes
    outcome = previews.apply(person, items, Seen.read(fields))

A preview holds the calls, what each would answer, and what is there before it. Who applies it says which preview they saw, by two sums. If
the world has moved on since, the preview is made again: if it is the same one the batch is sent, and otherwise it is shown again.

A batch that is sent a second time, because an answer was lost, a page was loaded again or a button was pressed twice, is found in the
journal: a batch of the same person with the same calls, accepted since the preview. It isn't sent again then.
"""

from __future__ import annotations

import dataclasses
import time

from moolib.batches import Item, local_names, resolved, written_calls
from moolib.calls import read_or_none
from moolib.service import Said

from moo_web.forms.granting import TOP, inner_changes
from moo_web.forms.petitions import petitions_at
from moo_web.forms.previewing import BatchRefusal, Change, Preview
from moo_web.forms.questions import Before, Questions, befores_of
from moo_web.journal.notes import NO_NOTE, Note
from moo_web.journal.recent import Recent, Seen
from moo_web.journal.jobs import Busy, Unknown
from moo_web.journal.writer import Writer
from moo_web.people.person import Person
from moo_web.world.asking import Moved
from moo_web.world.door import Answer, Unreachable
from moo_web.world.losing import losses_of
from moo_web.world.overseeing import Overseeing

TRIES = 20
APPLYING = 10.0


@dataclasses.dataclass(frozen=True)
class Done:
    """The batch was accepted, as this number. `is_again`: that was before now."""

    seq: int
    calls: list[str]
    is_again: bool = False


class Previews:
    """Makes previews, and applies them."""

    def __init__(self, questions: Questions, writer: Writer, recent: Recent) -> None:
        self.questions, self.writer, self.recent = questions, writer, recent
        self.overseeing = Overseeing(writer.door)

    def of(self, person: Person, items: list[Item]) -> Preview:
        """What these calls would do. `Unreachable`: moo doesn't answer, or others write all the time. `Failed`: a name has no value."""
        for _ in range(TRIES):
            try:
                return self.at_one_number(person, items)
            except Moved:
                continue
        raise Unreachable

    def at_one_number(self, person: Person, items: list[Item]) -> Preview:
        """The same, unless the world moves on meanwhile: `Moved`."""
        calls, answer, seq = self.resolved(person.number, items)
        answers = answer.said["answers"] if answer.status == 200 else []
        befores = self.befores(person.number, calls, seq)
        changes = [
            Change(call, answers[place] if place < len(answers) else "", befores[place] if place < len(befores) else ())
            for place, call in enumerate(calls)
        ]
        if answer.status == 200:
            losses = losses_of(self.overseeing, person.number, calls, answers, seq)
            return Preview(seq, tuple(changes), None, self.granted(person, calls, seq, True), losses)
        said = answer.said
        refusal = BatchRefusal(int(said.get("call", 0)), answer.error, str(said.get("why", "")))
        return Preview(seq, tuple(changes), refusal, self.granted(person, calls, seq, False))

    def granted(self, person: Person, calls: list[str], seq: int, is_done: bool) -> tuple[Change, ...]:
        """What the calls of a petition would do, if these calls grant one: as if the person made them."""
        call = read_or_none(calls[0]) if len(calls) == 1 else None
        if call is None or call.name != "grant" or call.petition is None:
            return ()
        asked: list[str] = next((each.calls for each in petitions_at(self.questions, person.number, seq) if each.number == call.petition), [])
        if not asked:
            return ()
        befores = befores_of(asked)
        wanted = list(dict.fromkeys([TOP, *(before.call for each in befores for before in each)]))
        return inner_changes(asked, befores, dict(zip(wanted, self.questions.read(person.number, wanted, seq))), is_done)

    def resolved(self, programmer: int, items: list[Item]) -> tuple[list[str], Answer, int]:
        """The calls with the values of their names, what moo answers to them, and the world's number."""
        if not local_names(items):
            calls = written_calls(items, {}, {})
            answer = self.questions.ask(programmer, calls)
            seq = answer.said.get("seq") if answer.status == 200 else None
            return calls, answer, seq if isinstance(seq, int) else self.questions.number()
        seq = self.questions.number()
        calls, answer = resolved(items, {}, lambda some: self.questions.ask(programmer, some, seq))
        return calls, answer, seq

    def befores(self, programmer: int, calls: list[str], seq: int) -> list[tuple[tuple[Before, Said], ...]]:
        """What is there before each of the calls."""
        reads = befores_of(calls)
        distinct = list(dict.fromkeys(before.call for each in reads for before in each))
        found = dict(zip(distinct, self.questions.read(programmer, distinct, seq)))
        return [tuple((before, found[before.call]) for before in each) for each in reads]

    def wait_for(self, person: Person, seq: int) -> None:
        """Waits until the writer knows of the batch that made this number. `Unknown`: that takes too long. `Stopped`: a stranger made it.

        A batch for the number before has its turn after that, and can't act.
        """
        try:
            self.writer.write(person.name, person.number, [], seq - 1)
        except Busy:
            raise Unknown(seq - 1) from None

    def apply(self, person: Person, items: list[Item], seen: Seen, note: Note = NO_NOTE) -> Done | Preview:
        """Sends the calls, if their preview is the one that was seen; else nothing is sent, and the new preview has to be looked at first.

        What is raised is `Writer.write`'s, and `of`'s.
        """
        end = time.monotonic() + APPLYING
        while True:
            preview = self.of(person, items)
            if preview.seq > self.writer.seq and not self.writer.stopped:
                # A batch was accepted whose outcome isn't in the journal yet. It may be this one.
                self.wait_for(person, preview.seq)
                continue
            if mine := self.recent.same(person.name, seen):
                return Done(mine.seq, mine.calls, True)
            if preview.refusal or preview.seen != seen.seen:
                return preview
            answer = self.writer.write(person.name, person.number, preview.calls, preview.seq, note=note)
            if answer.status == 200:
                return Done(answer.said["seq"], preview.calls)
            if answer.error != "stale" or time.monotonic() > end:
                return self.of(person, items)
