"""What is done with a petition beside a wizard's grant: an owner who is asked does it, agrees or says no; who made it asks once more."""

from __future__ import annotations

from moolib.batches import Item

from moo_web.app import Reply
from moo_web.forms.inbox import PetitionPages, PetitionRow, items_of_petition
from moo_web.forms.input import Mistyped
from moo_web.forms.petitions import petition_item
from moo_web.forms.previews import Done
from moo_web.journal.notes import Note, Unfit, fit_of, words_in
from moo_web.journal.recent import Seen
from moo_web.pages.pages import Visit
from moo_web.pages.words import sentence
from moo_web.paths import url_for
from moo_web.world.door import Answer, TooLong

MOVED = "Others have changed the world since you looked. Below is what it would do now: look at it once more."
REFUSED = "The world has refused this: {why}."


class AnswerPages:
    """What this page's forms do."""

    def __init__(self, pages: PetitionPages) -> None:
        self.pages, self.previews = pages, pages.previews

    def answer(self, visit: Visit, number: int) -> Reply:
        """Does what the form of a petition says. `Busy`, `Unknown`, `Stopped`, `TooMuch`: as the writer has them."""
        row = self.row(visit, number)
        if row is None:
            return self.pages.one(visit, number)
        typed = visit.form.get("words", "")
        try:
            words = words_in(typed)
        except Unfit as unfit:
            return self.again(visit, row, sentence(str(unfit)), 422, fit_of(typed))
        says = visit.form.get("go", "")
        if says == "again" and row.petition.who == visit.number:
            return self.ask_again(visit, row, words)
        if says in ("yes", "no") and row.is_asked and row.seen.calls:
            return self.say(visit, row, Note(words, number, says))
        if says == "done" and row.is_asked and row.seen.calls and not row.seen.hidden and not row.is_over:
            return self.do(visit, row, Note(words, number, says))
        return self.again(visit, row, "", 200, typed)

    def row(self, visit: Visit, number: int) -> PetitionRow | None:
        """An open petition that the person may see; None if there is none of this number, or they are too long to be looked at."""
        try:
            listed, _ = self.pages.listed(visit)
        except TooLong:
            return None
        found = [one for one in listed if one.number == number]
        return self.pages.rows(visit, found, None)[0] if found else None

    def again(self, visit: Visit, row: PetitionRow, wrong: str, status: int, typed: str) -> Reply:
        """The page once more, with what is wrong."""
        visit.seen = None
        return self.pages.page_of(visit, self.pages.with_acceptance(visit, row), status, wrong, typed)

    def say(self, visit: Visit, row: PetitionRow, note: Note) -> Reply:
        """An owner's answer. It changes nothing in the world but its number."""
        last = next((one for one in row.talk.answers if one.who.lower() == visit.name.lower()), None) if row.talk else None
        if last is None or (last.says, last.words) != (note.says, note.words):
            answer = self.write(visit, [], note)
            if answer.status != 200:
                return self.again(visit, row, REFUSED.format(why=answer.error), 409, note.words)
        return visit.go(url_for("petitions"), f"says-{note.says}")

    def do(self, visit: Visit, row: PetitionRow, note: Note) -> Reply:
        """Does what is asked for, by the owner's own rights."""
        seen = Seen.read(visit.form)
        if seen is None:
            return self.again(visit, row, "", 200, note.words)
        outcome = self.previews.apply(visit.session.person, items_of_petition(row.petition), seen, note)
        if isinstance(outcome, Done):
            return visit.go(url_for("petitions"), "says-done")
        return self.again(visit, row, MOVED, 409, note.words)

    def ask_again(self, visit: Visit, row: PetitionRow, words: str) -> Reply:
        """Takes a petition back and makes another one of the same calls, in one batch."""
        try:
            items = [Item(f"decline({row.petition.number})"), petition_item(row.petition.calls)]
        except Mistyped as wrong:
            return self.again(visit, row, wrong.reason, 422, words)
        answer = self.write(visit, [item.text for item in items], Note(words))
        if answer.status != 200:
            return self.again(visit, row, REFUSED.format(why=answer.error), 409, words)
        return visit.go(url_for("petitions"), "asked")

    def write(self, visit: Visit, calls: list[str], note: Note) -> Answer:
        """Sends a batch of the person's."""
        return self.previews.writer.write(visit.name, visit.number, calls, note=note)
