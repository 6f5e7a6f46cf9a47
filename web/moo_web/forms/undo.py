"""The page that undoes a batch: what it would put back in the world as it is now, what stays, and 'Do it'.

It is a batch like any other, which the page of batches then sends. Calls that the person lacks the right to are left out, and said; so are
values that the person may not read, without a word of what they are.
"""

from __future__ import annotations

from typing import Callable

from moolib.calls import call_name, read_about
from moolib.errors import Failed, words_for
from moolib.lines import read_line

from moo_web.app import Reply
from moo_web.forms.editor import BATCH, BatchPages
from moo_web.forms.forms import Form
from moo_web.forms.handlers import FormResult, me_of
from moo_web.forms.previewing import Preview
from moo_web.forms.previews import Previews
from moo_web.forms.unread import is_of_value, items_of_lines, readable_lines
from moo_web.journal.recent import Recent
from moo_web.journal.segments import Accepted
from moo_web.journal.undoing import Undo, undone
from moo_web.pages.pages import Visit
from moo_web.pages.words import sentence
from moo_web.paths import whole_number
from moo_web.world.asking import TRIES, Moved
from moo_web.world.door import Unreachable
from moo_web.world.things import shortened

UNDO = Form("undo", "Undo a batch", "A batch is some changes that were done together. What it replaced is put back, in the world as it is now.", BATCH.fields, ())
# So many letters of a line are shown, and so many calls are left out one by one.
LONGEST_LINE = 200
MOST_LEFT_OUT = 200
UNREAD = "{:,} value{} that you may not read can’t be put back by you. A wizard can do it."
UNKNOWN = "{:,} call{} left out, about an object that an earlier one of these batches makes anew: its number isn’t known here."


class UndoPages(BatchPages):
    """The page for each batch."""

    template = "forms/undo.html"

    def __init__(self, previews: Previews, recent: Recent, batch_of: Callable[[int], Accepted | None]) -> None:
        super().__init__(previews, recent)
        self.batch_of = batch_of

    def undo(self, visit: Visit, number: int) -> Reply:
        """What undoes the batch of this number: one's own, or for wizards anybody's."""
        batch = self.batch_of(number)
        if batch is None or not (visit.is_wizard or batch.who.lower() == visit.name.lower()):
            return visit.refused("not found", 404)
        whole = undone(batch)
        parts = whole.parts or [[]]
        part = min(whole_number(visit.fields.get("part", "")) or 1, len(parts))
        found = FormResult(undone=batch, part=part, parts=len(parts))
        for _ in range(TRIES):
            try:
                return self.looked_over(visit, found, whole, parts[found.part - 1])
            except Moved:
                continue
        raise Unreachable

    def looked_over(self, visit: Visit, found: FormResult, undo: Undo, lines: list[str]) -> Reply:
        """The page of these lines, after those that can't be done are left out."""
        possible = Possible(self.previews, visit, lines)
        try:
            found.preview = possible.preview() if possible.lines else None
        except Failed as failed:
            possible.left.append(sentence(failed.reason))
        found.lasting = (*undo.lasting, *possible.left)
        if found.preview and not found.preview.changes:
            found.preview = None
        visit.seen = None
        return self.page(visit, UNDO, {"text": "\n".join(possible.lines)}, {}, found)


class Possible:
    """The lines of an undo that one person may do: `lines`, and what is said of the others, `left`."""

    def __init__(self, previews: Previews, visit: Visit, lines: list[str]) -> None:
        self.previews, self.visit = previews, visit
        self.person, self.me = visit.session.person, me_of(visit)
        self.lines = with_known_names(lines)
        self.left: list[str] = []
        if count := len(lines) - len(self.lines):
            self.left.append(UNKNOWN.format(count, " is" if count == 1 else "s are"))

    def preview(self) -> Preview:
        """What the lines do that can be done. `Unreachable`, `Moved`: moo doesn't tell. `Failed`: they can't be one batch."""
        if not self.me.is_wizard:
            self.leave_unread()
        for _ in range(MOST_LEFT_OUT):
            preview = self.previews.of(self.person, items_of_lines(self.lines))
            refusal = preview.refusal
            if refusal is None or not 0 < refusal.call <= len(self.lines):
                break
            self.leave(refusal.call - 1, refusal.error)
        return preview

    def leave(self, place: int, error: str) -> None:
        """Leaves a line out, and what can't be without it."""
        line = self.lines.pop(place)
        shown = shown_line(line)
        why = (words_for(call_name(read_line(line).text), error) or error).rstrip(".")
        self.left.append(f"{shown}: {why}.")
        if read_line(line).name:
            self.lines = with_known_names(self.lines)

    def leave_unread(self) -> None:
        """Leaves out the values that the person may not read, and says how many these are."""
        seq = self.previews.questions.number()
        left = readable_lines(self.lines, self.me.number, lambda calls: self.previews.questions.ask(self.me.number, calls, seq))
        count = sum(map(is_of_value, self.lines)) - sum(map(is_of_value, left))
        self.lines = left
        if count:
            self.left.append(UNREAD.format(count, "" if count == 1 else "s"))


def with_known_names(lines: list[str]) -> list[str]:
    """The lines but for those with a name that no line before them gives."""
    known: set[str] = set()
    kept = []
    for line, item in zip(lines, items_of_lines(lines)):
        if item.names <= known:
            kept.append(line)
            known |= {item.name} if item.name else set()
    return kept


def shown_line(line: str) -> str:
    """A line without the values in it that the person may not read."""
    call = read_about(line)
    if call and call.name in ("set", "add_property", "set_property_info", "clear_property"):
        return f"{call.name} of {call.property} on {call.subject}"
    return shortened(line, LONGEST_LINE)
