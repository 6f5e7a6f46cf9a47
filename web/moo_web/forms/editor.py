"""The editor of batches: calls as a text, one on each line, with the reason under the line that is wrong.

A line is as `moo apply` takes it between `batch as` and `end`, and names of objects may be there in place of numbers. As in moo-shell a call
may be given a name (`$lamp = create(#1)`), which later lines use, and what follows `//` is a remark. `$me` is who sends the batch, so that a script
that was exported can be put in.
"""

from __future__ import annotations

import dataclasses
import re
from collections.abc import Mapping

from moolib.batches import Item
from moolib.begun import read_begun
from moolib.lines import Line, filled, hint, read_line
from moolib.errors import Failed
from moolib.naming import Found, numbered
from moolib.service import MOST_CALLS

from moo_web.app import Reply
from moo_web.forms.forms import Field, Form, Me, Mistake, number_at
from moo_web.forms.handlers import TROUBLES, FormPages, FormResult, me_of
from moo_web.forms.input import Mistyped, test_letters
from moo_web.forms.lookup import ObjectLookup
from moo_web.pages.pages import Visit
from moo_web.pages.words import sentence
from moo_web.paths import url_for

MOST_LISTED = 400
# In a longer text no objects are offered for a name, since each of them has the whole text with it.
LONGEST_WITH_CHOICES = 20_000
BATCH = Form(
    "batch", "A batch of calls", "One call on each line. All of them are done, or none.",
    (Field("text", "Calls", "calls", 'Such as: set(#4, "name", "Lamp") or move(Old lamp, The Inn). A line such as $lamp = create(#1) gives '
           "the new object a name for the lines after it. What follows // is a remark. A script that was exported may be put in here too."),),
    (),
)  # fmt: skip


class LineWrong(Exception):
    """A line that can't be taken. `mistake` says why, and has whole texts that could be: with the line in other words."""

    def __init__(self, line: int, mistake: Mistake) -> None:
        super().__init__(mistake.reason)
        self.line, self.mistake = line, mistake


def all_lines(text: str) -> list[str]:
    """The lines of a text as browsers send it."""
    return re.split(r"\r\n|\r|\n", text)


def line_wrong(lines: list[str], number: int, wrong: Mistyped) -> LineWrong:
    """What is wrong with a line of these."""
    def with_line(line: str) -> str:
        return "\n".join([*lines[: number - 1], line, *lines[number:]])

    choices = wrong.choices if sum(map(len, lines)) < LONGEST_WITH_CHOICES else ()
    offered = tuple((with_line(line), words) for line, words in choices)
    return LineWrong(number, Mistake(wrong.reason, with_line(wrong.better) if wrong.better else "", offered))


def items_in(text: str, names: ObjectLookup, me: Me) -> list[Item]:
    """The calls of a text, each with its line. `LineWrong`: one can't be taken."""
    lines = all_lines(text)
    items: list[Item] = []
    values: dict[str, str] = {}
    for number, line in enumerate(lines, 1):
        try:
            take_line(line, number, items, values, names, me)
        except Mistyped as wrong:
            raise line_wrong(lines, number, wrong) from None
        except Failed as failed:
            raise LineWrong(number, Mistake(sentence(failed.reason))) from None
        if len(items) > MOST_CALLS:
            raise LineWrong(number, Mistake(f"A batch has at most {MOST_CALLS:,} calls, and this is one more."))
    if not items:
        raise LineWrong(1, Mistake("No call is written here yet."))
    return items


def take_line(typed: str, number: int, items: list[Item], values: dict[str, str], names: ObjectLookup, me: Me) -> None:
    """Takes in a line. `Mistyped`, `Failed`: it can't be taken."""
    line = read_line(typed)
    if line.kind in ("command", "include"):
        raise Mistyped("This is a word of moo-shell, and not a call.")
    if line.kind == "begin" and line.who not in (None, f"#{me.number}"):
        raise Mistyped(f"A batch here is always your own, as #{me.number}.")
    if line.kind not in ("call", "value"):
        return
    try:
        # A name that was cut on a page ends so.
        test_letters(line.text.replace("…", ""))
    except Mistyped as wrong_letter:
        raise Mistyped(wrong_letter.reason, typed.replace(line.text, wrong_letter.better, 1) if wrong_letter.better else "") from None
    if line.kind == "call" and (wrong := hint(line.text).partition("; \\help")[0]):
        raise Mistyped(sentence(wrong))
    known = {"$me": f"#{me.number}", **values, **{item.name: item.name for item in items if item.name}}
    text = filled(with_numbers(typed, line, names, me), known)
    if line.kind == "value":
        assert line.name
        values[line.name] = text
        return
    items.append(Item(text, line.name, ("", number)))


def with_numbers(typed: str, line: Line, names: ObjectLookup, me: Me) -> str:
    """The call or the value of a line, with numbers in place of names of objects. `Mistyped`, `Ambiguous`: at which letter one isn't known."""
    call = read_begun(line.text) if line.kind == "call" else None
    first, last = (call.begin, call.end) if call else (0, len(line.text))
    before = typed.index(line.text) + first

    def number_of(found: Found) -> str:
        has_letters = any(map(str.isalpha, found.word))
        return number_at(typed, Found(found.word, before + found.place), names, me) if has_letters else found.word

    return line.text[:first] + numbered(line.text[first:last], number_of) + line.text[last:]


class BatchPages(FormPages):
    """The page of the editor."""

    template = "forms/editor.html"

    def empty(self, visit: Visit) -> Reply:
        """The editor, with the text of the address."""
        return self.page(visit, BATCH, {"text": visit.fields.get("text", "")}, {}, FormResult())

    def edit(self, visit: Visit) -> Reply:
        """What is done with a text that was sent."""
        return self.attempt(visit, BATCH)

    def acted(self, visit: Visit, form: Form, typed: dict[str, str], go: str) -> Reply:
        """Reads the text, and previews or applies it."""
        if go == "edit":
            return self.page(visit, form, typed, {}, FormResult(trouble=TROUBLES["signed in"]))
        try:
            return self.sent(visit, form, typed, self.read(visit, typed), go)
        except LineWrong as wrong:
            mistake = dataclasses.replace(wrong.mistake, reason=f"Line {wrong.line}: {wrong.mistake.reason}")
            return self.page(visit, form, typed, {"text": mistake}, FormResult(line=wrong.line, status=422))

    @staticmethod
    def read(visit: Visit, typed: dict[str, str]) -> list[Item]:
        """The calls of the text; if the plain letters are wanted in place of others, of the text with these."""
        while True:
            try:
                return items_in(typed.get("text", ""), ObjectLookup(visit.world), me_of(visit))
            except LineWrong as wrong:
                if visit.form.get("better") != "text" or not wrong.mistake.better:
                    raise
                typed["text"] = wrong.mistake.better

    def path(self, form: Form) -> str:
        """Where the text is sent to."""
        return url_for("editor")

    def more(self, form: Form, typed: Mapping[str, str], mistakes: Mapping[str, Mistake], found: FormResult) -> dict[str, object]:
        """The lines around the one that is wrong, with the reason under it."""
        if not found.line:
            return {"listing": []}
        lines = all_lines(typed.get("text", ""))
        first = max(0, found.line - MOST_LISTED // 2)
        reason = mistakes["text"].reason.partition(": ")[2] if "text" in mistakes else ""
        listing = [
            (number, line, reason if number == found.line else "", number == found.line)
            for number, line in enumerate(lines[first : first + MOST_LISTED], first + 1)
        ]
        return {"listing": listing}
