"""The pages of forms: each shows what is there, previews what would be done, and does it, once.

A form is sent with `go`: `preview`, `apply`, `ask` (what a petition of it would be), `petition` (makes it) or `edit` (shows the form
again). Whatever is answered, the page has all that was typed.
"""

from __future__ import annotations

import dataclasses
from collections.abc import Mapping
from typing import Any

from moolib.batches import Item
from moolib.calls import call_name
from moolib.errors import Failed

from moo_web.app import Reply
from moo_web.forms import catalogue
from moo_web.forms.excuses import Excuse, excuse
from moo_web.forms.forms import Form, Me, Mistake, items_of_form, read_form
from moo_web.forms.input import Mistyped
from moo_web.forms.lookup import ObjectLookup
from moo_web.forms.owners import owners_asked
from moo_web.forms.petitions import asked_of, petition_item
from moo_web.forms.previewing import Change, Preview
from moo_web.forms.previews import Done, Previews
from moo_web.forms.untouched import is_untouched
from moo_web.forms.views import Offer, chosen_of, known_values, reads_at_first, typed_at_first, view_of
from moo_web.journal.notes import LONGEST_WORDS, NO_NOTE, Note, Unfit, fit_of, words_in
from moo_web.journal.recent import Recent, Seen
from moo_web.journal.segments import Accepted
from moo_web.journal.jobs import Busy, Stopped, TooMuch, Unknown
from moo_web.pages.accepting import accepting
from moo_web.pages.pages import Visit
from moo_web.pages.sentences import is_grave, preview_link, told
from moo_web.pages.words import sentence
from moo_web.paths import url_for, whole_number
from moo_web.world.door import TooLong, Unreachable
from moo_web.world.index import NOT_THERE
from moo_web.world.things import Thing, World

GROUPS = (
    ("Make", catalogue.MAKING[:1]), ("Change an object", catalogue.CHANGING[:6]), ("Its properties", catalogue.PROPERTIES),
    ("Its verbs", catalogue.VERBS), ("Several objects", catalogue.SEVERAL), ("End", catalogue.MAKING[1:]),
    ("For wizards", catalogue.CHANGING[6:]),
)  # fmt: skip
MOST_OFFERED = 1000
# The forms that make objects, which show how many more the person may make.
MAKING = ("create", "new", "class")
# A page of a form may be kept by the browser of who sent it, for the way back to it.
KEPT_BY_BROWSER = ("Cache-Control", "private, no-cache")
SIBLINGS = ("set", "clear", "property-rights", "delete-property", "verb-rights", "verb-args", "delete-verb")
TROUBLES = {
    "busy": "The world didn’t answer in time, and nothing was sent to it. What you typed is still here: try again in a moment.",
    "gap": "Nothing can be changed now: the world isn’t where its journal says, and an operator has to look at it. "
    "What you typed is still here.",
    "too long": "The answer would be too long to be shown. Nothing was done.",
    "too much": "{why}. Nothing was done, and what you typed is still here.",
    "unknown": "It was sent for number {at}, and the world hasn’t answered. It will be decided once: if batch {next} of the journal is "
    "yours it was done, and otherwise it wasn’t. ‘Look again’ tells which; it never does it twice.",
    "moved": "Others have changed the world since you looked. Below is what it would do now: look at it once more.",
    "untouched": "This is what is there now: nothing would change.",
    "signed in": "You are signed in again. Nothing of this was sent: look at it, and go on.",
}


@dataclasses.dataclass
class FormResult:
    """What came of a form that was sent: a preview, why it would be refused, or a trouble.

    `is_asking` is whether it is about a petition of the form's calls: then these are `asked`, but for those that are `left_out`. `line` is
    the line of a text of calls that is wrong, or 0.
    """

    preview: Preview | None = None
    excuse: Excuse | None = None
    left_out: tuple[str, ...] = ()
    asked: tuple[Change, ...] = ()
    is_asking: bool = False
    # The words that go with it, as they were typed, and what is wrong with them; the owners who are asked besides the wizards.
    words: str = ""
    wrong_words: str = ""
    owners: tuple[int, ...] = ()
    trouble: str = ""
    is_unknown: bool = False
    seen: Seen | None = None
    line: int = 0
    status: int = 200
    # Of a batch that is undone: that one, what stays, and which of how many batches this is.
    undone: Accepted | None = None
    lasting: tuple[str, ...] = ()
    part: int = 1
    parts: int = 1


class FormPages:
    """What these pages do."""

    template = "forms/page.html"

    def __init__(self, previews: Previews, recent: Recent) -> None:
        self.previews, self.recent = previews, recent

    # Pages

    def all(self, visit: Visit) -> Reply:
        """The list of forms."""
        return visit.page("forms/list.html", groups=GROUPS)

    def show(self, visit: Visit, key: str) -> Reply:
        """A form, with what is there now; or its preview, if the address has all that it takes, and `go=preview`."""
        form = catalogue.FORMS.get(key)
        if form is None:
            return visit.refused("not found", 404)
        if visit.fields.get("go") == "preview":
            return self.attempt(visit, form, visit.fields)
        names, me = ObjectLookup(visit.world), me_of(visit)
        typed = offered_by(visit)
        known = known_values(form, typed, names, me)
        reads = reads_at_first(form, typed, known)
        answers = dict(zip(reads, visit.answers(list(reads.values()))))
        if form.key == "quota" and getattr(answers.get("quota"), "error", "") == "E_PROPNF":
            typed.setdefault("how", "add")
        return self.page(visit, form, typed_at_first(form, typed, answers), {}, FormResult())

    def act(self, visit: Visit, key: str) -> Reply:
        """What is done with a form that was sent."""
        form = catalogue.FORMS.get(key)
        return self.attempt(visit, form) if form else visit.refused("not found", 404)

    def attempt(self, visit: Visit, form: Form, fields: Mapping[str, str] | None = None) -> Reply:
        """The same of a form that is known, with these fields or those that were sent."""
        fields = visit.form if fields is None else fields
        typed, go = chosen_of(form, fields), fields.get("go", "preview")
        try:
            return self.acted(visit, form, typed, go)
        except (Busy, Unreachable):
            found = FormResult(trouble=TROUBLES["busy"], status=503)
        except Stopped:
            found = FormResult(trouble=TROUBLES["gap"], status=503)
        except TooLong:
            found = FormResult(trouble=TROUBLES["too long"], status=413)
        except TooMuch as much:
            found = FormResult(trouble=TROUBLES["too much"].format(why=much.why[:1].upper() + much.why[1:]), status=429)
        except Unknown as unknown:
            found = FormResult(trouble=TROUBLES["unknown"].format(at=unknown.at, next=unknown.at + 1), is_unknown=True, status=503)
        found.seen, found.is_asking, found.words = Seen.read(visit.form), go == "petition", visit.form.get("words", "")
        return self.page(visit, form, typed, {}, found)

    def acted(self, visit: Visit, form: Form, typed: dict[str, str], go: str) -> Reply:
        """The same, if moo answers."""
        if go == "edit":
            return self.page(visit, form, typed, {}, FormResult(trouble=TROUBLES["signed in"]))
        names, me = ObjectLookup(visit.world), me_of(visit)
        if form.key == "accept":
            choose_own(visit, typed, known_values(form, typed, names, me).get("object", ""))
        if go == "preview" and is_untouched(visit, form, typed, names, me):
            return self.page(visit, form, typed, {}, FormResult(trouble=TROUBLES["untouched"]))
        filled = read_form(form, typed, names, me)
        if is_bettered(typed, filled.mistakes, visit.form.get("better", "")):
            filled = read_form(form, typed, names, me)
        if filled.mistakes:
            return self.page(visit, form, typed, filled.mistakes, FormResult(status=422))
        return self.sent(visit, form, typed, items_of_form(form, filled), go)

    def sent(self, visit: Visit, form: Form, typed: dict[str, str], items: list[Item], go: str) -> Reply:
        """Previews or applies calls, or the petition of them."""
        found = FormResult(is_asking=go in ("ask", "petition"), words=visit.form.get("words", ""))
        seen, person, note = Seen.read(visit.form), visit.session.person, note_typed(found)
        try:
            if found.is_asking:
                asked = asked_of(items, me_of(visit))
                items, found.left_out = [petition_item(asked.calls)], tuple(asked.left_out)
                found.asked = tuple(Change(call, "") for call in asked.calls)
                found.owners = tuple(owners_asked(visit, asked.calls, visit.number))
            if go in ("apply", "petition") and seen and not found.wrong_words:
                outcome = self.previews.apply(person, items, seen, note)
                if isinstance(outcome, Done):
                    return self.went(visit, form, outcome, found)
                found.preview, found.trouble, found.status = outcome, TROUBLES["moved"], 409
            else:
                found.preview = self.previews.of(person, items)
        except (Mistyped, Failed) as wrong:
            return self.page(visit, form, typed, {form.fields[-1].key: Mistake(wrong.reason)}, FormResult(status=422))
        return self.looked_at(visit, form, typed, items, found)

    def looked_at(self, visit: Visit, form: Form, typed: dict[str, str], items: list[Item], found: FormResult) -> Reply:
        """The page of a preview, or of why there would be a refusal."""
        assert found.preview
        mistakes: dict[str, Mistake] = {}
        found.excuse = why = excuse_of(None if found.is_asking else form, found.preview)
        if why:
            found.status = 409
            found.trouble = ""
            if why.field:
                mistakes[why.field] = Mistake(refusal_sentence(why))
            call = found.preview.refusal.call if found.preview.refusal else 0
            # Of a call it is known in which field, or in which line of a text, it was typed.
            key, found.line = (items[call - 1].place if 0 < call <= len(items) else None) or ("", 0)
            if key and not found.is_asking:
                mistakes[key] = Mistake(refusal_sentence(why))
        # The preview may be of a later number than the page so far.
        visit.seen = None
        return self.page(visit, form, typed, mistakes, found)

    def went(self, visit: Visit, form: Form, done: Done, found: FormResult) -> Reply:
        """Where the browser goes after a batch was accepted."""
        if form.key in ("grant", "decline"):
            return visit.go(url_for("petitions"), {"grant": "granted", "decline": "declined"}[form.key])
        return visit.go(url_for("done", batch=done.seq), "again" if done.is_again else "asked" if found.is_asking else "")

    def page(self, visit: Visit, form: Form, typed: Mapping[str, str], mistakes: Mapping[str, Mistake], found: FormResult) -> Reply:
        """The page of a form."""
        stay_with(visit)
        names, me = ObjectLookup(visit.world), me_of(visit)
        about = self.about(visit, form, typed)
        shown = (*found.preview.changes, *found.preview.inner) if found.preview else ()
        link = preview_link(visit.link, [(change.call, change.answer) for change in shown])
        offers = self.offers(visit, form, about) if about >= 0 and not found.trouble else {}
        view = view_of(form, typed, mistakes, names, me, offers)
        return visit.page(
            self.template, found.status, KEPT_BY_BROWSER, view=view, found=found, about=about, path_of=self.path(form),
            told=lambda call: told(call, link), is_grave=is_grave, values=values_before, longest_words=LONGEST_WORDS,
            quota=self.quota(visit) if form.key in MAKING and not found.trouble else None,
            accepts=accepting(visit, about) if about >= 0 and form.key == "accept" and not found.trouble else None,
            siblings=siblings_of(form, typed), **self.more(form, typed, mistakes, found),
        )  # fmt: skip

    def path(self, form: Form) -> str:
        """Where a form is sent to."""
        return url_for("form", key=form.key)

    def about(self, visit: Visit, form: Form, typed: Mapping[str, str]) -> int:
        """The number of the object that a form is about, as far as it is known, or -1."""
        return int(known_values(form, typed, ObjectLookup(visit.world), me_of(visit)).get("object", "#-1")[1:])

    def more(self, form: Form, typed: Mapping[str, str], mistakes: Mapping[str, Mistake], found: FormResult) -> dict[str, object]:
        """What a page has besides."""
        return {}

    @staticmethod
    def offers(visit: Visit, form: Form, number: int) -> dict[str, Offer]:
        """The names of properties, or the verbs, of the object that a form is about, as far as they may be listed."""
        if form in catalogue.VERBS and form.field("verb"):
            (verbs,) = visit.answers([f"verbs(#{number})"])
            return {"verb": tuple((str(place), str(names)) for place, names in enumerate(verbs, 1))} if isinstance(verbs, list) else {}
        if form not in catalogue.PROPERTIES or form.key == "add-property":
            return {}
        chain = visit.world.chain(number)
        lists = visit.answers([f"properties(#{thing.number})" for thing in chain])
        return {"name": tuple((str(name), thing.name) for thing, names in zip(chain, lists) if isinstance(names, list) for name in names)}

    def quota(self, visit: Visit) -> int | None:
        """How many more objects the person may make; None if that isn't bounded."""
        (answer,) = visit.answers([f'get(#{visit.number}, "ownership_quota")'])
        return answer if isinstance(answer, int) else None


def note_typed(found: FormResult) -> Note:
    """The words that go with a form that was sent. If they can't be kept the result says why."""
    try:
        return Note(words_in(found.words))
    except Unfit as unfit:
        found.wrong_words, found.status = sentence(str(unfit)), 422
        found.words = fit_of(found.words)
        return NO_NOTE


def siblings_of(form: Form, typed: Mapping[str, str]) -> list[tuple[str, str]]:
    """The other forms about the same property or verb: the title and the path of each."""
    key = next((each for each in ("name", "verb") if len(form.fields) > 1 and form.fields[1].key == each), "")
    if form.key not in SIBLINGS or not typed.get("object") or not typed.get(key):
        return []
    about = {"object": typed["object"], key: typed[key]}
    group = catalogue.PROPERTIES if key == "name" else catalogue.VERBS
    return [(each.title, url_for("form", **{"key": each.key, **about})) for each in group if each.key in SIBLINGS and each is not form]


def is_bettered(typed: dict[str, str], mistakes: Mapping[str, Mistake], wanted: str) -> bool:
    """Whether what was typed in a field was wrong, and is replaced: by a text that would do (`KEY`), or by a list of lines (`KEY.lines`)."""
    key, _, way = wanted.partition(".")
    mistake = mistakes.get(key, Mistake(""))
    if way == "lines" and mistake.lines:
        typed[key], typed[f"{key}.kind"] = mistake.lines, "written"
    elif not way and mistake.better:
        typed[key] = mistake.better
    return bool(mistake.lines if way == "lines" else mistake.better)


def choose_own(visit: Visit, typed: dict[str, str], number: str) -> None:
    """Chooses a list of its own for an object that has none yet, if one is typed."""
    if typed.get("how") == "inherited" and typed.get("accepts", "").strip() and number:
        (accepts,) = visit.answers([f"accept_list({number})"])
        if not isinstance(accepts, list):
            typed["how"] = "own"


def offered_by(visit: Visit) -> dict[str, str]:
    """What the address of a form says, with the objects in or under one, or one's own, that it offers to be ticked."""
    typed = dict(visit.fields)
    for key, links in (("in", visit.world.contents), ("under", visit.world.children)):
        of = whole_number(typed.get(key, ""))
        if of is not None:
            typed["objects.offered"] = ",".join(map(str, links.get(of, ())[:MOST_OFFERED]))
    if typed.get("mine"):
        typed["objects.offered"] = ",".join(map(str, visit.world.owned.get(visit.number, [])[:MOST_OFFERED]))
    return typed


def me_of(visit: Visit) -> Me:
    """Who visits, for forms."""
    return Me(visit.number, visit.is_wizard)


def excuse_of(form: Form | None, preview: Preview) -> Excuse | None:
    """Why a batch would be refused, in words."""
    refusal = preview.refusal
    if refusal is None:
        return None
    call = preview.calls[refusal.call - 1] if 0 < refusal.call <= len(preview.calls) else ""
    return excuse(form, call, refusal.error, refusal.why)


def refusal_sentence(why: Excuse) -> str:
    """A refusal as a sentence beside a field."""
    return f"{why.words} {why.detail[:1].upper() + why.detail[1:]}{'.' if why.detail else ''}".strip()


def values_before(change: Change) -> list[tuple[str, Any, str]]:
    """What is there before a change: what it is, its value, and the error in place of one that can't be read.

    Of a new object nothing is there. What is under a recycled object and in it is told if something is.
    """
    there = [(before.what, said) for before, said in change.before if said.text not in NOT_THERE]
    is_recycled = call_name(change.call) == "recycle"
    return [(what, said.value, "" if said.is_good else said.text) for what, said in there if not (is_recycled and said.is_good and said.value == [])]


def stay_with(visit: Visit) -> None:
    """Sees to it that the page can be made: if moo doesn't answer, of the world as it was known last."""
    try:
        visit.world
    except Unreachable:
        kept = visit.index.kept
        if kept is None or visit.number not in kept.things:
            kept = World.made(-1, {visit.number: Thing(visit.number, visit.name, visit.number, -1, -1, 0)})
        visit.seen = kept
