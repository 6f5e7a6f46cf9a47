"""The page of all people, for wizards, with the form that adds one: an account, its object and a link for a password in one go.

The object is made by a batch, as other forms make theirs, and may be previewed. 'Add' does it without a preview, since it takes nothing away.
The account is made once the object is there. If the front is stopped between the two, the object is listed among the players who have no
account, and is given one from there.
"""

from __future__ import annotations

import collections
from collections.abc import Mapping
from typing import Callable

from moolib.batches import Item
from moolib.calls import read_or_none

from moo_web.app import Reply
from moo_web.forms.catalogue import FIRST_QUOTA, QUOTA
from moo_web.forms.forms import Field, Form, Mistake, Step, object_value, read_form
from moo_web.forms.handlers import FormPages, FormResult, me_of
from moo_web.forms.input import Mistyped
from moo_web.forms.lookup import ObjectLookup
from moo_web.forms.previews import Done, Previews
from moo_web.forms.views import typed_at_first
from moo_web.journal.recent import Recent, Seen
from moo_web.pages.lists import Part, part_of
from moo_web.pages.pages import Visit
from moo_web.pages.words import sentence
from moo_web.paths import url_for
from moo_web.people.file import Wrong
from moo_web.people.people import People
from moo_web.world.asking import TRIES
from moo_web.world.door import Unreachable
from moo_web.world.things import Thing

PAGE = 50
# So many players without an account are shown.
MOST_SHOWN = 20
NEW, THERE = "what=new", "what=there"
FORM = Form(
    "person", "Somebody new", "",
    (
        Field("account", "Name to sign in with", "text", "1 to 64 letters, digits, ‘.’, ‘_’ and ‘-’."),
        Field("what", "Acts as", "choice", default="new", options=(("new", "a new object, which you own"), ("there", "an object that is there"))),
        Field("object", "Object that is there", "object", "A player: its number, or its name. Empty for a new object.", section=THERE),
        Field("name", "Name of a new object", "text", "Empty: the name to sign in with.", is_needed=False, section=NEW),
        Field("parent", "Parent of a new object", "place", "What it inherits from.", section=NEW),
        Field("quota", "Quota of a new object", "number", "How many objects the person may make.", default=FIRST_QUOTA, section=NEW),
        Field("place", "Where it begins", "place", "A place. Empty: nowhere.", is_needed=False, section=NEW),
    ),
    (
        Step("create(<parent>)", is_new=True), Step('set(<new>, "name", <name>)', given="name"),
        Step('set(<new>, "name", <account>)', unless="name"), Step("set_player_flag(<new>, 1)"), Step("move(<new>, <place>)", given="place"),
    ),
    who="wizards", blame={"create": "parent", "move": "place"},
)  # fmt: skip


class NewcomerPages(FormPages):
    """What this page does. `show` makes the page of a person, with a link for a password."""

    template = "pages/people.html"

    def __init__(self, previews: Previews, recent: Recent, people: People, show: Callable[[Visit, str, str], Reply]) -> None:
        super().__init__(previews, recent)
        self.people, self.show_person = people, show

    def all(self, visit: Visit) -> Reply:
        """Everybody, and the form."""
        if not visit.is_wizard:
            return visit.refused("forbidden", 403)
        here = visit.world.things[visit.number].location
        usual = {"parent": f"#{usual_parent(visit)}", "place": f"#{here}" if here in visit.world.things else ""}
        said = {"what": "there"} if visit.fields.get("object") else usual
        return self.page(visit, FORM, typed_at_first(FORM, said | visit.fields, {}), {}, FormResult())

    def add(self, visit: Visit) -> Reply:
        """What is done with the form."""
        return self.attempt(visit, FORM) if visit.is_wizard else visit.refused("forbidden", 403)

    def acted(self, visit: Visit, form: Form, typed: dict[str, str], go: str) -> Reply:
        """Adds a person, or shows what that would do."""
        go = go if go in ("add", "apply", "edit") else "preview"
        if go == "edit":
            return super().acted(visit, form, typed, go)
        # Telephones put a blank after a word.
        typed["account"] = typed.get("account", "").strip()
        try:
            self.people.test_new(typed["account"])
        except Wrong as wrong:
            seen = Seen.read(visit.form)
            if go != "apply" or not seen or not self.recent.same(visit.name, seen):
                return self.wrong(visit, typed, "account", Mistake(sentence(str(wrong))))
        if typed.get("what") == "there":
            return self.of_object(visit, typed, go)
        return super().acted(visit, form, typed, go)

    def wrong(self, visit: Visit, typed: dict[str, str], key: str, mistake: Mistake) -> Reply:
        """The page with a mistake in one field."""
        return self.page(visit, FORM, typed, {key: mistake}, FormResult(status=422))

    def of_object(self, visit: Visit, typed: dict[str, str], go: str) -> Reply:
        """Adds a person who acts as an object that is there, or says who would."""
        try:
            number = int(object_value(typed.get("object", ""), ObjectLookup(visit.world), me_of(visit))[1:])
        except Mistyped as mistyped:
            return self.wrong(visit, typed, "object", Mistake.of(mistyped))
        if not visit.world.things[number].has("player"):
            return self.wrong(visit, typed, "object", Mistake("It isn’t a player: make it one first, by the form ‘Player and wizard’."))
        if go == "preview":
            told = f"{typed['account']} would act as {ObjectLookup(visit.world).short(number)}. Press ‘Add’ to do it."
            return self.page(visit, FORM, typed, {}, FormResult(trouble=told))
        return self.entered(visit, typed, number)

    def sent(self, visit: Visit, form: Form, typed: dict[str, str], items: list[Item], go: str) -> Reply:
        """Previews the batch, or makes the object and the account."""
        items = [*items, self.quota_item(visit, typed)]
        if go != "add":
            return super().sent(visit, form, typed, items, go)
        person = visit.session.person
        for _ in range(TRIES):
            found = FormResult(preview=self.previews.of(person, items))
            assert found.preview
            if found.preview.refusal:
                return self.looked_at(visit, form, typed, items, found)
            outcome = self.previews.apply(person, items, Seen(found.preview.seq, found.preview.seen, found.preview.sent))
            if isinstance(outcome, Done):
                return self.went(visit, form, outcome, found)
        raise Unreachable

    @staticmethod
    def quota_item(visit: Visit, typed: dict[str, str]) -> Item:
        """The call that sets the quota: on the property of the parent, or on a new one, which the person can't shed."""
        values = read_form(FORM, typed, ObjectLookup(visit.world), me_of(visit)).values
        (kept,) = visit.answers([f"get({values['parent']}, {QUOTA})"])
        if getattr(kept, "error", ""):
            return Item(f'add_property($new1, {QUOTA}, {values["quota"]}, {{#{visit.number}, "r"}})')
        return Item(f'set($new1, {QUOTA}, {values["quota"]})')

    def went(self, visit: Visit, form: Form, done: Done, found: FormResult) -> Reply:
        """Makes the account of the object that is there now."""
        number = next(call.subject for text in done.calls if (call := read_or_none(text)) and call.name == "set_player_flag")
        assert number is not None
        typed = {**visit.form, "account": visit.form.get("account", "").strip()}
        one = self.people.one(typed["account"]) if done.is_again else None
        if one and one.number == number:
            return visit.go(url_for("person", name=one.name), "again")
        visit.seen = None
        return self.entered(visit, typed, number)

    def entered(self, visit: Visit, typed: dict[str, str], number: int) -> Reply:
        """Makes the account, and shows it with the link for its password."""
        name = typed["account"]
        try:
            secret = self.people.add_by_link(name, number)
        except Wrong as wrong:
            # Somebody has taken the name meanwhile. The object is there, and isn't made again.
            typed = {"account": name, "what": "there", "object": f"#{number}"}
            return self.wrong(visit, typed, "account", Mistake(sentence(str(wrong))))
        return self.show_person(visit, name, secret)

    def path(self, form: Form) -> str:
        """Where the form is sent to."""
        return url_for("people")

    def more(self, form: Form, typed: Mapping[str, str], mistakes: Mapping[str, Mistake], found: FormResult) -> dict[str, object]:
        """The people, and the players who have no account."""
        return {"listed": self.listed, "without": self.without, "most": MOST_SHOWN, "is_open": bool(typed.get("account") or typed.get("object"))}

    def listed(self, visit: Visit) -> Part:
        """The people, in parts."""
        return part_of(self.people.all(), visit.fields.get("page", ""), PAGE)

    def without(self, visit: Visit) -> list[Thing]:
        """The players that have no account."""
        numbers = {one.number for one in self.people.all()}
        return [visit.world.things[one] for one in visit.world.with_bit("player") if one not in numbers]


def usual_parent(visit: Visit) -> int:
    """The parent that most players have who aren't wizards; the root, if there are none."""
    players = [visit.world.things[one] for one in visit.world.with_bit("player")]
    found = collections.Counter(thing.parent for thing in players if thing.parent >= 0 and not thing.has("wizard")).most_common(1)
    return found[0][0] if found else 1
