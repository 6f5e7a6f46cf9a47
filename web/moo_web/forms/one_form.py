"""The pages of whole objects: a form for an object that is there, and the same for a new one."""

from __future__ import annotations

from collections.abc import Callable, Mapping

from moo_web.app import Reply
from moo_web.forms.entries import ChangedEntries, property_key, sum_of_typed, typed_with
from moo_web.forms.exits import free_direction
from moo_web.forms.forms import Field, Form, Typed, object_value
from moo_web.forms.handlers import TROUBLES, FormPages, FormResult, me_of
from moo_web.forms.input import Mistyped
from moo_web.forms.lookup import ObjectLookup
from moo_web.forms.table import NEW_ROWS, rows_in, table_form
from moo_web.forms.views import by_field, chosen_of, default_of
from moo_web.forms.whole import EntriesForm, edit_form, new_form, readable_exits
from moo_web.journal.recent import Seen
from moo_web.pages.pages import Visit
from moo_web.paths import whole_number
from moo_web.world.asking import TRIES, Moved
from moo_web.world.door import Unreachable

MOST_CLASSES = 200
GONE = (
    "Something that you changed isn’t there any more, or isn’t yours to write any more. What you typed for it: “{}”. Nothing was sent. "
    "The rest is still here: look at it, and go on."
)


def unknown_texts(form: EntriesForm, typed: Typed) -> list[str]:
    """What was typed in fields that were changed and that the form doesn't have any more."""
    found = []
    for key, part in by_field(typed).items():
        was = part.get(f"{key}.was", "")
        # A mark has 0 or 1 there, and no text.
        if key not in form.keys and len(was) > 1 and was != sum_of_typed(Field(key, "", ""), part):
            found.append(part.get(key, ""))
    return found


class EntriesPages(FormPages):
    """What all forms of entries do: what differs is one batch, with the preview and the end of any other form."""

    def path(self, form: Form) -> str:
        """Where a form is sent to."""
        return form.path if isinstance(form, EntriesForm) else super().path(form)

    def about(self, visit: Visit, form: Form, typed: Mapping[str, str]) -> int:
        """The object that a form is about."""
        return form.number if isinstance(form, EntriesForm) else super().about(visit, form, typed)

    def shown(self, visit: Visit, form: EntriesForm, typed: Mapping[str, str]) -> Reply:
        """A form at first, with what the address says in it."""
        at_first = {key: text for field in form.fields for key, text in default_of(field).items()}
        return self.page(visit, form, at_first | typed_with(form.entries, {}) | dict(typed), {}, FormResult())

    def at_one_number(self, visit: Visit, make: Callable[[], EntriesForm]) -> Reply:
        """What is done with a form that was sent; from the beginning, if the world moves on before that. `Unreachable`: it does so all the time."""
        for _ in range(TRIES):
            try:
                return self.attempt(visit, make())
            except Moved:
                visit.seen = None
        raise Unreachable

    def acted(self, visit: Visit, form: Form, typed: dict[str, str], go: str) -> Reply:
        """What is done with a form that was sent, if moo answers."""
        assert isinstance(form, EntriesForm)
        names, me = ObjectLookup(visit.world), me_of(visit)
        if go == "edit":
            return self.page(visit, form, typed_with(form.entries, typed), {}, FormResult(trouble=TROUBLES["signed in"]))
        found = form.differing(typed, names, me)
        better = visit.form.get("better", "")
        if better in found.mistakes and found.mistakes[better].better:
            typed[better] = found.mistakes[better].better
            found = form.differing(typed, names, me)
        return self.decided(visit, form, typed, found, go)

    def decided(self, visit: Visit, form: EntriesForm, typed: dict[str, str], found: ChangedEntries, go: str) -> Reply:
        """The page for what was changed: its mistakes, that it is nothing, or its preview. What was sent before may be there by now."""
        typed = typed_with(form.entries, typed)
        if gone := unknown_texts(form, visit.form):
            return self.page(visit, form, typed, found.mistakes, FormResult(trouble=GONE.format("”, “".join(gone)), status=409))
        if found.mistakes:
            return self.page(visit, form, typed, found.mistakes, FormResult(status=422))
        if not found.items and not (go in ("apply", "petition") and Seen.read(visit.form)):
            return self.page(visit, form, typed, {}, FormResult(trouble=TROUBLES["untouched"]))
        return self.sent(visit, form, typed, found.items, go)


class ObjectPages(EntriesPages):
    """The pages of one object."""

    template = "forms/whole.html"

    def edit(self, visit: Visit, number: int) -> Reply:
        """The form of an object."""
        return self.shown(visit, edit_form(visit, number, visit.fields.get("page", "")), {})

    def edited(self, visit: Visit, number: int) -> Reply:
        """What is done with it."""
        return self.at_one_number(visit, lambda: edit_form(visit, number, visit.form.get("page", "")))

    def new(self, visit: Visit) -> Reply:
        """The form of a new object, or the classes of which one can be made."""
        typed = visit.fields.get("parent", "")
        try:
            parent = int(object_value(typed, ObjectLookup(visit.world), me_of(visit))[1:])
        except Mistyped as mistyped:
            return self.classes(visit, mistyped.reason if typed.strip() else "")
        form = new_form(visit, parent)
        return self.shown(visit, form, self.given(visit, form))

    def made(self, visit: Visit) -> Reply:
        """What is done with the form of a new object."""
        try:
            parent = int(object_value(visit.form.get("parent", ""), ObjectLookup(visit.world), me_of(visit))[1:])
        except Mistyped as mistyped:
            return self.classes(visit, mistyped.reason)
        return self.at_one_number(visit, lambda: new_form(visit, parent))

    def classes(self, visit: Visit, wrong: str) -> Reply:
        """The classes of which the person may make objects, to choose one."""
        numbers = {*visit.world.with_bit("f"), *visit.world.owned.get(visit.number, ())}
        things = [visit.world.things[one] for one in numbers]
        things.sort(key=lambda thing: (not thing.has("f"), thing.name.lower(), thing.number))
        return visit.page("forms/classes.html", 422 if wrong else 200, classes=things[:MOST_CLASSES], more=len(things) - MOST_CLASSES, wrong=wrong)

    @staticmethod
    def given(visit: Visit, form: EntriesForm) -> dict[str, str]:
        """What the address says for the fields of a new object: its name and place, properties by their names, and `from`, to which it leads."""
        keys = {"name": "name", "place": "place"} | {field.label: field.key for field in form.fields if field.key.startswith("p")}
        found = {keys[name]: text for name, text in visit.fields.items() if name in keys}
        start, exits = whole_number(visit.fields.get("from", "")), property_key("p", visit.sight_names.exits)
        if start is not None and start in visit.world.things and exits in form.keys:
            found.setdefault(exits, exit_to(visit, start))
        return found


def exit_to(visit: Visit, room: int) -> str:
    """The line of an exit to a room, in a direction whose way back is free there."""
    return f"{free_direction(readable_exits(visit, room) or [])}: {ObjectLookup(visit.world).short(room)}"


class ClassPages(EntriesPages):
    """The page of a class with its children as a table."""

    template = "forms/class.html"

    def table(self, visit: Visit, number: int) -> Reply:
        """The table, with the columns that the address names."""
        return self.shown(visit, table_form(visit, number, visit.fields), {})

    def changed(self, visit: Visit, number: int) -> Reply:
        """What is done with it. More rows are shown with all that was typed."""
        asked = dict(visit.form)
        if asked.get("go") == "rows":
            asked["rows"] = str(rows_in(asked.get("rows", "")) + NEW_ROWS)
            form = table_form(visit, number, asked)
            typed = chosen_of(form, visit.form) | {"rows": str(len(form.new))}
            return self.page(visit, form, typed_with(form.entries, typed), {}, FormResult())
        return self.at_one_number(visit, lambda: table_form(visit, number, asked))
