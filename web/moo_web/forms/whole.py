"""An object as one form: its name, its place, its marks, and every property that the person may write. A new object has the same form."""

from __future__ import annotations

import dataclasses
from collections.abc import Callable
from typing import Union

from moolib.batches import Item
from moolib.values import Obj, written

from moo_web.forms.entries import ChangedEntries, Entry, changed_entries, property_key
from moo_web.forms.exits import HINT, ExitsEntry, TypedExit, exits_text, typed_exits
from moo_web.forms.forms import Field, Form, Me, Typed
from moo_web.forms.lookup import ObjectLookup
from moo_web.forms.views import typed_now
from moo_web.pages.lists import part_of
from moo_web.pages.pages import Visit
from moo_web.paths import url_for
from moo_web.world.properties import Property, PropertyNames, names_on, properties_of, property_calls
from moo_web.world.things import NOTHING, Thing

# So many properties are in one form.
MOST = 60
NEW = "$new"
MARKS = (
    ("r", "Everybody may list what it has (readable)"),
    ("w", "Everybody may add to what it has, and take away from it (writable)"),
    ("f", "Everybody may make objects under it (fertile)"),
)
OTHERS, MARKED = "Other properties", "What others may do"
EDITED = "What you leave as it is stays as it is, whatever others do meanwhile. All that you change is done together, or nothing of it."
MADE_NEW = "What you leave as it is, it has from its parent. All of it is done together, or nothing of it."


@dataclasses.dataclass(frozen=True)
class EntriesForm(Form):
    """A form of entries: where it is sent, and the object that it is about. `first` are calls before all others, if something is changed."""

    entries: tuple[Entry, ...] = ()
    path: str = ""
    number: int = NOTHING
    first: tuple[Item, ...] = ()
    # Which page of the properties this is, and of how many.
    part: int = 1
    parts: int = 1

    def differing(self, typed: Typed, names: ObjectLookup, me: Me) -> ChangedEntries:
        """The calls for what was changed, and the mistakes."""
        found = changed_entries(self.entries, typed, names, me)
        items = [*self.first, *found.items] if found.items else []
        return ChangedEntries(items, found.mistakes)


def form_of(form: EntriesForm, *hidden: Field) -> EntriesForm:
    """The form with the fields of its entries, after some that aren't seen."""
    return dataclasses.replace(form, fields=(*hidden, *(entry.field for entry in form.entries)))


def edit_form(visit: Visit, number: int, page: str) -> EntriesForm:
    """The form of an object that is there, with this page of its properties."""
    thing, it = visit.world.thing(number), f"#{number}"
    part = part_of(pairs_on(visit, number), page, MOST)
    visit.answers(property_calls(number, list(part.items), [above.number for above in visit.world.chain(number)]))
    found = [one for one in properties_of(visit, number, list(part.items)) if may_write(visit, one)]
    of_properties = [property_entry(visit, it, one, number) for one in found]
    own = own_entries(visit, thing, it) if part.number == 1 else []
    form = EntriesForm(
        "edit", f"Edit {visit.short(number)}", EDITED, (), (), entries=in_order(visit, [*own, *of_properties]), path=url_for("edit", number=number),
        number=number, part=part.number, parts=part.pages,
    )  # fmt: skip
    return form_of(form, Field("page", "Page", "hidden", default=str(part.number)))


def new_form(visit: Visit, parent: int) -> EntriesForm:
    """The form of an object that isn't there yet, under this parent."""
    part = part_of(pairs_on(visit, parent), "", MOST)
    visit.answers(property_calls(parent, list(part.items), [above.number for above in visit.world.chain(parent)]))
    found = [one for one in properties_of(visit, parent, list(part.items)) if may_write(visit, one, is_new=True)]
    made = Thing(NOTHING, "", visit.number, parent, NOTHING, 0)
    entries = in_order(visit, [*own_entries(visit, made, NEW), *(property_entry(visit, NEW, one, NOTHING) for one in found)])
    form = EntriesForm(
        "new", f"A new object under {visit.short(parent)}", MADE_NEW, (), (), entries=entries, path=url_for("new"), number=parent,
        first=(Item(f"create(#{parent})", NEW),), parts=part.pages,
    )  # fmt: skip
    return form_of(form, Field("parent", "Parent", "hidden", default=f"#{parent}"))


def pairs_on(visit: Visit, number: int) -> list[tuple[int, str]]:
    """The properties on an object, each with its definer: the usual ones first, even if their names may not be listed."""
    names: PropertyNames = names_on(visit, number)
    known = {name.lower(): (definer, name) for definer, name in names.pairs}
    first = [known.pop(name, (NOTHING, name)) for name in first_names(visit) if name in known or names.hidden]
    return [*first, *known.values()]


def first_names(visit: Visit) -> tuple[str, ...]:
    """The properties that come first, in small letters, and are asked for even if their names may not be listed: a description and exits."""
    return tuple(name.lower() for name in visit.sight_names)


def is_exits(visit: Visit, one: Property) -> bool:
    """Whether a property is the one that has the exits of a room."""
    return one.name.lower() == visit.sight_names.exits.lower()


def may_write(visit: Visit, one: Property, is_new: bool = False) -> bool:
    """Whether the person may write a property, and read it. On a new object of theirs they own one with the right c."""
    if not one.is_shown or one.rights is None:
        return False
    return visit.is_wizard or one.owner == visit.number or "w" in one.rights or is_new and "c" in one.rights


def own_entries(visit: Visit, thing: Thing, it: str) -> list[Entry]:
    """Name, place and marks of an object, as far as the person may write them."""
    if thing.owner != visit.number and not visit.is_wizard:
        return []
    short = ObjectLookup(visit.world).short
    place = "nowhere" if thing.location < 0 else short(thing.location)
    name, where = Field("name", "Name", "text"), Field("place", "Where", "place", "A place that accepts it, or: nowhere.")
    entries = [Entry(where, {"place": place}, f"#{thing.location}", lambda value: f"move({it}, {value})")]
    if visit.is_wizard or not thing.has("player"):
        entries.insert(0, Entry(name, {"name": thing.name}, written(thing.name), setting(it, "name")))
    return entries + [mark_entry(thing, it, letter, words) for letter, words in MARKS]


def mark_entry(thing: Thing, it: str, letter: str, words: str) -> Entry:
    """One of the marks."""
    field = Field(letter, words, "flag", is_needed=False, section=MARKED)
    now = int(thing.has(letter))
    return Entry(field, typed_now(field, now), str(now), setting(it, letter))


def setting(it: str, name: str) -> Callable[[str], str]:
    """The call that gives a property a value."""
    return lambda value: f"set({it}, {written(name)}, {value})"


def property_entry(visit: Visit, it: str, one: Property, number: int) -> Entry:
    """A property. Of a new object the number is -1, and the value that of its parent."""
    short = ObjectLookup(visit.world).short
    is_own = one.source == number
    hint = "" if is_own or one.source is None else f"As {short(one.source)} has it, until you change it."
    key, section = property_key("p", one.name), "" if one.name.lower() in first_names(visit) else OTHERS
    exits = typed_exits(one.value) if is_exits(visit, one) else None
    if exits is not None:
        return exits_entry(visit, it, key, one, exits)
    field = Field(key, one.name, "value", hint, section=section)
    shown = typed_now(field, one.value)
    if isinstance(one.value, Obj) and one.value.number >= 0:
        shown[key] = short(one.value.number)
    return Entry(field, shown, written(one.value), setting(it, one.name))


def exits_entry(visit: Visit, it: str, key: str, one: Property, exits: list[TypedExit]) -> ExitsEntry:
    """The exits of a room."""
    short = ObjectLookup(visit.world).short
    field = Field(key, one.name, "exits", HINT)
    known = {exits_text([each], short).strip(): each for each in exits}
    return ExitsEntry(
        field, {key: exits_text(exits, short), f"{key}.back": "on"}, written(one.value), setting(it, one.name), subject=it, known=known,
        exits_of=lambda to: readable_exits(visit, to), short=short,
    )  # fmt: skip


def readable_exits(visit: Visit, number: int) -> Union[list[TypedExit], None]:
    """The exits of a place, as far as the person may read them."""
    (value,) = visit.answers([f"get(#{number}, {written(visit.sight_names.exits)})"])
    return typed_exits(value)


def in_order(visit: Visit, entries: list[Entry]) -> tuple[Entry, ...]:
    """The entries in the order of the page: the name, what it looks like, its exits, its place, other properties, marks."""
    sections = ["", OTHERS, MARKED]
    names = visit.sight_names
    first = {"name": 0, property_key("p", names.description): 1, property_key("p", names.exits): 2, "place": 3}
    return tuple(sorted(entries, key=lambda entry: (sections.index(entry.field.section), first.get(entry.field.key, 4))))
