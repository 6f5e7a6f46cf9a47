"""A class with its children as a table: a row for each child, a column for each property, and empty rows for new ones.

A cell is typed as what it is now: a text, a number, an object, or a value as it is written. An empty cell has what its class has.
"""

from __future__ import annotations

import dataclasses
from typing import NamedTuple
from urllib.parse import quote

from moolib.batches import Item
from moolib.values import NoValue, Obj, Value, read, written

from moo_web.forms.entries import ChangedEntries, Entry, changed_entries, property_key
from moo_web.forms.exits import typed_exits
from moo_web.forms.forms import Field, Me, Mistake, Typed, object_value, value_of_kind
from moo_web.forms.input import Mistyped, typed_as
from moo_web.forms.lookup import ObjectLookup
from moo_web.forms.whole import EntriesForm, form_of, is_exits, may_write, pairs_on, setting
from moo_web.pages.lists import part_of
from moo_web.pages.pages import Visit
from moo_web.paths import url_for, whole_number
from moo_web.world.properties import Property, properties_of, property_calls
from moo_web.world.things import cut_name

ROWS, NEW_ROWS, MOST_NEW = 40, 10, 100
COLUMNS, MOST_COLUMNS, MOST_OFFERED = 5, 8, 60
# How an empty text is typed, since an empty cell has what its class has.
EMPTY = '""'
ABOUT = "An empty cell has what its class has, in grey. What you leave as it is stays as it is. All that you change is done together, or nothing of it."


@dataclasses.dataclass(frozen=True)
class Cell(Entry):
    """A property of a row. `kind` is how it is typed, `is_own` whether the object has a value of its own, `clear` the call that takes it away.

    `inherited` is the text of what its class has.
    """

    kind: str = "text"
    is_own: bool = False
    clear: str = ""
    inherited: str = ""

    def items(self, typed: Typed, names: ObjectLookup, me: Me) -> list[Item]:
        """The call for what is in the cell."""
        text = typed.get(self.field.key, "")
        if not text.strip():
            return [self.item(self.clear)] if self.is_own else []
        kind = "written" if self.kind != "text" and text.lstrip().startswith(('"', "{", "E_")) else self.kind
        value = written("") if kind == "text" and text == EMPTY else value_of_kind(kind, text, names, me)
        return [] if self.is_own and value == self.now else [self.item(self.call(value))]


class ChildRow(NamedTuple):
    """A child: its number, the key of its name, if the person may write that, and in each column the key of its cell or its value."""

    number: int
    name: str
    cells: list[tuple[str, Value]]


class NewRow(NamedTuple):
    """A row for a new object: the name of it in calls, the key of its name, and its cells."""

    made: str
    name: str
    cells: tuple[Cell, ...]

    def differing(self, create: str, place: str, typed: Typed, names: ObjectLookup, me: Me) -> ChangedEntries:
        """The calls that make the object; none, if the row is empty. `place` is where it is put, or empty."""
        field = Field(self.name, "Name", "text")
        found = changed_entries((Entry(field, {self.name: ""}, "", setting(self.made, "name")), *self.cells), typed, names, me)
        if not found.items or found.mistakes:
            return found
        if not typed.get(self.name, "").strip():
            return ChangedEntries([], {self.name: Mistake("A name is missing.")})
        end = [Item(f"move({self.made}, {place})", None, ("place", 0))] if place else []
        return ChangedEntries([Item(create, self.made, (self.name, 0)), *found.items, *end], {})


@dataclasses.dataclass(frozen=True)
class TableForm(EntriesForm):
    """The form of a class: the names of its columns and of those that could be, its rows, and those for new objects."""

    columns: tuple[str, ...] = ()
    offered: tuple[str, ...] = ()
    rows: tuple[ChildRow, ...] = ()
    new: tuple[NewRow, ...] = ()

    @property
    def cells(self) -> dict[str, Entry]:
        """The entries by the keys of their fields."""
        return {entry.field.key: entry for entry in self.entries}

    def page_path(self, page: int) -> str:
        """The address of a page of the children, with the same columns."""
        return url_for("class", number=self.number, page=page, **{f"p.{quote(name)}": "on" for name in self.columns})

    def differing(self, typed: Typed, names: ObjectLookup, me: Me) -> ChangedEntries:
        """The calls for the rows that were changed and for the new ones, and the mistakes."""
        made = {row.name for row in self.new} | {cell.field.key for row in self.new for cell in row.cells}
        found = changed_entries([entry for entry in self.entries if entry.field.key not in made], typed, names, me)
        place = ""
        try:
            place = object_value(typed["place"], names, me, may_be_nothing=True) if typed.get("place", "").strip() else ""
        except Mistyped as mistyped:
            found.mistakes["place"] = Mistake(mistyped.reason, choices=getattr(mistyped, "choices", ()))
        for row in self.new:
            items, mistakes = row.differing(f"create(#{self.number})", "" if place == "#-1" else place, typed, names, me)
            found.items.extend(items)
            found.mistakes.update(mistakes)
        return found


def table_form(visit: Visit, number: int, asked: Typed) -> TableForm:
    """The table of a class. `asked` has its `columns`, its `page` and its number of empty `rows`, as far as they are said."""
    of, offered = visit.world.thing(number), columns_on(visit, number)
    by_name = {one.name: one for one in offered}
    columns = [by_name[name] for name in names_in(asked, list(by_name)) if name in by_name]
    part = part_of(visit.world.children.get(number, ()), asked.get("page", ""), ROWS)
    count = asked.get("rows", "")
    new = [new_row(place, columns, visit) for place in range(1, rows_in(count) + 1)]
    rows, entries = child_rows(visit, list(part.items), columns)
    for row in new:
        entries += [Entry(Field(row.name, f"Name of new object {row.made[4:]}", "text"), {row.name: ""}, "", setting(row.made, "name")), *row.cells]
    form = TableForm(
        "class", f"Children of {cut_name(of.name)}", ABOUT, (), (), entries=tuple(entries), path=url_for("class", number=number),
        number=number, part=part.number, parts=part.pages, columns=tuple(one.name for one in columns), offered=tuple(by_name), rows=tuple(rows),
        new=tuple(new),
    )  # fmt: skip
    hidden = {"page": str(part.number), "rows": str(len(new)), "columns": written(list(form.columns))}
    fields = [Field(key, key, "hidden", default=text) for key, text in hidden.items()]
    place = Field("place", "New ones go into", "place", "A place that accepts them. Empty: nowhere.", is_needed=False)
    made = form_of(form, *fields, place)
    assert isinstance(made, TableForm)
    return made


def rows_in(text: str) -> int:
    """How many empty rows are asked for."""
    asked = whole_number(text)
    return NEW_ROWS if asked is None else min(asked, MOST_NEW)


def columns_on(visit: Visit, number: int) -> list[Property]:
    """The properties of a class that somebody who makes an object under it may write there. Exits have a form of their own."""
    pairs = pairs_on(visit, number)[:MOST_OFFERED]
    visit.answers(property_calls(number, pairs, [above.number for above in visit.world.chain(number)]))
    found = [one for one in properties_of(visit, number, pairs) if may_write(visit, one, is_new=True)]
    return [one for one in found if not (is_exits(visit, one) and typed_exits(one.value) is not None)]


def names_in(asked: Typed, all_names: list[str]) -> list[str]:
    """The names of the columns that are asked for: in a list, or ticked; else the first ones."""
    ticked = [name for name in all_names if f"p.{name}" in asked]
    try:
        said = read(asked.get("columns", ""))
    except NoValue:
        said = 0
    names = [str(name) for name in said] if isinstance(said, list) else ticked or all_names[:COLUMNS]
    return names[:MOST_COLUMNS]


def child_rows(visit: Visit, numbers: list[int], columns: list[Property]) -> tuple[list[ChildRow], list[Entry]]:
    """The rows of children, and their entries."""
    pairs = [(one.definer, one.name) for one in columns]
    chains = {number: [above.number for above in visit.world.chain(number)] for number in numbers}
    visit.answers([call for number, chain in chains.items() for call in property_calls(number, pairs, chain)])
    rows: list[ChildRow] = []
    entries: list[Entry] = []
    for number in numbers:
        row, some = child_row(visit, number, properties_of(visit, number, pairs))
        rows.append(row)
        entries += some
    return rows, entries


def child_row(visit: Visit, number: int, properties: list[Property]) -> tuple[ChildRow, list[Entry]]:
    """The row of a child, and its entries."""
    thing, it = visit.world.things[number], f"#{number}"
    entries: list[Entry] = []
    name = ""
    if visit.is_wizard or thing.owner == visit.number and not thing.has("player"):
        name = f"c{number}-name"
        entries.append(Entry(Field(name, f"Name of {visit.short(number)}", "text"), {name: thing.name}, written(thing.name), setting(it, "name")))
    cells: list[tuple[str, Value]] = []
    for one in properties:
        if not may_write(visit, one):
            cells.append(("", one.value))
            continue
        cell = cell_of(visit, it, property_key(f"c{number}-", one.name), one, f"{one.name} of {visit.short(number)}", one.source == number)
        cells.append((cell.field.key, one.value))
        entries.append(cell)
    return ChildRow(number, name, cells), entries


def new_row(place: int, columns: list[Property], visit: Visit) -> NewRow:
    """An empty row."""
    made = f"$new{place}"
    cells = [cell_of(visit, made, property_key(f"n{place}-", one.name), one, f"{one.name} of new object {place}", False) for one in columns]
    return NewRow(made, f"n{place}-name", tuple(cells))


def cell_of(visit: Visit, it: str, key: str, one: Property, label: str, is_own: bool) -> Cell:
    """A cell with a value of its own, or empty."""
    kind, text = typed_as(one.value)
    if isinstance(one.value, Obj) and one.value.number >= 0:
        text = ObjectLookup(visit.world).short(one.value.number)
    text = text or EMPTY
    return Cell(
        Field(key, label, "cell"), {key: text if is_own else ""}, written(one.value), setting(it, one.name), kind=kind, is_own=is_own,
        clear=f"clear_property({it}, {written(one.name)})", inherited="" if is_own else text,
    )  # fmt: skip
