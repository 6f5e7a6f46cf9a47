"""What forms are made of that show what is there and change what differs: each entry is a field and the call that gives it another value.

    changed_entries(entries, typed, names, me).items      the calls for the fields that were changed, in the order of the entries

Beside each field the page has a sum of what was in it at first, under `KEY.was`. What is as it was isn't sent, whatever others have done
meanwhile.
"""

from __future__ import annotations

import dataclasses
import hashlib
import json
from collections.abc import Callable, Iterable, Mapping
from typing import NamedTuple

from moolib.batches import Item

from moo_web.forms.forms import Field, Me, Mistake, Typed, flag_value, read_field
from moo_web.forms.input import Mistyped
from moo_web.forms.lookup import ObjectLookup
from moo_web.forms.views import by_field, field_keys

# What is beside a field, and isn't a part of what it says.
BESIDE = (".was", ".back", ".choice")


def property_key(prefix: str, name: str) -> str:
    """The key of the field for a property, which stays the same when others come and go."""
    return f"{prefix}{hashlib.sha256(name.lower().encode()).hexdigest()[:10]}"


def sum_of_typed(field: Field, typed: Mapping[str, str]) -> str:
    """A sum of what is in a field."""
    said = {key: typed[key].replace("\r\n", "\n") for key in field_keys(field, typed) if not key.endswith(BESIDE)}
    return hashlib.sha256(json.dumps(sorted(said.items())).encode()).hexdigest()[:16]


@dataclasses.dataclass(frozen=True)
class Entry:
    """A field of such a form: what is in it at first, the value that is there now as moo writes it, and the call for another one."""

    field: Field
    shown: Mapping[str, str]
    now: str
    call: Callable[[str], str]

    @property
    def at_first(self) -> dict[str, str]:
        """What is in the field at first, with the sum of it."""
        return {f"{self.field.key}.was": sum_of_typed(self.field, self.shown), **self.shown}

    def is_touched(self, typed: Typed) -> bool:
        """Whether something else is in the field than at first. A field that wasn't shown isn't touched."""
        was = typed.get(f"{self.field.key}.was")
        if self.field.kind == "flag":
            return was is not None and flag_value(self.field, typed) is not None
        return self.field.key in typed and was != sum_of_typed(self.field, typed)

    def item(self, call: str) -> Item:
        """A call, with the field that it is about."""
        return Item(call, None, (self.field.key, 0))

    def items(self, typed: Typed, names: ObjectLookup, me: Me) -> list[Item]:
        """The calls for what is in the field; none, if that is the value that is there. `Mistyped`, `Ambiguous`: it can't be taken."""
        value = read_field(self.field, typed, names, me)
        return [] if value is None or value == self.now else [self.item(self.call(value))]


class ChangedEntries(NamedTuple):
    """What differs: the calls, and the mistakes by the keys of their fields."""

    items: list[Item]
    mistakes: dict[str, Mistake]


def changed_entries(entries: Iterable[Entry], typed: Typed, names: ObjectLookup, me: Me) -> ChangedEntries:
    """What was changed in these fields."""
    found, typed_in = ChangedEntries([], {}), by_field(typed)
    for entry in entries:
        mine = typed_in.get(entry.field.key, {})
        try:
            found.items.extend(entry.items(mine, names, me) if entry.is_touched(mine) else ())
        except Mistyped as mistyped:
            found.mistakes[entry.field.key] = Mistake.of(mistyped)
    return found


def typed_with(entries: Iterable[Entry], typed: Typed) -> dict[str, str]:
    """What is in the fields of a form that is shown again: what was typed, and in those that weren't touched what is there now."""
    typed_in = by_field(typed)
    for entry in entries:
        mine = typed_in.get(entry.field.key, {})
        if not entry.is_touched(mine):
            back = f"{entry.field.key}.back"
            kept = mine if f"{entry.field.key}.was" in mine else entry.shown
            now = {key: text for key, text in entry.at_first.items() if key != back}
            typed_in[entry.field.key] = now | ({back: kept[back]} if back in kept else {})
    return {key: text for part in typed_in.values() for key, text in part.items()}
