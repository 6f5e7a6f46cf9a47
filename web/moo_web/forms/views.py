"""Forms as they are shown: what is in each field at first, what it offers, and what is wrong with it."""

from __future__ import annotations

import dataclasses
import itertools
import re
from collections.abc import Iterable, Mapping
from typing import Any

from moolib.values import ErrorValue, Obj

from moo_web.forms.forms import Field, Form, Me, Mistake, object_value
from moo_web.forms.input import VALUE_KINDS, Mistyped, text_value, typed_as
from moo_web.forms.lookup import MOST_OFFERED, ObjectLookup
from moo_web.forms.patterns import pattern

MOST_ROWS = 14
# What may be typed in a field: each with its words.
Offer = tuple[tuple[str, str], ...]


@dataclasses.dataclass
class FieldView:
    """A field as it is shown. `text` is what is typed in it, `kind` the kind of a value, and `ticked` the letters or objects that are.

    `offered` are objects to tick, and `suggested` what may be typed, each with its words. `named` is the object whose number is typed.
    """

    field: Field
    text: str = ""
    kind: str = ""
    was: str = ""
    ticked: frozenset[str] = frozenset()
    offered: Offer = ()
    suggested: Offer = ()
    mistake: Mistake | None = None
    named: str = ""

    @property
    def id(self) -> str:
        """The field's name within the page."""
        return f"f-{self.field.key}"

    @property
    def rows(self) -> int:
        """How many rows of a page its text is given."""
        least = 1 if self.kind in ("number", "object") else 2
        return min(MOST_ROWS, max(least, sum(len(line) // 64 + 1 for line in self.text.split("\n"))))

    @property
    def kinds(self) -> list[tuple[str, str]]:
        """The kinds of a value, with their words."""
        return list(VALUE_KINDS.items())


@dataclasses.dataclass
class View:
    """A form as it is shown: its fields in their parts, each with the words above it."""

    form: Form
    parts: list[tuple[str, list[FieldView]]]
    mistakes: list[FieldView]
    hidden: list[tuple[str, str]]

    @property
    def fields(self) -> dict[str, FieldView]:
        """The fields by their keys."""
        return {shown.field.key: shown for _, fields in self.parts for shown in fields}


# What tells whether an object has a list of its own, of what it accepts.
ACCEPTS = "accept_list(<object>)"


def field_keys(field: Field, typed: Mapping[str, str]) -> list[str]:
    """The fields of a request that belong to a field of a form."""
    return [key for key in typed if key == field.key or key.startswith(f"{field.key}.")]


def by_field(typed: Mapping[str, str]) -> dict[str, dict[str, str]]:
    """What was typed, by the keys of the fields of a form."""
    found: dict[str, dict[str, str]] = {}
    for key, text in typed.items():
        found.setdefault(key.partition(".")[0], {})[key] = text
    return found


def chosen_of(form: Form, typed: Mapping[str, str]) -> dict[str, str]:
    """What was typed, with an object that was chosen from several in the place of the word for it."""
    kept: dict[str, str] = {}
    parts = by_field(typed)
    for field in form.fields:
        kept.update((key, text) for key, text in parts.get(field.key, {}).items() if not key.endswith(".choice"))
        if choice := typed.get(f"{field.key}.choice"):
            kept[field.key] = choice
    return kept


def typed_now(field: Field, value: Any) -> dict[str, str]:
    """What is typed in a field for a value of the world."""
    if field.kind == "value":
        kind, text = typed_as(value)
        return {field.key: text, f"{field.key}.kind": kind}
    if field.kind == "letters" and isinstance(value, str):
        return {f"{field.key}.{letter}": "on" for letter in value}
    if field.kind == "flag":
        is_set = value not in (0, "", [])
        return {f"{field.key}.was": "1" if is_set else "0"} | ({field.key: "on"} if is_set else {})
    if field.kind == "choice" and field.now == ACCEPTS:
        return {field.key: "own" if isinstance(value, list) else "inherited"}
    if field.kind == "objects":
        return {field.key: ", ".join(map(str, value)) if isinstance(value, list) else ""}
    if isinstance(value, Obj) and value.number < 0:
        return {field.key: "nothing"}
    return {field.key: str(value)}


def known_values(form: Form, typed: Mapping[str, str], names: ObjectLookup, me: Me) -> dict[str, str]:
    """The values of the fields that say which object, property or verb a form is about, as far as they are known."""
    found: dict[str, str] = {}
    for field in form.fields:
        try:
            if field.kind == "object" and typed.get(field.key):
                found[field.key] = object_value(typed[field.key], names, me)
            elif field.key in ("name", "verb") and not field.now and typed.get(field.key):
                word = typed[field.key]
                found[field.key] = word if field.key == "verb" and word.isdigit() else text_value(word)
        except Mistyped:
            pass
    return found


def reads_at_first(form: Form, typed: Mapping[str, str], known: Mapping[str, str]) -> dict[str, str]:
    """By the key of a field: the reading call that tells what is there now, if nothing is typed in it yet."""
    found = {}
    for field in form.fields:
        if field.now and pattern(field.now).keys <= known.keys() and not field_keys(field, typed):
            found[field.key] = pattern(field.now).filled(known)
    return found


def field_part(field: Field, value: Any) -> Any:
    """The part of an answer that a field is about."""
    if field.part is None:
        return value
    return value[field.part] if isinstance(value, list) and len(value) > field.part else None


def default_of(field: Field) -> dict[str, str]:
    """What is typed in a field before anything is."""
    if field.kind == "letters":
        return {f"{field.key}.{letter}": "on" for letter in field.default}
    return {field.key: field.default} if field.default else {}


def typed_at_first(form: Form, typed: Mapping[str, str], answers: Mapping[str, Any]) -> dict[str, str]:
    """What is typed in a form at first: what its address says, what is there now, and what is usual. An answer may be a refusal."""
    found = dict(typed)
    for field in form.fields:
        if field_keys(field, typed):
            if field.kind in ("object", "place") and typed.get(field.key, "").isdigit():
                found[field.key] = f"#{typed[field.key]}"
            continue
        value = field_part(field, answers.get(field.key))
        if value is None or not isinstance(value, (int, str, list, Obj, ErrorValue)):
            found.update(default_of(field))
        else:
            found.update(typed_now(field, value))
    return found


def offered_to(field: Field, typed: Mapping[str, str], names: ObjectLookup) -> Offer:
    """The objects that can be ticked."""
    numbers = {int(number) for number in re.findall(r"\d{1,10}", typed.get(f"{field.key}.offered", ""))}
    numbers |= {int(key.split(".")[1]) for key in typed if re.fullmatch(re.escape(field.key) + r"\.\d{1,10}", key)}
    known = [names.world.things[number] for number in sorted(numbers) if number in names.world.things]
    return tuple((str(thing.number), names.label(thing)) for thing in known)


def suggested_to(field: Field, names: ObjectLookup, me: Me) -> Offer:
    """Objects that are likely in a field."""
    world = names.world
    own = world.owned.get(me.number, ())[:MOST_OFFERED]
    numbers: Iterable[int] = own
    if field.key == "owner":
        numbers = world.with_bit("player") if me.is_wizard else [me.number]
    elif field.key == "parent":
        numbers = sorted({*world.with_bit("f")[:MOST_OFFERED], *own})
    elif field.key == "place":
        here = world.things[me.number].location if me.number in world.things else -1
        held = itertools.islice((number for number in world.contents if number >= 0), MOST_OFFERED)
        numbers = [number for number in (here, me.number, *held) if number in world.things]
    return tuple((f"#{number}", names.short(number)) for number in list(dict.fromkeys(numbers))[:MOST_OFFERED])


def shown_field(field: Field, typed: Mapping[str, str], mistake: Mistake | None, names: ObjectLookup, me: Me) -> FieldView:
    """A field as it is shown."""
    begin = len(field.key) + 1
    ticked = frozenset(key[begin:] for key in typed if key.startswith(f"{field.key}."))
    return FieldView(
        field,
        typed.get(field.key, ""),
        typed.get(f"{field.key}.kind", "text"),
        typed.get(f"{field.key}.was", ""),
        ticked,
        offered_to(field, typed, names) if field.kind == "objects" else (),
        suggested_to(field, names, me) if field.kind in ("object", "place") else (),
        mistake,
        object_named(typed.get(field.key, ""), names) if field.kind in ("object", "place") else "",
    )


def object_named(text: str, names: ObjectLookup) -> str:
    """The object whose number was typed, with its name; empty, if it is another text."""
    found = re.fullmatch(r"\s*#(\d{1,10})\s*", text)
    return names.short(int(found[1])) if found and names.is_object(int(found[1])) else ""


def view_of(
    form: Form, typed: Mapping[str, str], mistakes: Mapping[str, Mistake], names: ObjectLookup, me: Me, offers: Mapping[str, Offer]
) -> View:
    """A form as it is shown, with what is typed in it. `offers` has what may be typed in a field besides."""
    parts: list[tuple[str, list[FieldView]]] = []
    typed_in = by_field(typed)
    for field in form.fields:
        shown = shown_field(field, typed_in.get(field.key, {}), mistakes.get(field.key), names, me)
        shown.suggested = offers.get(field.key, shown.suggested)[:MOST_OFFERED]
        if not parts or parts[-1][0] != field.section:
            parts.append((field.section, []))
        parts[-1][1].append(shown)
    wrong = [shown for _, fields in parts for shown in fields if shown.mistake]
    hidden = [one for field in form.fields for one in typed_in.get(field.key, {}).items()]
    return View(form, parts, wrong, hidden)
