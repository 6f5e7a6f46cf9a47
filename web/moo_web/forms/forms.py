"""Forms as data: the fields of each, what kinds of things are typed into them, and the calls that are made of them.

    filled = read_form(FORMS["rename"], {"object": "#4", "name": "Lamp"}, names, Me(17, False))
    items_of_form(FORMS["rename"], filled)      [Item('set(#4, "name", "Lamp")')]

The forms themselves are in `catalogue`. What was typed comes as texts under the keys of the fields: of a value also its kind under
`KEY.kind`, of letters and of several objects one text for each under `KEY.r` or `KEY.5`, of a flag what it was under `KEY.was`.
"""

from __future__ import annotations

import dataclasses
import re
from collections.abc import Callable, Mapping, Sequence
from typing import Any

from moolib.batches import Item
from moolib.naming import Found, names_of_objects, numbered, replaced, shown_as
from moolib.values import ERRORS

from moo_web.forms.input import LONGEST_NAME, Mistyped, clipped, number_value, test_letters, text_value, written_value
from moo_web.forms.lookup import ObjectLookup
from moo_web.forms.patterns import condition, pattern

Typed = Mapping[str, str]
WORDS_FOR_NOTHING = ("nothing", "nowhere", "none", "nobody", "-1", "#-1")
# How pages call an object without a name.
UNNAMED = "unnamed"
MOST_CHOICES = 20
MOST_OBJECTS = 1000
FIELD_KINDS = frozenset("object place objects text lines name value number flag letters choice verb calls exits cell hidden".split())


@dataclasses.dataclass(frozen=True)
class Field:
    """A field of a form.

    `kind` is one of `FIELD_KINDS`: a place is an object or nothing, a name that of a property or a verb. `now` is a reading call whose
    answer is what the field has at first, and `part` the place in that answer, if it is a list. `options` are those of a choice or of
    letters, each with its words. `section` begins a part of the form that can be folded.
    """

    key: str
    label: str
    kind: str
    hint: str = ""
    is_needed: bool = True
    default: str = ""
    now: str = ""
    part: int | None = None
    options: tuple[tuple[str, str], ...] = ()
    section: str = ""


@dataclasses.dataclass(frozen=True)
class Step:
    """A call of a form, with `<KEY>` for what a field was given, `<one>` for each of several, and `<new>` for the object made just before.

    It is made only if the field `given` has something, or has just this (`what=move`), and not if the field `unless` has something.
    `is_new` is whether it makes that object.
    """

    call: str
    given: str = ""
    unless: str = ""
    is_new: bool = False

    def applies(self, values: Mapping[str, Any]) -> bool:
        """Whether the call is made."""
        return condition(self.given).holds(values) and not (self.unless and condition(self.unless).holds(values))


@dataclasses.dataclass(frozen=True)
class Form:
    """A form: its key, its title, a sentence about it, its fields, and its calls, which are made once for each value of the field `each`.

    `blame` has the field that a refusal is about: by `CALL E_NAME`, or by `E_NAME`. `who` is `all`, or `wizards` if others are always
    refused. `is_loss` is whether it destroys something.
    """

    key: str
    title: str
    about: str
    fields: tuple[Field, ...]
    steps: tuple[Step, ...]
    each: str = ""
    blame: Mapping[str, str] = dataclasses.field(default_factory=dict)
    who: str = "all"
    is_loss: bool = False

    def __post_init__(self) -> None:
        """Reads what is said in texts, and tells mistakes in it when the catalogue is imported."""
        for field in self.fields:
            self.require(field.kind in FIELD_KINDS, f"{field.key} is {field.kind}")
            self.require(field.now == "" or pattern(field.now).keys <= self.keys, f"{field.key} is {field.now} now")
            # A section is a condition, or its title.
            self.require("=" not in field.section or self.is_condition(field.section), f"{field.key} is in {field.section}")
        for step in self.steps:
            self.require(pattern(step.call).keys <= {*self.keys, "one", "new", "me"}, step.call)
            self.require(self.is_condition(step.given) and self.is_condition(step.unless), f"{step.call} if {step.given} {step.unless}")
        names = {pattern(step.call).name for step in self.steps}
        for about, key in self.blame.items():
            words = about.split()
            self.require(key in self.keys and all(word in names or word in ERRORS for word in words), f"{about} is about {key}")
        self.require(self.each in ("", *self.keys), f"each of {self.each}")

    def require(self, is_right: bool, what: str) -> None:
        """`ValueError` with what is wrong."""
        if not is_right:
            raise ValueError(f"the form {self.key}: {what}: there is no such field, option or call")

    def is_condition(self, text: str) -> bool:
        """Whether a condition names a field, and one of its options if it has some. `one` and `new` are of the calls that are made."""
        asked = condition(text)
        field = self.field(asked.key)
        options = {option for option, _ in field.options} if field else set()
        return asked.key in ("", "one", "new") or (field is not None and (asked.value is None or not options or asked.value in options))

    @property
    def keys(self) -> set[str]:
        """The keys of its fields."""
        return {field.key for field in self.fields}

    def field(self, key: str) -> Field | None:
        """The field of this key."""
        return next((field for field in self.fields if field.key == key), None)


@dataclasses.dataclass(frozen=True)
class Mistake:
    """What is wrong with a field: a sentence, a text that would do, and objects to choose from, each as it is typed and in words.

    `lines` is a list of lines that would do in place of the text, as it is written.
    """

    reason: str
    better: str = ""
    choices: tuple[tuple[str, str], ...] = ()
    lines: str = ""

    @classmethod
    def of(cls, mistyped: Mistyped) -> Mistake:
        """What is wrong with what was typed in a field of one line."""
        return cls(mistyped.reason, mistyped.better, mistyped.choices)


@dataclasses.dataclass(frozen=True)
class Me:
    """Who fills a form: the number of their object, and whether that is a wizard."""

    number: int
    is_wizard: bool = False


class Ambiguous(Mistyped):
    """Several objects, or none, have just the name that was typed; `choices` are those that are meant perhaps.

    Each choice is what is typed for it, and its words: by the number of an object, or in `typed` as a whole text.
    """

    def __init__(self, reason: str, choices: Sequence[tuple[int, str]] = (), typed: Sequence[tuple[str, str]] = ()) -> None:
        super().__init__(reason)
        self.choices = (*((f"#{number}", label) for number, label in choices), *typed)


@dataclasses.dataclass
class Filled:
    """What a form was given: the values by the keys of their fields, as moo writes them, and the mistakes."""

    values: dict[str, Any] = dataclasses.field(default_factory=dict)
    mistakes: dict[str, Mistake] = dataclasses.field(default_factory=dict)


def object_value(typed: str, names: ObjectLookup, me: Me, may_be_nothing: bool = False) -> str:
    """An object that is typed by its number, its name, or both. `Mistyped`, `Ambiguous`: it isn't one, or it could be several."""
    word = typed.strip()
    if may_be_nothing and word.lower() in WORDS_FOR_NOTHING:
        return "#-1"
    if not word:
        raise Mistyped(f"An object is missing: its number, such as #5, or its name{', or: nothing' if may_be_nothing else ''}.")
    found = re.fullmatch(r"(?:#(\d{1,10})\b.*|(\d{1,10}))", word)
    if found:
        return f"#{known_number(int(found[1] or found[2]), names)}"
    exact = names.named(word)
    if len(exact) == 1:
        return f"#{exact[0][0]}"
    if exact:
        raise Ambiguous(f"{len(exact)} objects are named “{clipped(word)}”. Choose one:", exact[:MOST_CHOICES])
    if word.lower() in ("me", "myself"):
        return f"#{me.number}"
    if shown := shown_as(word):
        return f"#{shown_number(*shown, names)}"
    like = names.like(word)
    if like:
        raise Ambiguous(f"No object is named “{clipped(word)}”. Is it one of these?", like[:MOST_CHOICES])
    raise Mistyped(f"No object is named “{clipped(word)}”. Write its number, such as #5, or its name.")


def known_number(number: int, names: ObjectLookup) -> int:
    """The number of an object that is there. `Mistyped`: it isn't."""
    if not names.is_object(number):
        raise Mistyped(f"There is no object #{number}. If there was one, it was recycled.")
    return number


def shown_number(name: str, number: int, names: ObjectLookup) -> int:
    """The number of an object that is typed as pages show it. `Mistyped`, `Ambiguous`: it isn't there, or has another name."""
    known_number(number, names)
    is_cut = name.endswith("…")
    likely = names.like(name[:-1]) if is_cut else names.named(name)
    if name == UNNAMED or number in (each for each, _ in likely) or is_cut and len(likely) >= MOST_CHOICES:
        return number
    choices = [(number, f"#{number}, which has another name"), *likely[: MOST_CHOICES - 1]]
    raise Ambiguous(f"#{number} isn’t named “{clipped(name)}”. Choose one:", choices)


def several_objects(field: Field, typed: Typed, names: ObjectLookup, me: Me) -> list[str]:
    """Objects that are ticked, or typed with commas or line ends between them."""
    ticked = [f"#{key.split('.')[1]}" for key in typed if re.fullmatch(re.escape(field.key) + r"\.\d{1,10}", key)]
    words = [word for word in re.split(r"[,\r\n]+", typed.get(field.key, "")) if word.strip()]
    found = [object_value(word, names, me) for word in [*ticked, *words]]
    distinct = list(dict.fromkeys(found))
    if len(distinct) > MOST_OBJECTS:
        raise Mistyped(f"These are {len(distinct):,} objects. A batch takes {MOST_OBJECTS:,} at most.")
    if field.is_needed and not distinct:
        raise Mistyped("No object is chosen.")
    return distinct


def property_name(typed: str) -> str:
    """The name of a property or of a verb, as a value."""
    if not typed.strip():
        raise Mistyped("A name is missing.")
    return text_value(typed, LONGEST_NAME)


def any_value(field: Field, typed: Typed, names: ObjectLookup, me: Me) -> str:
    """A value of the kind that was chosen beside it."""
    return value_of_kind(typed.get(f"{field.key}.kind", "text"), typed.get(field.key, ""), names, me)


def value_of_kind(kind: str, text: str, names: ObjectLookup, me: Me) -> str:
    """A value that is typed as this kind. `Mistyped`, `Ambiguous`: it can't be taken."""
    if kind == "number":
        return number_value(text)
    if kind == "object":
        return object_value(text, names, me, may_be_nothing=True)
    return value_with_names(text, names, me) if kind == "written" else text_value(text)


def value_with_names(text: str, names: ObjectLookup, me: Me) -> str:
    """A value that is typed as it is written, with names of objects or without. `Mistyped`, `Ambiguous`: at which letter it can't be taken."""
    try:
        return written_value(text)
    except Mistyped:
        if not names_of_objects(text):
            raise
    test_letters(text.strip().replace("…", ""))
    try:
        return written_value(numbered(text, lambda found: number_at(text, found, names, me)))
    except Mistyped as mistyped:
        if "{" in text or isinstance(mistyped, Ambiguous):
            raise
    return written_value(text)


def number_at(text: str, found: Found, names: ObjectLookup, me: Me) -> str:
    """The number of the object whose name is in a text. `Mistyped`, `Ambiguous`: as `object_value`, with the letter at which the name begins."""
    try:
        return object_value(found.word, names, me, may_be_nothing=True)
    except Ambiguous as several:
        choices = [(replaced(text, found, value), label) for value, label in several.choices]
        raise Ambiguous(f"Letter {found.place + 1}: {several.reason}", typed=choices) from None
    except Mistyped as mistyped:
        raise Mistyped(f"Letter {found.place + 1}: {mistyped.reason} If it is a text, put quotes round it.") from None


def filled_lines(typed: str) -> list[str]:
    """The lines of what was typed that have something in them, without blanks around them."""
    return [line.strip() for line in re.split(r"\r\n|\r|\n", typed) if line.strip()]


def several_texts(typed: str) -> list[str]:
    """A text for each line."""
    found = []
    lines = filled_lines(typed)
    for number, line in enumerate(lines, 1):
        try:
            found.append(text_value(line))
        except Mistyped as mistyped:
            better = "\n".join([*lines[: number - 1], mistyped.better, *lines[number:]]) if mistyped.better else ""
            raise Mistyped(f"Line {number}: {mistyped.reason}", better) from None
    return found


def flag_value(field: Field, typed: Typed) -> str | None:
    """1 or 0; None if it is as it was."""
    now = "1" if typed.get(field.key) else "0"
    return None if typed.get(f"{field.key}.was") == now else now


def letters_value(field: Field, typed: Typed) -> str:
    """The letters that are ticked, as a text."""
    return text_value("".join(letter for letter, _ in field.options if typed.get(f"{field.key}.{letter}")))


def chosen(field: Field, typed: Typed) -> str:
    """One of the options, as it is."""
    word = typed.get(field.key, field.default)
    if word not in (option for option, _ in field.options):
        raise Mistyped("Choose one of these.")
    return word


def verb_value(typed: str) -> str:
    """A verb, by its place among the verbs of its object, or by a word that one of its names matches."""
    if not typed.strip():
        raise Mistyped("A verb is missing: its place among the verbs, from 1, or its name.")
    return number_value(typed) if re.fullmatch(r"\d{1,9}", typed.strip()) else text_value(typed.strip())


READERS: dict[str, Callable[[str], str]] = {"text": text_value, "name": property_name, "number": number_value, "verb": verb_value}


def read_field(field: Field, typed: Typed, names: ObjectLookup, me: Me) -> Any:
    """What a field was given, as a value or as several; None if nothing. `Mistyped`: it can't be taken."""
    text, kind = typed.get(field.key, ""), field.kind
    if kind == "objects":
        return several_objects(field, typed, names, me)
    if kind == "flag":
        return flag_value(field, typed)
    if kind == "letters":
        return letters_value(field, typed)
    if kind == "choice":
        return chosen(field, typed)
    if kind == "value":
        return any_value(field, typed, names, me)
    if kind == "lines":
        return several_texts(text)
    if kind == "place" and (field.is_needed or text.strip()):
        return object_value(text, names, me, may_be_nothing=True)
    if not field.is_needed and not text.strip():
        return None
    reader = READERS.get(kind)
    return reader(text) if reader else object_value(text, names, me)


def is_asked(field: Field, filled: Filled) -> bool:
    """Whether a field counts: one whose `section` is `KEY=VALUE` does only if that was chosen."""
    return "=" not in field.section or condition(field.section).holds(filled.values)


def read_form(form: Form, typed: Typed, names: ObjectLookup, me: Me) -> Filled:
    """What a form was given."""
    filled = Filled({"me": f"#{me.number}"})
    for field in form.fields:
        if not is_asked(field, filled):
            continue
        try:
            filled.values[field.key] = read_field(field, typed, names, me)
        except Mistyped as mistyped:
            lines = mistyped.lines if field.kind == "value" else ""
            filled.mistakes[field.key] = dataclasses.replace(Mistake.of(mistyped), lines=lines)
    if not filled.mistakes and not items_of_form(form, filled):
        filled.mistakes[form.fields[-1].key] = Mistake("Nothing is changed yet.")
    return filled


def items_of_form(form: Form, filled: Filled) -> list[Item]:
    """The calls of a form, with names such as $new1 for objects that it makes."""
    several = (filled.values.get(form.each) or [None]) if form.each else [None]
    items = []
    for count, one in enumerate(several, 1):
        values = {**filled.values, "one": one, "new": f"$new{count}"}
        for step in form.steps:
            if step.applies(values):
                items.append(Item(pattern(step.call).filled(values), values["new"] if step.is_new else None))
    return items
