"""Why moo refused, in plain words, and which field of a form that is about."""

from __future__ import annotations

import re
from typing import NamedTuple

from moolib.calls import call_name
from moolib.errors import MANUAL, is_too_much, words_for

from moo_web.forms.forms import Form


class Excuse(NamedTuple):
    """A refusal in words: a sentence, what moo says of the very case, the error, the manual's name for it, and the field it is about."""

    words: str
    detail: str
    error: str
    manual: str
    field: str


def detail_of(why: str, call: str, error: str) -> str:
    """What moo's sentence adds to the call and the error."""
    found = re.search(rf"\b{re.escape(error)}, (.*)", why) if error else None
    if found:
        return found[1]
    return "" if why.rstrip(".") in (call, error, f"{call}: {error}") else why


def blamed(form: Form | None, call: str, error: str) -> str:
    """The field of a form that this refusal of a call is about; empty if that can't be told."""
    if not form:
        return ""
    name = call_name(call)
    for key in (f"{name} {error}", name, error, ""):
        if key in form.blame:
            return form.blame[key]
    return ""


def excuse(form: Form | None, call: str, error: str, why: str) -> Excuse:
    """A refusal of this call in words. `why` is moo's sentence, or empty."""
    if is_too_much(error, why):
        # Its word is that of a lack of memory, which this isn't.
        return Excuse(words_for("", "too much"), why, "", "", "")
    words = words_for(call_name(call), error) or "moo refuses this."
    return Excuse(words, detail_of(why, call, error), error, MANUAL.get(error, ""), blamed(form, call, error))
