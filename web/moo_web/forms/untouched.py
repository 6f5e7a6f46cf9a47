"""Whether a form was sent as it was shown: then it changes nothing."""

from __future__ import annotations

from collections.abc import Mapping

from moo_web.forms.forms import Field, Form, Me
from moo_web.forms.lookup import ObjectLookup
from moo_web.forms.views import field_keys, known_values, reads_at_first, typed_at_first
from moo_web.pages.pages import Visit


def is_untouched(visit: Visit, form: Form, typed: Mapping[str, str], names: ObjectLookup, me: Me) -> bool:
    """Whether all that is typed is what is there now. A form without fields that show what is there does something by itself."""
    shown = [field for field in form.fields if field.now]
    if not shown:
        return False
    about = {key: typed[key] for field in form.fields if not field.now for key in field_keys(field, typed)}
    reads = reads_at_first(form, about, known_values(form, typed, names, me))
    if set(reads) != {field.key for field in shown}:
        return False
    first = typed_at_first(form, about, dict(zip(reads, visit.answers(list(reads.values())))))
    others = [field for field in form.fields if not field.now and not field.is_needed and typed.get(field.key)]
    return not others and all(same(field, first, typed) for field in shown)


def same(field: Field, first: Mapping[str, str], typed: Mapping[str, str]) -> bool:
    """Whether a field has what was in it at first. Marks that aren't set aren't sent."""
    keys = [key for key in {*field_keys(field, first), *field_keys(field, typed)} if not key.endswith((".was", ".choice"))]
    return all(first.get(key, "") == typed.get(key, "") for key in keys)
