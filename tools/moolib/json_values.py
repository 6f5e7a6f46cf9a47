"""Values as JSON, both ways and exactly, and calls that are lists of such values.

    in_json([1, Obj(4), ErrorValue("E_PERM"), 2**60])    [1, {"obj": 4}, {"err": "E_PERM"}, {"int": "1152921504606846976"}]
    call_of(["set", {"obj": 4}, "name", "Inn"])          'set(#4, "name", "Inn")'

Strings and lists are themselves. An integer beyond 2^53 is `{"int": TEXT}`, since other languages read numbers as floats. In a call
`{"name": "room"}` stands for the answer of an earlier call.
"""

from __future__ import annotations

import json
import re
from typing import Any, Union

from moolib.calls import bare_name, call_text
from moolib.names import NAME, item_of
from moolib.values import DEEPEST, ERRORS, ErrorValue, Name, NoValue, Obj, TooGreat, Value, integer, object_number

# Floats hold the integers up to this one, and not all beyond.
SURE_INTEGER = 2**53
DIGITS = re.compile(r"-?[0-9]+")
FORMS = 'a value is an integer, a string, a list, {"obj":N}, {"err":"E_NAME"}, {"int":"N"} or, in a call, {"name":"NAME"}'


def in_json(value: Value) -> Any:
    """A value as what `json.dumps` writes."""
    if isinstance(value, Obj):
        return {"obj": value.number}
    if isinstance(value, ErrorValue):
        return {"err": value.name}
    if isinstance(value, int):
        return value if abs(value) <= SURE_INTEGER else {"int": str(value)}
    if isinstance(value, list):
        return [in_json(item) for item in value]
    return value


def of_json(said: Any, levels: int = DEEPEST) -> Any:
    """The value, or the name in place of one, that this is in JSON. `NoValue`: it isn't one, or too great."""
    if isinstance(said, (bool, float)) or said is None:
        raise NoValue(f"{abridged(said)} is no value: {FORMS}")
    if isinstance(said, int):
        return integer(str(said) if abs(said) < 1 << 64 else "9" * 20)
    if isinstance(said, str):
        return said
    if isinstance(said, dict):
        return of_object(said)
    if not levels:
        raise TooGreat(f"lists are at most {DEEPEST} deep")
    return [of_json(item, levels - 1) for item in said]


def of_object(said: dict[str, Any]) -> Union[Value, Name]:
    """The same of an object with one key, which says what the value is."""
    key, inner = next(iter(said.items())) if len(said) == 1 else ("", None)
    if key == "obj" and isinstance(inner, int) and not isinstance(inner, bool):
        return Obj(object_number(str(inner) if abs(inner) < 1 << 64 else "9" * 20))
    if key == "err" and inner in ERRORS:
        return ErrorValue(str(inner))
    if key == "int" and isinstance(inner, str) and DIGITS.fullmatch(inner):
        return integer(inner)
    if key == "name" and isinstance(inner, str) and NAME.fullmatch(inner):
        return Name(inner)
    raise NoValue(f"{abridged(said)} is no value: {FORMS}")


def call_of(said: list[Any]) -> str:
    """The text of a call that is a list: its name, which may come after `$NAME = `, and its values. `ValueError`: it isn't one."""
    front = item_of(said[0]) if said and isinstance(said[0], str) else None
    name = bare_name(front.text) if front else ""
    if not front or not name:
        raise NoValue("a list begins with the name of a call, as [\"create\",{\"obj\":1}]")
    named = f"{front.name} = " if front.name else ""
    return f"{named}{call_text(name, map(of_json, said[1:]))}"


def calls_of(said: list[Any]) -> list[Any]:
    """Calls, those that are lists as texts, and the others as they are. `ValueError`: a list isn't a call; it says which."""
    calls = []
    for number, call in enumerate(said, 1):
        try:
            calls.append(call_of(call) if isinstance(call, list) else call)
        except ValueError as error:
            raise NoValue(f"call {number}: {error}") from None
    return calls


def abridged(said: Any) -> str:
    """What isn't a value, in a few letters."""
    text = json.dumps(said, separators=(",", ":"))
    return text if len(text) <= 60 else f"{text[:58]}.."
