"""What an answer of a service of moo looks like, by its route. Another program may have the port, and answer whatever it likes."""

from __future__ import annotations

import re
from collections.abc import Callable
from typing import Any

NUMBER = re.compile(r"#-?[0-9]{1,10}")
LINKS = ("location", "owner", "parent")


def is_count(value: Any) -> bool:
    """Whether a value is a number from 0 on."""
    return isinstance(value, int) and not isinstance(value, bool) and value >= 0


def is_number(value: Any) -> bool:
    """Whether a value is the number of an object, as `#4`."""
    return isinstance(value, str) and NUMBER.fullmatch(value) is not None


def is_text(value: Any) -> bool:
    """Whether a value is a text."""
    return isinstance(value, str)


def are(is_one: Callable[[Any], bool]) -> Callable[[Any], bool]:
    """Whether a value is a list of such values."""
    return lambda value: isinstance(value, list) and all(map(is_one, value))


def is_answer(value: Any) -> bool:
    """Whether a value is an answer or an error of one call."""
    return isinstance(value, dict) and (is_text(value.get("answer")) or is_text(value.get("error")))


def is_thing(value: Any) -> bool:
    """Whether a value tells of an object."""
    return isinstance(value, dict) and is_text(value.get("name")) and all(is_number(value.get(key)) for key in LINKS)


def is_numbered_thing(value: Any) -> bool:
    """Whether a value tells of an object, with its number."""
    return is_thing(value) and is_number(value.get("number"))


BATCH = {"answers": are(is_text), "seq": is_count}
GOOD: dict[str, dict[str, Callable[[Any], bool]]] = {
    "/seq": {"seq": is_count},
    "/batch": BATCH,
    "/ask": BATCH,
    "/each": {"each": are(is_answer), "seq": is_count},
    "/objects": {"objects": are(is_numbered_thing), "next": lambda value: value is None or is_number(value), "seq": is_count},
    "/object": {"children": are(is_number), "contents": are(is_number)},
    "/dump": {},
    "/since": {"objects": are(is_number), "seq": is_count},
}


def is_of_moo(route: str, status: int, said: dict[str, Any]) -> bool:
    """Whether an answer with this status may be moo's, to a request for this route."""
    found = re.match("/[a-z]+", route)
    name = found[0] if found else ""
    if status == 200:
        is_whole = name != "/object" or is_thing(said)
        return is_whole and all(key in said and is_right(said[key]) for key, is_right in GOOD.get(name, {}).items())
    numbers = [said[key] for key in ("call", "seq") if key in said]
    return all(map(is_count, numbers)) and is_text(said.get("error")) and ("seq" in said or said["error"] != "stale")


def is_of_calls(said: dict[str, Any], count: int) -> bool:
    """Whether an answer may be one to so many calls: it has an answer for each, or names one of them."""
    answers = said.get("each", said.get("answers"))
    return len(answers) == count if answers is not None else int(said.get("call", 0)) <= count
