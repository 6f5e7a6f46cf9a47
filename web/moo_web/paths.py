"""The addresses of the front: one table, from which routes are read and addresses are made.

    url_for("object", number=5, page=2)     "/o/5?page=2"
    PATHS["object"].read("/o/5")            (5,)

A part in brackets is of a kind (`<number>`), which says what it may be and what a handler is given.
"""

from __future__ import annotations

import functools
import re
from typing import Any, Callable, NamedTuple
from urllib.parse import quote

from moo_web.people.person import PERSON_NAME


class Kind(NamedTuple):
    """What a part of an address may be, and what it is read as."""

    pattern: str
    read: Callable[[str], Any]


KINDS = {
    "number": Kind("[0-9]{1,10}", int),
    "batch": Kind("[0-9]{1,19}", int),
    "key": Kind("[a-z-]{1,40}", str),
    "name": Kind(PERSON_NAME.pattern, str),
    "links": Kind("children|contents|owned", str),
    "tree": Kind("parents|places|exits", str),
    # The number of an object as moo takes it, or mistakes it.
    "any": Kind("[-+0-9]{1,32}", str),
}
# So many addresses are kept: a page has up to some hundred, and the next page many of the same.
MOST_KEPT = 1 << 13
PART = re.compile(r"<(\w+)>")


class Path:
    """An address with parts of these kinds."""

    def __init__(self, text: str) -> None:
        self.text, self.kinds, self.template = text, PART.findall(text), PART.sub(r"{\1}", text)
        pieces = PART.split(text)
        pieces[1::2] = [f"({KINDS[kind].pattern})" for kind in self.kinds]
        self.pattern = re.compile("".join(re.escape(piece) if place % 2 == 0 else piece for place, piece in enumerate(pieces)))

    @classmethod
    def of_pattern(cls, pattern: str) -> Path:
        """The addresses of a regular expression. Its groups are the parts, as texts."""
        path = cls(pattern)
        path.pattern = re.compile(pattern)
        return path

    def read(self, path: str) -> tuple[Any, ...] | None:
        """The parts of an address, as handlers are given them; None if it is another one."""
        found = self.pattern.fullmatch(path)
        if found and self.kinds:
            return tuple(KINDS[kind].read(part) for kind, part in zip(self.kinds, found.groups()))
        return found.groups() if found else None

    def made(self, given: dict[str, Any]) -> str:
        """The address with these parts. Those of no name in it make the query, but for those that are None. `ValueError`: a part can't be."""
        if not self.kinds:
            return self.text + query_of(**given) if given else self.text
        path = self.template.format(**given)
        if not self.pattern.fullmatch(path):
            raise ValueError(f"{path} isn't as {self.text}")
        if len(given) == len(self.kinds):
            return path
        return path + query_of(**{key: value for key, value in given.items() if key not in self.kinds})


def query_of(**given: Any) -> str:
    """The query of these fields, with its mark, but for those that are None; by itself the same page with that query."""
    query = "&".join([f"{key}={quote(str(value))}" for key, value in given.items() if value is not None])
    return f"?{query}" if query else ""


def whole_number(text: str) -> int | None:
    """The number that a field of a query is, of at most 19 digits; None if it is something else."""
    return int(text) if re.fullmatch(KINDS["batch"].pattern, text) else None


PATHS = {
    name: Path(text) for name, text in {
        "home": "/", "find": "/find", "nowhere": "/nowhere", "roots": "/roots", "map": "/map", "tree": "/map/<tree>",
        "object": "/o/<number>", "list": "/o/<number>/<links>", "property": "/o/<number>/property", "named": "/o/<number>/named",
        "script": "/o/<number>/script", "download": "/o/<number>/script.moo",
        "history": "/history", "batch": "/history/<batch>", "done": "/done/<batch>", "undo": "/undo/<batch>", "differences": "/differences",
        "feed": "/feed", "feed_person": "/feed/people/<name>", "feed_object": "/feed/o/<number>",
        "people": "/people", "person": "/people/<name>", "deed": "/people/<name>/<key>", "link": "/link",
        "edit": "/edit/<number>", "new": "/edit/new", "class": "/class/<number>",
        "forms": "/do", "form": "/do/<key>", "editor": "/batch", "petitions": "/petitions", "petition": "/petitions/<number>", "quotas": "/quotas",
        "in": "/in", "out": "/out", "you": "/you", "password": "/you/password", "zone": "/you/zone", "token": "/you/token", "end": "/you/end",
        "programs": "/api", "about": "/about", "sheet": "/style.css", "icon": "/icon.svg",
    }.items()
}  # fmt: skip


@functools.lru_cache(MOST_KEPT)
def url_for(name: str, /, **given: Any) -> str:
    """The address of this name in `PATHS`, with its parts by their kinds; what else is given makes its query. `KeyError`: there is none."""
    return PATHS[name].made(given)


def form_for(key: str, number: int, field: str = "object") -> str:
    """The address of a form that is about an object, which is in this field of it."""
    return f"{url_for('form', key=key)}?{field}=%23{number}"
