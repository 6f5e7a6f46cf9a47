"""That the headline's words don't grow: its clauses reach at most as many definitions of specs/ as TRUST says.

What the traits and impls that they name say by their ghosts is read too. Types of the sources and words of the kit aren't counted.
"""
from __future__ import annotations

import re
from functools import lru_cache
from pathlib import Path
from typing import Iterator, NamedTuple, Optional

TOP = Path(__file__).resolve().parents[2]
HEADLINE = TOP / "crates/moo_run_laws/src/again.rt"
CONTRACT = re.compile(r"^pub fn run_and_run_again\b.*?^\{", re.MULTILINE | re.DOTALL)
TOLD = re.compile(r"reach at most\s+(\d+)\s+definitions")
COMMENT = re.compile(r"(?:--|//)[^\n]*")
IMPORT = re.compile(r"^\s*(?:pub |unfoldable |ghost )*use (Rattle\..+?);?$", re.MULTILINE)
BETWEEN = re.compile(r", (?![^{]*\})")
DEFINED = re.compile(r"(?:(?:abbrev|unfoldable|pub|record|data) )+(\S+)")
CASE = re.compile(r"^ +([^\W\d]\w*) :", re.MULTILINE)
WORD = re.compile(r"(?<![\w'.-])(-?\w[\w'-]*)(?:\.([^\W\d][\w'-]*))?")
GHOST = re.compile(r"^ +ghost \w+(?::| =) \{.*?\};$", re.MULTILINE | re.DOTALL)
WITH_GHOSTS = re.compile(r"^(?:pub trait (\w+)|impl\b[^\n]* (\w+ for \w+)).*?^\}", re.MULTILINE | re.DOTALL)
NAMED_IMPL = re.compile(r"⟦<(\w+)\b[^⟧]* as (\w+)>⟧")


class Place(NamedTuple):
    """A definition, or a trait of a source: its module, and its name."""

    module: str
    name: str


class Said(NamedTuple):
    """What is said somewhere, and the places of the words that are known there."""

    text: str
    words: dict[str, Place]


def spoken(name: str) -> str:
    """The first word of a name as `require◌else◌`; else the name."""
    return name.strip("◌").partition("◌")[0]


def imported(path: str) -> Iterator[tuple[str, Place]]:
    """Each word that an import brings, and its place. Braces may have braces in them."""
    if path.endswith("}"):
        module, _, names = path[:-1].partition(".{")
        for name in BETWEEN.split(names):
            yield from imported(f"{module}.{name}")
    else:
        path, _, other = path.partition(" as ")
        module, _, name = path.rpartition(".")
        yield spoken(other or name), Place(module, name)


def imports(text: str) -> dict[str, Place]:
    """The words that a file imports, and their places."""
    return {word: place for path in IMPORT.findall(text) for word, place in imported(path)}


def parts(text: str) -> dict[str, str]:
    """The definitions of a file of specs/, by their names. One begins at the start of a line, or in a block after two spaces."""
    found: dict[str, str] = {}
    depth = name = ""
    for line in text.splitlines():
        if line.startswith(("module ", "abbrev mutual", "use ", "pub use ")):
            depth, name = "" if "use " in line[:8] else "  ", ""
        elif begun := DEFINED.match(line.removeprefix(depth)):
            depth, name = depth if line.startswith(depth) else "", begun[1]
        if name:
            found[name] = f"{found.get(name, '')}{line}\n"
    return found


@lru_cache(maxsize=None)
def module(name: str) -> tuple[dict[str, str], dict[str, Place]]:
    """The definitions of a module, and the words that are known in it; none if it isn't one of a specs/ of this repository."""
    crate, _, path = name.removeprefix("Rattle.").partition(".specs.")
    file = TOP / "crates" / crate / "specs" / f"{path.replace('.', '/')}.antt"
    if not file.is_file():
        return {}, {}
    text = COMMENT.sub("", file.read_text())
    found = parts(text)
    cases = {case: Place(name, word) for word, part in found.items() if re.match(" *pub data ", part) for case in CASE.findall(part)}
    return found, {**imports(text), **cases, **{spoken(word): Place(name, word) for word in found}}


@lru_cache(maxsize=None)
def ghosts() -> dict[str, Said]:
    """What the ghosts of each trait of the product say, by its name; and of each impl, as `TRAIT for TYPE`."""
    found: dict[str, Said] = {}
    for file in sorted((TOP / "crates").glob("moo*/src/**/*.rt")):
        text = COMMENT.sub("", file.read_text())
        for begun in WITH_GHOSTS.finditer(text):
            found[begun[1] or begun[2]] = Said("\n".join(GHOST.findall(begun[0])), imports(text))
    return found


def said_at(place: Place) -> Optional[Said]:
    """What a definition says, or the ghosts of a trait."""
    definitions, words = module(place.module)
    if place.name in definitions:
        return Said(definitions[place.name], words)
    return ghosts().get(place.name) if ".specs.declared." in place.module else None


def reached(said: Said) -> Iterator[Place]:
    """The places of the words of a text. A word that a module passes on is where it is defined."""
    operators = [(word, "") for word in said.text.split()]
    for word, part in WORD.findall(said.text) + operators:
        place = said.words.get(word)
        if place and part and part in module(".".join(place))[0]:
            place = Place(".".join(place), part)
        while place and place.name not in module(place.module)[0] and place.name in module(place.module)[1]:
            place = module(place.module)[1][place.name]
        if place:
            yield place


def closure(said: Said) -> set[Place]:
    """The definitions that a text reaches."""
    known: set[Place] = set()
    left = [said]
    while left:
        for place in set(reached(left.pop())) - known:
            if found := said_at(place):
                known.add(place)
                left.append(found)
    return {place for place in known if ".specs.declared." not in place.module}


def headline() -> Said:
    """The clauses of the headline, with the ghosts of the impls that they name."""
    text = COMMENT.sub("", HEADLINE.read_text())
    found = CONTRACT.search(text)
    assert found, f"{HEADLINE} has no headline"
    said = Said(found[0], imports(text))
    for kind, trait in NAMED_IMPL.findall(said.text):
        impl = ghosts()[f"{trait} for {kind}"]
        said = Said(f"{said.text}\n{impl.text}", {**said.words, **impl.words})
    return said


def cases() -> Iterator[tuple[str, object]]:
    """The name of each case, and what is wrong with it."""
    told = TOLD.search((TOP / "docs/TRUST.md").read_text())
    yield "TRUST says how many definitions the headline reaches", not told
    count = len(closure(headline()))
    yield "the headline reaches no more", bool(told and count > int(told[1])) and (
        f"it reaches {count} definitions: say it in fewer words; or, if it promises more than before, write {count} into TRUST in a commit "
        "whose message names the stronger statement and the number"
    )
