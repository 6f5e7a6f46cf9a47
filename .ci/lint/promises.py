"""That PROMISES names what there is: each clause in its last column is one that a call in its row ensures, or a word of specs/."""
from __future__ import annotations

import re
from collections import defaultdict
from pathlib import Path
from typing import Iterator, NamedTuple, Optional

TOP = Path(__file__).resolve().parents[2]
FUNCTION = re.compile(r"\bfn (\w+)")
CLAUSE = re.compile(r"^\s*(?:ensures|requires) (\w+) \{")
QUOTED = re.compile(r"`([^`]*)`")
WORD = re.compile(r"[A-Za-z]\w*")
DECLARED = re.compile(r"^ *(?:pub |abbrev |unfoldable )*([A-Za-z]\w*) *:", re.MULTILINE)
NO_CLAUSES = {"impl", "requires", "result"}


class Row(NamedTuple):
    """A row of the table: its promise, and the texts of its calls and of its clauses. 'The same' is filled in."""

    promise: str
    calls: str
    clauses: str


def clauses_of_functions() -> dict[str, set[str]]:
    """The names of the clauses of each function, by its name alone. A struct's and a trait's functions are among them."""
    clauses: dict[str, set[str]] = defaultdict(set)
    for source in sorted((TOP / "crates").glob("moo*/src/**/*.rt")):
        name = ""
        for line in source.read_text().splitlines():
            if found := CLAUSE.match(line):
                clauses[name].add(found[1])
            elif found := FUNCTION.search(line.split("//")[0]):
                name = found[1]
                clauses[name] |= set()
    return clauses


def words_of_specs() -> set[str]:
    """Each word that specs/ or a declaration in the sources has: definitions, constructors, and fields."""
    words: set[str] = set()
    for file in (TOP / "crates").glob("moo*/specs/**/*.antt"):
        words |= set(WORD.findall(file.read_text()))
    for file in (TOP / "crates").glob("moo*/src/**/*.rt"):
        words |= set(re.findall(r"(?:struct|enum|trait|impl|ghost) (\w+)", file.read_text()))
    return words


def names_in_proofs() -> set[str]:
    """What the proofs declare: lemmas are among them."""
    return {name for file in (TOP / "crates").glob("moo*/proofs/**/*.antt") for name in DECLARED.findall(file.read_text())}


def rows() -> Iterator[Row]:
    """The rows of PROMISES under 'Proved' that promise something."""
    last = Row("", "", "")
    proved = (TOP / "docs/PROMISES.md").read_text().split("\n## Proved\n")[1].split("\n## ")[0]
    for line in proved.splitlines():
        cells = [cell.strip() for cell in re.split(r"(?<!\\)\|", line)[1:-1]]
        if len(cells) != 3 or set(line) <= set("|- ") or cells[0] == "promise" or not cells[1]:
            continue
        calls = f"{cells[1]}; {last.calls}" if "same" in cells[1] else cells[1]
        clauses = last.clauses if cells[2] == "the same" else cells[2].replace("the same", "")
        last = Row(cells[0], calls, clauses)
        yield last


def without_brackets(text: str) -> tuple[str, str]:
    """What of a text is outside of round brackets, and what is in them."""
    inside = " ".join(re.findall(r"\(([^()]*)\)", text))
    return re.sub(r"\([^()]*\)", "", text), inside


def without_lemmas(text: str) -> tuple[str, str]:
    """What of a text names clauses, and what names lemmas beside them."""
    parts = text.split(";")
    return ";".join(part for part in parts if "lemma" not in part), ";".join(part for part in parts if "lemma" in part)


def wrong_in(row: Row, clauses: dict[str, set[str]], words: set[str], proofs: set[str]) -> Optional[str]:
    """Which word of a row names nothing, or nothing of its calls; None if each is right."""
    named = {part for quoted in QUOTED.findall(row.calls) for part in WORD.findall(quoted)}
    ensured = {clause for name in named for clause in clauses.get(name, ())}
    is_of_any = not any(name in clauses for name in named) or "each" in row.calls
    outside, inside = without_brackets(row.clauses)
    outside, lemmas = without_lemmas(outside)
    if unknown := [word for quoted in QUOTED.findall(lemmas) for word in WORD.findall(quoted) if word not in proofs]:
        return f"`{unknown[0]}` is no lemma"
    # A field of a word of specs/ is named with it.
    is_field = "field" in outside or any(word[0].isupper() for quoted in QUOTED.findall(outside) for word in WORD.findall(quoted))
    for quoted in QUOTED.findall(outside):
        for word in set(WORD.findall(quoted)) - NO_CLAUSES:
            if word[0].isupper() or word in clauses:
                if word not in words and word not in clauses:
                    return f"`{word}` isn't in specs/"
            elif word not in ensured and not (is_of_any and any(word in each for each in clauses.values())) and not (
                is_field and word in words
            ):
                return f"`{word}` isn't a clause of {row.calls}"
    missing = [word for quoted in QUOTED.findall(inside) for word in WORD.findall(quoted) if word not in words and word not in clauses]
    return f"`{missing[0]}` isn't a word of specs/" if missing else None


def cases() -> Iterator[tuple[str, Optional[str]]]:
    """The name of each case, and what is wrong with it."""
    clauses, words, proofs = clauses_of_functions(), words_of_specs(), names_in_proofs()
    for row in rows():
        yield row.promise[:60], wrong_in(row, clauses, words, proofs)
