"""That pages name what there is: each path in them is one of the repository, and each name of code is a word of its sources.

And that a function or a type at the top of a module of web/moo_web/ has no namesake in another one.
"""
from __future__ import annotations

import ast
import os
import re
from pathlib import Path
from typing import Iterator, Optional

TOP = Path(__file__).resolve().parents[2]
PAGES = ("CONTRIBUTING.md", "docs/DECISIONS.md", "docs/DEFINITIONS.md", "docs/TOUR.md")
QUOTED = re.compile(r"`([^`]+)`")
SOURCE = re.compile(r"\.(rt|antt|py)$|^[^.]*$")
FILE = re.compile(r"^[\w./-]*\w\.(rt|antt|py|md|edit|txt|dump|service)$")
FOLDER = re.compile(r"^[\w.-]+(/[\w.-]+)+/?$")
# A word of several parts: of lower case with underscores, or with a capital inside.
NAME = re.compile(r"\b(?:[a-z][a-z0-9]*(?:_[a-z0-9]+)+|[A-Z][a-z]+(?:[A-Z][a-z]*)+)\b")
WORD = re.compile(r"[A-Za-z_][A-Za-z_0-9]*")
# What a reader puts a name of its own for.
MARKS = {"CRATE", "FILE", "FUNCTION", "FOLDER", "NAME", "WORD"}
# The folders that builds leave, and that of git.
MADE = {".git", ".mypy_cache", "__pycache__", "must-fail", "out"}
# Calls and types of the libraries below.
FOREIGN = {"query_all"}
# What each program of web/ has for itself.
OF_PROGRAMS = {"main", "read_words"}


def files() -> list[str]:
    """The paths of all files but those that builds leave. It needs no git, since an unpacked archive has none."""
    found = []
    for folder, folders, names in os.walk(TOP):
        folders[:] = [name for name in folders if name not in MADE]
        found += [os.path.relpath(os.path.join(folder, name), TOP) for name in names]
    return sorted(found)


def words_of(paths: list[str]) -> set[str]:
    """Every word of the sources among these files, and of their paths."""
    words: set[str] = set()
    for path in paths:
        words |= set(WORD.findall(path))
        if SOURCE.search(path.rsplit("/", 1)[-1]):
            words |= set(WORD.findall((TOP / path).read_text(errors="replace")))
    return words


def is_there(path: str, paths: list[str]) -> bool:
    """Whether a path, or the end of one, is that of a file or a folder."""
    part = f"/{path.removeprefix('./').strip('/')}"
    return any(f"/{file}".endswith(part) or f"{part}/" in f"/{file}" for file in paths)


def complaint(text: str, paths: list[str], words: set[str]) -> Optional[str]:
    """What is wrong with the names of a page, or nothing."""
    wrong: list[str] = []
    for number, line in enumerate(text.splitlines(), 1):
        for quoted in QUOTED.findall(line):
            if FILE.match(quoted) or FOLDER.match(quoted):
                if not MARKS & set(WORD.findall(quoted)) and not is_there(quoted, paths):
                    wrong.append(f"line {number}: there is no {quoted}")
            else:
                wrong += [f"line {number}: no source has {name}" for name in NAME.findall(quoted) if name not in words | FOREIGN]
    return "; ".join(wrong) or None


def names_in(text: str) -> Iterator[str]:
    """The functions, the classes and the names of types at the top of a module."""
    for node in ast.parse(text).body:
        if isinstance(node, (ast.FunctionDef, ast.ClassDef)):
            yield node.name
        elif isinstance(node, ast.Assign):
            yield from (each.id for each in node.targets if isinstance(each, ast.Name) and not each.id.isupper())


def namesakes(modules: list[tuple[str, str]]) -> Optional[str]:
    """The names that two of these modules have, each with its path and its text; or nothing."""
    first: dict[str, str] = {}
    wrong = []
    for path, text in modules:
        for name in dict.fromkeys(names_in(text)):
            if name not in OF_PROGRAMS and first.setdefault(name, path) != path:
                wrong.append(f"{first[name]} and {path} have {name}")
    return "; ".join(wrong) or None


def cases() -> Iterator[tuple[str, Optional[str]]]:
    """The name of each case, and what is wrong with it."""
    paths = files()
    words = words_of([path for path in paths if not path.startswith(("docs/", "mutants/"))])
    for page in PAGES:
        yield page, complaint((TOP / page).read_text(), paths, words)
    of_web = [path for path in paths if path.startswith("web/moo_web/") and path.endswith(".py")]
    yield "web/moo_web", namesakes([(path, (TOP / path).read_text()) for path in of_web])
