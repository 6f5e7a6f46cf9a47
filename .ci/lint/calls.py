"""That web/ and tools/ understand a call by `moolib` alone: nothing else there looks at the front or the brackets of a text for one.

It looks at the patterns by which texts are searched, cut and compared: those of `re`, and those of the methods of strings. One with a bracket
of its own, or with the name of a call of moo as a word, has to be in EXEMPT.
"""
from __future__ import annotations

import ast
import re
import sys
from pathlib import Path
from typing import Iterator, NamedTuple, Optional

TOP = Path(__file__).resolve().parents[2]
sys.path.insert(0, str(TOP / "tools"))
from moolib.calls import NAMES  # noqa: E402

FOLDERS = ("web", "tools")
# The readers themselves; and files of LambdaMOO and its programs, whose calls are of another language.
READERS = ("tools/moolib/calls.py", "tools/moolib/begun.py", "tools/lambdamoo/")
OF_RE = ("compile", "match", "fullmatch", "search", "split", "sub", "findall", "finditer")
OF_STRINGS = (
    "startswith", "endswith", "removeprefix", "removesuffix", "partition", "rpartition", "split", "rsplit", "index", "rindex", "find", "rfind",
    "count", "strip", "lstrip", "rstrip",
)  # fmt: skip
# In a pattern an open bracket that is meant, and not one of a group; and a backslash that is.
BRACKET = re.compile(r"\\\(|\[[^\]]*\([^\]]*\]")
BACKSLASH = r"\\"
OF_TEMPLATES = re.compile(r"\.(?:startswith|endswith|split|index|find)\(\s*(\"[^\"]*\"|'[^']*')")
# The files and the begins of the patterns that only look like it, and what they are about.
EXEMPT = {
    ("web/moo_web/world/dumped.py", "petition "): "a line of a dump",
    ("web/moo_web/world/dumped.py", "^(?:slot "): "lines of a dump",
    ("web/moo_web/journal/since.py", "petition"): "lines of a journal that may have one, whose calls are read afterwards",
    ("tools/moo_shell/elsewhere.py", "(create|drop|grant|table|set|show)"): "SQL",
    ("tools/moo_shell/elsewhere.py", "(?:say|emote|page|whisper|get"): "what people write who play",
}


class Look(NamedTuple):
    """A place where a text is looked at: its file, line and pattern."""

    path: str
    line: int
    pattern: str
    is_of_re: bool


def text_of(node: ast.expr) -> str:
    """The text of a constant, or of the constant parts of an f-string; empty for anything else."""
    if isinstance(node, ast.Constant) and isinstance(node.value, (str, bytes)):
        return node.value.decode("latin-1") if isinstance(node.value, bytes) else node.value
    if isinstance(node, ast.JoinedStr):
        return "".join(part.value for part in node.values if isinstance(part, ast.Constant))
    return ""


def looks_in(path: str, text: str) -> Iterator[Look]:
    """The places of a file of Python."""
    for node in ast.walk(ast.parse(text)):
        if not isinstance(node, ast.Call) or not isinstance(node.func, ast.Attribute) or not node.args:
            continue
        is_of_re = isinstance(node.func.value, ast.Name) and node.func.value.id == "re"
        if node.func.attr in (OF_RE if is_of_re else OF_STRINGS):
            first = node.args[0]
            for one in first.elts if isinstance(first, ast.Tuple) else [first]:
                yield Look(path, node.lineno, text_of(one), is_of_re)


def looks_in_template(path: str, text: str) -> Iterator[Look]:
    """The places of a template."""
    for number, line in enumerate(text.splitlines(), 1):
        for found in OF_TEMPLATES.finditer(line):
            yield Look(path, number, found[1][1:-1], False)


def all_looks() -> Iterator[Look]:
    """The places of all files."""
    for folder in FOLDERS:
        for path in sorted((TOP / folder).rglob("*")):
            name = str(path.relative_to(TOP))
            if not path.is_file() or name.startswith(READERS) or "__pycache__" in name:
                continue
            if path.suffix == ".html":
                yield from looks_in_template(name, path.read_text())
            elif path.suffix == ".py" or path.read_bytes().startswith(b"#!/usr"):
                yield from looks_in(name, path.read_text())


def is_about_calls(look: Look) -> bool:
    """Whether a text is looked at for a call."""
    if any(look.path == path and look.pattern.startswith(begin) for path, begin in EXEMPT):
        return False
    words = re.findall(r"[a-z_]+", look.pattern)
    has_bracket = bool(BRACKET.search(look.pattern.replace(BACKSLASH, ""))) if look.is_of_re else bool({*"()"} & {*look.pattern})
    return has_bracket or any(word in NAMES for word in words)


def complaint(looks: list[Look]) -> Optional[str]:
    """The places where a text is looked at for a call, or nothing."""
    return "; ".join(f"{look.path}:{look.line} {look.pattern!r}" for look in looks if is_about_calls(look)) or None


def cases() -> Iterator[tuple[str, Optional[str]]]:
    """Each file with a place, and what is wrong there."""
    looks = list(all_looks())
    for path in sorted({look.path for look in looks}):
        yield path, complaint([look for look in looks if look.path == path])
    yield "it sees a prefix", None if is_about_calls(Look("", 1, "create", False)) else "it doesn't"
