"""That the pages, the manual pages and the client for Python have the version that the program states, and CHANGELOG begins with it."""
from __future__ import annotations

import re
from pathlib import Path
from typing import Iterator

TOP = Path(__file__).resolve().parents[2]
# A package is installed by the name of its file, which has the version.
PACKAGES = r"install \./out/moo(?:-web)?_(\d[\d.]*\d)_"


def found(file: str, pattern: str) -> list[str]:
    """What a pattern finds in a file."""
    return re.findall(pattern, (TOP / file).read_text(), re.MULTILINE)


def stated() -> str:
    """The version that the program states."""
    (version,) = found("crates/moo_cli/src/help.rt", r'VERSION: &str = "(.*)"')
    return version


def others(file: str, pattern: str) -> list[str]:
    """The versions in a file that aren't the program's; the pattern itself, if there is none."""
    versions = found(file, pattern)
    return [version for version in versions if version != stated()] if versions else [f"nothing is like {pattern}"]


def cases() -> Iterator[tuple[str, object]]:
    """The name of each case, and what is wrong with it."""
    yield "CHANGELOG begins with the program's version", others("CHANGELOG.md", r"\A(?:(?!^## ).*\n)*## (.*)$")
    for page in ("README.md", "docs/OPERATING.md"):
        yield f"{page} names packages of this version", others(page, PACKAGES)
    for page in ("README.md", "docs/BENCHMARKS.md"):
        yield f"{page} has the figures of this version", others(page, r"\bversion (\d[\d.]*\d)[.,]")
    manuals = [path for folder in ("docs", "packaging", "packaging/web") for path in sorted((TOP / folder).glob("*.1"))]
    for manual in manuals:
        yield f"{manual.name} is of this version", others(str(manual.relative_to(TOP)), r'^\.TH .* "moo (.*)" "')
    yield "the client for Python is of this version", others("pyproject.toml", r'^version = "(.*)"$')
    yield "each program in Python is of this version", others("tools/moolib/__init__.py", r'^__version__ = "(.*)"$')
