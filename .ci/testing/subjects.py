"""The modules of tests and the lints, by the names that `.ci/test` takes."""
from __future__ import annotations

from pathlib import Path

TOP = Path(__file__).resolve().parents[2]
MODULES = [f"{file.parent.name}.{file.stem}" for file in sorted(TOP.glob("tests/*/test_*.py"))]
TESTS = {module.replace(".test_", "."): module for module in MODULES}
FOLDERS = sorted({name.partition(".")[0] for name in TESTS})
LINTS = {file.stem: file for file in sorted(TOP.glob(".ci/lint/*.py"))}


def modules_of(words: list[str]) -> list[str]:
    """The modules and lints that words mean, each once: a folder means all of its modules. No words mean all. `ValueError` names the
    words that mean nothing."""
    unknown = [word for word in words if word not in TESTS and word not in FOLDERS and word not in LINTS]
    if unknown:
        raise ValueError(f"no subject is named {', '.join(unknown)}; there are {', '.join([*FOLDERS, *TESTS, *LINTS])}")
    found = [name for word in words for name in (in_folder(word) if word in FOLDERS else [word])]
    return list(dict.fromkeys(found)) or [*TESTS, *LINTS]


def in_folder(folder: str) -> list[str]:
    """The modules of a folder of tests."""
    return [name for name in TESTS if name.partition(".")[0] == folder]
