"""That the types of tools/, bench/, packaging/, tests/support/, web/, docs/ and the scripts of .ci/ agree, by Debian's mypy.

Without mypy this is left out. It can't read .ci/lint/, since this file has the name of a module of the standard library.
"""
from __future__ import annotations

import shutil
import subprocess
import unittest
from pathlib import Path
from typing import Iterator, Optional

TOP = Path(__file__).resolve().parents[2]
MYPY = "/usr/bin/mypy"
WHAT = ("tools", "bench", "packaging", "packaging/python", "tests/support", "web", "web/moo_web", "docs", ".ci")


def is_script(path: Path) -> bool:
    """Whether a file is a script of Python, whatever its name."""
    if path.suffix or not path.is_file():
        return False
    with path.open("rb") as file:
        first = file.readline()
    return first.startswith(b"#!") and b"python" in first


def modules(folder: Path) -> list[str]:
    """The modules, packages and scripts right in a folder."""
    packages = [path.parent for path in folder.glob("*/__init__.py")]
    return [str(path) for path in sorted([*folder.glob("*.py"), *packages, *filter(is_script, folder.iterdir())])]


def complaint(folder: str) -> Optional[str]:
    """What mypy says of a folder, or nothing."""
    flags = ["--config-file", ".ci/mypy.ini", "--cache-dir", "/dev/null", "--no-error-summary", "--scripts-are-modules"]
    words = [MYPY, *flags, *modules(TOP / folder)]
    ran = subprocess.run(words, cwd=TOP, stdout=subprocess.PIPE, stderr=subprocess.STDOUT, text=True)
    return None if ran.returncode == 0 else "; ".join(ran.stdout.splitlines()[:5])


def cases() -> Iterator[tuple[str, Optional[str]]]:
    """The name of each case, and what is wrong with it."""
    if not shutil.which(MYPY):
        raise unittest.SkipTest("mypy is missing: apt-get install mypy")
    for folder in WHAT:
        yield folder, complaint(folder)
