"""That the packages, the manual pages and the pages name no address but those that exist: Debian's, and example.org's in examples.

The makers have no address that is open to everybody. So a package has no field for one, and its maintainer is a name alone.
"""
from __future__ import annotations

import re
from pathlib import Path
from typing import Iterator

TOP = Path(__file__).resolve().parents[2]
FIELDS = ("Homepage", "Vcs-Browser", "Vcs-Git", "Bugs", "Origin", "Upstream-Contact", "Source")
# Those that exist, this machine, a socket as nginx writes it, and what RFC 2606 keeps for examples.
KNOWN = re.compile(r"(?:.*\.)?(?:debian\.org|w3\.org|example\.org|127\.0\.0\.1|localhost|unix)$")
FOLDERS = ("packaging", "docs", "examples", "dist")


def texts() -> Iterator[tuple[str, str]]:
    """Each file that goes to whoever uses moo, and its text."""
    files = [*TOP.glob("*.md"), TOP / "pyproject.toml", *(path for folder in FOLDERS for path in (TOP / folder).rglob("*"))]
    for path in sorted(files):
        if path.is_file() and path.suffix not in (".png", ".xz", ".py", ".pyc"):
            yield str(path.relative_to(TOP)), path.read_text()


def hosts(text: str) -> list[str]:
    """The machines that addresses of the web in a text name."""
    return re.findall(r"\b(?:https?|ftp|git|ssh)://(?:[^/@\s]*@)?([A-Za-z0-9.-]+)", text)


def letters(text: str) -> list[str]:
    """The addresses for letters in a text. A unit of systemd for a world looks like one."""
    found = re.findall(r"(?<![\w@/.-])[\w.+-]+@[\w-]+(?:\.[\w-]+)+", text)
    return [address for address in found if not re.search(r"\.(?:service|socket|timer|conf)\b", address)]


def unknown() -> Iterator[str]:
    """Each address of a file that isn't known."""
    for name, text in texts():
        for address in [*(host for host in hosts(text) if not KNOWN.match(host)), *letters(text)]:
            yield f"{name}: {address}"


def cases() -> Iterator[tuple[str, object]]:
    """The name of each case, and what is wrong with it."""
    yield "each address is one that exists", list(unknown())
    for control in sorted(TOP.glob("packaging/**/debian/*")):
        named = re.findall(rf"^({'|'.join(FIELDS)}|Maintainer):(.*)$", control.read_text(), re.MULTILINE)
        wrong = [field for field, value in named if field != "Maintainer" or re.search("[@<]", value)]
        yield f"{control.relative_to(TOP)} has no field for an address", wrong
