"""That the pages agree with the repository: the length of the front page, the picture and its crates, links, and the counts of REFUSED.

The commands of the front page are run by tests/packages/test_front_page.py.
"""
from __future__ import annotations

import re
import subprocess
import sys
from pathlib import Path
from typing import Iterator

TOP = Path(__file__).resolve().parents[2]
LONGEST_README = 120
PAGES = [*sorted(TOP.glob("*.md")), *sorted(TOP.glob("docs/*.md"))]


def misdrawn() -> str:
    """What is wrong with the picture of the crates, or nothing: it isn't that of its text, lacks a crate, or a crate uses one that it may not."""
    ran = subprocess.run([sys.executable, TOP / "docs/draw_architecture.py", "--check"], stderr=subprocess.PIPE, text=True, check=False)
    return ran.stderr.strip() or ("run docs/draw_architecture.py" if ran.returncode else "")


def anchors(page: Path) -> set[str]:
    """The names by which links lead to the headings of a page."""
    headings = re.findall(r"^#+ (.*)$", page.read_text(), re.MULTILINE)
    return {re.sub(r"[^\w -]", "", heading.lower()).replace(" ", "-") for heading in headings}


def broken_links() -> Iterator[str]:
    """Each link of a page that leads nowhere: to no file, or to no heading of a page."""
    for page in PAGES:
        for target, anchor in re.findall(r"\]\(([^)#:]*)(?:#([^)]*))?\)", page.read_text()):
            file = page.parent / target if target else page
            if not file.exists() or (anchor and anchor not in anchors(file)):
                yield f"{page.name}: {target}#{anchor}" if anchor else f"{page.name}: {target}"


def without_readers() -> list[str]:
    """The pages that don't begin with whom they are for. README is for everybody."""
    begins = {page.name: page.read_text().split("\n\n")[1] for page in PAGES if page.name != "README.md"}
    return [name for name, first in begins.items() if not first.startswith("For ")]


def miscounted() -> str:
    """What is wrong with the mutants, or with their counts on REFUSED, or nothing."""
    return subprocess.run([TOP / ".ci/refused", "--check"], stderr=subprocess.PIPE, text=True).stderr.strip()


def cases() -> Iterator[tuple[str, object]]:
    """The name of each case, and what is wrong with it."""
    yield "README is short", len((TOP / "README.md").read_text().splitlines()) > LONGEST_README
    yield "the picture is that of its text, and of crates.txt", misdrawn()
    yield "each link leads somewhere", list(broken_links())
    yield "each page says first whom it is for", without_readers()
    yield "REFUSED says how many mutants there are", miscounted()
