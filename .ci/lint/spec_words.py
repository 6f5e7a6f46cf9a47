"""That a word means one thing: no two files of specs/ define the same one. And that a reader learns which: `.ci/words` prints its comment.

docs/DEFINITIONS.md has words that there are.
"""
from __future__ import annotations

import re
from collections import defaultdict
from pathlib import Path
from typing import Iterator, Union

from definitions import of_sources, of_specs

TOP = Path(__file__).resolve().parents[2]
# The model's world, and the struct that keeps one over a connection; a row with one field changed, and a map with one key changed.
TWO_THINGS = {"World", "changed"}
# The definitions without a comment, of which most say it by their name. It may only be made less.
MOST_WITHOUT_COMMENT = 466


def files_of_words() -> dict[str, set[str]]:
    """The files that define each word, by their names below crates/."""
    files: dict[str, set[str]] = defaultdict(set)
    for each in of_specs():
        files[each.word].add(each.file)
    return files


def words_told() -> list[str]:
    """The words that begin the rows of DEFINITIONS."""
    rows = [row.split("|")[1] for row in (TOP / "docs/DEFINITIONS.md").read_text().splitlines() if row.startswith("| `")]
    return sorted({word for row in rows for text in re.findall(r"`([^`]*)`", row) for word in re.findall(r"[A-Za-z]\w+", text)})


def cases() -> Iterator[tuple[str, Union[dict[str, list[str]], list[str], str, None]]]:
    """The name of each case, and what is wrong with it."""
    files, declared = files_of_words(), {each.word for each in of_sources()}
    yield "a word of specs/ means one thing", {
        word: sorted(named) for word, named in files.items() if len(named) > 1 and word not in TWO_THINGS
    }
    yield "DEFINITIONS has words that there are", [word for word in words_told() if word not in files and word not in declared]
    bare = sum(not each.comment for each in of_specs())
    yield "a new definition has a comment", f"{bare} have none, and {MOST_WITHOUT_COMMENT} had" if bare > MOST_WITHOUT_COMMENT else None
