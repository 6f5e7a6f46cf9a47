"""The program on texts and files of the present folder, and what the tables of a file hold."""
from __future__ import annotations

import os
import resource
import shutil
import sqlite3
from pathlib import Path
from typing import Any, Iterable, Optional, Union

from tests.support.columns import TABLES, Row
from tests.support.program import edit, run_bytes

# The rows of each table, by its name.
Tables = dict[str, list[Row]]

TREE = Path(__file__).with_name("tree.txt").read_text()
# The numbers of verbs here are 1, 2 and 3.
VERBS = TREE + """batch as #3
add_verb(#4, {#3, "rd", "get take"}, {"any", "in", "this"})
add_verb(#4, {#3, "rwx", "l*ook"}, {"this", "none", "none"})
add_verb(#5, {#3, "", "put"}, {"any", "any", "any"})
end
"""
# Two petitions of #4's, with the numbers 1 and 2.
ASKED = """batch as #4
petition({{"create", #1, #4}, {"set_player_flag", #4, 1}})
petition({{"set", #6, "b", {22, "x\\"y"}}})
end
"""
PETITIONS = TREE + ASKED


def run(*words: str, text: Union[str, bytes] = "", memory: Optional[int] = None) -> tuple[int, str]:
    """The status of the program, given a text, and what it writes; with no more than so many bytes of memory."""

    def bound() -> None:
        if memory:
            resource.setrlimit(resource.RLIMIT_AS, (memory, memory))

    given = text if isinstance(text, bytes) else text.encode()
    status, written = run_bytes(*words, text=given, preexec_fn=bound if memory else None)
    return status, written.decode()


def remove(file: str) -> None:
    """Removes a file of a world, and what SQLite puts beside it."""
    for end in ("", "-wal", "-shm"):
        Path(file + end).unlink(missing_ok=True)


def make(file: str, text: str = "") -> None:
    """A new world on which a text was run, in one file without a log."""
    remove(file)
    done = run("init", file)
    ran = run("apply", file, "-", text=text)
    if done != (0, "created\n") or ran[0] != 0 or ran[1].count("accepted") != text.count("batch"):
        raise AssertionError(f"{file} wasn't made: {done} {ran}")
    edit(file, "pragma wal_checkpoint(truncate)")


def copied(file: str, copy: str = "copy.db") -> str:
    """Copies a file and its log, and gives the copy's name."""
    remove(copy)
    for end in ("", "-wal"):
        if os.path.exists(file + end):
            shutil.copyfile(file + end, copy + end)
    return copy


def read(file: str, *queries: str) -> list[list[Any]]:
    """The rows of each query, from a copy, so that the file and its log stay as the program left them."""
    connection = sqlite3.connect(copied(file, "read.db"))
    connection.text_factory = lambda text: text.decode(errors="surrogateescape")
    rows = [connection.execute(query).fetchall() for query in queries]
    connection.close()
    return rows


def rows_of(file: str) -> Tables:
    """The rows of each table, in the order of their keys."""
    return dict(zip(TABLES, read(file, *(f"select * from {table} order by 1, 2" for table in TABLES))))


def tables_of(file: str) -> Tables:
    """Every table of a file, in the order in which they were made, with its rows."""
    connection = sqlite3.connect(copied(file, "read.db"))
    names = [name for (name,) in connection.execute("select name from sqlite_schema where type = 'table' order by rowid")]
    tables = {name: sorted(connection.execute(f"select * from {name}"), key=repr) for name in names}
    connection.close()
    return tables


def text_of(calls: Iterable[str], programmer: str = "#3") -> str:
    """The text of a batch, of a call a line."""
    return f"batch as {programmer}\n" + "".join(f"{call}\n" for call in calls) + "end\n"


def accepted(seq: int, *answers: object) -> str:
    """The reply to an accepted batch."""
    return f"accepted {seq}\n" + "".join(f"{answer}\n" for answer in answers) + "end\n"
