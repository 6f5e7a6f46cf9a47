"""Files of the first version: five tables, made by SQLite itself, with rows that are given."""
from __future__ import annotations

import sqlite3

from tests.support.columns import FIRST_TABLES, first_objects, inserted
from tests.support.worlds import Tables, remove


def letters(number: int) -> str:
    """The letters of the rights that a number stands for."""
    return ("r" if number & 4 else "") + ("w" if number & 2 else "") + ("c" if number & 1 else "")


def first_rows(rows: Tables) -> Tables:
    """The rows of the first version for those of the second."""
    ((number, _, *head),) = rows["head"]
    slots = [(*row[:3], letters(int(row[3])), row[4]) for row in rows["slot2"]]
    return {
        "head": [(number, 1, *head)], "object": first_objects(rows["object"]), "prop": rows["prop"], "slot": slots, "verb": rows["verb"]
    }


def make_first(file: str, rows: Tables) -> None:
    """A file of the first version with these rows."""
    remove(file)
    connection = sqlite3.connect(file)
    for statement in FIRST_TABLES:
        connection.execute(statement)
    for table, part in rows.items():
        for row in part:
            connection.execute(*inserted(table, row))
    connection.commit()
    connection.close()
