"""The tables of a file, in the order in which they are made, and the columns of each, its key first; rows of the table of objects, and how
they are told in a dump. For the tests and the measurements in bench/.

The slots are in slot2. The table slot is that of the first version, and empty.
"""
from __future__ import annotations

from typing import Iterable, Union

# What a cell of a table holds, and a row of cells.
Cell = Union[int, str]
Row = tuple[Cell, ...]
FLAGS = "player programmer wizard r w f".split()
# A plain object's cells: one of #3's under #1, in no place.
PLAIN: dict[str, Cell] = {"n": 0, "name": "", "owner": 3, "parent": 1, "location": -1, **dict.fromkeys(FLAGS, 0), "accept": ""}
TABLES = {
    "head": "id version seq top next_prop next_verb".split(),
    "object": list(PLAIN),
    "prop": "id definer name".split(),
    "slot": "object prop owner bits value".split(),
    "verb": "object id names owner bits dobj prep iobj".split(),
    "slot2": "object prop owner bits value".split(),
    "petition": "id who calls".split(),
    "petition_head": "id next_petition".split(),
}
# The columns of objects in the first version, for ever.
FIRST_OBJECT = "n name owner parent location player programmer wizard r w f accept".split()


def object_table(columns: Iterable[str]) -> str:
    """The statement that makes a table of objects with these columns."""
    key, *others = [f"{column} {'TEXT' if column in ('name', 'accept') else 'INTEGER'} NOT NULL" for column in columns]
    return f"CREATE TABLE object ({', '.join([f'{key} PRIMARY KEY', *others])}) STRICT"


# What makes the tables of the first version.
FIRST_TABLES = [
    "CREATE TABLE head (id INTEGER NOT NULL PRIMARY KEY, version INTEGER NOT NULL, seq INTEGER NOT NULL, top INTEGER NOT NULL, "
    "next_prop INTEGER NOT NULL, next_verb INTEGER NOT NULL) STRICT",
    object_table(FIRST_OBJECT),
    "CREATE TABLE prop (id INTEGER NOT NULL PRIMARY KEY, definer INTEGER NOT NULL, name TEXT NOT NULL) STRICT",
    "CREATE TABLE slot (object INTEGER NOT NULL, prop INTEGER NOT NULL, owner INTEGER NOT NULL, bits TEXT NOT NULL, value TEXT NOT NULL, "
    "PRIMARY KEY (object, prop)) STRICT",
    "CREATE TABLE verb (object INTEGER NOT NULL, id INTEGER NOT NULL, names TEXT NOT NULL, owner INTEGER NOT NULL, bits TEXT NOT NULL, "
    "dobj TEXT NOT NULL, prep TEXT NOT NULL, iobj TEXT NOT NULL, PRIMARY KEY (object, id)) STRICT",
]


def thing(number: int, name: str = "", **cells: Cell) -> Row:
    """The row of an object that is plain but for these cells."""
    row: dict[str, Cell] = {**PLAIN, "n": number, "name": name, **cells}
    if len(row) > len(PLAIN):
        raise ValueError(f"{cells} has no column of object")
    return tuple(row.values())


# The objects of a new world.
OPENING_OBJECTS = [
    thing(0, "System Object"),
    thing(1, "Root Class", parent=-1, f=1),
    thing(2, "The First Room", accept="{#1}"),
    thing(3, "Wizard", location=2, player=1, programmer=1, wizard=1),
]


def first_objects(rows: Iterable[Row]) -> list[Row]:
    """The rows of objects in the first version."""
    return [tuple(dict(zip(PLAIN, row))[column] for column in FIRST_OBJECT) for row in rows]


def inserted(table: str, row: Row) -> tuple[str, Row]:
    """A statement that puts a row into a table, with its values."""
    return f"insert into {table} values ({', '.join('?' * len(row))})", row


def told(column: str, cell: Cell) -> str:
    """A cell of an object as a dump tells it. The accept list is one that moo spelled."""
    if column in ("n", "owner", "parent", "location"):
        return f"#{cell}"
    if column == "name":
        return '"' + str(cell).replace("\\", "\\\\").replace('"', '\\"') + '"'
    return str(cell) or "0"


def object_line(row: Row) -> str:
    """The line of an object in a dump."""
    return "object {" + ", ".join(told(*pair) for pair in zip(PLAIN, row)) + "}"
