"""The file of SQLite in which a front keeps its people: its tables, and changes of it that are done whole or not at all."""

from __future__ import annotations

import contextlib
import os
import sqlite3
import threading
import time
from pathlib import Path
from typing import Any, Callable, Iterator

from moo_web.people.audit import Audit, no_audit

# What makes each version of the file of the one before it. The first makes it of nothing.
STEPS = (
    """
CREATE TABLE person (name TEXT PRIMARY KEY COLLATE NOCASE, number INTEGER NOT NULL, password TEXT NOT NULL,
    is_disabled INTEGER NOT NULL, made REAL NOT NULL) WITHOUT ROWID;
CREATE TABLE session (hash BLOB PRIMARY KEY, name TEXT NOT NULL COLLATE NOCASE, form TEXT NOT NULL,
    made REAL NOT NULL, seen REAL NOT NULL) WITHOUT ROWID;
CREATE TABLE token (hash BLOB PRIMARY KEY, name TEXT NOT NULL COLLATE NOCASE, made REAL NOT NULL) WITHOUT ROWID;
CREATE TABLE place (name TEXT NOT NULL COLLATE NOCASE, address TEXT NOT NULL, seen REAL NOT NULL,
    PRIMARY KEY (name, address)) WITHOUT ROWID
""",
    """
ALTER TABLE session ADD COLUMN address TEXT NOT NULL DEFAULT '';
ALTER TABLE token ADD COLUMN label TEXT NOT NULL DEFAULT '';
ALTER TABLE token ADD COLUMN until REAL;
ALTER TABLE token ADD COLUMN used REAL;
ALTER TABLE token ADD COLUMN is_read_only INTEGER NOT NULL DEFAULT 0;
CREATE TABLE link (name TEXT PRIMARY KEY COLLATE NOCASE, hash BLOB NOT NULL, until REAL NOT NULL) WITHOUT ROWID
""",
)
VERSION = len(STEPS)


class Wrong(Exception):
    """It can't be done, for this reason."""


class PeopleFile:
    """The file, which is made if it isn't there, and brought to the present version. Threads may share it."""

    def __init__(self, path: Path, clock: Callable[[], float] = time.time) -> None:
        self.path, self.clock = path, clock
        # Is told what is done, for the log.
        self.audit: Audit = no_audit
        self.lock = threading.RLock()
        os.close(os.open(path, os.O_RDWR | os.O_CREAT, 0o600))
        self.base = sqlite3.connect(path, timeout=10, isolation_level=None, check_same_thread=False)
        with self.change():
            self.migrate()

    def migrate(self) -> None:
        """Brings the file to the present version, within a transaction. `Wrong`: it is of a later one."""
        version = self.base.execute("PRAGMA user_version").fetchone()[0]
        if not 0 <= version <= VERSION:
            raise Wrong(f"{self.path} has version {version}, and this program reads versions up to {VERSION}")
        for statement in ";".join(STEPS[version:]).split(";"):
            self.base.execute(statement)
        if version < VERSION:
            self.base.execute(f"PRAGMA user_version = {VERSION}")

    def close(self) -> None:
        """Lets the file go."""
        with self.lock:
            self.base.close()

    @contextlib.contextmanager
    def change(self) -> Iterator[None]:
        """A transaction that changes something: all of it, or nothing."""
        with self.lock:
            self.base.execute("BEGIN IMMEDIATE")
            try:
                yield
                self.base.execute("COMMIT")
            except BaseException:
                # On a full disk SQLite has done it by itself.
                if self.base.in_transaction:
                    self.base.execute("ROLLBACK")
                raise

    def note(self, query: str, *given: Any) -> None:
        """Notes that something was used. On a full disk it isn't noted, and people go on reading."""
        with contextlib.suppress(sqlite3.OperationalError), self.change():
            self.base.execute(query, given)

    def row(self, query: str, *given: Any) -> Any:
        """The first row of a query, or None."""
        with self.lock:
            return self.base.execute(query, given).fetchone()

    def rows(self, query: str, *given: Any) -> list[Any]:
        """All rows of a query."""
        with self.lock:
            return self.base.execute(query, given).fetchall()

    def must_be(self, name: str) -> None:
        """`Wrong` if nobody has this name."""
        if not self.row("SELECT 1 FROM person WHERE name = ?", name):
            raise Wrong(f"nobody has the name {name}")
