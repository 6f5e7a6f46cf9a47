"""The tables of a file, and how the files are opened that are made by the machine's own SQLite.

Journal, syncs, page size and checkpoints are those of the sqlite crate where it makes a file by itself: a write-ahead log with one sync a
commit, pages of 4,096 bytes, a checkpoint past 1,000 pages of log, and the file locked for one program.
"""
import os
import sys

sys.dont_write_bytecode = True
sys.path.insert(0, os.path.dirname(os.path.dirname(os.path.abspath(__file__))))
from tests.support.columns import FIRST_TABLES, PLAIN, object_table  # noqa: E402

PRAGMAS = [
    "PRAGMA page_size = 4096",
    "PRAGMA locking_mode = EXCLUSIVE",
    "PRAGMA journal_mode = WAL",
    "PRAGMA synchronous = FULL",
    "PRAGMA wal_autocheckpoint = 1000",
]

FIRST_HEAD, _, *FIRST_OTHERS = FIRST_TABLES
TABLES = [
    FIRST_HEAD,
    object_table(PLAIN),
    *FIRST_OTHERS,
    "CREATE TABLE slot2 (object INTEGER NOT NULL, prop INTEGER NOT NULL, owner INTEGER NOT NULL, bits INTEGER NOT NULL,"
    " value TEXT NOT NULL, PRIMARY KEY (object, prop)) STRICT",
    "CREATE TABLE petition (id INTEGER NOT NULL PRIMARY KEY, who INTEGER NOT NULL, calls TEXT NOT NULL) STRICT",
    "CREATE TABLE petition_head (id INTEGER NOT NULL PRIMARY KEY, next_petition INTEGER NOT NULL) STRICT",
]
