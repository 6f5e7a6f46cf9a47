"""The accounts of a front as bytes, and a copy of them in its second folder, which is on another disk."""

from __future__ import annotations

import contextlib
import os
import sqlite3
import threading
import urllib.parse
from pathlib import Path
from typing import Callable

from moolib.private import for_owner_alone

from moo_web.programs import PEOPLE_FILE, sync_folder

LOOK_EVERY = 1.0


def people_in(folder: Path) -> bytes:
    """The accounts of a front as a file of SQLite, at one moment; nothing if there are none."""
    path = folder / PEOPLE_FILE
    if not path.is_file():
        return b""
    with contextlib.closing(sqlite3.connect(f"file:{urllib.parse.quote(str(path))}?mode=rw", uri=True, timeout=10)) as source:
        with contextlib.closing(sqlite3.connect(":memory:")) as copy:
            source.backup(copy)
            return copy.serialize()


def state_of_accounts(folder: Path) -> tuple[int, int]:
    """What changes when the accounts of a folder do."""
    try:
        found = (folder / PEOPLE_FILE).stat()
    except FileNotFoundError:
        return (0, 0)
    return (found.st_mtime_ns, found.st_size)


def put_people(folder: Path, text: bytes) -> None:
    """Puts accounts into a folder, onto the disk: all of them, or none."""
    new = folder / f"{PEOPLE_FILE}.new"
    with contextlib.suppress(FileNotFoundError):
        new.unlink()
    with open(new, "xb", opener=for_owner_alone) as file:
        file.write(text)
        file.flush()
        os.fsync(file.fileno())
    new.rename(folder / PEOPLE_FILE)
    sync_folder(folder)


class Keeper(threading.Thread):
    """Keeps a copy of the accounts in a second folder. What can't be done is told, and tried again."""

    def __init__(self, folder: Path, second: Path, tell: Callable[[str], None]) -> None:
        super().__init__(name="keeper", daemon=True)
        self.folder, self.second, self.tell = folder, second, tell
        self.state = (0, 0)

    def run(self) -> None:
        while True:
            self.keep()
            threading.Event().wait(LOOK_EVERY)

    def keep(self) -> None:
        """Copies the accounts if they have changed."""
        try:
            state = state_of_accounts(self.folder)
            if state != self.state:
                put_people(self.second, people_in(self.folder))
                self.state = state
        except (OSError, sqlite3.Error) as error:
            self.tell(f"the accounts can't be copied to {self.second}: {error}")
