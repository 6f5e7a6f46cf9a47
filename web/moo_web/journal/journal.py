"""The journal of a world's one writer: what it found at its start, and how a line is put into it for good.

Its segments are in one folder, or in two of two disks; a line counts when it is in both. One process holds the folders (`flock`).
"""

from __future__ import annotations

import concurrent.futures
import contextlib
import fcntl
import os
import time
from pathlib import Path
from typing import Any, Callable

from moo_web.journal.mending import Survey, whole_journal
from moo_web.journal.segments import FIRST_SUM, VERSION, new_line

SEGMENT_BYTES = 1 << 26
GAP_ADVICE = (
    "Nothing is written until an operator decides. If the world is right as it is, stop the front and start it with --rebase: the journal "
    "begins anew at its number. If another copy was served by mistake, put the right one back first, and bring it up by moo-replay"
)


class InUse(Exception):
    """Another front holds the folder."""


class NoRoom(Exception):
    """A line couldn't be written, and the journal is on the disk as it was before."""


class Broken(Exception):
    """A line may or may not be on the disk: nothing more may be written until the next start."""


def hold(folder: Path) -> int:
    """Locks a folder for this process, and gives what holds the lock. `InUse`: another process has it."""
    opened = os.open(folder, os.O_RDONLY | os.O_DIRECTORY)
    try:
        fcntl.flock(opened, fcntl.LOCK_EX | fcntl.LOCK_NB)
    except OSError:
        os.close(opened)
        raise InUse(f"{folder} is in use by another front") from None
    return opened


def write_whole(file: int, text: bytes) -> None:
    """Writes all bytes, or raises what the system said."""
    while text:
        text = text[os.write(file, text) :]


class HeldFolder:
    """One folder of a journal, which this process holds, and its last segment, open."""

    def __init__(self, folder: Path) -> None:
        self.folder = folder
        self.held = hold(folder)
        self.file, self.size = -1, 0

    def made(self, name: str, text: bytes) -> int:
        """Makes a file of this name and text, on the disk, and gives it open. If that fails there is no such file."""
        file = os.open(self.folder / name, os.O_RDWR | os.O_APPEND | os.O_CREAT | os.O_EXCL, 0o600)
        try:
            write_whole(file, text)
            os.fsync(file)
            os.fsync(self.held)
        except OSError:
            os.close(file)
            self.remove(name)
            raise
        return file

    def remove(self, name: str) -> None:
        """Removes a file for good."""
        (self.folder / name).unlink()
        os.fsync(self.held)

    def go_on_in(self, file: int, size: int) -> None:
        """Takes this open file of so many bytes for the last segment."""
        if self.file >= 0:
            os.close(self.file)
        self.file, self.size = file, size

    def cut(self) -> None:
        """Takes back what was written after the last whole line, for good."""
        os.ftruncate(self.file, self.size)
        os.fsync(self.file)

    def close(self) -> None:
        """Lets the folder go."""
        if self.file >= 0:
            os.close(self.file)
        os.close(self.held)


class Journal:
    """The journal in one folder, or in two, checked and made whole, to be written by this process alone.

    After the start `seq` is the world's number by the journal, None if the journal is empty; `open_intents` are those whose outcome isn't
    known; `gap` is the line that stopped writing, if no `base` came after it; `moment` is that of the last line. `tell` is given a sentence
    for each thing that an operator should know.

    `InUse`: another front holds a folder. `Damaged`: a line isn't as it was written, or the two folders have different journals.
    """

    def __init__(self, folder: Path, second: Path | None, tell: Callable[[str], None], segment_bytes: int = SEGMENT_BYTES) -> None:
        self.tell, self.segment_bytes = tell, segment_bytes
        self.seq: int | None = None
        self.open_intents: list[dict[str, Any]] = []
        self.gap: dict[str, Any] | None = None
        self.moment, self.sum, self.number = 0.0, FIRST_SUM, 0
        self.places: list[HeldFolder] = []
        # Which history of the world this is: another one begins whenever the journal is begun anew.
        self.branch = FIRST_SUM
        self.is_broken = self.is_old = False
        # Is given the seconds that each sync takes.
        self.note_sync: Callable[[float], None] = lambda seconds: None
        self.syncing = concurrent.futures.ThreadPoolExecutor(1, "second-disk")
        try:
            for each in [folder] if second is None else [folder, second]:
                self.places.append(HeldFolder(each))
            found = whole_journal([place.folder for place in self.places], tell)
            if found.reading.segments:
                self.take(found)
        except BaseException:
            self.close()
            raise

    def take(self, found: Survey) -> None:
        """Goes on after what was found."""
        self.sum, self.number = found.reading.sum, found.reading.segments[-1].number
        self.seq, self.moment, self.gap = found.seq, found.moment, found.gap
        self.open_intents, self.branch = found.open_intents(), found.branch
        # Its lines are of an older version, and no segment has lines of two.
        self.is_old = found.reading.segments[-1].version != VERSION
        for place in self.places:
            place.go_on_in(os.open(place.folder / found.reading.segments[-1].path.name, os.O_RDWR | os.O_APPEND), found.reading.end)
            os.fsync(place.held)
        # A front that was killed may have left an intent, and a segment, that aren't on the disk yet; and what is open is sent soon.
        self.sync()

    def begin(self, seq: int, moment: float, why: str) -> None:
        """Begins a segment at this number of the world; `why` is `new`, `full` or `rebase`.

        `NoRoom`: a file couldn't be made, and none is there. `Broken`: one is there that couldn't be removed.
        """
        if self.number:
            # The new segment has the last sum of this one, which so has to be there whatever is lost with the power.
            self.sync()
        branch = {"new": FIRST_SUM, "rebase": self.sum}.get(why, self.branch)
        said = {
            "k": "base", "version": VERSION, "segment": self.number + 1, "seq": seq, "former": self.sum, "t": moment, "why": why,
            "branch": branch,
        }  # fmt: skip
        now, text = new_line(self.sum, said)
        name = f"journal-{seq}"
        if any((place.folder / name).exists() for place in self.places):
            name += f".{self.number + 1}"
        files: list[int] = []
        try:
            for place in self.places:
                files.append(place.made(name, text))
        except OSError as error:
            self.unmake(name, files)
            raise NoRoom(f"{place.folder / name}: {error.strerror}") from error
        for place, file in zip(self.places, files):
            place.go_on_in(file, len(text))
        self.sum, self.number, self.seq, self.moment = now, self.number + 1, seq, moment
        self.branch, self.is_old = branch, False
        if why != "full":
            self.open_intents, self.gap = [], None

    def unmake(self, name: str, files: list[int]) -> None:
        """Removes a segment from the folders in which it was made."""
        try:
            for place, file in zip(self.places, files):
                os.close(file)
                place.remove(name)
        except OSError as error:
            raise Broken(f"{place.folder / name} can't be removed: {error.strerror}") from error

    def append(self, said: dict[str, Any], is_synced: bool) -> None:
        """Puts a line at the end of each folder's journal; if `is_synced`, onto the disks before it returns.

        `NoRoom`: it couldn't be written, and the disks hold what they held before. `Broken`: it isn't known what they hold.
        """
        if self.is_broken:
            raise Broken("a line of the journal may be half there")
        now, text = new_line(self.sum, said)
        try:
            for place in self.places:
                write_whole(place.file, text)
        except OSError as error:
            self.take_back(error)
            raise NoRoom(f"{place.folder}: {error.strerror}") from error
        if is_synced:
            self.sync()
        for place in self.places:
            place.size += len(text)
        self.sum, self.moment = now, said.get("t", self.moment)

    def sync(self) -> None:
        """Sees to it that what was written is on the disks, which work at once. `Broken`: one of them failed."""
        began = time.monotonic()
        others = [self.syncing.submit(os.fdatasync, place.file) for place in self.places[1:]]
        try:
            try:
                os.fdatasync(self.places[0].file)
            finally:
                for other in others:
                    other.result()
        except OSError as error:
            self.is_broken = True
            with contextlib.suppress(OSError):
                for place in self.places:
                    place.cut()
            raise Broken(f"the journal can't be brought onto the disk: {error.strerror}") from error
        self.note_sync(time.monotonic() - began)

    def take_back(self, error: OSError) -> None:
        """Cuts off what was written of a line, in every folder."""
        try:
            for place in self.places:
                place.cut()
        except OSError as second:
            self.is_broken = True
            raise Broken(f"after '{error.strerror}' the journal can't be cut: {second.strerror}") from error

    @property
    def folder(self) -> Path:
        """The first folder, from which it is read."""
        return self.places[0].folder

    @property
    def is_full(self) -> bool:
        """Whether the last segment has its size, or is of an older version: then another one begins before the next intent."""
        return self.is_old or self.places[0].size >= self.segment_bytes

    def close(self) -> None:
        """Lets the folders go."""
        self.syncing.shutdown()
        for place in self.places:
            place.close()
        self.places = []


def told_of_gap(gap: dict[str, Any]) -> str:
    """What a gap means, and what to do."""
    numbers = f"the world has number {gap['world']} and the journal {gap['journal']}"
    return f"{numbers}: somebody else wrote, or another copy is served. {GAP_ADVICE}"
