"""Whether the front can do its work, and if not, why: a line for who runs it."""

from __future__ import annotations

import os
import threading
import time
from pathlib import Path

from moolib.errors import MooError
from moolib.service import Service

from moo_web.journal.writer import Writer

# An answer of moo is believed for so long, and one is waited for so long.
KNOWN_SECONDS, WAIT = 1.0, 1.0
# A batch that couldn't be written is trouble for so long, if the disk has room by now.
TROUBLE_SECONDS = 60.0
# With less than this on the disk of a journal no batch may find room.
LEAST_FREE = 1 << 20


class Readiness:
    """What is asked of a front whose journal is in these folders. `is_started` is set once it has begun to take batches."""

    def __init__(self, writer: Writer, folders: list[Path]) -> None:
        self.writer, self.folders = writer, folders
        self.is_started = False
        # The way to moo past all who wait for their turn.
        self.service = Service(writer.door.port, wait=WAIT)
        self.lock = threading.Lock()
        self.asked_at, self.fault_of_moo = -KNOWN_SECONDS, ""

    def fault(self) -> str:
        """Why the front isn't ready; nothing, if it is."""
        return self.of_writer() or self.of_disks() or self.of_moo() or ("" if self.is_started else "the front starts")

    def of_writer(self) -> str:
        """Why no batch is written."""
        writer = self.writer
        if writer.stopped:
            return writer.stopped
        is_new = time.monotonic() < writer.troubled_at + TROUBLE_SECONDS
        return writer.trouble if is_new else ""

    def of_disks(self) -> str:
        """Which folder has no room for the journal."""
        for folder in self.folders:
            free = free_bytes(folder)
            if free < LEAST_FREE:
                return f"the disk of {folder} is full: {free} bytes are free"
        return ""

    def of_moo(self) -> str:
        """Why moo doesn't answer. It is asked at most once a second."""
        with self.lock:
            if time.monotonic() >= self.asked_at + KNOWN_SECONDS:
                self.fault_of_moo = self.asked()
                self.asked_at = time.monotonic()
            return self.fault_of_moo

    def asked(self) -> str:
        """The same, asked now."""
        port = self.writer.door.port
        try:
            answer = self.service.sent("GET", "/seq")
            return "" if answer.is_good else f"moo answers {answer.status} {answer.error} at port {port}"
        except MooError:
            return f"moo doesn't answer at port {port}"


def free_bytes(folder: Path) -> int:
    """How many bytes may still be written to the disk of a folder; 0 if it isn't there."""
    try:
        found = os.statvfs(folder)
    except OSError:
        return 0
    return found.f_bavail * found.f_frsize
