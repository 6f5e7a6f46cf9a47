"""What a file of a world says of its place in a journal, by the files beside it."""

from __future__ import annotations

import os
import re
from pathlib import Path

from moolib.copies import PLACE_FILE, Place, read_place
from moolib.errors import Failed


MARK = re.compile(r"(\d{1,20}) ([0-9a-f]{64})\n")


class Mark:
    """The last batch that was run on the world of FILE: its number, and the sum of its intent. They are in FILE-followed.

    The file is made when a batch is noted.
    """

    def __init__(self, file: Path) -> None:
        self.path = file.with_name(file.name + "-followed")
        self.file = -1

    def place(self) -> Place | None:
        """The place that it tells; None if there isn't one."""
        found = MARK.fullmatch(self.path.read_text(errors="replace")) if self.path.is_file() else None
        return Place("", int(found[1]), found[2]) if found else None

    def put(self, seq: int, sum_: str) -> None:
        """Notes a batch that was run."""
        if self.file < 0:
            self.file = os.open(self.path, os.O_WRONLY | os.O_CREAT, 0o600)
        os.pwrite(self.file, f"{seq:020d} {sum_}\n".encode(), 0)

    def close(self) -> None:
        """Lets the file go."""
        if self.file >= 0:
            os.close(self.file)
        self.file = -1


def place_beside(file: Path, number: int, mark: Mark) -> Place | None:
    """The place of a file with this number, by its mark or by a file BRANCH beside it. None: neither tells it. `Failed`: BRANCH isn't one.

    The one with the greater number is the newer one. One with a number past that of the file is of another world.
    """
    try:
        told = [mark.place(), read_place(file.with_name(PLACE_FILE))]
    except ValueError as error:
        raise Failed(str(error)) from error
    known = [one for one in told if one and one.seq <= number]
    return max(known, key=lambda one: one.seq) if known else None
