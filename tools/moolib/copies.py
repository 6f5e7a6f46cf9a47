"""The copies of a world in a folder, as `moo-backup` makes them: their names, their checksums, and their places in the journal of a front.

A copy is a folder `WORLD-MOMENT-seqN` with the files of the world and SHA256SUMS. One that was made beside a journal has a file BRANCH.
"""

from __future__ import annotations

import datetime
import hashlib
import json
import re
from pathlib import Path
from typing import NamedTuple, Optional

MOMENT = "%Y%m%dT%H%M%S.%fZ"
PIECE = 1 << 20
PLACE_FILE, SUMS_FILE = "BRANCH", "SHA256SUMS"


class Place(NamedTuple):
    """A place in a journal: a branch of it, a number of the world, and the sum of a line that tells the number.

    An empty branch or sum isn't known.
    """

    branch: str
    seq: int
    sum: str

    def text(self) -> str:
        """The text of a file BRANCH."""
        return json.dumps(self._asdict(), separators=(",", ":")) + "\n"


def read_place(path: Path) -> Optional[Place]:
    """The place that a file BRANCH tells; None if there is no such file. `ValueError`: it tells none."""
    if not path.is_file():
        return None
    try:
        said = json.loads(path.read_text())
        place = Place(said["branch"], said["seq"], said["sum"])
    except (ValueError, KeyError, TypeError):
        raise ValueError(f"{path} isn't the file BRANCH of a copy") from None
    if not (isinstance(place.branch, str) and isinstance(place.seq, int) and isinstance(place.sum, str)):
        raise ValueError(f"{path} isn't the file BRANCH of a copy")
    return place


class WorldCopy(NamedTuple):
    """A copy of a world: its folder, when it was made by the clock of then, and the number of the world in it."""

    path: Path
    moment: datetime.datetime
    number: int

    def place(self) -> Optional[Place]:
        """Its place in a journal; None if it doesn't say one. `ValueError`: its file BRANCH isn't right."""
        return read_place(self.path / PLACE_FILE)


def copies_in(folder: Path, name: str) -> list[WorldCopy]:
    """The finished copies of the world of this file name, in the order of their names. A link or a file of such a name isn't one."""
    form = re.compile(re.escape(name) + r"-(\d{8}T\d{6}\.\d{6}Z)-seq(\d+)")
    found = []
    for path in sorted(folder.iterdir()):
        named = form.fullmatch(path.name)
        if named and path.is_dir() and not path.is_symlink():
            moment = datetime.datetime.strptime(named[1], MOMENT).replace(tzinfo=datetime.timezone.utc)
            found.append(WorldCopy(path, moment, int(named[2])))
    return found


def sum_of(path: Path) -> str:
    """The SHA-256 of a file."""
    digest = hashlib.sha256()
    with open(path, "rb") as file:
        while piece := file.read(PIECE):
            digest.update(piece)
    return digest.hexdigest()


def fault_of(copy: WorldCopy) -> str:
    """What is wrong with the files of a copy by its checksums; nothing if they are as they were."""
    try:
        listed = re.findall(r"(?m)^([0-9a-f]{64})  (.+)$", (copy.path / SUMS_FILE).read_text(errors="surrogateescape"))
        wrong = [name for digest, name in listed if sum_of(copy.path / name) != digest]
    except OSError as error:
        return str(error)
    if not listed:
        return f"{SUMS_FILE} names no file"
    return f"the checksum of {', '.join(wrong)} is wrong" if wrong else ""
