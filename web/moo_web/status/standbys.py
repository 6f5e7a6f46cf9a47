"""How far each standby is that fetches the journal: `moo-send` notes it in a file beside the journal, and the front shows it.

A file `standby-ADDRESS` has a line of JSON, `{"seq":1302,"t":1764417600.0}`: up to which number of the world, and when, all was sent there.
"""

from __future__ import annotations

import contextlib
import json
import os
import time
from pathlib import Path
from typing import TYPE_CHECKING, NamedTuple

from moo_web.status.metrics import Gauge, Metric

if TYPE_CHECKING:
    from moo_web.journal.writer import Writer

PREFIX, NEW = "standby-", ".new"
NOTE_EVERY = 1.0


class Standby(NamedTuple):
    """A standby: the number of the world up to which it was sent all, and the moment of that."""

    seq: int
    t: float


class Progress:
    """The file of the standby that this process serves, by the address from which ssh lets it in. Without ssh there is none."""

    def __init__(self, folder: Path) -> None:
        address = os.environ.get("SSH_CLIENT", "").partition(" ")[0]
        name = PREFIX + "".join(letter if letter.isalnum() or letter in ".-" else "_" for letter in address)
        self.path = folder / name if address else None
        self.noted = 0.0

    def put(self, seq: int) -> None:
        """Notes, at most once a second, that all up to this number was sent. If there is no room for it the standby goes on all the same."""
        now = time.time()
        if self.path and not 0 <= now - self.noted < NOTE_EVERY:
            self.noted = now
            with contextlib.suppress(OSError):
                new = self.path.with_name(f"{self.path.name}{NEW}")
                new.write_text(json.dumps({"seq": seq, "t": round(now, 3)}, separators=(",", ":")) + "\n")
                new.replace(self.path)


def standbys(folder: Path) -> list[Standby]:
    """All standbys that are known."""
    found = []
    for path in (path for path in folder.glob(f"{PREFIX}*") if not path.name.endswith(NEW)):
        try:
            said = json.loads(path.read_text())
            found.append(Standby(int(said["seq"]), float(said["t"])))
        except (OSError, ValueError, KeyError, TypeError):
            continue
    return found


def standby_metrics(folder: Path, writer: Writer) -> list[Metric]:
    """How many standbys there are, and how late the last of them is."""

    def lag() -> float:
        return max((writer.seq - one.seq for one in standbys(folder)), default=0)

    def silence() -> float:
        return max((time.time() - one.t for one in standbys(folder)), default=0)

    silent = "Seconds since all that there was has been sent to the standby that is silent for longest; 0 without one."
    return [
        Gauge("moo_standbys", "Standbys that fetch the journal, or have done so.", lambda: len(standbys(folder))),
        Gauge("moo_standby_lag_batches", "Batches that the farthest standby lacks; 0 without one.", lag),
        Gauge("moo_standby_silent_seconds", silent, silence),
    ]
