"""What is measured of a front when its metrics are asked for, and what `moo-watch` has left of moo in a file."""

from __future__ import annotations

import re
from pathlib import Path
from typing import Callable

from moo_web.interface.followers import Followers
from moo_web.journal.segments import SEGMENT_NAME
from moo_web.journal.writer import Writer
from moo_web.status.metrics import Gauge, Metric, MetricValues
from moo_web.status.readiness import Readiness, free_bytes
from moo_web.traffic.connections import MOST_CONNECTIONS, Room
from moo_web.traffic.places import PLACES, Places

# A line of the file of moo-watch.
WATCHED_LINE = re.compile(r'# (HELP|TYPE) moo_\w+ .*|moo_\w+(\{\w+="[^"\\]*"\})? [-+.\w]+')
LONGEST_WATCHED = 1 << 16
# Files beside the journal, by whose moments moo-keep@ and moo-copy@ say when they copied the journal and the world last.
KEPT_FILE, TRIED_FILE = "kept", "tried"


def of_world(writer: Writer, readiness: Readiness, full: Path | None) -> list[Metric]:
    """The world, and whether it is written."""
    return [
        Gauge("moo_seq", "The number of the world: of accepted batches.", lambda: writer.seq),
        Gauge("moo_queue", "Batches that wait for the writer.", lambda: len(writer.queue)),
        Gauge("moo_ready", "1 if the front can do its work, as /ready says.", lambda: not readiness.fault()),
        Gauge("moo_writing", "0 if writing has stopped, and an operator is needed.", lambda: writer.stopped is None),
        Gauge("moo_world_full", "1 if nothing is added, since the world has no room.", lambda: full is not None and full.exists()),
    ]


def of_journal(folders: list[Path]) -> list[Metric]:
    """The journal, its disks and its copy. The folders are the first one, and the second if there is one."""

    def free() -> MetricValues:
        return {str(place): free_bytes(folder) for place, folder in enumerate(folders, 1)}

    copied = "When moo-keep has copied the journal last, in seconds since 1970; 0: never."
    tried = "When moo-copy has made a copy of the world from the journal last, in seconds since 1970; 0: never."
    return [
        Gauge("moo_journal_bytes", "Bytes of the journal, in one folder.", lambda: bytes_of_journal(folders[0])),
        Gauge("moo_journal_disk_free_bytes", "Bytes that are free on the disk of each folder of the journal.", free, "folder"),
        Gauge("moo_journal_copy_timestamp_seconds", copied, lambda: moment_of(folders[0] / KEPT_FILE)),
        Gauge("moo_tried_copy_timestamp_seconds", tried, lambda: moment_of(folders[0] / TRIED_FILE)),
    ]


def of_traffic(connections: Callable[[], float], room: Room, places: Places, followers: Followers) -> list[Metric]:
    """Who is connected, and who waits."""
    return [
        Gauge("moo_connections", "Connections that are open.", connections),
        Gauge("moo_connections_bound", "Connections that may be open.", lambda: MOST_CONNECTIONS),
        Gauge("moo_held_bytes", "Bytes of requests and answers that are held.", lambda: room.total),
        Gauge("moo_held_bound_bytes", "Bytes of requests and answers that may be held.", lambda: room.most),
        Gauge("moo_answering", "Requests that have a place among those that are answered.", lambda: PLACES - places.idle),
        Gauge("moo_waiting", "Requests that wait for a place.", lambda: len(places.waiters)),
        Gauge("moo_followers", "Programs that wait for the next change.", lambda: followers.waiting.of.total()),
    ]


def bytes_of_journal(folder: Path) -> float:
    """How many bytes the segments in a folder have."""
    return sum(path.stat().st_size for path in folder.iterdir() if SEGMENT_NAME.fullmatch(path.name))


def moment_of(path: Path) -> float:
    """When a file was written last; 0 if it isn't there."""
    try:
        return path.stat().st_mtime
    except OSError:
        return 0.0


def watched(path: Path | None) -> str:
    """The metrics that moo-watch has left in a file; what isn't one is left out."""
    try:
        with open(path or "/nowhere", encoding="ascii", errors="replace") as file:
            lines = file.read(LONGEST_WATCHED).splitlines()
    except OSError:
        return ""
    return "".join(f"{line}\n" for line in lines if WATCHED_LINE.fullmatch(line))
