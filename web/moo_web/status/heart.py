"""Tells systemd that the front lives, for its watchdog: as long as the loop of the server turns, requests end and the writer is there."""

from __future__ import annotations

import os
import time
from typing import Callable

from moo_web.journal.writer import Writer
from moo_web.programs import notify
from moo_web.traffic.places import Places

# If all places are taken and none of their requests has ended for so long, the front is stuck: no request takes nearly as long.
STUCK_SECONDS = 120.0


class Heart:
    """Beats while the front lives. The loop of the server calls `beat` about once a second."""

    def __init__(self, writer: Writer, places: Places, status: Callable[[], str]) -> None:
        self.writer, self.places, self.status = writer, places, status
        # systemd wants to hear of it at least once in so many microseconds, if it wants to.
        self.every = int(os.environ.get("WATCHDOG_USEC") or 0) / 1e6 / 4 or 10.0
        self.last = 0.0

    def beat(self) -> None:
        """Tells systemd, if it is time to and the front isn't stuck."""
        now = time.monotonic()
        if now < self.last + self.every or not self.lives(now):
            return
        self.last = now
        notify(f"WATCHDOG=1\nSTATUS={self.status()}")

    def lives(self, now: float) -> bool:
        """Whether the writer is there, and requests end."""
        return self.writer.thread.is_alive() and (self.places.idle > 0 or now < self.places.moved_at + STUCK_SECONDS)
