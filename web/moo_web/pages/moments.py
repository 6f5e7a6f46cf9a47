"""Moments as the reader's clock has them: in the zone of time that the reader chose, or else in UTC."""

from __future__ import annotations

import datetime
import functools
import zoneinfo

UTC = "UTC"
LONGEST_NAME = 64
# Names that begin so are other names of zones.
NO_PLACES = ("Etc/", "SystemV/", "posix/", "right/")


class Zone:
    """A zone of time, by its name in the tz database."""

    def __init__(self, name: str = UTC) -> None:
        self.name = name
        self.info: datetime.tzinfo = datetime.timezone.utc if name == UTC else zoneinfo.ZoneInfo(name)

    def at(self, moment: float) -> datetime.datetime:
        """A moment, of seconds since 1970. One that no clock can show is the first that it can."""
        try:
            return datetime.datetime.fromtimestamp(moment, self.info)
        except (OverflowError, ValueError, OSError):
            return datetime.datetime.fromtimestamp(0, self.info)

    def told(self, moment: float) -> str:
        """A moment, as `27 Nov 2026 17:30:53`."""
        return f"{self.at(moment):%-d %b %Y %H:%M:%S}"

    def exact(self, moment: float) -> str:
        """A moment with its distance from UTC, for a machine."""
        return self.at(moment).isoformat(timespec="seconds")


@functools.lru_cache(1)
def zone_names() -> tuple[str, ...]:
    """The zones that can be chosen, UTC first."""
    return (UTC, *sorted(name for name in zoneinfo.available_timezones() if "/" in name and not name.startswith(NO_PLACES)))


@functools.lru_cache(64)
def zone_of(name: str) -> Zone:
    """The zone of this name; UTC if there is none."""
    return Zone(name if len(name) <= LONGEST_NAME and name in zone_names() else UTC)
