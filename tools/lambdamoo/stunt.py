"""Why databases of Stunt and ToastStunt can't be read, and what to do with one.

The versions and what came with each are from memory of the servers' sources.
"""

from __future__ import annotations

from lambdamoo.texts import Broken

GREATEST_KNOWN = 17
# What a file may hold from a version on, and what a world of moo has in its place.
SINCE = (
    (5, "several parents of an object", "one parent"),
    (7, "maps", "lists of pairs"),
    (13, "anonymous objects", "objects with numbers"),
    (14, "waifs", "objects, or lists"),
    (17, "true and false", "1 and 0"),
)


class Later(Broken):
    """A file of a format version after 4."""

    def __init__(self, line: int, version: int) -> None:
        super().__init__(line, f"format version {version} can't be read, only 1 to 4 can (later ones are Stunt's and ToastStunt's)")
        self.version = version

    @property
    def advice(self) -> list[str]:
        """What such a world may have that this one can't hold, and how to bring it to format 4, in lines."""
        found = [f"{what} ({instead} here)" for since, what, instead in SINCE if since <= self.version]
        known = "" if self.version <= GREATEST_KNOWN else f"version {self.version} is unknown here, and may have more. "
        return [
            f"{known}such a world may have what moo can't hold: {', '.join(found)}; and floats",
            "replace these in the MOO itself, then write it as format 4: LAMBDAMOO, 'Databases of Stunt and ToastStunt', says how",
        ]
