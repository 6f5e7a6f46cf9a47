"""Feeds as RFC 4287 (Atom) has them.

    AtomFeed("Petitions", "urn:uuid:..", 0.0, "/feed", "/petitions", [AtomEntry(..)]).text

Addresses are paths of this front: whoever reads a feed takes them from where the feed was.
"""

from __future__ import annotations

import datetime
import re
import uuid
from typing import NamedTuple
from xml.sax.saxutils import escape, quoteattr

KIND = "application/atom+xml; charset=utf-8"
# What XML can't have, and what is written in its place.
NO_LETTER = re.compile("[^\t\n\r -\ud7ff\ue000-\ufffd\U00010000-\U0010ffff]")
UNKNOWN = "\ufffd"
NAMESPACE = uuid.UUID("5c9d1d2e-6f6b-4b0e-9f0a-6a8f3a1c4d57")


class AtomEntry(NamedTuple):
    """An entry: its mark, its title, when it last changed, who made it, the address of its page, and its text."""

    mark: str
    title: str
    updated: float
    author: str
    page: str
    text: str

    @property
    def lines(self) -> list[str]:
        """The entry in XML."""
        return [
            "<entry>", element("id", self.mark), element("title", self.title or "–"), element("updated", moment_in_utc(self.updated)),
            f"<author>{element('name', self.author or '–')}</author>", atom_link("alternate", "text/html", self.page),
            f'<content type="text">{in_xml(self.text)}</content>', "</entry>",
        ]  # fmt: skip


class AtomFeed(NamedTuple):
    """A feed: its title and mark, when it began, its own address and that of its page, and its entries, the one that changed last first."""

    title: str
    mark: str
    since: float
    own: str
    page: str
    entries: list[AtomEntry]

    @property
    def text(self) -> bytes:
        """The feed in XML."""
        updated = max([self.since, *(entry.updated for entry in self.entries)])
        lines = [
            '<?xml version="1.0" encoding="utf-8"?>', '<feed xmlns="http://www.w3.org/2005/Atom">', element("id", self.mark),
            element("title", self.title), element("updated", moment_in_utc(updated)), f"<author>{element('name', 'moo')}</author>",
            atom_link("self", "application/atom+xml", self.own), atom_link("alternate", "text/html", self.page),
            *(line for entry in self.entries for line in entry.lines), "</feed>", "",
        ]  # fmt: skip
        return "\n".join(lines).encode()


def atom_mark(*parts: object) -> str:
    """The mark of what these tell: always the same one, and of nothing else."""
    return uuid.uuid5(NAMESPACE, " ".join(map(str, parts)).encode("ascii", "backslashreplace").decode()).urn


def in_xml(text: str) -> str:
    """A text within XML."""
    return escape(NO_LETTER.sub(UNKNOWN, text))


def element(name: str, text: str) -> str:
    """An element with a text in it."""
    return f"<{name}>{in_xml(text)}</{name}>"


def atom_link(relation: str, kind: str, address: str) -> str:
    """A link of a feed or of an entry."""
    return f"<link rel={quoteattr(relation)} type={quoteattr(kind)} href={quoteattr(address)}/>"


def moment_in_utc(seconds: float) -> str:
    """A moment as RFC 3339 has it."""
    try:
        at = datetime.datetime.fromtimestamp(seconds, datetime.timezone.utc)
    except (OverflowError, ValueError, OSError):
        at = datetime.datetime.fromtimestamp(0, datetime.timezone.utc)
    return at.strftime("%Y-%m-%dT%H:%M:%SZ")
