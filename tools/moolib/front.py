"""A front of moo, asked with a token of a person: the same routes under `/api`, batches with names, and the feed of changes."""

from __future__ import annotations

from typing import NamedTuple, Optional
from urllib.parse import urlsplit

from moolib.errors import LostAnswer, NoService, Unreachable
from moolib.exchange import HERE
from moolib.service import PATIENCE, WAIT, Answer, Service

# What a follower's wait may last beyond the seconds for which it asks.
SLACK = 10.0
# A feed gives so many batches at once, and so many are looked through for a lost answer.
MOST_BATCHES, LOOKED_AT = 100, 2000


class Address(NamedTuple):
    """Where a front is: its machine and port, the folder of its interface for programs, and whether it is reached over TLS."""

    host: str
    port: int
    folder: str
    is_safe: bool


def read_address(url: str) -> Address:
    """The address of a front. `ValueError`: it isn't one, or a token would go to another machine in the open."""
    parts = urlsplit(url)
    if parts.scheme not in ("http", "https") or not parts.hostname:
        raise ValueError(f"{url} isn't an address such as https://moo.example.org/")
    is_safe = parts.scheme == "https"
    if not is_safe and parts.hostname not in HERE:
        raise ValueError(f"{url} would get the token in the open: https:// is wanted for another machine")
    return Address(parts.hostname, parts.port or (443 if is_safe else 80), f"{parts.path.rstrip('/')}/api", is_safe)


class FrontService(Service):
    """A front at a URL, for the person whose token it is. Who asks needn't be said, and can be nobody else."""

    has_names = True

    def __init__(self, url: str, token: str, wait: float = WAIT, patience: float = PATIENCE) -> None:
        self.url, where = url, read_address(url)
        super().__init__(where.port, where.host, wait, patience)
        self.folder, self.is_safe = where.folder, where.is_safe
        self.lines = {"authorization": f"Bearer {token}"}

    def where(self) -> str:
        return self.url

    def answers_by(self, mark: str) -> Optional[list[str]]:
        """The answers of the batch of the last thousands that gave a mark this name, if the token's person may read the batches of all."""
        try:
            end = self.seq()
            low = max(0, end - LOOKED_AT)
            while end > low:
                begin = max(low, end - MOST_BATCHES)
                answer = self.tried("GET", f"/since/{begin}?batches")
                if answer.status == 410 and answer.said["seq"] > begin:
                    low = int(answer.said["seq"])
                    continue
                if not answer.is_good:
                    return None
                for batch in answer.said["batches"]:
                    if batch["calls"] and mark in batch["calls"][0]:
                        return batch["answers"] and list(batch["answers"])
                end = begin
        except Unreachable:
            pass
        return None

    def since(self, seq: int, wait: int) -> Optional[Answer]:
        """What has changed since a number, for which the front waits so many seconds; None if nobody answers now."""
        try:
            return self.ended_by(self.sent("GET", f"/since/{seq}?wait={wait}", None, wait + SLACK))
        except (LostAnswer, NoService):
            return None
