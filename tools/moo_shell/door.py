"""The services that the shell asks: one at a port, or a front with a token of a person. What they won't do is a failure of a line.

A service is asked in the name of any programmer. A front knows by the token who asks, so no request names one there.
"""

from __future__ import annotations

from typing import Optional

from moolib.errors import TROUBLES, Failed, Stranger, Unreachable
from moolib.front import read_address
from moolib.service import OPEN, Answer, Service

# The seconds for which a service is tried that doesn't listen, and those for which one answer may take.
PATIENCE, WAIT = 15.0, 300.0
# Answers that say how a batch ended, or that what was asked for isn't there; and errors after which it is tried again.
DECIDED = (200, 400, 404, 405, 409, 410, 413)
AGAIN = (*OPEN, "busy", "too many")


class Door(Service):
    """A service at a port of this machine."""

    def __init__(self, port: int, host: str = "127.0.0.1") -> None:
        super().__init__(port, host, WAIT, PATIENCE)

    def where(self) -> str:
        return f"the service at port {self.port}"

    def body(self, who: Optional[int], calls: list[str], at: Optional[int] = None) -> bytes:
        try:
            return super().body(who, calls, at)
        except ValueError as error:
            raise Failed(str(error)) from None

    def sent(self, method: str, route: str, body: Optional[bytes] = None, wait: Optional[float] = None) -> Answer:
        try:
            return super().sent(method, route, body, wait)
        except Stranger:
            raise self.stranger() from None

    def stranger(self) -> Failed:
        """Why an answer can't be used that no service of moo gives."""
        return Failed(f"{self.where()} isn't one of moo: another program answers there")

    def ended_by(self, answer: Answer, count: Optional[int] = None) -> Answer:
        if answer.is_too_much:
            raise Failed(f"this is too much for one request: {answer.why}")
        if answer.status not in DECIDED and answer.error not in AGAIN:
            raise Failed(TROUBLES.get(answer.error, f"{self.where()} answers {answer.status} {answer.error}"))
        try:
            return super().ended_by(answer, count)
        except Stranger:
            raise self.stranger() from None

    def tried(
        self, method: str, route: str, body: Optional[bytes] = None, patience: Optional[float] = None, count: Optional[int] = None
    ) -> Answer:  # fmt: skip
        try:
            return super().tried(method, route, body, patience, count)
        except Unreachable as error:
            raise Failed(str(error)) from None

    def seq(self, patience: Optional[float] = None) -> int:
        try:
            return super().seq(patience)
        except Unreachable as error:
            raise Failed(str(error)) from None


class Front(Door):
    """A front of moo that knows its people by tokens."""

    can_name = False

    def __init__(self, url: str, token: str) -> None:
        try:
            address = read_address(url)
        except ValueError as error:
            raise Failed(str(error)) from None
        super().__init__(address.port, address.host)
        self.url, self.folder, self.is_safe = url, address.folder, address.is_safe
        self.lines = {"authorization": f"Bearer {token}"}

    def where(self) -> str:
        return self.url
