"""moo-web that kills itself at a step of the journal's protocol: the variable STEP names it, TIMES says at which time it comes there.

The words are those of moo-web. The steps are in `STEPS`; without STEP it runs on.
"""

from __future__ import annotations

import contextlib
import http.client
import os
import pathlib
import signal
import sys
from typing import Any, Optional

TOP = pathlib.Path(__file__).resolve().parents[2]
sys.path[:0] = [str(TOP / "web"), str(TOP / "tools")]
sys.dont_write_bytecode = True

STEPS = (
    "an intent isn't written", "an intent is torn", "an intent isn't synced", "an intent is synced", "a batch is half sent",
    "a batch is sent", "an answer came", "an outcome isn't written", "an outcome is torn", "an outcome is written",
    "a segment is torn", "a segment is made",
)  # fmt: skip
STEP, TIMES = os.environ.get("STEP"), int(os.environ.get("TIMES", "1"))
comings = 0


def reach(step: str) -> None:
    """Ends all if this is the step."""
    global comings
    if is_now(step):
        os.kill(os.getpid(), signal.SIGKILL)


def is_now(step: str) -> bool:
    """Whether all is to end at this step."""
    global comings
    comings += step == STEP
    return step == STEP and comings >= TIMES


def kind_of(text: bytes) -> str:
    """Which lines are torn alike."""
    for mark, kind in ((b'"k":"intent"', "an intent"), (b'"k":"base"', "a segment")):
        if mark in text[:90]:
            return kind
    return "an outcome"


def crash_in(modules: tuple[Any, Any]) -> None:
    """Puts the steps into the modules."""
    journal, door = modules
    write_whole, sync, sent = journal.write_whole, journal.Journal.sync, door.Door.sent

    def crashing_write(file: int, text: bytes) -> None:
        kind = kind_of(text)
        reach(f"{kind} isn't written")
        if is_now(f"{kind} is torn"):
            os.write(file, text[: len(text) // 2])
            os.kill(os.getpid(), signal.SIGKILL)
        write_whole(file, text)
        reach({"an intent": "an intent isn't synced", "a segment": "a segment is made"}.get(kind, "an outcome is written"))

    def crashing_sync(self: Any) -> None:
        sync(self)
        reach("an intent is synced")

    def crashing_sent(self: Any, method: str, path: str, body: Optional[bytes] = None, wait: Optional[float] = None) -> Any:
        if body is None or not path.startswith("/batch"):
            return sent(self, method, path, body, wait)
        for step, part in (("a batch is half sent", body[: len(body) // 2]), ("a batch is sent", body)):
            if is_now(step):
                # moo may be killed just now too: then nobody hears this part.
                with contextlib.suppress(OSError):
                    connection = http.client.HTTPConnection("127.0.0.1", self.port)
                    connection.request("POST", path, part, {"content-length": str(len(body))})
                os.kill(os.getpid(), signal.SIGKILL)
        answer = sent(self, method, path, body, wait)
        reach("an answer came")
        return answer

    journal.write_whole, journal.Journal.sync, door.Door.sent = crashing_write, crashing_sync, crashing_sent


if __name__ == "__main__":
    from moo_web import serving
    from moo_web.journal import journal
    from moo_web.world import door

    crash_in((journal, door))
    serving.main()
