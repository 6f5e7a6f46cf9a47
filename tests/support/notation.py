"""Scenes in the notation of tests/scenes/README.md: read, and put as texts of batches and as requests."""
from __future__ import annotations

import json
from typing import Any, Iterator, NamedTuple, Optional, Union

from tests.support.service import answer
from tests.support.worlds import TREE


class Batch(NamedTuple):
    """A batch, and its reply: the first line of it, and its answers."""

    programmer: str
    at: str
    calls: list[str]
    reply: str
    answers: list[str]

    def text(self) -> bytes:
        """The batch in a text."""
        header = f"batch as {self.programmer}" + (f" at {self.at}" if self.at else "")
        return "\n".join([header, *self.calls, "end", ""]).encode()

    def reply_text(self) -> bytes:
        """The reply in a text."""
        ended = [*self.answers, "end"] if self.reply.startswith("accepted") else []
        return "\n".join([self.reply, *ended, ""]).encode()

    def body(self) -> str:
        """The batch as the body of a request."""
        at = {"at": int(self.at)} if self.at else {}
        return json.dumps({"as": self.programmer, "calls": self.calls, **at})

    def response(self) -> bytes:
        """The bytes of the answer to that request."""
        status, body = response_of(self.reply.split(), self.answers)
        return answer(status, json.dumps(body, separators=(",", ":")))


class Scene(NamedTuple):
    """What it shows, and its steps: batches, and statements that change the file by hand."""

    name: str
    steps: list[Union[Batch, str]]

    def is_on_file(self) -> bool:
        """Whether a file is changed by hand in it."""
        return any(isinstance(step, str) for step in self.steps)

    def stretches(self) -> Iterator[tuple[list[Batch], Optional[str]]]:
        """The batches up to each change by hand, with that change; none after the last."""
        batches: list[Batch] = []
        for step in self.steps:
            if isinstance(step, str):
                yield batches, step
                batches = []
            else:
                batches.append(step)
        yield batches, None


def response_of(reply: list[str], answers: list[str]) -> tuple[str, dict[str, Any]]:
    """The status line and the body by which HTTP has the words of a reply."""
    word, number = reply[0], int(reply[1])
    if word == "accepted":
        return "200 OK", {"answers": answers, "seq": number}
    if word == "stale":
        return "409 Conflict", {"error": "stale", "seq": number}
    if word == "malformed":
        return "400 Bad Request", {"call": number - 1, "error": "malformed"}
    return "409 Conflict", {"call": number, "error": {"refused": reply[-1], "full": "full"}[word]}


def parts(text: str) -> list[str]:
    """The pieces that '; ' parts, of which an empty text has none."""
    return text.split("; ") if text else []


def read_batch(line: str) -> Batch:
    """The batch and its reply that a line tells."""
    asked, replied = line.split(" => ")
    who, calls = asked.split(":", 1)
    programmer, _, at = who.partition(" at ")
    reply, _, answers = replied.partition(": ")
    return Batch(programmer, at, parts(calls.strip()), reply, parts(answers))


def tree() -> Batch:
    """The batch that a line `tree` stands for."""
    _, *calls, _ = TREE.splitlines()
    return Batch("#3", "", calls, "accepted 1", ["#4", "0", "#5", "0", "#6", "0", "#7", "0"])


def read_step(line: str) -> Union[Batch, str]:
    """The batch of a line, or its statement."""
    if line.startswith("! "):
        return line.removeprefix("! ")
    return tree() if line == "tree" else read_batch(line)


def read_scenes(text: str) -> Iterator[Scene]:
    """The scenes of a text."""
    for block in text.strip("\n").split("\n\n"):
        lines = block.split("\n")
        if not lines[0].startswith("- "):
            raise ValueError(f"a scene without a name: {lines[0]}")
        yield Scene(lines[0].removeprefix("- "), [read_step(line) for line in lines if not line.startswith("- ")])
