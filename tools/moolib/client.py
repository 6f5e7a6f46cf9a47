"""A client for programs, of `moo serve` or of a front: batches that act once, though connections break. `moo_client` tells how it is used."""

from __future__ import annotations

import threading
from collections.abc import Iterable, Iterator
from typing import Any, Optional, Union

from moolib.errors import REFUSALS, BadRequest, Stale, Unsure
from moolib.batches import resolved
from moolib.feed import Change, changes
from moolib.front import FrontService
from moolib.handles import Batch, GivenCall, written_call
from moolib.names import have_names, read_items
from moolib.once import MarkedBatches
from moolib.raising import good
from moolib.service import Answer, Patience, Service
from moolib.values import Obj, read

Who = Union[int, Obj, None]


def number_of(who: Who) -> Optional[int]:
    """The number of a programmer; None if the front knows who asks."""
    return None if who is None else int(who)


class Moo:
    """A world that `moo serve` keeps at a port of this machine, or that a front keeps at a URL, for the person of a token.

    `patience` is how many seconds a call of a method may try; `wait` is how many one answer may take. `mark` is an object of the client's
    own, or such an object and how the property on it is called. A batch with a mark has one call more, its first. Threads may share a
    client: their batches wait for each other, so give each thread a client and a mark of its own.
    """

    def __init__(
        self, where: Union[int, str], mark: Union[Obj, tuple[Obj, str], None] = None, alone: bool = False, patience: float = 60,
        wait: float = 30, host: str = "127.0.0.1", token: str = "",
    ) -> None:  # fmt: skip
        is_front = isinstance(where, str)
        self.service = FrontService(where, token, wait, patience) if isinstance(where, str) else Service(where, host, wait, patience)
        self.alone, self.patience, self.wait = alone, patience, wait
        self.lock = threading.Lock()
        place, name = (mark, "mark") if isinstance(mark, Obj) else mark or (None, "")
        self.marked = MarkedBatches(self.service, place, name, not is_front) if place is not None else None

    def run(self, calls: Iterable[GivenCall], as_: Who = None, at: Optional[int] = None) -> list[Any]:
        """Runs a batch, once, and gives its answers. With `at` it acts only on the world of that number.

        A call may name its answer, as `$room = create(#4)`, and later calls may use it. At a service that has no names such a batch is asked
        first, and sent for the number of the world for which it was asked.
        """
        texts = [written_call(call) for call in calls]
        with self.lock:
            return [read(answer) for answer in self.answers(texts, number_of(as_), at)]

    def batch(self, as_: Who = None, at: Optional[int] = None) -> Batch:
        """A batch that is put together call by call. Each call gives a handle, which stands for its answer in later calls."""
        return Batch(self, as_, at)

    def changes(self, since: Optional[int] = None) -> Iterator[Change]:
        """What changes in the world after a number, for ever, as it comes: the objects, and the number up to which they changed.

        A front alone has it. Without `since` it begins at the present number. `Gone` is raised if the front's feed begins later.
        """
        if not isinstance(self.service, FrontService):
            raise BadRequest("a service has no feed of changes: a front has one")
        return changes(self.service, self.seq() if since is None else since)

    def ask(self, calls: Iterable[GivenCall], as_: Who = None, at: Optional[int] = None) -> list[Any]:
        """What a batch would be answered; nothing changes."""
        waiting = Patience(self.patience)
        while True:
            try:
                _, answers, _ = self.prepared([written_call(call) for call in calls], number_of(as_), at, waiting)
                return [read(answer) for answer in answers]
            except Stale:
                if at is not None or waiting.is_over:
                    raise

    def each(self, calls: Iterable[GivenCall], as_: Who = None, at: Optional[int] = None) -> list[Any]:
        """What each call alone would be answered, as a batch of its own on the present world; nothing changes, and none sees another.

        For a call that would fail there is the exception that `ask` would raise: `E_PERM` and the other kinds of `Refused`, with `call`
        (its place from 1 on) and `why`. `Stale` is raised if the world has another number than `at`.
        """
        answer = good(self.service.each(number_of(as_), [written_call(call) for call in calls], at))
        return [alone(place, entry) for place, entry in enumerate(answer.said["each"], 1)]

    def dump(self) -> str:
        """All that the world holds, as `moo dump` writes it. `NoMemory` is raised if the service can't hold it in memory."""
        return good(self.service.tried("GET", "/dump")).body.decode()

    def seq(self) -> int:
        """The number of accepted batches."""
        return int(good(self.service.tried("GET", "/seq")).said["seq"])

    def object(self, number: Union[int, Obj]) -> dict[str, Any]:
        """What is built in of an object, by names; `E_INVARG` if there is no such object."""
        answer = good(self.service.tried("GET", f"/object/{int(number)}"))
        return {name: read_shown(name, value) for name, value in answer.said.items()}

    def objects(self, first: Union[int, Obj] = 0) -> Iterator[dict[str, Any]]:
        """What is built in of each object from a number on, by names, ascending; its own is under `number`. They come in pages of 1,000,
        and what is changed between two of them is seen in the later one."""
        path: Optional[str] = f"/objects/{int(first)}"
        while path:
            said = good(self.service.tried("GET", path)).said
            for entry in said["objects"]:
                yield {name: read_shown(name, value) for name, value in entry.items()}
            path = f"/objects/{said['next'][1:]}" if said["next"] else None

    def answers(self, texts: list[str], who: Optional[int], at: Optional[int]) -> list[str]:
        """The answers of a batch that acts once, as texts. If others write meanwhile what was asked is asked anew, after a pause."""
        waiting = Patience(self.patience)
        is_named = have_names(read_items(texts)) and not self.service.has_names
        if self.marked and at is None and not is_named:
            return self.marked.run(who, texts, waiting)
        while True:
            try:
                calls, expected, seq = self.prepared(texts, who, at, waiting)
                if self.marked:
                    return self.marked.run(who, calls, waiting, seq, expected)
                self.settle(calls, who, seq, waiting)
                return expected
            except Stale:
                if at is not None or waiting.is_over:
                    raise
            self.service.rest(waiting.pause())

    def prepared(self, texts: list[str], who: Optional[int], at: Optional[int], waiting: Patience) -> tuple[list[str], list[str], int]:
        """The calls of a batch without names, what they would answer, and the number of the world for which that was asked."""
        items = read_items(texts)
        if self.service.has_names or not have_names(items):
            answers, seq = self.asked(texts, who, at, waiting)
            return texts, answers, seq
        seq = good(self.service.tried("GET", "/seq", None, waiting.left)).said["seq"] if at is None else at

        def ask(calls: list[str]) -> Answer:
            answer = self.service.ask(who, calls, seq, waiting.left)
            return good(answer) if answer.error == "stale" else answer

        calls, answer = resolved(items, {}, ask)
        return calls, good(answer).said["answers"], seq

    def settle(self, calls: list[str], who: Optional[int], at: int, waiting: Patience) -> None:
        """Sends a batch for the world of this number until it has acted. It raises `Stale` if the batch hasn't, and never will."""
        answer, was_lost = self.service.settled(who, calls, at, waiting)
        if answer.error == "stale" and was_lost:
            if self.alone and answer.said["seq"] == at + 1:
                return
            raise Unsure(at)
        good(answer)

    def asked(self, calls: list[str], who: Optional[int], at: Optional[int], waiting: Patience) -> tuple[list[str], int]:
        """What a batch would be answered, as texts, and the number of the world."""
        said = good(self.service.ask(who, calls, at, waiting.left)).said
        return said["answers"], said["seq"]


def alone(place: int, entry: dict[str, Any]) -> Any:
    """What the call at this place was answered alone: a value, or why it fails."""
    if "answer" in entry:
        return read(entry["answer"])
    kind = REFUSALS.get(entry["error"])
    if kind is None:
        raise BadRequest(f"call {place}: {entry['error']}", entry.get("why"))
    return kind(place, entry.get("why"))


def read_shown(name: str, value: Any) -> Any:
    """What an answer about an object holds under a name. Only the object's own name is a text; other texts are objects."""
    if isinstance(value, list):
        return [read(item) for item in value]
    return read(value) if isinstance(value, str) and name != "name" else value
