"""A service of moo, asked over HTTP: one request a connection, tried again for as long as one's patience has it.

    service = Service(8080)
    service.seq()
    service.ask(3, ["create(#1)"]).said["answers"]
    answer, was_lost = service.settled(3, ["create(#1)"], at=7, patience=Patience(60))

A request that changes nothing is sent until an answer comes (`tried`). A batch that names the number of the world may be sent again too,
since it acts once (`settled`).
"""

from __future__ import annotations

import json
import random
import time
from collections.abc import Mapping
from typing import IO, Any, NamedTuple, Optional, Union

from moolib.errors import TROUBLES, Failed, LostAnswer, MooError, NoService, Stranger, Unreachable, Unsure, is_too_much
from moolib.exchange import Exchange
from moolib.shapes import is_of_calls, is_of_moo
from moolib.values import read

# So many calls a batch has at most, and so many bytes the body of a request.
MOST_CALLS, LONGEST_BODY = 1000, 1_048_576
# A dump may be as long.
LONGEST_ANSWER = 1 << 32
FIRST_PAUSE, LONGEST_PAUSE = 0.01, 0.5
# The seconds for which a request is tried, and those for which one answer may take.
PATIENCE, WAIT = 60.0, 30.0
# Errors after which it isn't known whether the request has acted, and those after which it hasn't and may be sent again.
OPEN = ("fault", "unknown")
PASSING = ("closed", "busy", "too many")


class Answer(NamedTuple):
    """An answer: its status, its bytes, and the object that they are. `said` is empty if they aren't an object in JSON."""

    status: int
    body: bytes
    said: dict[str, Any]
    # For how many seconds the service asks that nothing is sent.
    after: float = 0.0

    @property
    def is_good(self) -> bool:
        """Whether it is what was asked for."""
        return self.status == 200

    @property
    def error(self) -> str:
        """The error that it names; empty if it names none."""
        word = self.said.get("error", "")
        return word if isinstance(word, str) else ""

    @property
    def call(self) -> int:
        """The call that was refused, from 1 on; 0 if none was."""
        return int(self.said.get("call", 0))

    @property
    def why(self) -> str:
        """The service's sentence for a refusal; empty if it gives none."""
        return str(self.said.get("why") or "")

    @property
    def is_too_much(self) -> bool:
        """Whether the request was ended since it was too much work for one."""
        return is_too_much(self.error, self.why)

    @property
    def is_missing(self) -> bool:
        """Whether the service has no such route. A service that doesn't know it answers so to any method."""
        return self.status in (404, 405) and not self.error.startswith("E_")

    @property
    def text(self) -> str:
        """The answer as it came, as a dump does."""
        return self.body.decode("utf-8", "replace")


class Said(NamedTuple):
    """What one call alone would answer: a value as it is written, or the name of an error, and why."""

    text: str
    is_good: bool = True
    why: str = ""

    @property
    def value(self) -> Any:
        """The value; None of an error. `Failed`: the service answered what isn't a value."""
        try:
            return read(self.text) if self.is_good else None
        except ValueError as error:
            raise Failed(f"the service answers what isn't a value: {self.text[:80]}") from error


class Patience:
    """The end of one's patience, and pauses up to it that grow and have chance, so that those who wait don't come at once."""

    def __init__(self, seconds: float) -> None:
        self.end = time.monotonic() + seconds
        self.longest = FIRST_PAUSE

    @property
    def left(self) -> float:
        """How many seconds are left; 0 if it is over."""
        return max(0.0, self.end - time.monotonic())

    @property
    def is_over(self) -> bool:
        """Whether it has come to its end."""
        return self.left == 0.0

    def pause(self, least: float = 0.0) -> float:
        """The next pause, in seconds; at least so many, unless it ends before."""
        seconds = min(least + self.longest * random.uniform(0.5, 1.0), self.left)
        self.longest = min(2 * self.longest, LONGEST_PAUSE)
        return seconds


def packed(said: object) -> bytes:
    """The bytes of a value in JSON, as moo writes them: without blanks."""
    return json.dumps(said, separators=(",", ":")).encode()


def batch_body(who: Optional[int], calls: list[str], at: Optional[int] = None) -> bytes:
    """The body of a batch by this programmer. None: the service knows by itself who asks. `ValueError`: it is longer than a service takes."""
    said: dict[str, Any] = {} if who is None else {"as": f"#{who}"}
    said["calls"] = calls
    if at is not None:
        said["at"] = at
    body = packed(said)
    if len(body) > LONGEST_BODY:
        raise ValueError(f"the batch has {len(body)} bytes, and a service takes {LONGEST_BODY}: make two of it")
    return body


def object_in(body: bytes) -> dict[str, Any]:
    """The object that these bytes are in JSON, or an empty one."""
    try:
        said = json.loads(body)
    except (ValueError, RecursionError):
        return {}
    return said if isinstance(said, dict) else {}


class Service:
    """A service at a port of this machine, or of another. Threads may share it.

    `wait` is how many seconds one answer may take, `patience` how many a request may be tried, `longest` how many bytes an answer may have.
    `NoService`, `LostAnswer`, `Stranger` and `TooLong` say what became of one request; `tried` and what is made of it raise `Unreachable` in
    place of the first three.
    """

    # Whether requests name the programmer, and whether the last try of a request too ends with one's patience.
    can_name = True
    is_bounded = False
    # Whether calls may give names to their answers.
    has_names = False

    def __init__(
        self, port: int, host: str = "127.0.0.1", wait: float = WAIT, patience: float = PATIENCE, longest: int = LONGEST_ANSWER
    ) -> None:  # fmt: skip
        self.port, self.host, self.wait, self.patience, self.longest = port, host, wait, patience, longest
        self.is_safe = False
        # Whether it has the route `/each`; None if it wasn't asked yet.
        self.has_each: Optional[bool] = None
        self.folder = ""
        self.lines: Mapping[str, str] = {}

    def where(self) -> str:
        """What is told if nobody answers."""
        return "the service"

    # One request

    def opened(self, method: str, route: str, body: Optional[bytes], wait: Optional[float]) -> Exchange:
        """A connection over which a request was sent."""
        exchange = Exchange(self.host, self.port, self.wait if wait is None else wait, self.is_safe)
        try:
            exchange.send(method, self.folder + route, body, self.lines)
        except BaseException:
            exchange.close()
            raise
        return exchange

    def sent(self, method: str, route: str, body: Optional[bytes] = None, wait: Optional[float] = None) -> Answer:
        """The answer to one request, whatever it says."""
        with self.opened(method, route, body, wait) as exchange:
            status, came = exchange.answer(self.longest)
        is_dump = route == "/dump" and status == 200
        answer = Answer(status, came, {} if is_dump else object_in(came), exchange.after)
        if not is_of_moo(route, status, answer.said):
            raise Stranger(f"an answer {status} that isn't one of moo")
        return answer

    def ended_by(self, answer: Answer, count: Optional[int] = None) -> Answer:
        """The answer, if it says how the request ended. `count` is how many calls that has: a good answer has as many.

        `LostAnswer`: it may have acted or not. `NoService`: it hasn't, and may be sent again. `Stranger`: it is an answer to other calls.
        """
        if count is not None and not is_of_calls(answer.said, count):
            raise Stranger("an answer to other calls")
        if answer.error in OPEN:
            raise LostAnswer(answer.error)
        if answer.error in PASSING:
            passing = NoService(answer.why or TROUBLES[answer.error])
            passing.after = answer.after
            raise passing
        return answer

    def copied(self, route: str, file: IO[bytes]) -> Optional[Answer]:
        """Writes the body of a good answer to a file, in pieces. Another answer is given back. `NoService`, `LostAnswer`: none came whole."""
        with self.opened("GET", route, None, None) as exchange:
            status, pieces = exchange.begun()
            if status != 200:
                body = b"".join(pieces)
                return Answer(status, body, object_in(body))
            for piece in pieces:
                file.write(piece)
            return None

    # Until an answer comes

    def rest(self, seconds: float) -> None:
        """What is done before a request is sent again."""
        time.sleep(seconds)

    def tried(
        self, method: str, route: str, body: Optional[bytes] = None, patience: Optional[float] = None, count: Optional[int] = None
    ) -> Answer:  # fmt: skip
        """The answer to a request that changes nothing, sent until one comes.

        `Unreachable`: none came, and so many seconds are over. What was sent before that may take longer, unless `is_bounded` says otherwise.
        """
        waiting = Patience(self.patience if patience is None else patience)
        while True:
            try:
                wait = min(self.wait, waiting.left) if self.is_bounded else self.wait
                return self.ended_by(self.sent(method, route, body, wait), count)
            except (LostAnswer, NoService) as error:
                if waiting.is_over:
                    raise Unreachable(f"{self.where()} doesn't answer: {error}") from error
                least = error.after if isinstance(error, NoService) else 0.0
            self.rest(waiting.pause(least))

    def settled(self, who: Optional[int], calls: list[str], at: Optional[int], patience: Patience) -> tuple[Answer, bool]:
        """The answer to a batch for the world of a number, sent until it comes, and whether one was lost before.

        A lost answer may have been that the batch acted, so what comes after it may be of an earlier one. `Unsure`: an answer was lost, and
        none came in time. `Unreachable`: nothing was done, and nobody answered in time. Without `at` something else in the batch has to
        see to it that a copy of it doesn't act (`once`).
        """
        body = self.body(who, calls, at)
        was_lost = False
        while True:
            least = 0.0
            try:
                answer = self.ended_by(self.sent("POST", "/batch?why", body), len(calls))
                if answer.error != "nomemory" or not was_lost:
                    return answer, was_lost
            except LostAnswer:
                was_lost = True
            except NoService as error:
                if patience.is_over and not was_lost:
                    raise Unreachable(f"{self.where()} doesn't answer: {error}") from error
                least = error.after
            except MooError:
                # That nothing was done now doesn't say that nothing was done before.
                if not was_lost:
                    raise
            if patience.is_over:
                raise Unsure(at)
            self.rest(patience.pause(least))

    # The routes

    def body(self, who: Optional[int], calls: list[str], at: Optional[int] = None) -> bytes:
        """The body of a request with calls."""
        return batch_body(who if self.can_name else None, calls, at)

    def ask(self, who: Optional[int], calls: list[str], at: Optional[int] = None, patience: Optional[float] = None) -> Answer:
        """What a batch would answer; nothing changes."""
        return self.tried("POST", "/ask?why", self.body(who, calls, at), patience, len(calls))

    def each(self, who: Optional[int], calls: list[str], at: Optional[int] = None, patience: Optional[float] = None) -> Answer:
        """What each call alone would answer; nothing changes."""
        return self.tried("POST", "/each?why", self.body(who, calls, at), patience, len(calls))

    def alone(self, who: int, calls: list[str], at: Optional[int] = None, patience: Optional[float] = None) -> Union[list[Said], Answer]:
        """What each reading call alone would answer, by `/each`; or the answer that refuses all of them.

        A service that has no such route is asked by batches: of one that is refused the call that was is left out, and the others are asked
        again.
        """
        if self.has_each is not False:
            answer = self.each(who, calls, at, patience)
            self.has_each = not answer.is_missing
            if self.has_each:
                return [said_of(one) for one in answer.said["each"]] if answer.is_good else answer
        return self.alone_by_asking(who, calls, at, patience)

    def alone_by_asking(self, who: int, calls: list[str], at: Optional[int], patience: Optional[float]) -> Union[list[Said], Answer]:
        """The same by batches."""
        found: dict[int, Said] = {}
        left = list(range(len(calls)))
        while left:
            answer = self.ask(who, [calls[place] for place in left], at, patience)
            if answer.is_good:
                found.update(zip(left, map(Said, answer.said["answers"])))
                break
            if not answer.call:
                return answer
            found[left.pop(answer.call - 1)] = Said(answer.error, False, answer.why)
        return [found[place] for place in range(len(calls))]

    def answers_by(self, mark: str) -> Optional[list[str]]:
        """The answers of a batch by the name that its first call gave to a mark, if they can be found; a service keeps none."""
        return None

    def seq(self, patience: Optional[float] = None) -> int:
        """The number of accepted batches."""
        answer = self.tried("GET", "/seq", None, patience)
        if not answer.is_good:
            raise Unreachable(f"{self.where()} isn't one of moo: it answers {answer.status} to /seq")
        return int(answer.said["seq"])


def said_of(said: dict[str, Any]) -> Said:
    """What `/each` tells of one call."""
    return Said(said["answer"]) if "answer" in said else Said(str(said["error"]), False, str(said.get("why", "")))
