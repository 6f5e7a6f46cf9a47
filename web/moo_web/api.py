"""The interface for programs, `/api/..`: moo's requests for the person whose token comes with them. docs/HTTP.md has its words."""

from __future__ import annotations

import functools
import io
import tempfile
import threading
import time
from typing import cast

from moolib.batches import Item, resolved
from moolib.errors import Failed

from moo_web.app import App, Handler, Reply, Request, in_json
from moo_web.interface.bodies import BadBody, Sent, read_body, read_sent, replied, wants
from moo_web.interface.feed import Feed
from moo_web.interface.followers import Followers
from moo_web.interface.interface import ROUTES
from moo_web.interface.openapi import description
from moo_web.journal.jobs import Busy
from moo_web.journal.writer import Writer
from moo_web.paths import Path
from moo_web.people.audit import TOKEN_REFUSED
from moo_web.people.limits import BURST_SECONDS, Rate, network_of
from moo_web.people.people import People
from moo_web.people.person import Person
from moo_web.world.asking import TRIES
from moo_web.world.door import QUESTION_SECONDS, Answer, Door, Unreachable, batch_body, own_answer, packed
from moo_web.world.losing import answer_with_losses
from moo_web.world.overseeing import Overseeing

PREFIX = "/api/"
# So many dumps may be in files at once: a file is there until its dump was read.
DUMPS_AT_ONCE = 2
NO_TOKEN = in_json(401, ("WWW-Authenticate", "Bearer"), error="unauthorized")
FORBIDDEN = in_json(403, error="forbidden")
TOO_MANY = in_json(429, ("Retry-After", "1"), error="too many")
BAD_REQUEST = in_json(400, error="bad request")
DESCRIPTION = Reply(200, packed(description()))
# Paths that a token for reading alone isn't enough for.
WRITING = frozenset(route.path for route in ROUTES if route.is_writing)
# Paths that want no token.
OPEN = frozenset(route.path for route in ROUTES if route.is_open)


class OtherNumber(Exception):
    """The world has another number than that of a question; `answer` says so."""

    def __init__(self, answer: Answer) -> None:
        super().__init__()
        self.answer = answer


class DumpFile(io.BufferedRandom):
    """A temporary file for a dump. When it is closed another dump may be made."""

    def __init__(self, places: threading.Semaphore) -> None:
        super().__init__(cast(io.RawIOBase, tempfile.TemporaryFile(buffering=0)))
        self.places = places

    def close(self) -> None:
        if self.closed:
            return
        try:
            super().close()
        finally:
            self.places.release()


def passed_on(answer: Answer) -> Reply:
    """moo's answer, as it came."""
    return Reply(answer.status, answer.body)


class Api:
    """The routes of `/api/`, put into an application. `rate` is how many requests a second a token may send, an address twice as many."""

    def __init__(self, app: App, door: Door, writer: Writer, people: People, rate: float) -> None:
        self.app, self.door, self.writer, self.people = app, door, writer, people
        self.of_tokens = Rate(rate, BURST_SECONDS * rate)
        self.of_addresses = Rate(2 * rate, BURST_SECONDS * 2 * rate)
        self.dumps = threading.Semaphore(DUMPS_AT_ONCE)
        self.followers = Followers(Feed(writer, writer.journal.folder), self.is_wizard, self.top)
        self.overseeing = Overseeing(door)
        app.add_guard(PREFIX, self.guard)
        handlers: dict[str, Handler] = {
            "batch": self.batch, "ask": self.ask, "each": self.each, "seq": self.look, "object": self.look, "objects": self.look,
            "since": self.since, "dump": self.dump, "openapi": lambda request: DESCRIPTION,
        }  # fmt: skip
        for route in ROUTES:
            app.add(route.method, Path(route.path), handlers[route.name])

    # Who asks

    def guard(self, request: Request) -> Reply | None:
        """What is answered to those who may not ask, or not now."""
        if not self.of_addresses.take(network_of(request.address)):
            return TOO_MANY
        if request.path in OPEN:
            return None
        secret = token_of(request)
        bearer = self.people.tokens.bearer(secret) if secret else None
        if not bearer:
            if secret:
                self.people.audit(TOKEN_REFUSED, address=request.address)
            return NO_TOKEN
        if not self.of_tokens.take(secret):
            return TOO_MANY
        self.app.admit(bearer.person, secret)
        request.person = bearer.person
        return FORBIDDEN if bearer.is_read_only and request.path in WRITING else None

    def asked(self, request: Request, may_name: bool = True) -> Sent | Reply:
        """Who asks, and what; or what is answered at once."""
        try:
            said = read_body(request)
            person = person_of(request)
            if "as" in said and said["as"] != f"#{person.number}":
                return FORBIDDEN
            return read_sent(person, said, wants(request, "json"), may_name)
        except BadBody as bad:
            return bad.reply

    # What is asked

    def batch(self, request: Request) -> Reply:
        """A batch, which is journaled and acts at most once."""
        sent = self.asked(request)
        if isinstance(sent, Reply):
            return sent
        if not sent.is_batch:
            # moo says what is wrong with it.
            refusal = self.question("/ask?why", sent.body())
            return passed_on(refusal) if refusal.status != 200 else BAD_REQUEST
        try:
            note = sent.note
        except BadBody as bad:
            return bad.reply
        return replied(sent, self.writer.write(sent.person.name, sent.person.number, sent.calls, sent.at, sent.items, note))

    def ask(self, request: Request) -> Reply:
        """What a batch would answer."""
        sent = self.asked(request)
        if isinstance(sent, Reply):
            return sent
        if wants(request, "losses"):
            return replied(sent, answer_with_losses(self.overseeing, sent.person, functools.partial(self.asked_of, sent)))
        return replied(sent, self.asked_of(sent)[1])

    def asked_of(self, sent: Sent) -> tuple[list[str], Answer]:
        """The calls that were sent, with numbers in place of names, and what they would answer."""
        if sent.items:
            return self.named(sent, sent.items)
        return sent.said.get("calls", []), self.question("/ask?why", sent.body())

    def named(self, sent: Sent, items: list[Item]) -> tuple[list[str], Answer]:
        """The calls of a batch with names, and what they would answer, at one number of the world. No calls if that is a refusal."""
        end = time.monotonic() + QUESTION_SECONDS
        for _ in range(TRIES):
            at = self.door.asked("GET", "/seq", None, end).said["seq"] if sent.at is None else sent.at

            def ask(calls: list[str]) -> Answer:
                answer = self.door.asked("POST", "/ask?why", batch_body(sent.person.number, calls, at), end)
                if answer.error == "stale":
                    raise OtherNumber(answer)
                return answer

            try:
                return resolved(items, {}, ask)
            except OtherNumber as moved:
                if sent.at is not None:
                    return [], moved.answer
            except ValueError:
                return [], own_answer(413, error="too large")
            except Failed as failed:
                return [], own_answer(400, error="bad request", why=failed.reason)
        raise Unreachable

    def each(self, request: Request) -> Reply:
        """What each call alone would answer."""
        sent = self.asked(request, may_name=False)
        if isinstance(sent, Reply):
            return sent
        return replied(sent, self.question("/each?why", sent.body()))

    def look(self, request: Request, _: str = "") -> Reply:
        """A question of moo's that is the same for everybody."""
        path = request.path.removeprefix(PREFIX.rstrip("/"))
        return passed_on(self.door.asked("GET", path, None, time.monotonic() + QUESTION_SECONDS))

    def since(self, request: Request, at: int) -> Reply:
        """What has changed since a number of the world."""
        return self.followers.reply(request, person_of(request), at)

    def top(self, person: Person, at: int) -> int | None:
        """The object that was made last in the world of this number; None if it has another number now."""
        answer = self.question("/ask?why", batch_body(person.number, ["max_object()"], at))
        return int(answer.said["answers"][0][1:]) if answer.status == 200 else None

    def dump(self, request: Request) -> Reply:
        """The dump, for wizards. It is put into a file first, so that moo doesn't wait for a slow reader."""
        if not self.is_wizard(person_of(request)):
            return FORBIDDEN
        end = time.monotonic() + QUESTION_SECONDS
        if not self.dumps.acquire(timeout=QUESTION_SECONDS):
            raise Busy
        file = DumpFile(self.dumps)
        try:
            refusal = self.door.copied("/dump", file, end)
        except BaseException:
            file.close()
            raise
        if refusal:
            file.close()
            return passed_on(refusal)
        length = file.tell()
        file.seek(0)
        return Reply(200, b"", "text/plain", (("Content-Length", str(length)),), file)

    def is_wizard(self, person: Person) -> bool:
        """Whether the person's object is a wizard now."""
        return self.door.is_wizard(person.number, QUESTION_SECONDS)

    def question(self, path: str, body: bytes) -> Answer:
        """moo's answer to a question. `Unreachable`: there is none in time."""
        return self.door.asked("POST", path, body, time.monotonic() + QUESTION_SECONDS)


def token_of(request: Request) -> str:
    """The token that came, or an empty text."""
    scheme, _, secret = request.line("authorization").partition(" ")
    return secret.strip() if scheme.lower() == "bearer" else ""


def person_of(request: Request) -> Person:
    """Whose token came, which the guard has looked up."""
    assert isinstance(request.person, Person)
    return request.person
