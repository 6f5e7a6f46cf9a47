"""Who is being answered at this moment, and what is counted and logged of each request once its answer was made."""

from __future__ import annotations

import json
import threading
import time
from http import HTTPStatus
from typing import Callable, NamedTuple

from moo_web.app import FOR_PROGRAMS, JSON, Observer, Reply, Request
from moo_web.people.person import Person
from moo_web.programs import utc
from moo_web.status.access import AccessLog
from moo_web.status.meters import Meters, kind_of
from moo_web.status.metrics import OTHER

# A longer body isn't a refusal.
LONGEST_REFUSAL = 1 << 14


class Answering(NamedTuple):
    """A request that is being answered: whose it is, as far as that is known, its route, and since when, by two clocks."""

    person: str
    request: Request
    began: float
    since: float


class Activity(Observer):
    """Observes the requests of an application. `route_of` gives the address of a request's route."""

    def __init__(self, meters: Meters, route_of: Callable[[Request], str], log: AccessLog | None) -> None:
        self.meters, self.route_of, self.log = meters, route_of, log
        # By the thread that answers.
        self.now: dict[int, Answering] = {}

    def begin(self, request: Request) -> None:
        self.now[threading.get_ident()] = Answering("", request, time.monotonic(), time.time())

    def know(self, person: Person) -> None:
        mine = threading.get_ident()
        if mine in self.now:
            self.now[mine] = self.now[mine]._replace(person=person.name)

    def end(self, request: Request, reply: Reply) -> None:
        began = self.now.pop(threading.get_ident()).began
        seconds, route = time.monotonic() - began, self.route_of(request) or OTHER
        self.meters.answers.add(route, str(reply.status))
        self.meters.answer_seconds.take(seconds, "api" if request.path.startswith(FOR_PROGRAMS) else "pages")
        if reply.status >= 400:
            self.meters.refusals.add("front", request.refusal or word_in(reply) or HTTPStatus(reply.status).phrase.lower())
        if self.log:
            self.log.write(request.address, request.visitor.person, request.method, route, reply.status, seconds)

    def shown(self) -> list[dict[str, str | None]]:
        """Who is being answered, the longest first: person, route, method, and since when."""
        found = sorted(list(self.now.values()), key=lambda one: one.began)
        return [self.told(one) for one in found]

    def told(self, one: Answering) -> dict[str, str | None]:
        """What is shown of a request."""
        route = self.route_of(one.request) or OTHER
        return {"method": one.request.method, "person": one.person or None, "route": route, "since": utc(one.since)}


def word_in(reply: Reply) -> str:
    """The kind of a refusal in JSON; nothing, if there is none."""
    if reply.kind != JSON or len(reply.body) > LONGEST_REFUSAL:
        return ""
    try:
        said = json.loads(reply.body)
    except ValueError:
        return ""
    return kind_of(str(said.get("error", "")), str(said.get("why", ""))) if isinstance(said, dict) else ""
