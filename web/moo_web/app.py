"""Requests of HTTP and their answers: a router, as an application of WSGI (PEP 3333).

    app = App(tell)
    app.add("GET", Path("/hello/<number>"), lambda request, number: Reply(200, b"hello"))

A route is a method and an address. Its function is given the request and the parts of the address. It may raise what `writer`, `door`,
`history` and `shares` raise.
"""

from __future__ import annotations

import traceback
import urllib.parse
from http import HTTPStatus
from typing import IO, Any, Callable, Iterable, NamedTuple

from moolib.service import LONGEST_BODY

from moo_web.journal.history import StillRead
from moo_web.journal.jobs import Barred, Busy, Stopped, TooMuch, Unknown
from moo_web.paths import Path
from moo_web.people.limits import MOST_NAMES, network_of
from moo_web.people.person import Person
from moo_web.traffic.shares import TIME, Shares, Spent
from moo_web.traffic.turns import NobodyWaits
from moo_web.traffic.visitors import PRESENT, Visitor, never, present, visiting
from moo_web.world.door import TooLong, Unreachable, packed

JSON = "application/json"
FOR_PROGRAMS = "/api/"
# In the environment of a request, whether it has waited for too long, and what tells that its peer is gone.
REFUSED, IS_GONE = "moo.is_refused", "waitress.client_disconnected"
MOST_FORM_FIELDS, MOST_QUERY_FIELDS = 10_000, 100
ALWAYS = (("Cache-Control", "no-store"), ("X-Content-Type-Options", "nosniff"))

Environ = dict[str, Any]


class TooLarge(Exception):
    """The body is longer than moo's may be."""


class Reply(NamedTuple):
    """An answer: its status, its body, the type of that, more lines of its head, and a file in place of the body."""

    status: int
    body: bytes = b""
    kind: str = JSON
    lines: tuple[tuple[str, str], ...] = ()
    file: IO[bytes] | None = None


def in_json(status: int, *lines: tuple[str, str], **parts: object) -> Reply:
    """An answer in JSON, its keys ascending, with these lines in its head."""
    return Reply(status, packed(dict(sorted(parts.items()))), JSON, lines)


class Request:
    """One request, of the environment that WSGI gives."""

    def __init__(self, environ: Environ) -> None:
        self.environ = environ
        self.method: str = environ["REQUEST_METHOD"]
        self.path: str = environ.get("PATH_INFO", "")
        self.query: str = environ.get("QUERY_STRING", "")
        self.address: str = environ.get("REMOTE_ADDR", "")
        self.visitor = Visitor(network_of(self.address), is_gone=environ.get(IS_GONE, never))
        # Whom a guard has found, for the route.
        self.person: object = None
        # The address of the route that fits, as it was added, and the word for the refusal if it is refused.
        self.route, self.refusal = "", ""
        self.sent: dict[str, str] | None = None

    def line(self, name: str) -> str:
        """A line of the head, by its name; empty if there is none."""
        value = self.environ.get("HTTP_" + name.upper().replace("-", "_"), "")
        return value if isinstance(value, str) else ""

    @property
    def length(self) -> int:
        """How many bytes the body has."""
        return int(self.environ.get("CONTENT_LENGTH") or 0)

    def body(self, longest: int = LONGEST_BODY) -> bytes:
        """The body. `TooLarge`: it has more bytes than that."""
        if self.length > longest:
            raise TooLarge
        body = self.environ["wsgi.input"].read(self.length)
        assert isinstance(body, bytes)
        return body

    def form(self, longest: int = LONGEST_BODY) -> dict[str, str]:
        """The fields of a form, each once: the last of a name counts. The body is read once. `TooLarge`: as `body` has it."""
        if self.sent is None:
            self.sent = fields_in(self.body(longest).decode(errors="replace"), MOST_FORM_FIELDS)
        return self.sent

    def fields(self) -> dict[str, str]:
        """The fields of the query."""
        return fields_in(self.query, MOST_QUERY_FIELDS)


def fields_in(text: str, most: int) -> dict[str, str]:
    """The fields in a text such as `a=1&b=2`. Of a text with too many there are none."""
    try:
        return dict(urllib.parse.parse_qsl(text, keep_blank_values=True, max_num_fields=most))
    except ValueError:
        return {}


Handler = Callable[..., Reply]
Guard = Callable[[Request], "Reply | None"]


class Route(NamedTuple):
    """What is done for a method and an address."""

    method: str
    path: Path
    handler: Handler


class Observer:
    """Who observes what is answered. This one doesn't look."""

    def begin(self, request: Request) -> None:
        """A request is being answered, by this thread."""

    def know(self, person: Person) -> None:
        """The request that this thread answers is this person's."""

    def end(self, request: Request, reply: Reply) -> None:
        """Its answer was made."""


class App:
    """The application. `tell` is given what went wrong, for an operator."""

    def __init__(self, tell: Callable[[str], None], shares: Shares | None = None, observer: Observer = Observer()) -> None:
        self.tell, self.shares, self.observer = tell, shares, observer
        self.routes: list[Route] = []
        self.guards: list[tuple[str, Guard]] = []
        # Whose secrets have come lately.
        self.names: dict[str, str] = {}
        # What makes a page of an error, for paths that aren't for programs.
        self.for_people: Callable[[Request, Reply, dict[str, Any]], Reply] | None = None

    def add(self, method: str, path: Path | str, handler: Handler) -> None:
        """A route, to an address or to those of a regular expression. The first that fits is taken."""
        self.routes.append(Route(method, Path.of_pattern(path) if isinstance(path, str) else path, handler))

    def add_guard(self, prefix: str, guard: Guard) -> None:
        """What is asked before any route of a path that begins so, known or not: its answer is given, if there is one."""
        self.guards.append((prefix, guard))

    def reply(self, request: Request) -> Reply:
        """The answer to a request. One whose peer is gone isn't worked on."""
        if request.environ.get(REFUSED) or request.visitor.is_gone():
            return self.failed(request, 503, error="busy")
        with visiting(request.visitor):
            reply = self.tried(request)
            request.visitor = present()
            return reply

    def tried(self, request: Request) -> Reply:
        """What the guards and the route answer, or what went wrong."""
        try:
            for prefix, guard in self.guards:
                if request.path.startswith(prefix) and (refusal := guard(request)):
                    return refusal
            return self.routed(request)
        except (Busy, Unreachable, NobodyWaits, StillRead):
            return self.failed(request, 503, error="busy")
        except Spent as spent:
            return self.failed(request, 429, ("Retry-After", str(spent.seconds)), error="too many", why=str(spent))
        except Barred:
            return self.failed(request, 401, error="unauthorized")
        except Unknown as unknown:
            return self.failed(request, 503, at=unknown.at, error="unknown")
        except Stopped:
            return self.failed(request, 503, error="gap")
        except TooMuch as much:
            return self.failed(request, 429, ("Retry-After", str(much.seconds)), error="too many", why=much.why)
        except (TooLarge, TooLong):
            return self.failed(request, 413, error="too large")
        except Exception:
            self.tell(f"{request.method} {request.path!r} failed:\n{traceback.format_exc()}")
            return self.failed(request, 500, error="internal")

    def admit(self, person: Person, secret: str) -> None:
        """Goes on with the present request for this person, whose secret came with it. `Spent`: there is no time left for them."""
        if len(self.names) >= MOST_NAMES:
            self.names.clear()
        self.names[secret] = person.name
        PRESENT.set(present()._replace(person=person.name))
        self.observer.know(person)
        if self.shares:
            self.shares.must_have(present(), person, TIME)

    def failed(self, request: Request, status: int, *lines: tuple[str, str], **parts: object) -> Reply:
        """An answer that isn't what was asked for: JSON for programs, and a page for people if there are pages."""
        request.refusal = str(parts.get("error", ""))
        reply = in_json(status, *lines, **parts)
        if self.for_people is None or request.path.startswith(FOR_PROGRAMS):
            return reply
        return self.for_people(request, reply, parts)

    def route_of(self, request: Request) -> str:
        """The address of the first route that fits a request's path, as it was added; nothing, if none does."""
        return request.route or next((path.text for _, path, _ in self.routes if path.read(request.path) is not None), "")

    def routed(self, request: Request) -> Reply:
        """The answer of the route that fits."""
        # A page's head may be asked for by itself.
        wanted = "GET" if request.method == "HEAD" and not request.path.startswith(FOR_PROGRAMS) else request.method
        methods = []
        for method, path, handler in self.routes:
            parts = path.read(request.path)
            if parts is not None and method == wanted:
                request.route = path.text
                return handler(request, *parts)
            if parts is not None:
                methods.append(method)
        if methods:
            return self.failed(request, 405, ("Allow", ", ".join(methods)), error="method not allowed")
        return self.failed(request, 404, error="not found")

    def __call__(self, environ: Environ, start: Callable[..., object]) -> Iterable[bytes]:
        request = Request(environ)
        self.observer.begin(request)
        reply = self.reply(request)
        self.observer.end(request, reply)
        given = {name for name, _ in reply.lines}
        lines = [("Content-Type", reply.kind), *(line for line in ALWAYS if line[0] not in given), *reply.lines]
        if reply.file is None and reply.status != 304:
            lines.append(("Content-Length", str(len(reply.body))))
        start(f"{reply.status} {HTTPStatus(reply.status).phrase}", lines)
        if reply.file is not None:
            return environ["wsgi.file_wrapper"](reply.file)  # type: ignore[no-any-return]
        return [] if environ["REQUEST_METHOD"] == "HEAD" else [reply.body]
