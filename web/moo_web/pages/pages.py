"""Pages for people who are signed in, made of templates.

    pages = Pages(app, people, index, asker, rate)
    pages.get("object", lambda visit, number: visit.page("hello.html", number=number))
    pages.post("out", lambda visit: visit.go(url_for("home"), "out"))

Who isn't signed in gets the page to sign in, with status 401, and then the page that was asked for. A POST is refused if it doesn't carry
the session's token, or comes from a page of another site. Templates are in `templates/`; everything that is put into one is escaped,
except for `Markup`. Each page has a policy that runs no script and takes no style but the sheet's.
"""

from __future__ import annotations

import contextlib
import hashlib
import sqlite3
from pathlib import Path
from typing import Any, Callable

import jinja2
from markupsafe import Markup
from moolib.calls import call_name
from moolib.service import Said

from moo_web.app import App, Reply, Request, TooLarge
from moo_web.journal.history import History
from moo_web.pages import links
from moo_web.pages.branches import in_branches
from moo_web.pages.glossary import named, rights, term
from moo_web.pages.moments import Zone, zone_of
from moo_web.pages.sentences import in_words
from moo_web.pages.waiting import Waiting, waiting
from moo_web.pages.words import ERROR_TEXTS, FOR_WIZARDS, MENU, PASSING, REPLIES, SAID, sentence
from moo_web import paths
from moo_web.paths import PATHS, form_for, query_of, url_for
from moo_web.people import sessions
from moo_web.people.limits import BURST_SECONDS, Rate, network_of
from moo_web.people.people import People, Session
from moo_web.world.asking import TRIES, Asker, Moved
from moo_web.world.door import Unreachable
from moo_web.world.index import Index
from moo_web.world.properties import SightNames
from moo_web.world.things import NotThere, World, cut_name
from moo_web.world.trees import Node

HERE = Path(__file__).parents[1]
HTML = "text/html; charset=utf-8"
# What was typed in a form is kept for who isn't signed in up to so many letters.
LONGEST_KEPT = 1 << 16
POLICY = (
    (
        "Content-Security-Policy",
        "default-src 'none'; style-src 'self'; img-src 'self'; form-action 'self'; frame-ancestors 'none'; base-uri 'none'",
    ),
    ("Referrer-Policy", "same-origin"),
    ("Cross-Origin-Opener-Policy", "same-origin"),
    ("Cross-Origin-Resource-Policy", "same-origin"),
    ("X-Frame-Options", "DENY"),
)
KEPT_FOR_A_DAY = (("Cache-Control", "max-age=86400"), ("Cross-Origin-Resource-Policy", "same-origin"))

PageHandler = Callable[..., Reply]


class NoObject(Exception):
    """The object as which a person acts isn't there any more."""


class Visit:
    """A request of somebody who is signed in. `number` is the object as which they act; `seen` is the world, once it was looked at.

    `is_first` is whether this is the first try to make its page.
    """

    def __init__(self, pages: Pages, request: Request, session: Session, is_first: bool = False) -> None:
        self.pages, self.request, self.session, self.is_first = pages, request, session, is_first
        self.index, self.asker, self.sight_names = pages.index, pages.asker, pages.sight_names
        self.name, self.number = session.person
        self.fields = request.fields()
        self.zone = zone_of(sessions.cookies_of(request).get(sessions.ZONE_COOKIE, ""))
        self.seen: World | None = None
        # Whether it is the world that was known last, and moo wasn't asked for its number.
        self.is_trusting = False
        # What calls answer in the world of the number `told_seq`.
        self.told: dict[str, Any] = {}
        self.told_seq = -1

    @property
    def world(self) -> World:
        """The public facts of the world, of one number for the whole page. `NoObject`: the person's object isn't in it.

        The first try of a page takes the world of which the writer has told last. What is asked of it, or `confirm`, tells if it has moved on.
        """
        if self.seen is None:
            last = self.index.last_told() if self.is_first else None
            self.is_trusting = last is not None and self.number in last.things
            self.seen = last if last and self.is_trusting else self.index.world()
        if self.number not in self.seen.things:
            raise NoObject
        return self.seen

    def confirm(self) -> None:
        """Sees that the page is of the present world, if nothing was asked of it. `Moved`: it isn't. `Unreachable`: moo doesn't tell."""
        if self.is_trusting and self.seen and not self.told and not self.index.is_present(self.seen):
            raise Moved

    @property
    def is_wizard(self) -> bool:
        """Whether the person's object is a wizard."""
        return self.world.is_wizard(self.number)

    def may_change(self, owner: int | None, rights: str) -> bool:
        """Whether the person may change a property or a verb of this owner, with these rights."""
        return owner == self.number or "w" in rights or self.is_wizard

    @property
    def waiting(self) -> Waiting | None:
        """How many petitions wait for the person, by what is known without asking."""
        return waiting(self.index, self.pages.history, self.name, self.number, self.seen or self.index.kept)

    @property
    def places(self) -> list[tuple[str, str, int]]:
        """What the navigation shows the person, by what is known of the world without asking: addresses, each with its word.

        With each comes how many things wait there.
        """
        known, waits = self.seen or self.index.kept, self.waiting
        shown = MENU + (FOR_WIZARDS if known and known.is_wizard(self.number) else ())
        return [(url_for(name), word, waits.answer if waits and name == "petitions" else 0) for name, word in shown]

    def answers(self, calls: list[str]) -> list[Any]:
        """What each call answers the person in the world of this page: a value, or a `Refusal`. `Moved`: the world has moved on.

        Each call is asked once.
        """
        if self.told_seq != self.world.seq:
            self.told, self.told_seq = {}, self.world.seq
        new = [call for call in dict.fromkeys(calls) if call not in self.told]
        if new:
            self.told.update(zip(new, self.asker.answers(self.number, new, self.told_seq)))
        return [self.told[call] for call in calls]

    def said(self, calls: list[str]) -> list[Said]:
        """The same as moo writes it. These calls are asked each time."""
        found = self.asker.said(self.number, calls, self.world.seq)
        # moo has told that it has this number.
        self.is_trusting = False
        return found

    def short(self, number: int) -> str:
        """The name of an object, cut if it is long; its number, if it isn't there."""
        thing = self.world.things.get(number)
        return cut_name(thing.name) if thing else f"#{number}"

    def link(self, number: int, nothing: str = "nothing") -> Markup:
        """An object as a link; `nothing` is written for #-1."""
        return links.link(self.world, number, nothing)

    def tree(self, nodes: list[Node], what: str) -> Markup:
        """Trees of objects as lists that fold: their `children`, or their `contents`."""
        return in_branches(self.world, nodes, what)

    def value(self, given: Any, longest: int = links.LONGEST_VALUE) -> Markup:
        """A value, its objects as links."""
        return links.value(self.world, given, longest)

    def shown(self, given: Any, longest: int = links.LONGEST_VALUE) -> Markup:
        """A value for readers: a text without quotes, if it has letters."""
        if isinstance(given, str) and given.strip():
            return links.text(given, longest)
        return self.value(given, longest)

    def call(self, text: str, longest: int = links.LONGEST_VALUE) -> Markup:
        """A call, its objects as links."""
        return links.call(self.world, text, longest)

    @property
    def form(self) -> dict[str, str]:
        """The fields of the form that was sent."""
        return self.request.form()

    def page(self, template: str, status: int = 200, *lines: sessions.HeaderLine, **parts: object) -> Reply:
        """The page that a template makes of these parts. It also has `visit`, and what `base.html` shows."""
        return self.pages.made(template, status, self.request, *lines, visit=self, token=self.session.form, zone=self.zone, **parts)

    def go(self, path: str, said: str = "") -> Reply:
        """Sends the browser to a path, for whose page `said` names a sentence of `SAID`."""
        return went(path + (("&" if "?" in path else "?") + f"said={said}" if said else ""))

    def refused(self, word: str, status: int, **parts: object) -> Reply:
        """The page for an error of `ERROR_TEXTS`."""
        return self.pages.error(self.request, Reply(status), {"error": word, **parts})


def went(path: str, *lines: sessions.HeaderLine) -> Reply:
    """Sends the browser to a path of this front."""
    return Reply(303, b"", HTML, (("Location", path), *POLICY, *lines))


class Pages:
    """The pages, put into an application. An address may ask for twice `rate` pages a second.

    `sight_names` are the properties that say what is seen at a place.
    """

    def __init__(
        self, app: App, people: People, index: Index, asker: Asker, history: History, rate: float, sight_names: SightNames = SightNames()
    ) -> None:  # fmt: skip
        self.app, self.people, self.index, self.asker, self.history, self.sight_names = app, people, index, asker, history, sight_names
        self.rate = Rate(2 * rate, BURST_SECONDS * 2 * rate)
        self.kept_forms: list[tuple[paths.Path, PageHandler]] = []
        self.names: set[str] = set()
        loader = jinja2.FileSystemLoader(HERE / "templates")
        self.templates = jinja2.Environment(
            loader=loader, autoescape=True, undefined=jinja2.StrictUndefined, trim_blocks=True, lstrip_blocks=True, auto_reload=False
        )
        self.templates.globals |= {
            "whole": links.WHOLE, "in_words": in_words, "url_for": url_for, "form_for": form_for,
            "query_of": query_of, "call_name": call_name, "replies": REPLIES, "term": term, "named": named, "rights": rights,
        }  # fmt: skip
        self.sheet = (HERE / "static" / "style.css").read_bytes()
        self.mark = hashlib.sha256(self.sheet).hexdigest()[:12]
        app.for_people = self.error
        self.add_file("sheet", "text/css; charset=utf-8")
        self.add_file("icon", "image/svg+xml")

    def warm(self) -> None:
        """Reads the world and the journal, so that the first page needn't wait for it."""
        with contextlib.suppress(Unreachable):
            self.index.world()
        self.history.found(None, None, 0)

    def add_file(self, name: str, kind: str) -> None:
        """A file of `static/`, for everybody."""
        content = (HERE / "static" / PATHS[name].text[1:]).read_bytes()
        lines = (*KEPT_FOR_A_DAY, ("ETag", f'"{hashlib.sha256(content).hexdigest()[:16]}"'))

        def given(request: Request) -> Reply:
            is_known = request.line("If-None-Match") == lines[-1][1]
            return Reply(304, b"", kind, lines) if is_known else Reply(200, content, kind, lines)

        self.app.add("GET", PATHS[name], given)

    def get(self, name: str, handler: PageHandler) -> None:
        """A page, at the address of this name, or at one of a regular expression. Its handler is given the visit, and the parts of the address."""
        self.names.add(name)
        self.app.add("GET", PATHS.get(name, name), lambda request, *parts: self.visited(request, handler, parts))

    def has(self, name: str) -> bool:
        """Whether there is a page at the address of this name."""
        return name in self.names

    def post(self, name: str, handler: PageHandler, is_kept: bool = False) -> None:
        """What a form does, for who is signed in. The form has the field `form` with the session's token.

        With `is_kept` what was typed outlives the session: who signs in again gets the form with it, by a `go` of `edit`.
        """
        self.app.add("POST", PATHS[name], lambda request, *parts: self.sent(request, handler, parts, is_kept))
        if is_kept:
            self.kept_forms.append((PATHS[name], handler))

    def open(self, method: str, name: str, handler: PageHandler) -> None:
        """A page or a form for everybody. Its handler is given the request."""
        self.app.add(method, PATHS[name], lambda request, *parts: self.flooded(request) or handler(request, *parts))

    # What is answered

    def visited(self, request: Request, handler: PageHandler, parts: tuple[Any, ...]) -> Reply:
        """A page for who is signed in, or the one to sign in."""
        if refusal := self.flooded(request):
            return refusal
        secret = sessions.secret_of(request)
        session = self.people.session(secret)
        return self.shown(request, session, secret, handler, parts) if session else self.sign_in(request, 401, wanted_of(request))

    def shown(self, request: Request, session: Session, secret: str, handler: PageHandler, parts: tuple[Any, ...]) -> Reply:
        """A page for somebody with whom this secret came."""
        self.app.admit(session.person, secret)
        for attempt in range(TRIES):
            # The whole page is of one number of the world, so it is made anew if the world has moved on.
            try:
                visit = Visit(self, request, session, attempt == 0)
                reply = self.answered(visit, handler, parts)
                visit.confirm()
                return reply
            except Moved:
                continue
        return self.error(request, Reply(503), {"error": "busy"})

    def answered(self, visit: Visit, handler: PageHandler, parts: tuple[Any, ...]) -> Reply:
        """What the handler of a page answers."""
        try:
            return handler(visit, *parts)
        except NoObject:
            return visit.refused("no object", 403)
        except NotThere as nothing:
            return visit.page("pages/no_object.html", 404, number=nothing.number)

    def sent(self, request: Request, handler: PageHandler, parts: tuple[Any, ...], is_kept: bool = False) -> Reply:
        """What a form's handler answers, if the form is one of the person's own."""
        if refusal := self.flooded(request):
            return refusal
        if not sessions.is_from_here(request):
            return self.error(request, Reply(403), {"error": "another page"})
        session = self.people.session(sessions.secret_of(request))
        if session is None:
            if is_kept:
                # A longer form isn't even read.
                fields = request.form() if request.length <= LONGEST_KEPT else {}
                return self.sign_in(request, 401, request.path, kept=sessions.kept_text(fields), is_lost=not fields)
            return self.sign_in(request, 401, sessions.page_before(request))
        if not sessions.has_token(request, session):
            if is_kept and (shown := self.resumed(request, session, request.path, request.form())):
                return shown
            return self.error(request, Reply(403), {"error": "another page"})
        self.app.admit(session.person, sessions.secret_of(request))
        try:
            return self.answered(Visit(self, request, session), handler, parts)
        except Moved:
            return self.error(request, Reply(503), {"error": "busy"})

    def resumed(self, request: Request, session: Session, path: str, fields: dict[str, str]) -> Reply | None:
        """The form that was sent to this path when no session was there, with all that was typed in it. Nothing of it is done."""
        for one, handler in self.kept_forms:
            if (found := one.read(path)) is not None:
                request.sent = fields | {"go": "edit"}
                try:
                    return self.answered(Visit(self, request, session), handler, found)
                except Moved:
                    return self.error(request, Reply(503), {"error": "busy"})
        return None

    def flooded(self, request: Request) -> Reply | None:
        """What is answered to an address that has used up its rate."""
        if self.rate.take(network_of(request.address)):
            return None
        return self.error(request, Reply(429, lines=(("Retry-After", "1"),)), {"error": "too many"})

    def sign_in(
        self, request: Request, status: int, to: str, wrong: str = "", name: str = "", *lines: sessions.HeaderLine, kept: str = "",
        is_lost: bool = False,
    ) -> Reply:  # fmt: skip
        """The page to sign in, and then to go to a path. `kept` is a form that was sent there without a session, unless it is too long.

        `is_lost`: it is.
        """
        is_lost = is_lost or len(kept) > LONGEST_KEPT
        kept = "" if is_lost else kept
        return self.made("pages/sign_in.html", status, request, *lines, to=to, wrong=wrong, name=name, kept=kept, is_lost=is_lost)

    def error(self, request: Request, reply: Reply, parts: dict[str, Any]) -> Reply:
        """The page for an answer that isn't a good one."""
        word, why = parts.get("error"), str(parts.get("why", ""))
        request.refusal = str(word)
        title, text = ERROR_TEXTS.get(str(word), ERROR_TEXTS["internal"])
        session = None
        with contextlib.suppress(sqlite3.Error):
            session = self.people.session(sessions.secret_of(request))
        visit = Visit(self, request, session) if session else None
        return self.made(
            "message.html", reply.status, request, *reply.lines,
            visit=visit, token=session.form if session else "", zone=visit.zone if visit else Zone(), title=title,
            text=sentence(why) if why else text.format(**parts),
            again=self.again(request) if session and word in PASSING else {},
        )  # fmt: skip

    def again(self, request: Request) -> dict[str, str]:
        """What was typed in a form that is kept, so that it can be sent once more; empty if it isn't such a form."""
        if request.method != "POST" or all(path.read(request.path) is None for path, _ in self.kept_forms):
            return {}
        try:
            return {name: value for name, value in request.form().items() if name != sessions.TOKEN_FIELD}
        except TooLarge:
            return {}

    def made(self, template: str, status: int, request: Request, *lines: sessions.HeaderLine, **parts: object) -> Reply:
        """An answer with what a template makes of these parts."""
        known: dict[str, object] = {
            "pages": self, "path": request.path, "visit": None, "token": "", "zone": Zone(),
            "notice": SAID.get(request.fields().get("said", ""), ""), "query": "",
        }  # fmt: skip
        text = self.templates.get_template(template).render(known | parts)
        return Reply(status, text.encode(errors="replace"), HTML, (*POLICY, *lines))


def wanted_of(request: Request) -> str:
    """The path and query that were asked for."""
    return sessions.local_path(request.path + (f"?{request.query}" if request.query else ""))
