"""The feeds: what waits for a person, what somebody did, and what was done with an object; each as far as who asks may read it.

They are for who is signed in, and for programs with a token of theirs: as `Authorization: Bearer TOKEN`, or as the password of Basic.
"""

from __future__ import annotations

import base64
import hashlib
from typing import Any

from markupsafe import Markup

from moo_web.app import Reply, Request, in_json
from moo_web.forms.inbox import PetitionPages, PetitionRow
from moo_web.journal.history import History, StillRead
from moo_web.journal.segments import Accepted
from moo_web.journal.tables import sum_of
from moo_web.journal.talks import Talk, decided_of
from moo_web.pages.atom import KIND, AtomEntry, AtomFeed, atom_mark
from moo_web.pages.batches import Telling
from moo_web.pages.history import seen_by
from moo_web.pages.pages import PageHandler, Pages, Visit, wanted_of
from moo_web.pages.sentences import told
from moo_web.pages.words import REPLIES
from moo_web.paths import PATHS, url_for
from moo_web.people import sessions
from moo_web.people.audit import TOKEN_REFUSED
from moo_web.people.people import Session
from moo_web.world.things import shortened

MOST_ENTRIES = 30
LONGEST_TITLE = 200
NO_TOKEN = in_json(401, ("WWW-Authenticate", 'Basic realm="moo: a token as the password", charset="UTF-8"'), error="unauthorized")
LINES = (("Cache-Control", "private, no-cache"),)


class FeedPages:
    """What these pages do."""

    def __init__(self, pages: Pages, petitions: PetitionPages, history: History) -> None:
        self.pages, self.petitions, self.history = pages, petitions, history

    def add(self, name: str, handler: PageHandler) -> None:
        """A feed at the address of this name."""
        self.pages.app.add("GET", PATHS[name], lambda request, *parts: self.followed(request, handler, parts))

    def followed(self, request: Request, handler: PageHandler, parts: tuple[Any, ...]) -> Reply:
        """What is answered to who is signed in, or comes with a token; others get nothing of a feed."""
        if refusal := self.pages.flooded(request):
            return refusal
        secret = sessions.secret_of(request)
        session = self.pages.people.session(secret)
        if session is None and (given := token_in(request)):
            bearer, secret = self.pages.people.tokens.bearer(given), given
            session = Session(bearer.person, "") if bearer else None
            if session is None:
                self.pages.people.audit(TOKEN_REFUSED, address=request.address)
        if session is not None:
            return self.pages.shown(request, session, secret, handler, parts)
        is_browser = request.line("sec-fetch-mode") == "navigate" and not request.line("authorization")
        return self.pages.sign_in(request, 401, wanted_of(request)) if is_browser else NO_TOKEN

    # The feeds

    def inbox(self, visit: Visit) -> Reply:
        """The petitions that the person may see, and their own that were decided. `TooLong`: there are too many."""
        listed, _ = self.petitions.listed(visit)
        rows = self.petitions.rows(visit, listed[-MOST_ENTRIES:], None)
        ended = decided_of(self.history, visit.name, MOST_ENTRIES)
        entries = [*(entry_of_row(visit, row) for row in rows), *(entry_of_talk(visit, talk, list(map(str, talk.calls))) for talk in ended)]
        return given(visit, "Petitions", "feed", url_for("petitions"), entries)

    def of_person(self, visit: Visit, name: str) -> Reply:
        """What somebody did. `StillRead`: the journal is still being read."""
        return self.of_batches(visit, f"What {name} did", url_for("history", who=name), name, None)

    def of_object(self, visit: Visit, number: int) -> Reply:
        """What was done with an object. `StillRead`: as above."""
        title = f"{visit.short(number)} #{number}" if number in visit.world.things else f"#{number}"
        return self.of_batches(visit, title, url_for("history", o=number), "", number)

    def of_batches(self, visit: Visit, title: str, page: str, who: str, number: int | None) -> Reply:
        """The last batches by a person, or about an object."""
        found = seen_by(visit, self.history, who, number, None, None, None)
        if found is None:
            raise StillRead
        entries = [entry_of_batch(visit, self.history, batch, number) for batch in found.batches[:MOST_ENTRIES]]
        return given(visit, title, visit.request.path, page, entries)


def given(visit: Visit, title: str, about: str, page: str, entries: list[AtomEntry]) -> Reply:
    """The answer with a feed, or that it is as it was."""
    entries = sorted(entries, key=lambda entry: -entry.updated)[:MOST_ENTRIES]
    text = AtomFeed(title, atom_mark("feed", about, visit.name.lower()), 0.0, visit.request.path, page, entries).text
    lines = (*LINES, ("ETag", f'"{hashlib.sha256(text).hexdigest()[:32]}"'))
    return Reply(304, b"", KIND, lines) if visit.request.line("if-none-match") == lines[-1][1] else Reply(200, text, KIND, lines)


def token_in(request: Request) -> str:
    """The token that came: of the line `authorization`, or the password of Basic; empty if there is none."""
    scheme, _, secret = request.line("authorization").partition(" ")
    if scheme.lower() == "bearer":
        return secret.strip()
    try:
        return base64.b64decode(secret, validate=True).decode().partition(":")[2] if scheme.lower() == "basic" else ""
    except ValueError:
        return ""


def without_links(words: Markup) -> str:
    """A sentence without its links."""
    return words.striptags().replace("\xa0", " ")


def entry_of_row(visit: Visit, row: PetitionRow) -> AtomEntry:
    """An open petition."""
    if row.talk is not None:
        return entry_of_talk(visit, row.talk, row.seen.calls, row.seen.hidden)
    sentences = sentences_of(visit, row.seen.calls, row.seen.hidden)
    name, number = visit.short(row.petition.who), row.petition.number
    mark = atom_mark("petition", number, f"#{row.petition.who}")
    return AtomEntry(mark, titled(name, sentences), 0.0, name, url_for("petition", number=number), "\n".join(sentences))


def entry_of_talk(visit: Visit, talk: Talk, calls: list[str], hidden: int = 0) -> AtomEntry:
    """A petition of the journal, open or ended, of which a person may read these calls."""
    asked, sentences = talk.asked, sentences_of(visit, calls, hidden)
    lines = [asked.note.words] if calls and asked.note.words else []
    lines += sentences
    for one in talk.answers:
        lines += [f"{one.who} {REPLIES[one.says]}", *([one.words] if one.words else [])]
    ended = ""
    if talk.ended:
        ended = "Granted: " if talk.is_granted else "Done: " if talk.done_by else "Ended: "
        lines += [f"{ended}by {talk.ended.who}.", *([talk.word] if talk.word else [])]
    mark = atom_mark("petition", talk.number, asked.t, asked.who.lower())
    title = titled(f"{ended}{asked.who}", sentences)
    return AtomEntry(mark, title, talk.changed, asked.who, url_for("petition", number=talk.number), "\n".join(lines))


def sentences_of(visit: Visit, calls: list[str], hidden: int) -> list[str]:
    """Calls in words, or as they are written; and how many more there are."""
    found = [without_links(told(call, visit.link)) or call for call in calls]
    return found + ([f"And {hidden} more, which you may not read."] if hidden else [])


def titled(name: str, sentences: list[str]) -> str:
    """The title of what somebody asks for or has done: their name, and the first sentence."""
    return shortened(f"{name}: {sentences[0]}" if sentences else name, LONGEST_TITLE)


def entry_of_batch(visit: Visit, history: History, batch: Accepted, number: int | None) -> AtomEntry:
    """A batch that was accepted."""
    telling = Telling(visit, history, batch)
    line = telling.unfolded(number)
    sentences = [without_links(words) for words in line.all] or [without_links(line.words)]
    more = telling.count - len(sentences)
    lines = [*sentences, *([f"And {more} more."] if more > 0 else [])]
    mark = atom_mark("batch", batch.seq, batch.t, batch.who.lower(), sum_of(batch.calls))
    title, address = titled(batch.who, [without_links(line.words)]), url_for("batch", batch=batch.seq)
    return AtomEntry(mark, title, batch.t, batch.who, address, "\n".join(lines))
