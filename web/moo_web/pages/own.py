"""A person's own page: the zone of time, the password, the sessions, and the tokens."""

from __future__ import annotations

from moo_web.app import Reply
from moo_web.pages.moments import zone_names
from moo_web.pages.pages import Visit, went
from moo_web.pages.sign import CROWDED, SHORTEST_PASSWORD, new_password, told_wait
from moo_web.pages.words import sentence
from moo_web.paths import url_for
from moo_web.people import sessions
from moo_web.people.file import Wrong
from moo_web.people.people import Crowded, People, TooManyTries, WrongPassword
from moo_web.people.secret import mark_of
from moo_web.people.tokens import LONGEST_LABEL, Terms

# After how many days a token ends, as it can be chosen; 0 is never.
DAYS = ((30, "in 30 days"), (90, "in 90 days"), (365, "in a year"), (0, "never"))
USUAL_DAYS = 90


class OwnPages:
    """What this page does."""

    def __init__(self, people: People) -> None:
        self.people = people

    def show(self, visit: Visit, wrong: str = "", status: int = 200, made: str = "") -> Reply:
        """The page, with what is wrong, or with a token that was made."""
        return visit.page(
            "pages/you.html", status, wrong=wrong, zones=zone_names(), shortest=SHORTEST_PASSWORD, made=made, now=self.people.clock(),
            sessions=self.people.sessions_of(visit.name), here=mark_of(sessions.secret_of(visit.request)),
            tokens=self.people.tokens.of(visit.name), days=DAYS, usual=USUAL_DAYS, longest=LONGEST_LABEL,
        )  # fmt: skip

    def set_password(self, visit: Visit) -> Reply:
        """A new password, for who knows the old one. All sessions end, this one too."""
        try:
            new = new_password(visit.form)
        except Wrong as wrong:
            return self.show(visit, sentence(str(wrong)), 400)
        try:
            self.people.sign_in(visit.name, visit.form.get("old", ""), visit.request.address)
            self.people.set_password(visit.name, new)
        except WrongPassword:
            return self.show(visit, "That isn’t your present password.", 403)
        except TooManyTries as wait:
            return self.show(visit, told_wait(wait), 429)
        except Crowded:
            return self.show(visit, CROWDED, 503)
        except Wrong as wrong:
            return self.show(visit, sentence(str(wrong)), 400)
        return went(url_for("in", said="password"), sessions.no_cookie())

    def set_zone(self, visit: Visit) -> Reply:
        """The zone in which times are shown."""
        zone = visit.form.get("zone", "")
        if zone not in zone_names():
            return visit.refused("bad request", 400)
        return went(url_for("you", said="zone"), sessions.zone_cookie(zone))

    def make_token(self, visit: Visit) -> Reply:
        """A new token, which is shown this once. A label is given once, so that a button that is pressed twice makes one token."""
        label, days = visit.form.get("label", "").strip(), visit.form.get("days", "")
        if days not in {str(count) for count, _ in DAYS}:
            return visit.refused("bad request", 400)
        try:
            if not label:
                raise Wrong("a label is missing: what the token is for")
            terms = Terms(label, int(days) or None, bool(visit.form.get("reads")))
            made = self.people.tokens.make(visit.name, terms, is_only=True)
        except Wrong as wrong:
            return self.show(visit, sentence(str(wrong)), 400)
        return self.show(visit, made=made)

    def end(self, visit: Visit) -> Reply:
        """Ends one of the person's sessions or tokens."""
        end_one(self.people, visit, visit.name)
        return visit.go(url_for("you"), "ended")


def end_one(people: People, visit: Visit, name: str) -> None:
    """Ends the session or the token of a person that a form names. One that has ended already is left as it is."""
    people.tokens.end_one(name, visit.form.get("token", ""))
    people.end_session(name, visit.form.get("session", ""))
