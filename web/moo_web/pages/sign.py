"""The pages to sign in and out, and the page to which a link for a password leads."""

from __future__ import annotations

from moo_web.app import Reply, Request
from moo_web.pages.pages import LONGEST_KEPT, Pages, Visit, went
from moo_web.pages.words import sentence
from moo_web.paths import url_for
from moo_web.people import sessions
from moo_web.people.file import Wrong
from moo_web.people.people import Crowded, People, TooManyTries, WrongPassword

SHORTEST_PASSWORD = 8
# A form that was kept comes with up to three letters for each of its own.
LONGEST_SIGN_IN = 4 * LONGEST_KEPT
CROWDED = "Too many people sign in at this moment. Try again."


class Sign:
    """What these pages do."""

    def __init__(self, pages: Pages, people: People) -> None:
        self.pages, self.people = pages, people

    def form(self, request: Request) -> Reply:
        """The page to sign in."""
        return self.pages.sign_in(request, 200, sessions.local_path(request.fields().get("to", "/")))

    def sign_in(self, request: Request) -> Reply:
        """A new session. An older one of this browser ends."""
        if not sessions.is_from_here(request):
            return self.pages.error(request, Reply(403), {"error": "another page"})
        form = request.form(LONGEST_SIGN_IN)
        # Telephones put a blank after a word.
        name, to, kept = form.get("name", "").strip(), sessions.local_path(form.get("to", "/")), form.get("kept", "")
        try:
            signed = self.people.sign_in(name, form.get("password", ""), request.address)
        except WrongPassword:
            return self.pages.sign_in(request, 403, to, "That name and that password don’t go together.", name, kept=kept)
        except TooManyTries as wait:
            return self.pages.sign_in(request, 429, to, told_wait(wait), name, ("Retry-After", str(int(wait.seconds) + 1)), kept=kept)
        except Crowded:
            return self.pages.sign_in(request, 503, to, CROWDED, name, kept=kept)
        self.people.sign_out(sessions.secret_of(request))
        cookie = sessions.new_cookie(signed.secret)
        shown = self.pages.resumed(request, signed.session, to, sessions.kept_fields(kept)) if kept else None
        return shown._replace(lines=(*shown.lines, cookie)) if shown else went(to, cookie)

    def sign_out(self, visit: Visit) -> Reply:
        """Ends the session."""
        self.people.sign_out(sessions.secret_of(visit.request))
        return went(url_for("in", said="out"), sessions.no_cookie())

    # Links for a password

    def link(self, request: Request) -> Reply:
        """The page to which a link leads. It can be loaded again and again: the link is used when the password is sent."""
        return self.link_page(request, request.fields().get("key", ""))

    def link_page(self, request: Request, secret: str, wrong: str = "", status: int = 200) -> Reply:
        """The same, with what is wrong with a password that was sent."""
        name = self.people.links.whose(secret)
        return self.pages.made(
            "pages/link.html", status if name else 404, request, name=name, secret=secret, wrong=wrong, shortest=SHORTEST_PASSWORD
        )

    def use_link(self, request: Request) -> Reply:
        """Sets the password, and signs in. An older session of this browser ends."""
        if not sessions.is_from_here(request):
            return self.pages.error(request, Reply(403), {"error": "another page"})
        form = request.form()
        secret = form.get("key", "")
        try:
            name = self.people.links.use(secret, new_password(form))
        except Wrong as wrong:
            return self.link_page(request, secret, sentence(str(wrong)), 400)
        signed = self.people.enter(name, request.address) if name else None
        if name is None or signed is None:
            return self.link_page(request, secret)
        self.people.sign_out(sessions.secret_of(request))
        return went(url_for("home"), sessions.new_cookie(signed.secret))


def new_password(form: dict[str, str]) -> str:
    """The password that was typed twice. `Wrong`: it can't be taken."""
    new = form.get("new", "")
    if new != form.get("again", ""):
        raise Wrong("the two new passwords aren’t the same")
    if len(new) < SHORTEST_PASSWORD:
        raise Wrong(f"a new password has at least {SHORTEST_PASSWORD} letters")
    return new


def told_wait(wait: TooManyTries) -> str:
    """How long the next try has to wait."""
    seconds = int(wait.seconds) + 1
    return f"Too many tries. Wait {seconds} second{'s' if seconds > 1 else ''}, and try again."
