"""Sessions in cookies: the cookie, and whether a form that came is one of ours.

The cookie holds a secret, of which `people` keeps a hash. Its name begins with `__Host-`, so that a browser takes it only with `Secure`,
for this host alone and for every path. Scripts don't see it (`HttpOnly`), and other sites' forms don't send it (`SameSite=Lax`).
"""

from __future__ import annotations

import hmac
import json
import urllib.parse

from moo_web.app import Request
from moo_web.people.people import SESSION_SECONDS, Session

COOKIE = "__Host-moo"
ZONE_COOKIE = "__Host-zone"
# The field of a form that carries the session's token.
TOKEN_FIELD = "form"
COOKIE_FLAGS = "Path=/; Secure; HttpOnly; SameSite=Lax"
YEAR_SECONDS = 365 * 86400

HeaderLine = tuple[str, str]


def cookies_of(request: Request) -> dict[str, str]:
    """The cookies that came, by their names. The first of a name counts."""
    parts = [part.strip().partition("=") for part in request.line("cookie").split(";")]
    return {name: value for name, _, value in reversed(parts)}


def secret_of(request: Request) -> str:
    """The secret of the cookie that came, or an empty text."""
    return cookies_of(request).get(COOKIE, "")


def new_cookie(secret: str) -> HeaderLine:
    """The line that gives a browser its cookie. The session ends earlier by itself if it isn't used."""
    return ("Set-Cookie", f"{COOKIE}={secret}; {COOKIE_FLAGS}; Max-Age={int(SESSION_SECONDS)}")


def no_cookie() -> HeaderLine:
    """The line that takes the cookie away."""
    return ("Set-Cookie", f"{COOKIE}=; {COOKIE_FLAGS}; Max-Age=0")


def zone_cookie(zone: str) -> HeaderLine:
    """The line that keeps the reader's zone of time in the browser, for a year."""
    return ("Set-Cookie", f"{ZONE_COOKIE}={zone}; {COOKIE_FLAGS}; Max-Age={YEAR_SECONDS}")


def is_from_here(request: Request) -> bool:
    """Whether a form was sent by a page of this front, as far as the browser says so.

    Browsers say it in `sec-fetch-site`; older ones name the page's site in `origin`, which has to be the one that was asked.
    """
    site, origin = request.line("sec-fetch-site"), request.line("origin")
    if site:
        return site == "same-origin"
    return not origin or urllib.parse.urlsplit(origin).netloc == request.line("host")


def has_token(request: Request, session: Session) -> bool:
    """Whether a form carries the token of this session."""
    return hmac.compare_digest(request.form().get(TOKEN_FIELD, "").encode(), session.form.encode())


def local_path(text: str) -> str:
    """A path of this front to go to, or `/` if the text isn't one."""
    is_local = text.startswith("/") and not text.startswith("//") and "\\" not in text and text.isprintable()
    return text if is_local and text.isascii() else "/"


def page_before(request: Request) -> str:
    """The path of the page whose form was sent, or else `/`."""
    before = urllib.parse.urlsplit(request.line("referer"))
    if before.netloc != request.line("host"):
        return "/"
    return local_path(before.path + (f"?{before.query}" if before.query else ""))


def kept_text(fields: dict[str, str]) -> str:
    """What was typed in a form as one text, to be kept in a page."""
    return json.dumps({name: value for name, value in fields.items() if name != TOKEN_FIELD})


def kept_fields(text: str) -> dict[str, str]:
    """The same again; empty if the text isn't one."""
    try:
        said = json.loads(text)
    except (ValueError, RecursionError):
        return {}
    return {name: value for name, value in said.items() if isinstance(value, str)} if isinstance(said, dict) else {}
