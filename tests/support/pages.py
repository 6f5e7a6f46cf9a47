"""A front with its pages, on a world that moo serves; and a reader of them, who keeps cookies and reads HTML."""

from __future__ import annotations

import html.parser
import io
import pathlib
import re
import shutil
import subprocess
import sys
import tempfile
import unittest
import urllib.parse
from typing import Any, Callable

from tests.support.operating import KeptService, SECONDS, make_world
from tests.support.web import PASSWORD, use_web

use_web()

from moo_web.api import Api  # noqa: E402
from moo_web.app import App  # noqa: E402
from moo_web.journal.history import History  # noqa: E402
from moo_web.journal.journal import Journal  # noqa: E402
from moo_web.journal.writer import Writer  # noqa: E402
from moo_web.people import passwords  # noqa: E402
from moo_web.people.people import People  # noqa: E402
from moo_web.world.door import Door  # noqa: E402

# tidy doesn't know that a drawing (SVG) in a page may have links.
LINK_IN_A_DRAWING = re.compile('Warning: <a> proprietary attribute "(href|class)"')
HOST = "front.example.org"
HOME = "192.0.2.1"


def lacking() -> str:
    """What is missing to make pages, and the command that installs it; nothing, if they can be made."""
    sys.path.append("/usr/lib/python3/dist-packages")
    try:
        import jinja2  # noqa: F401
    except ImportError:
        return "jinja2 is missing: apt-get install python3-jinja2"
    return ""


class Read(html.parser.HTMLParser):
    """What a page holds: its text, its links, its forms with their fields, and the elements that it opens."""

    def __init__(self, text: str) -> None:
        super().__init__()
        self.texts: list[str] = []
        self.links: list[str] = []
        self.forms: list[dict[str, Any]] = []
        self.elements: list[tuple[str, dict[str, str]]] = []
        self.title, self.is_title = "", False
        self.feed(text)

    def handle_starttag(self, tag: str, attrs: list[tuple[str, str | None]]) -> None:
        said = {name: value or "" for name, value in attrs}
        self.elements.append((tag, said))
        self.is_title = tag == "title"
        if tag in ("td", "th", "li", "p", "dd", "dt"):
            self.texts.append(" ")
        if tag == "a" and "href" in said:
            self.links.append(said["href"])
        if tag == "form":
            self.forms.append({"action": said.get("action", ""), "method": said.get("method", "get"), "fields": {}})
        if tag in ("input", "button", "select", "textarea") and "name" in said and self.forms:
            self.forms[-1]["fields"][said["name"]] = said.get("value", "")

    def handle_endtag(self, tag: str) -> None:
        self.is_title = False

    def handle_data(self, data: str) -> None:
        if self.is_title:
            self.title += data
        self.texts.append(data)

    @property
    def text(self) -> str:
        """What is to be read, with one blank between words."""
        return re.sub(r"\s+", " ", "".join(self.texts)).replace("\xa0", " ")

    def form(self, action: str) -> dict[str, Any]:
        """The form that is sent to this path."""
        return next(form for form in self.forms if form["action"] == action)


class Answer:
    """What a reader got."""

    def __init__(self, status: int, head: dict[str, str], text: bytes) -> None:
        self.status, self.head, self.bytes = status, head, text
        self.source = text.decode(errors="replace")
        self.read: Any = Read(self.source) if head.get("Content-Type", "").startswith("text/html") else None

    @property
    def text(self) -> str:
        """The words of the page."""
        return str(self.read.text)


class Reader:
    """Somebody with a browser at an address, who asks an application of WSGI."""

    def __init__(self, app: Callable[..., Any], address: str = HOME) -> None:
        self.app, self.address = app, address
        self.cookies: dict[str, str] = {}
        self.lines: dict[str, str] = {}

    def asked(self, method: str, path: str, body: bytes = b"", **lines: str) -> Answer:
        """The answer to a request. `lines` are more of the environment."""
        path, _, query = path.partition("?")
        environ = {
            "REQUEST_METHOD": method, "PATH_INFO": urllib.parse.unquote(path), "QUERY_STRING": query, "REMOTE_ADDR": self.address,
            "CONTENT_LENGTH": str(len(body)), "wsgi.input": io.BytesIO(body), "HTTP_HOST": HOST,
            "HTTP_COOKIE": "; ".join(f"{name}={value}" for name, value in self.cookies.items()), **self.lines, **lines,
        }  # fmt: skip
        got: list[tuple[int, list[tuple[str, str]]]] = []

        def start(status: str, head: list[tuple[str, str]]) -> None:
            got.append((int(status.split()[0]), head))

        text = b"".join(self.app(environ, start))
        status, head = got[0]
        for name, value in head:
            if name == "Set-Cookie":
                self.keep(value)
        return Answer(status, dict(head), text)

    def keep(self, line: str) -> None:
        """Keeps a cookie, or forgets it if it has ended."""
        name, _, value = line.partition(";")[0].partition("=")
        if "max-age=0" in line.lower():
            self.cookies.pop(name, None)
        else:
            self.cookies[name] = value

    def get(self, path: str, **lines: str) -> Answer:
        """Asks for a page."""
        return self.asked("GET", path, b"", **lines)

    def post(self, path: str, fields: dict[str, str], **lines: str) -> Answer:
        """Sends a form, as a page of the front does."""
        how = {"HTTP_ORIGIN": f"https://{HOST}", "HTTP_SEC_FETCH_SITE": "same-origin", "CONTENT_TYPE": "application/x-www-form-urlencoded"}
        return self.asked("POST", path, urllib.parse.urlencode(fields).encode(), **(how | lines))

    def sign_in(self, name: str, password: str = PASSWORD, to: str = "/") -> Answer:
        """Sends the form that people sign in by."""
        return self.post("/in", {"name": name, "password": password, "to": to})

    def token(self, path: str = "/you") -> str:
        """The token that the forms of a page carry."""
        return str(self.get(path).read.form("/out")["fields"]["form"])


def tidied(answer: Answer) -> str:
    """What Debian's tidy finds wrong with a page; nothing, if there is no tidy."""
    if not shutil.which("tidy"):
        return ""
    ran = subprocess.run(["tidy", "-q", "-e", "-utf8"], input=answer.bytes, capture_output=True, check=False, timeout=SECONDS)
    return "".join(line for line in ran.stderr.decode().splitlines(keepends=True) if not LINK_IN_A_DRAWING.search(line))


class PagesTest(unittest.TestCase):
    """A front on a world of this text. `people` are the names and numbers of its people, all with one password."""

    world = ""
    numbers = {"wizard": 3}
    rate = 1_000_000.0

    @classmethod
    def setUpClass(cls) -> None:
        # What is tested here is all else than scrypt.
        cls.addClassCleanup(setattr, passwords, "COST", passwords.COST)
        passwords.COST = 2

    def setUp(self) -> None:
        if why := lacking():
            self.skipTest(why)
        from moo_web.pages.site import make_pages

        room = tempfile.TemporaryDirectory()
        self.addCleanup(room.cleanup)
        self.room = pathlib.Path(room.name)
        self.told: list[str] = []
        make_world(self.room / "world.db", self.world)
        self.moo = KeptService(self.room / "world.db")
        self.addCleanup(self.moo.stop)
        (self.room / "front").mkdir()
        self.people = People(self.room / "front/people.db", self.clock, self.clock)
        self.addCleanup(self.people.close)
        self.journal = Journal(self.room / "front", None, self.told.append)
        self.door = Door(self.moo.port)
        self.writer = Writer(self.door, self.journal, self.told.append, patience=SECONDS)
        self.writer.start()
        self.addCleanup(self.journal.close)
        self.addCleanup(self.writer.end, SECONDS)
        self.app = App(self.told.append)
        api = Api(self.app, self.door, self.writer, self.people, self.rate)
        self.pages = make_pages(self.app, self.people, self.writer, History(self.room / "front"), self.rate)
        for limit in (api.of_tokens, api.of_addresses, self.pages.rate):
            limit.clock = self.clock
        for name, number in self.numbers.items():
            self.people.add(name, number, PASSWORD)

    # The clock of the sessions and of the limits is set by hand.
    now = 1_800_000_000.0

    def clock(self) -> float:
        """The seconds that it is now."""
        return self.now

    def reader(self, name: str | None = None, address: str = HOME) -> Reader:
        """Somebody who is signed in, or nobody yet."""
        reader = Reader(self.app, address)
        if name:
            answer = reader.sign_in(name)
            self.assertEqual(answer.status, 303, answer.source)
        return reader

    def write(self, who: str, *calls: str) -> list[str]:
        """Runs a batch of a person's through the front, and gives its answers."""
        answer = self.writer.write(who, self.numbers[who], list(calls))
        self.assertEqual(answer.status, 200, answer.said)
        answers = answer.said["answers"]
        assert isinstance(answers, list)
        return answers
