"""Somebody who reads pages and sends their forms, as a browser without scripts does: cookies, links, forms with what is typed in them.

A reader gets pages over HTTP from a front at a port, or from an application of WSGI in this process.
"""

from __future__ import annotations

import html.parser
import http.client
import io
import shutil
import subprocess
import urllib.parse
from typing import Any, Callable, Optional

from tests.support.web import PASSWORD, SECONDS

FORM_TYPE = "application/x-www-form-urlencoded"
HOST = "localhost"
# What asks: a method, a path, a body and lines of a head; and the status, the head and the bytes that come.
Head = list[tuple[str, str]]
Way = Callable[[str, str, Optional[str], dict[str, str]], tuple[int, Head, bytes]]
SPACED = ("td", "th", "li", "p", "dd", "dt", "span", "code", "button", "option", "label", "h1", "h2", "br", "form")


def over_http(port: int) -> Way:
    """The way to a front at a port of this machine."""

    def asked(method: str, path: str, body: Optional[str], lines: dict[str, str]) -> tuple[int, Head, bytes]:
        connection = http.client.HTTPConnection("127.0.0.1", port, timeout=SECONDS)
        try:
            connection.request(method, path, body, lines | {"Host": HOST})
            answer = connection.getresponse()
            return answer.status, answer.getheaders(), answer.read()
        finally:
            connection.close()

    return asked


def in_process(app: Callable[..., Any], address: str = "192.0.2.1") -> Way:
    """The way to an application of WSGI."""

    def asked(method: str, path: str, body: Optional[str], lines: dict[str, str]) -> tuple[int, Head, bytes]:
        path, _, query = path.partition("?")
        text = (body or "").encode()
        environ = {
            "REQUEST_METHOD": method, "PATH_INFO": urllib.parse.unquote(path), "QUERY_STRING": query, "REMOTE_ADDR": address,
            "CONTENT_LENGTH": str(len(text)), "wsgi.input": io.BytesIO(text), "HTTP_HOST": HOST,
            **{f"HTTP_{name.upper().replace('-', '_')}": value for name, value in lines.items()},
        }  # fmt: skip
        got: list[tuple[int, Head]] = []
        whole = b"".join(app(environ, lambda status, head: got.append((int(status.split()[0]), head))))
        return got[0][0], got[0][1], whole

    return asked


class Form:
    """A form of a page: where it is sent, how, what is in its fields, and its buttons, each with its name, value and words."""

    def __init__(self, action: str, method: str) -> None:
        self.action, self.method = action, method
        self.fields: dict[str, str] = {}
        self.buttons: list[list[str]] = []
        self.ticks: dict[str, list[str]] = {}
        self.choices: dict[str, list[str]] = {}


class Page(html.parser.HTMLParser):
    """A page: its status, its text, its forms, links and elements."""

    def __init__(self, status: int, head: Head, text: str, path: str) -> None:
        super().__init__()
        self.status, self.head, self.html, self.path = status, dict(head), text, path
        self.forms: list[Form] = []
        self.links: list[str] = []
        self.elements: list[tuple[str, dict[str, str], bool]] = []
        self.words: list[str] = []
        self.form: Optional[Form] = None
        self.area: Optional[str] = None
        self.select: Optional[str] = None
        self.button: Optional[list[str]] = None
        self.labels = 0
        self.feed(text)
        self.text = " ".join("".join(self.words).replace("\xa0", " ").split())
        self.ids = {at["id"] for _, at, _ in self.elements if "id" in at}

    def handle_starttag(self, tag: str, attrs: list[tuple[str, Optional[str]]]) -> None:
        at = {name: value if value is not None else "" for name, value in attrs}
        self.labels += tag == "label"
        self.elements.append((tag, at, self.labels > 0))
        if tag in SPACED:
            self.words.append(" ")
        if tag == "a" and "href" in at:
            self.links.append(at["href"])
        if tag == "form":
            self.form = Form(at.get("action", self.path), at.get("method", "get"))
            self.forms.append(self.form)
        elif self.form is not None:
            self.take_field(self.form, tag, at)

    def take_field(self, form: Form, tag: str, at: dict[str, str]) -> None:
        """A field of a form, with what is in it."""
        kind, name = at.get("type", "text"), at.get("name", "")
        if tag == "input" and kind in ("checkbox", "radio"):
            form.ticks.setdefault(name, []).append(at.get("value", "on"))
            if "checked" in at:
                form.fields[name] = at.get("value", "on")
        elif tag == "input" and name:
            form.fields[name] = at.get("value", "")
        elif tag == "textarea":
            self.area, form.fields[name] = name, ""
        elif tag == "select":
            self.select = name
            form.choices[name] = []
        elif tag == "option" and self.select:
            form.choices[self.select].append(at.get("value", ""))
            if "selected" in at or self.select not in form.fields:
                form.fields[self.select] = at.get("value", "")
        elif tag == "button":
            self.button = [name, at.get("value", ""), "", at.get("class", "")]
            form.buttons.append(self.button)

    def handle_endtag(self, tag: str) -> None:
        self.labels -= tag == "label"
        if tag in SPACED:
            self.words.append(" ")
        if tag == "form":
            self.form = None
        elif tag == "textarea" and self.form and self.area is not None:
            self.form.fields[self.area] = self.form.fields[self.area].removeprefix("\n")
            self.area = None
        elif tag == "select":
            self.select = None
        elif tag == "button":
            self.button = None

    def handle_data(self, data: str) -> None:
        if self.area is not None and self.form:
            self.form.fields[self.area] += data
        else:
            self.words.append(data)
        if self.button is not None:
            self.button[2] += data

    def form_with(self, words: str) -> tuple[Form, list[str]]:
        """The form and the button with these words on it, which has to be seen."""
        for form in self.forms:
            for button in form.buttons:
                if " ".join(button[2].split()) == words and "hidden" not in button[3].split():
                    return form, button
        raise AssertionError(f"no button {words!r} on {self.path}: {self.text[:900]}")

    def fault(self) -> str:
        """What is wrong with the page as one that people read without scripts; nothing, if it is right."""
        tags = [tag for tag, _, _ in self.elements]
        if {"script", "style"} & set(tags) or any(name == "style" or name.startswith("on") for _, at, _ in self.elements for name in at):
            return "it needs a script, or a style of its own"
        if "default-src 'none'" not in self.head.get("Content-Security-Policy", "") or tags.count("h1") != 1 or tags.count("main") != 1:
            return "it has no policy, or not just one heading"
        labelled = {at.get("for") for tag, at, _ in self.elements if tag == "label"}
        for tag, at, is_in_label in self.elements:
            if tag in ("input", "select", "textarea") and at.get("type") != "hidden":
                if not (is_in_label or at.get("id") in labelled or at.get("aria-label")):
                    return f"a field has no label: {at}"
        ids = [at["id"] for _, at, _ in self.elements if "id" in at]
        if len(ids) != len(set(ids)):
            return "two elements have one id"
        lost = [link for link in self.links if link.startswith("#") and link[1:] not in ids]
        named = {word for _, at, _ in self.elements for word in at.get("aria-describedby", "").split()}
        return f"nothing is at {lost or named - set(ids)}" if lost or named - set(ids) else tidied(self.html)


def tidied(text: str) -> str:
    """What Debian's tidy finds wrong with a page; nothing, if there is no tidy."""
    if not shutil.which("tidy"):
        return ""
    ran = subprocess.run(["tidy", "-q", "-e", "-utf8"], input=text.encode(), capture_output=True, check=False, timeout=SECONDS)
    return ran.stderr.decode()


class Reader:
    """Who reads the pages of a front. `page` is the last one."""

    def __init__(self, asked: Way, name: str = "", password: str = PASSWORD) -> None:
        self.ask = asked
        self.cookies: dict[str, str] = {}
        self.page = Page(0, [], "", "/")
        if name:
            self.get("/in")
            self.send("Sign in", name=name, password=password)

    def asked(self, method: str, path: str, body: Optional[str] = None, head: Optional[dict[str, str]] = None) -> Page:
        """The page of one request, after it was sent elsewhere as often as need be."""
        for _ in range(5):
            lines = {"Cookie": "; ".join(f"{name}={value}" for name, value in self.cookies.items())} | (head or {})
            status, answered, text = self.ask(method, path, body, lines)
            for name, value in answered:
                if name == "Set-Cookie":
                    name, _, value = value.split(";")[0].partition("=")
                    self.cookies[name] = value
            if status != 303:
                self.page = Page(status, answered, text.decode(), path)
                return self.page
            method, path, body, head = "GET", dict(answered)["Location"], None, None
        raise AssertionError("sent elsewhere again and again")

    def get(self, path: str) -> Page:
        """A page."""
        return self.asked("GET", path)

    def post(self, path: str, fields: dict[str, str], **head: str) -> Page:
        """The page that answers these fields."""
        lines = {"Content-Type": FORM_TYPE, "Sec-Fetch-Site": "same-origin", "Referer": f"http://{HOST}{self.page.path}"}
        return self.asked("POST", path, urllib.parse.urlencode(fields), lines | head)

    def send(self, words: str, /, **typed: Optional[str]) -> Page:
        """Presses the button with these words on the last page, after this was typed. None takes a tick away; `__` in a name is a dot."""
        form, button = self.page.form_with(words)
        fields = dict(form.fields)
        for name, value in typed.items():
            name = name.replace("__", ".")
            if value is None:
                fields.pop(name, None)
            elif name in fields or name in form.ticks:
                fields[name] = value
            else:
                raise AssertionError(f"no field {name!r}: {sorted({*fields, *form.ticks})}")
        if button[0]:
            fields[button[0]] = button[1]
        path = urllib.parse.urljoin(self.page.path, form.action)
        return self.post(path, fields) if form.method == "post" else self.get(f"{path}?{urllib.parse.urlencode(fields)}")

    def typed(self, words: str = "Preview") -> dict[str, str]:
        """What is in the fields of the form with this button."""
        return self.page.form_with(words)[0].fields
