"""The page 'What is this place': the operator's text, or one of our own, and the words that are used here. It is for everybody."""

from __future__ import annotations

import threading
from pathlib import Path
from typing import Callable, Optional

from moo_web.app import Reply, Request
from moo_web.journal.notes import is_fit
from moo_web.pages.glossary import GLOSSARY, anchor_of
from moo_web.pages.pages import Pages, Visit
from moo_web.people import sessions

LONGEST_TEXT = 1 << 16
DEFAULT = """\
This is a world that people build together: rooms to walk through, and things in them. All that they make stays, with who made it and when.

You are somewhere in it. World shows where: what is seen there, where the exits lead, and who else is there. Maps shows the rest.

What is yours you change by Change, or by the buttons on its page. Nothing happens before you have seen what it would do, and it can be \
undone. What isn’t yours you can ask for, and say why: its owner and the wizards read it. The wizards look after this place.

To come in you need a name and a password. A wizard gives them to you."""


class BadText(ValueError):
    """A file can't be shown as the text of this page, for this reason."""


def text_in(path: Path) -> str:
    """The text of a file. `BadText`: it can't be read, or is too long, or isn't one."""
    try:
        with open(path, "rb") as file:
            found = file.read(LONGEST_TEXT + 1)
        if len(found) > LONGEST_TEXT:
            raise BadText(f"{path} has more than {LONGEST_TEXT:,} bytes")
        return "".join(letter for letter in found.decode().replace("\r\n", "\n") if letter in "\n\t" or is_fit(letter)).strip()
    except OSError as error:
        raise BadText(f"{path}: {error.strerror}") from None
    except UnicodeDecodeError:
        raise BadText(f"{path} isn't a text in UTF-8") from None


class About:
    """The text of the page, of a file that may change while it is shown. `tell` is told once what is wrong with it."""

    def __init__(self, path: Optional[Path], tell: Callable[[str], None]) -> None:
        self.path, self.tell = path, tell
        self.turn = threading.Lock()
        self.text, self.state, self.told = DEFAULT, (-1, -1), ""

    @property
    def paragraphs(self) -> list[str]:
        """The paragraphs of the text as it is now. Of a file that can't be shown any more the last text is shown."""
        with self.turn:
            if self.path is not None and (state := state_of(self.path)) != self.state:
                try:
                    self.text, self.state, self.told = text_in(self.path) or DEFAULT, state, ""
                except BadText as bad:
                    if str(bad) != self.told:
                        self.told = str(bad)
                        self.tell(f"{bad}: the page about this place is as it was")
        return [part.strip("\n") for part in self.text.split("\n\n") if part.strip()]

    def page(self, pages: Pages, request: Request) -> Reply:
        """The page, for who is signed in and for strangers."""
        session = pages.people.session(sessions.secret_of(request))
        visit = Visit(pages, request, session) if session else None
        return pages.made(
            "pages/about.html", 200, request, visit=visit, token=session.form if session else "", paragraphs=self.paragraphs,
            words=[(anchor_of(word), one) for word, one in GLOSSARY.items()],
        )  # fmt: skip


def state_of(path: Path) -> tuple[int, int]:
    """What changes when a file does."""
    try:
        found = path.stat()
    except OSError:
        return (0, 0)
    return (found.st_mtime_ns, found.st_size)
