"""A world, its front as a process, and people who read its pages over HTTP."""

from __future__ import annotations

import functools
import pathlib
import shutil
import tempfile
from typing import Optional

from tests.support.forms import WORLD
from tests.support.operating import KeptService, make_world
from tests.support.reader import Page, Reader, over_http
from tests.support.web import Front, RoomTest, add_person


@functools.cache
def people_file() -> pathlib.Path:
    """The accounts of three people, which are made once."""
    folder = pathlib.Path(tempfile.mkdtemp())
    for name, number in (("wizard", 3), ("ada", 4), ("bram", 5)):
        add_person(folder, name, number)
    return folder / "people.db"


class WithFront(RoomTest):
    """A world, its front as a process, and three people who are signed in when they are wanted."""

    def setUp(self) -> None:
        super().setUp()
        make_world(self.room / "world.db", WORLD)
        self.moo = KeptService(self.room / "world.db")
        self.addCleanup(lambda: self.moo.stop())
        (self.room / "front").mkdir()
        shutil.copy(people_file(), self.room / "front")
        self.front = self.start()

    def start(self, port: Optional[int] = None) -> Front:
        """A front of the world, which listens."""
        front = Front(self.room / "front", self.moo.port, "--rate", "10000", port=port)
        self.assertTrue(front.is_listening(), front.said())
        return front

    def start_again(self) -> None:
        """Kills the front, and starts another one at its port."""
        self.front.kill()
        self.front = self.start(self.front.port)

    def reader(self, name: str) -> Reader:
        """Who is signed in."""
        reader = Reader(over_http(self.front.port), name)
        self.assertEqual(reader.page.status, 200, reader.page.text)
        return reader

    def has(self, page: Page, *words: str, status: int) -> None:
        """The page says all these words, and has this status."""
        for each in words:
            self.assertIn(each, page.text)
        self.assertEqual(page.status, status)
