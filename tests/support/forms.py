"""A world with residents, its front in this process, and readers whose every page is looked at: for the tests of forms."""

from __future__ import annotations

import time
import unittest
from typing import Any, Optional

from tests.support.operating import SECONDS
from tests.support.pages import PagesTest
from tests.support.reader import Page, Reader, in_process

from moo_web.world.door import batch_body  # noqa: E402

# Ada #4 and Bram #5 are residents, #6 is a fertile class of things, #7 one of rooms, #8 Ada's lamp in the room #2.
WORLD = """batch as #3
create(#1, #-1)
create(#1, #-1)
create(#1)
create(#1)
create(#6, #4)
set(#4, "name", "Ada")
set(#5, "name", "Bram")
set(#6, "name", "Generic Thing")
set(#6, "f", 1)
set(#6, "r", 1)
set(#7, "name", "Generic Room")
set(#7, "f", 1)
set_accept(#7, {#1})
add_property(#6, "weight", 1, {#3, "rc"})
add_property(#6, "secret", "hidden", {#3, ""})
set(#8, "name", "Lamp")
set(#8, "r", 1)
move(#8, #2)
move(#4, #2)
move(#5, #2)
set_player_flag(#4, 1)
set_player_flag(#5, 1)
add_verb(#8, {#4, "rx", "light"}, {"this", "none", "none"})
end
"""


class Checked(Reader):
    """A reader who looks at each page for what is wrong with it."""

    def __init__(self, test: unittest.TestCase, *given: Any) -> None:
        self.test = test
        super().__init__(*given)

    def asked(self, *given: Any, **how: Any) -> Page:
        page = super().asked(*given, **how)
        self.test.assertEqual(page.fault(), "", page.path)
        return page


class FormsTest(PagesTest):
    """A world, its front in this process, and three people who are signed in when they are wanted. Each page that they get is looked at."""

    world = WORLD
    numbers = {"wizard": 3, "ada": 4, "bram": 5}

    def somebody(self, name: str) -> Checked:
        """Who is signed in."""
        reader = Checked(self, in_process(self.app), name)
        self.assertEqual(reader.page.status, 200, reader.page.text)
        return reader

    def has(self, page: Page, *words: str, status: Optional[int] = None) -> None:
        """The page says all these words."""
        for each in words:
            self.assertIn(each, page.text)
        if status is not None:
            self.assertEqual(page.status, status, page.text[:500])

    def is_done(self, page: Page) -> None:
        """The page is that of a batch that was accepted."""
        self.assertRegex(page.path, r"/done/\d+(\?said=\w+)?$", page.text[:900])
        self.assertEqual(page.status, 200)

    def change(self, reader: Reader, form: str, at: str = "", **typed: Optional[str]) -> Page:
        """Fills a form, looks at its preview, and does it."""
        reader.get(f"/do/{form}{at}")
        page = reader.send("Preview", **typed)
        self.has(page, "This would be done", status=200)
        page = reader.send("Do it")
        self.is_done(page)
        return page

    def answered(self, call: str) -> Any:
        """What a call of the wizard's answers."""
        return self.door.asked("POST", "/ask", batch_body(3, [call]), time.monotonic() + SECONDS).said["answers"][0]
