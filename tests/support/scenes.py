"""People at real browsers without scripts, and what they do there: by each kind of browser.

    class Walks(Scene):
        def test_all(self):
            self.play(self.a_walk)

    load_tests = kinds_of(Walks, WithTheMouse, WithTheKeyboard)
"""

from __future__ import annotations

import contextlib
import os
import pathlib
import unittest
from typing import Any, Callable, Iterator, Optional

from tests.support import browser
from tests.support.operating import SECONDS
from tests.support.web import PASSWORD
from tests.support.with_front import WithFront

MOST_TABS = 200
# What can be pressed is at least so many pixels high.
LEAST_HEIGHT = 24
# A folder for a picture of each page that a scene shows, or none.
PICTURES = os.environ.get("PICTURES")


class Person:
    """Somebody at a browser. With `by_keys` no mouse is used: the way to each thing is the tabulator."""

    def __init__(self, test: Any, name: str, width: int, by_keys: bool) -> None:
        self.test, self.name, self.by_keys, self.width = test, name, by_keys, width
        self.driver = browser.browser(width)
        self.driver.set_page_load_timeout(SECONDS)
        self.open("/in")
        self.fill("name", name)
        self.fill("password", PASSWORD)
        self.press("Sign in")
        test.assertIn(f"Signed in as {name}", self.text())

    # What is seen

    def text(self) -> str:
        """What is to be read on the page."""
        self.fits()
        return " ".join(self.driver.find_element("tag name", "body").text.split())

    def fits(self) -> None:
        """No page is wider than the window."""
        size = self.driver.execute_cdp_cmd("Page.getLayoutMetrics", {})["cssContentSize"]
        self.test.assertLessEqual(size["width"], self.width, self.driver.current_url)

    def sees(self, *words: str) -> None:
        """All these words are there."""
        text = self.text()
        for each in words:
            self.test.assertIn(each, text)

    def has_focus_in(self, field: str) -> None:
        """A field has the focus, which it gets when the page is drawn."""
        from selenium.webdriver.support.wait import WebDriverWait

        WebDriverWait(self.driver, SECONDS).until(
            lambda driver: driver.switch_to.active_element.get_attribute("id") == field, f"the focus isn't in {field}"
        )

    # What is done

    def open(self, path: str) -> None:
        """Types an address."""
        self.driver.get(f"http://127.0.0.1:{self.test.front.port}{path}")
        self.fits()

    def reach(self, element: Any) -> Any:
        """Goes to an element, by the tabulator alone if there is no mouse."""
        for _ in range(MOST_TABS):
            if not self.by_keys or self.driver.switch_to.active_element == element:
                return element
            self.keys("\ue004")
        raise AssertionError(f"the tabulator doesn't come to {element.get_attribute('outerHTML')[:200]}")

    def keys(self, keys: str) -> None:
        """Types keys, wherever the focus is."""
        from selenium.webdriver.common.action_chains import ActionChains

        ActionChains(self.driver).send_keys(keys).perform()

    def all_of_it(self) -> None:
        """Marks all that is in a field, by Control and A."""
        from selenium.webdriver.common.action_chains import ActionChains

        ActionChains(self.driver).key_down("\ue009").send_keys("a").key_up("\ue009").perform()

    def act_on(self, element: Any, key: str) -> None:
        """Clicks on an element, or goes to it and types a key."""
        self.reach(element)
        if self.by_keys:
            self.keys(key)
        else:
            element.click()

    def fill(self, field: str, text: str) -> None:
        """Types a text into a field in the place of what is there."""
        element = self.reach(self.driver.find_element("id", field))
        if not self.by_keys:
            element.click()
        self.all_of_it()
        self.keys("\ue003" + text)

    def tick(self, name: str, value: Optional[str] = None) -> None:
        """Ticks a box, or one of several choices."""
        found = [each for each in self.driver.find_elements("name", name) if value is None or each.get_attribute("value") == value]
        self.act_on(found[0], " ")
        self.test.assertTrue(found[0].is_selected())

    def unfold(self) -> None:
        """Opens the part of a form that is folded."""
        self.act_on(self.driver.find_element("css selector", "#edit summary"), "\ue007")

    def press(self, words: str) -> None:
        """Presses the button with these words. The page that comes is another one."""
        buttons = [each for each in self.driver.find_elements("css selector", "button:not(.hidden)") if " ".join(each.text.split()) == words]
        self.test.assertTrue(buttons, f"no button {words!r} in {self.text()[:800]}")
        self.leave(buttons[0])

    def follow(self, words: str) -> None:
        """Follows the link with these words."""
        links = [each for each in self.driver.find_elements("tag name", "a") if " ".join(each.text.split()) == words]
        self.test.assertTrue(links, f"no link {words!r}")
        self.leave(links[0])

    def leave(self, element: Any) -> None:
        """Acts on an element by which another page comes, and waits for that."""
        from selenium.webdriver.support.wait import WebDriverWait

        page = self.driver.find_element("tag name", "html")
        self.act_on(element, "\ue007")
        WebDriverWait(self.driver, SECONDS).until(lambda driver: browser.is_gone(page))
        self.fits()


class Scene(WithFront):
    """What people do at their browsers, on a world with a front. It is played for each kind of browser that `kinds_of` is given."""

    width, by_keys = 1000, False
    # The selector of what can be pressed on the pages of the scene.
    pressed = ""

    @classmethod
    def setUpClass(cls) -> None:
        if why := browser.lacking():
            raise unittest.SkipTest(why)

    @contextlib.contextmanager
    def at(self, *names: str) -> Iterator[list[Person]]:
        """People at their browsers."""
        people: list[Person] = []
        try:
            for name in names:
                people.append(Person(self, name, self.width, self.by_keys))
            yield people
        finally:
            for person in people:
                person.driver.quit()

    def shown(self, person: Person, name: str) -> None:
        """Sees that the page fits, and that each thing that can be pressed is high enough; takes a picture if these are wanted."""
        person.fits()
        for element in person.driver.find_elements("css selector", self.pressed):
            if element.is_displayed():
                self.assertGreaterEqual(element.size["height"], LEAST_HEIGHT, f"{name}: {element.get_attribute('outerHTML')[:120]}")
        if PICTURES:
            browser.picture(person.driver, pathlib.Path(PICTURES) / f"{self.width}-{name}.png")

    def play(self, scene: Callable[[], None]) -> None:
        """Plays a scene on a new world; once more, if the driver of the browser fails and not the page."""
        from selenium.common.exceptions import WebDriverException

        for is_last in (False, True):
            self.tearDown()
            self.doCleanups()
            self.setUp()
            try:
                scene()
                return
            except WebDriverException as error:
                if is_last:
                    raise
                print(f"the driver of the browser failed, so the scene is played once more: {error.msg}")


class WithTheMouse:
    """In a wide window."""

    width, by_keys = 1000, False


class WithTheKeyboard:
    """At 320 pixels, without a mouse."""

    width, by_keys = 320, True


class OnATelephone:
    """At 390 pixels."""

    width, by_keys = 390, False


def kinds_of(scene: type[Scene], *kinds: type) -> Callable[..., unittest.TestSuite]:
    """The tests of a module that plays a scene by these kinds of browsers."""
    cases = [type(kind.__name__, (kind, scene), {"__module__": scene.__module__, "__doc__": kind.__doc__}) for kind in kinds]

    def load_tests(loader: unittest.TestLoader, *_: object) -> unittest.TestSuite:
        return unittest.TestSuite(loader.loadTestsFromTestCase(case) for case in cases)

    return load_tests
