"""Places in a real browser without scripts: wide and at 320 pixels, in the dark, with the mouse and by the keyboard alone.

Every link and button is high enough for a finger, no page is wider than its window, and a resident's first page isn't long.
"""

import unittest

from tests.support import browser
from tests.support.operating import KeptService, make_world
from tests.support.scenes import Person
from tests.support.web import Front, RoomTest, add_person
from tests.web.test_browser import contrast, once_more
from tests.web.test_places import WORLD

LEAST_HEIGHT = 24
# A resident's first page at 390 pixels, in pixels.
MOST_HEIGHT = 1200
PATHS = (
    "/", "/o/5", "/o/6", "/o/10", "/map/exits", "/map/places", "/map/parents", "/history", "/do", "/do/set?object=5", "/find?q=the", "/you",
    "/do/move?object=%2310&place=%235&go=preview", "/edit/5", "/edit/new?parent=4&from=5", "/class/4", "/batch",
)  # fmt: skip
# Run by the driver, and not by the page: the links and buttons that are shown and lower than a finger needs, by their words.
LOW = f"""const of = one => [...one.getClientRects()].map(each => Math.round(10 * each.height) / 10);
return [...document.querySelectorAll("a, button, summary")]
    .filter(one => one.getClientRects().length && !one.matches(".skip, .hidden") && Math.min(...of(one)) < {LEAST_HEIGHT})
    .map(one => [one.textContent.trim(), ...of(one)]);"""
COLOURS = """return [...document.querySelectorAll("main a, main p, main h1, main h2, main dt, main dd, main b, main summary, svg text")]
    .map(one => [one.textContent.trim().slice(0, 40), getComputedStyle(one).color, getComputedStyle(one).fill, one.matches(".go, .exits *")])"""


class PlaceTest(RoomTest):
    """A front on a world with places, and people who are signed in."""

    def setUp(self):
        if why := browser.lacking():
            self.skipTest(why)
        super().setUp()
        make_world(self.room / "world.db", WORLD)
        moo = KeptService(self.room / "world.db")
        self.addCleanup(moo.stop)
        for name, number in (("ada", 10), ("wizard", 3)):
            add_person(self.room / "front", name, number)
        self.front = Front(self.room / "front", moo.port, "--rate", "10000")

    def person(self, *how):
        person = Person(self, *how)
        self.addCleanup(person.driver.quit)
        return person


class Sizes(PlaceTest):
    @once_more
    def test_links_are_high_enough_and_pages_fit(self):
        for who, width in (("ada", 320), ("wizard", 1000)):
            person = self.person(who, width, False)
            for path in PATHS:
                person.open(path)
                for each in person.driver.find_elements("css selector", "details:not([open]) > summary"):
                    each.send_keys(" ")
                with self.subTest(who=who, path=path):
                    self.assertEqual(person.driver.execute_script(LOW), [])
                    person.fits()

    @once_more
    def test_a_residents_first_page_is_not_long(self):
        person = self.person("ada", 390, False)
        person.open("/")
        size = person.driver.execute_cdp_cmd("Page.getLayoutMetrics", {})["cssContentSize"]
        self.assertLessEqual(size["height"], MOST_HEIGHT)


class Walks(PlaceTest):
    @once_more
    def test_a_walk(self):
        """From the first page by an exit to another place; there 'Go there', and the person is there."""
        for by_keys in (False, True):
            ada = self.person("ada", 320 if by_keys else 1000, by_keys)
            ada.open("/")
            here = ada.driver.find_element("css selector", "h1 a").text
            ada.follow("west, w The Square" if here == "The Inn" else "east The Inn")
            ada.follow("Go there")
            ada.press("Do it")
            ada.follow("You are in The Square" if here == "The Inn" else "You are in The Inn")
            ada.sees("You are in The Square" if here == "The Inn" else "You are in The Inn")

    @once_more
    def test_the_menu_and_the_trees_unfold(self):
        for by_keys in (False, True):
            ada = self.person("ada", 320 if by_keys else 1000, by_keys)
            ada.open("/o/11")
            self.assertNotIn("Give another parent", ada.text())
            ada.act_on(ada.driver.find_element("css selector", ".menu summary"), "\ue007")
            ada.sees("Give another parent", "Recycle")
            ada.follow("What others may do")
            ada.sees("Its marks: whether everybody may see what it has (r)")
            ada.open("/")
            self.assertNotIn("Who inherits from whom", ada.text())
            ada.act_on(ada.driver.find_element("css selector", ".browse > summary"), " ")
            ada.sees("Who inherits from whom", "generic room #4")

    @once_more
    def test_a_place_is_reached_on_the_map_by_the_keyboard(self):
        ada = self.person("ada", 320, True)
        ada.open("/map/exits")
        (box,) = ada.driver.find_elements("css selector", "svg a[href='/o/8']")
        ada.leave(box)
        ada.sees("The Loft #8")


class Dark(PlaceTest):
    @once_more
    def test_what_is_read_in_the_dark_and_in_the_light(self):
        for is_dark in (False, True):
            ada = self.person("ada", 1000, False)
            value = "dark" if is_dark else "light"
            ada.driver.execute_cdp_cmd("Emulation.setEmulatedMedia", {"features": [{"name": "prefers-color-scheme", "value": value}]})
            for path in ("/", "/o/6", "/map/exits"):
                ada.open(path)
                paper = ada.driver.find_element("tag name", "html").value_of_css_property("background-color")
                low = [one for one in self.texts(ada) if contrast(one[1], paper) < 5.5]
                with self.subTest(path=path, is_dark=is_dark):
                    self.assertEqual(low, [])

    @staticmethod
    def texts(person):
        """The words and the colour of each text that is on the paper."""
        found = person.driver.execute_script(COLOURS)
        return [(words, fill if "rgb(0, 0, 0)" not in fill else colour) for words, colour, fill, is_on_a_button in found if words and not is_on_a_button]


if __name__ == "__main__":
    unittest.main()
