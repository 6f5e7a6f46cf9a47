"""Search, lists and scripts in a real browser without scripts, with the mouse and by the keyboard alone at 320 pixels.

A resident finds a word in a value, follows it, and asks what names the object; sorts and filters a list; exports a class and puts it into the
front of another world.
"""

import unittest

from tests.support import browser
from tests.support.operating import KeptService, make_world
from tests.support.scenes import Person
from tests.support.web import Front, RoomTest, add_person
from tests.web.test_browser import once_more
from tests.web.test_browser_places import LOW
from tests.web.test_places import WORLD

ADA = 10
# A class of Ada's, #14, with three candles.
CANDLES = f"""batch as #{ADA}
create(#1)
set(#14, "name", "generic candle")
set(#14, "r", 1)
add_property(#14, "note", "unlit", {{#{ADA}, "rc"}})
create(#14)
create(#14)
create(#14)
set(#15, "name", "tallow candle")
set(#16, "name", "church candle")
set(#17, "name", "beeswax candle")
set(#15, "note", "A stump of wax.")
set(#16, "note", {{"stands beside", #15}})
end
batch as #3
set(#17, "owner", #3)
set(#17, "note", "a stump that is nobody's business")
set_property_info(#17, "note", {{#3, ""}})
end
"""
PATHS = (
    "/find?q=stump", "/find?q=stump&in=values", "/find?q=zzz", "/o/15/named", "/o/6/named", "/o/99/named", "/o/14/children?name=candle&sort=owner&down=on",
    "/o/14/children?kind=nothing+like+it", "/o/14/script", "/o/6/script?with=contents", "/nowhere",
)  # fmt: skip


class SearchTest(RoomTest):
    """Two worlds with a front each, in which Ada is signed in; the candles are in the first one."""

    def setUp(self):
        if why := browser.lacking():
            self.skipTest(why)
        super().setUp()
        self.fronts = [self.front_of(name, text) for name, text in (("here", WORLD + CANDLES), ("there", WORLD))]
        self.front = self.fronts[0]

    def front_of(self, name, text):
        make_world(self.room / f"{name}.db", text)
        moo = KeptService(self.room / f"{name}.db")
        self.addCleanup(moo.stop)
        for who, number in (("ada", ADA), ("wizard", 3)):
            add_person(self.room / name, who, number)
        return Front(self.room / name, moo.port, "--rate", "10000")

    def person(self, name="ada", by_keys=False):
        person = Person(self, name, 320 if by_keys else 1000, by_keys)
        self.addCleanup(person.driver.quit)
        return person


class Walks(SearchTest):
    @once_more
    def test_a_word_in_a_value_and_what_names_it(self):
        for by_keys in (False, True):
            ada = self.person(by_keys=by_keys)
            field = ada.reach(ada.driver.find_element("name", "q"))
            field.click() if not by_keys else None
            ada.keys("stump")
            ada.press("Find")
            ada.sees("1 value with “stump” in it", "A stump of wax.")
            self.assertNotIn("business", ada.text())
            ada.follow("tallow candle")
            ada.follow("what names it")
            ada.sees("1 place that you may read", "church candle", "stands beside")
            ada.follow("church candle")
            ada.sees("church candle #16")

    @once_more
    def test_a_list_is_sorted_and_filtered(self):
        for by_keys in (False, True):
            ada = self.person(by_keys=by_keys)
            ada.open("/o/14/children")
            ada.act_on(ada.driver.find_element("css selector", ".sort > summary"), " ")
            ada.fill("name", "candle")
            ada.fill("owner", "Ada")
            ada.reach(ada.driver.find_element("id", "sort"))
            ada.driver.find_element("id", "sort").send_keys("na")
            ada.press("Show")
            ada.sees("2 of 3.")
            text = ada.text()
            self.assertLess(text.index("church candle #16"), text.index("tallow candle #15"))
            self.assertIn("owner=Ada", ada.driver.current_url)
            ada.follow("All")
            ada.sees("3 in all.")

    @once_more
    def test_a_class_is_exported_and_put_into_another_world(self):
        for by_keys in (False, True):
            self.front = self.fronts[0]
            ada = self.person(by_keys=by_keys)
            ada.open("/o/14")
            ada.act_on(ada.driver.find_element("css selector", ".menu summary"), "\ue007")
            ada.follow("Export as a script")
            ada.sees("4 objects", "What differs, or isn’t in it: 5", "note, on 1 of the objects: you may not read it")
            script = ada.driver.find_element("id", "script").get_attribute("value")
            self.assertNotIn("business", script)
            self.front = self.fronts[1]
            ben = self.person(by_keys=by_keys)
            ben.open("/batch")
            ben.fill("f-text", script.replace("\n", "\ue007"))
            ben.press("Preview")
            ben.press("Do it")
            ben.open("/find?q=stump")
            ben.sees("A stump of wax.", "tallow candle")


class Sizes(SearchTest):
    @once_more
    def test_links_are_high_enough_and_pages_fit(self):
        for who, by_keys in (("ada", True), ("wizard", False)):
            person = self.person(who, by_keys)
            for path in PATHS:
                person.open(path)
                for each in person.driver.find_elements("css selector", "details:not([open]) > summary"):
                    each.send_keys(" ")
                with self.subTest(who=who, path=path):
                    self.assertEqual(person.driver.execute_script(LOW), [])
                    person.fits()


if __name__ == "__main__":
    unittest.main()
