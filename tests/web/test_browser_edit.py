"""One form and the table of a class in a real browser without scripts, with the keyboard alone at 320 pixels: a builder makes a room that is
joined both ways, describes it again, and makes ten things in it with a value each, which are undone. It is left out if there is no browser.
"""

import unittest

from tests.support.operating import KeptService, make_world
from tests.support.scenes import Scene, WithTheKeyboard, kinds_of
from tests.web.test_class_table import new
from tests.web.test_one_form import DESCRIPTION, EXITS, WORLD


class Building(Scene):
    """The scenes, on a world with rooms, their exits, and a class of things."""

    def setUp(self):
        super().setUp()
        self.front.kill()
        self.moo.stop()
        for name in ("world.db", "world.db-wal", "world.db-shm"):
            (self.room / name).unlink(missing_ok=True)
        for path in (self.room / "front").glob("journal-*"):
            path.unlink()
        make_world(self.room / "world.db", WORLD)
        self.moo = KeptService(self.room / "world.db")
        self.front = self.start()

    def follow_in_more(self, person, words):
        """Opens the menu 'More' of an object's page, and follows a link of it."""
        person.act_on(person.driver.find_element("css selector", ".menu summary"), "\ue007")
        person.follow(words)

    def a_room_and_ten_things(self):
        with self.at("ada") as (ada,):
            self.a_room(ada)
            self.another_description(ada)
            self.ten_things(ada)
            self.an_undo(ada)

    def a_room(self, ada):
        """It is made from the place to which it leads, and has a way back."""
        ada.open("/o/6")
        self.follow_in_more(ada, "Make a room that leads here")
        ada.fill("f-name", "The Attic")
        ada.fill(f"f-{DESCRIPTION}", "Dust and beams.")
        ada.fill(f"f-{EXITS}", "down: The Square")
        ada.press("Preview")
        ada.sees("This would be done", "The Attic")
        ada.press("Do it")
        ada.sees("Done")
        ada.open("/o/6")
        ada.follow("up The Attic")
        ada.sees("The Attic #11", "Dust and beams.")
        ada.follow("down The Square")
        ada.sees("The Square #6")

    def another_description(self, ada):
        """Only what was typed changes."""
        ada.open("/o/11")
        ada.follow("Edit")
        ada.fill(f"f-{DESCRIPTION}", "Dust, and a bed.")
        ada.press("Preview")
        ada.sees("This would be done", 'description now: "Dust and beams."')
        ada.press("Do it")
        ada.open("/o/11")
        ada.sees("Dust, and a bed.", "down The Square")

    def ten_things(self, ada):
        """Each has a name and a weight in a row of the table."""
        ada.open("/o/9")
        self.follow_in_more(ada, "Its children as a table")
        for row in range(1, 11):
            ada.fill(f"f-n{row}-name", f"pear {row}")
            ada.fill(f"f-{new(row, 'weight')}", str(row * 10))
        ada.fill("f-place", "The Attic")
        ada.press("Preview")
        ada.sees("This would be done", "pear 10")
        ada.press("Do it")
        ada.open("/o/11")
        ada.sees("pear 1 #12", "pear 10 #21")
        ada.open("/o/21/property?name=weight")
        ada.sees("100")

    def an_undo(self, ada):
        """The ten are gone again, and the room stays."""
        ada.open("/history/4")
        ada.follow("Undo this…")
        ada.sees("Undo batch 4", "pear 10")
        ada.press("Do it")
        ada.sees("Done")
        ada.open("/o/11")
        ada.sees("The Attic #11")
        self.assertNotIn("pear", ada.driver.find_element("tag name", "main").text.split("Lately")[0])

    def test_all(self):
        self.play(self.a_room_and_ten_things)


load_tests = kinds_of(Building, WithTheKeyboard)

if __name__ == "__main__":
    unittest.main()
