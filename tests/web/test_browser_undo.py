"""Losses and undo in a real browser without scripts: a class with ten children gets another parent by mistake, two people at once, a grant
that is undone, and the way back to a preview. `PICTURES` in the environment is a folder for a picture of each page."""

import os

from tests.support.forms import WORLD
from tests.support.operating import KeptService, make_world
from tests.support.scenes import OnATelephone, Scene, WithTheMouse, kinds_of
from tests.web.test_losses import APPLES, LOST

PICTURES = os.environ.get("PICTURES")


class Undoing(Scene):
    """The scenes, on a world with a class of ten apples."""

    def setUp(self):
        super().setUp()
        self.front.kill()
        self.moo.stop()
        (self.room / "world.db").unlink()
        for end in ("-wal", "-shm"):
            (self.room / f"world.db{end}").unlink(missing_ok=True)
        for path in (self.room / "front").glob("journal-*"):
            path.unlink()
        make_world(self.room / "world.db", WORLD + APPLES)
        self.moo = KeptService(self.room / "world.db")
        self.front = self.start()

    def picture(self, person, name):
        if PICTURES:
            size = person.driver.execute_cdp_cmd("Page.getLayoutMetrics", {})["cssContentSize"]
            person.driver.execute_cdp_cmd("Emulation.setDeviceMetricsOverride", {
                "width": self.width, "height": int(size["height"]) + 40, "deviceScaleFactor": 1, "mobile": self.width < 500,
            })  # fmt: skip
            person.driver.save_screenshot(f"{PICTURES}/{self.width}-{name}.png")

    def a_mistake(self):
        with self.at("ada") as (ada,):
            ada.open("/do/parent?object=%2310")
            ada.fill("f-parent", "#1")
            ada.press("Preview")
            ada.sees("12 values would be lost", "And 2 that you may not read.", *(f"#{number}" for number, _, _ in LOST), '"green"')
            self.picture(ada, "1-losses")
            ada.press("Do it")
            ada.sees("Done batch 3", "Back to generic apple")
            self.picture(ada, "2-done")
            ada.driver.back()
            ada.sees("12 values would be lost")
            self.assertEqual(ada.driver.find_element("id", "f-parent").get_attribute("value"), "#1")
            ada.press("Do it")
            ada.sees("This was done already, and wasn’t done a second time.")
            ada.follow("Undo this…")
            ada.sees("Undo batch 3", "generic apple #10 inherits from generic lamp #9", "2 values that you may not read")
            self.picture(ada, "3-undo")
            ada.press("Do it")
            ada.sees("Done batch 4", "generic lamp #9")
            ada.open("/o/11/property?name=colour")
            ada.sees('"green"')
            ada.open("/history")
            ada.sees("generic apple #10 inherits from Root Class #1. ")
            self.picture(ada, "4-history")

    def two_people(self):
        """A value that the other one gave is shown before it is lost, and what came after is undone with it shown."""
        with self.at("ada", "wizard") as (ada, wizard):
            ada.open("/do/parent?object=%2310")
            ada.fill("f-parent", "#1")
            ada.press("Preview")
            wizard.open("/do/set?object=%2314&name=colour&value=blue")
            wizard.press("Preview")
            wizard.press("Do it")
            ada.press("Do it")
            ada.sees("Others have changed the world since you looked", "13 values would be lost", '"blue"')
            ada.press("Do it")
            ada.sees("Done")
            wizard.open("/history")
            wizard.sees("ada", "generic apple #10 inherits from Root Class #1")
            wizard.open("/undo/4")
            wizard.press("Do it")
            wizard.open("/o/14/property?name=colour")
            wizard.sees('"blue"', "Its values in time")
            self.picture(wizard, "5-in-time")

    def a_grant(self):
        with self.at("bram", "wizard") as (bram, wizard):
            bram.open("/batch")
            bram.fill("f-text", 'set(#8, "name", "Bram\'s lamp")')
            bram.press("Ask for it")
            bram.press("Send the petition")
            wizard.open("/petitions")
            wizard.press("Grant petition 1")
            wizard.open("/history")
            wizard.sees("bram’s petition: Lamp #8 is called “Bram's lamp”.")
            wizard.open("/history/4")
            wizard.sees('name "Lamp" "Bram\'s lamp"')
            self.picture(wizard, "6-grant")
            wizard.follow("Undo this…")
            wizard.sees("The petition isn’t made again.")
            wizard.press("Do it")
            wizard.open("/o/8")
            wizard.sees("Lamp #8")
            wizard.open("/differences?a=2&b=5")
            wizard.sees("Nothing differs.")

    def test_all(self):
        for scene in (self.a_mistake, self.two_people, self.a_grant):
            with self.subTest(scene=scene.__name__):
                self.play(scene)


load_tests = kinds_of(Undoing, WithTheMouse, OnATelephone)
