"""The forms in a real browser without scripts: with the mouse in a wide window, and with the keyboard alone at 320 pixels.

A builder makes a room, a class and ten things of it; a resident petitions; a wizard grants one and declines one; a refused change is
explained and mended; two people change one object at once. It is left out if there is no browser.
"""

import re
import unittest

from tests.support.scenes import Scene, WithTheKeyboard, WithTheMouse, kinds_of
from tests.support.web import PASSWORD


class Forms(Scene):
    """What is done, for each way to do it."""

    def a_builder(self):
        with self.at("ada") as (ada,):
            ada.follow("Change")
            ada.follow("Make objects")
            ada.fill("f-parent", "Generic Room")
            ada.fill("f-names", "The Attic")
            ada.unfold()
            ada.fill("f-accepts", "#1")
            ada.press("Preview")
            ada.sees("This would be done", "The Attic")
            ada.press("Do it")
            ada.sees("Made: The Attic #9")
            ada.follow("Change something else")
            ada.follow("Make objects")
            ada.fill("f-parent", "#6")
            ada.fill("f-names", "Generic Key")
            ada.unfold()
            ada.tick("fertile")
            ada.press("Preview")
            ada.sees("Everybody may make objects under")
            ada.press("Do it")
            ada.sees("Made: Generic Key #10")
            ada.follow("Generic Key")
            ada.act_on(ada.driver.find_element("css selector", ".menu summary"), "\ue007")
            ada.follow("Make objects under it")
            ada.fill("f-names", "\ue007".join(f"Key {number}" for number in range(1, 11)))
            ada.fill("f-place", "The Attic")
            ada.press("Preview")
            ada.press("Do it")
            ada.sees("Key 1 #11", "Key 10 #20")
            ada.open("/o/9")
            ada.sees("Key 1 #11", "Key 10 #20")

    def petitions(self):
        with self.at("bram") as (bram,):
            for name in ("Bram's lamp", "No lamp"):
                bram.open("/o/8")
                bram.follow("Rename")
                bram.fill("f-name", name)
                bram.press("Preview")
                bram.sees("This would be refused. You may not write this. E_PERM", "moo says: Bram #5 neither owns Lamp #8 nor is a wizard.")
                bram.press("Ask for it instead")
                bram.sees("This would be asked for", f"Lamp #8 is called “{name}”.")
                bram.press("Send the petition")
                bram.sees("It is asked for")
            bram.follow("Petitions")
            bram.sees("petition 1", "petition 2")
        with self.at("wizard") as (wizard,):
            wizard.follow("Petitions 2 wait for you")
            wizard.sees("Bram #5 asks for 1 change", "It can be granted whole.", 'name now: "Lamp"')
            wizard.press("Grant petition 1")
            wizard.sees("The petition is granted: all of it was done.")
            wizard.press("Decline petition 2")
            wizard.sees("The petition is gone", "There are none.")
            wizard.open("/o/8")
            wizard.sees("Bram's lamp #8")

    def a_refusal_is_mended(self):
        with self.at("ada") as (ada,):
            ada.open("/do/create?parent=%236")
            ada.fill("f-names", "Café")
            ada.fill("f-place", "lam")
            ada.press("Preview")
            ada.sees("“é”, letter 4 of “Café”, can’t be kept", "No object is named “lam”. Is it one of these?")
            ada.has_focus_in("f-names")
            ada.tick("place.choice", "#8")
            ada.press("Use the plain letters" if "Use the plain letters" in ada.text() else "Use “Cafe”")
            ada.sees("This would be refused. The place doesn’t accept it. E_NACC")
            self.assertEqual(ada.driver.find_element("id", "f-place").get_attribute("value"), "#8")
            ada.fill("f-place", "The First Room")
            ada.press("Preview")
            ada.press("Do it")
            ada.sees("Made: Cafe #9")
            ada.follow("Change")
            ada.follow("A batch of calls")
            ada.fill("f-text", "$new = create(#6)\ue007set($new, \"nmae\", \"Key\")")
            ada.press("Preview")
            ada.sees("The object has no property of that name.", "Line 2")
            ada.fill("f-text", "$new = create(#6)\ue007set($new, \"name\", \"Key\")")
            ada.press("Preview")
            ada.press("Do it")
            ada.sees("Made: Key #10")

    def two_at_once(self):
        with self.at("ada", "wizard") as (ada, wizard):
            for person, name in ((ada, "Ada's lamp"), (wizard, "Lantern")):
                person.open("/do/rename?object=%238")
                person.fill("f-name", name)
                person.press("Preview")
                person.sees('name now: "Lamp"')
            wizard.press("Do it")
            wizard.sees("Done")
            ada.press("Do it")
            ada.sees("Others have changed the world since you looked.", 'name now: "Lantern"')
            ada.press("Do it")
            ada.sees("Done")
            wizard.open("/o/8")
            wizard.sees("Ada's lamp #8")

    def a_session_that_is_over(self):
        with self.at("ada") as (ada,):
            ada.open("/do/rename?object=%238")
            ada.fill("f-name", "Oil lamp")
            ada.driver.delete_all_cookies()
            ada.press("Preview")
            ada.sees("What you typed is kept: sign in")
            ada.fill("name", "ada")
            ada.fill("password", PASSWORD)
            ada.press("Sign in")
            ada.sees("You are signed in again.")
            ada.press("Preview")
            ada.press("Do it")
            ada.sees("Lamp #8 is called “Oil lamp”.")

    def test_all(self):
        for scene in (self.a_builder, self.a_refusal_is_mended, self.petitions, self.two_at_once, self.a_session_that_is_over):
            with self.subTest(scene=re.sub("_", " ", scene.__name__)):
                self.play(scene)


load_tests = kinds_of(Forms, WithTheMouse, WithTheKeyboard)

if __name__ == "__main__":
    unittest.main()
