"""A newcomer asks in a real browser without scripts, with the mouse and with the keyboard alone at 320 pixels: why, of whom, what was said, and
again. `PICTURES` in the environment is a folder for a picture of each page."""

from tests.support.scenes import Scene, WithTheKeyboard, WithTheMouse, kinds_of

WHY = "I would like to read in the evening. Größe: klein."
NOT_NOW = "Not before the fair."


class Asking(Scene):
    """The scene."""

    pressed = "main button:not(.hidden), main a.press, main textarea, header nav a"

    def asks(self, bram):
        """Who asks comes from the page of the thing."""
        bram.open("/about")
        bram.sees("What is this place", "Words")
        self.shown(bram, "01-about")
        bram.open("/o/8")
        bram.sees("It isn’t yours.", "can be asked for")
        self.shown(bram, "02-lamp")
        bram.follow("Rename")
        bram.fill("f-name", "Reading lamp")
        self.shown(bram, "03-form")
        bram.press("Ask for it")
        bram.sees("This would be asked for", "The wizards are asked and Ada #4, since it is about what is theirs.")
        bram.has_focus_in("words")
        bram.fill("words", WHY)
        self.shown(bram, "04-why")
        bram.press("Send the petition")
        bram.sees("It is asked for", WHY)
        self.shown(bram, "05-asked")

    def a_newcomer_asks(self):
        with self.at("bram", "ada") as (bram, ada):
            self.asks(bram)
            ada.open("/")
            ada.sees("1 petition to answer")
            self.shown(ada, "06-home")
            ada.follow("Petitions 1 wait for you")
            ada.sees("Bram #5 asks for 1 change", WHY)
            self.shown(ada, "07-inbox")
            ada.follow("Answer petition 1")
            ada.fill("word-1", NOT_NOW)
            self.shown(ada, "08-answer")
            ada.press("Decline")
            ada.sees("Your answer is there for who asked")
            bram.open("/petitions")
            bram.sees("ada says no.", NOT_NOW)
            self.shown(bram, "09-no")
            bram.fill("again-1", "The fair is over.")
            bram.press("Ask again for petition 1")
            bram.sees("It is asked for", "petition 2", "The fair is over.")
            ada.open("/petitions/2")
            ada.fill("word-2", "Here you are.")
            self.shown(ada, "10-do-it")
            ada.press("Do it")
            ada.sees("It is done.")
            bram.open("/petitions")
            bram.sees("ada has done it.", "Here you are.", "nothing of it is left")
            self.shown(bram, "11-done")
            bram.press("Close it petition 2")
            bram.sees("Done petition 2, by ada")
            bram.open("/o/8")
            bram.sees("Reading lamp")

    def a_wizard_says_no(self):
        with self.at("bram", "wizard") as (bram, wizard):
            self.asks(bram)
            wizard.open("/petitions")
            wizard.fill("word-1", NOT_NOW)
            self.shown(wizard, "12-wizard")
            wizard.press("Decline petition 1")
            wizard.sees("The petition is gone")
            bram.open("/petitions")
            bram.sees("Declined petition 1, by wizard", NOT_NOW)
            self.shown(bram, "13-declined")

    def test_all(self):
        for scene in (self.a_newcomer_asks, self.a_wizard_says_no):
            with self.subTest(scene=scene.__name__):
                self.play(scene)


load_tests = kinds_of(Asking, WithTheMouse, WithTheKeyboard)
