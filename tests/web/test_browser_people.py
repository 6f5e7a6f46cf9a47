"""People in a real browser without scripts, with the mouse and with the keyboard alone at 320 pixels: a wizard adds somebody, who chooses a
password, makes a token and ends it; then somebody is kept out, gets another object and is removed. `PICTURES` in the environment is a folder
for a picture of each page."""

from tests.support import browser
from tests.support.scenes import Person, Scene, WithTheKeyboard, WithTheMouse, kinds_of
from tests.support.web import PASSWORD

NEW = "a new password"


class Newcomer(Person):
    """Somebody who comes by a link, and has no password yet."""

    def __init__(self, test, link, width, by_keys):
        self.test, self.by_keys, self.width = test, by_keys, width
        self.driver = browser.browser(width)
        self.open(link)


class OfPeople(Scene):
    """The scenes."""

    pressed = "main button:not(.hidden), main a.press, main summary, main input:not([type=hidden]):not([type=checkbox]), main select"

    def somebody_new(self):
        with self.at("wizard") as (wizard,):
            wizard.follow("People")
            self.shown(wizard, "1-people")
            wizard.act_on(wizard.driver.find_element("css selector", "main summary"), "\ue007")
            wizard.fill("f-account", "dora")
            self.shown(wizard, "2-form")
            wizard.press("Add")
            wizard.sees("Give dora this link", "Acts as dora #9", "100 more objects")
            self.shown(wizard, "3-added")
            link = wizard.driver.find_element("id", "link").get_attribute("value")
            self.assertTrue(link.startswith(f"http://127.0.0.1:{self.front.port}/link?key="), link)
            dora = Newcomer(self, link.partition(f":{self.front.port}")[2], self.width, self.by_keys)
            try:
                self.newcomer(dora)
            finally:
                dora.driver.quit()

    def newcomer(self, dora):
        dora.sees("You are dora here")
        self.shown(dora, "4-link")
        dora.fill("new", NEW)
        dora.fill("again", NEW)
        dora.press("Keep it, and come in")
        dora.sees("Signed in as dora, dora #9")
        dora.open("/you")
        dora.fill("label", "a bot")
        dora.press("Make a token")
        dora.sees("The new token.", "a bot")
        self.shown(dora, "5-you")
        row = dora.driver.find_element("xpath", "//section[@aria-labelledby='tokens']//td[contains(., 'a bot')]/..//button")
        dora.leave(row)
        dora.sees("It has ended.")

    def kept_out(self):
        with self.at("wizard", "ada") as (wizard, ada):
            wizard.open("/people/ada")
            self.shown(wizard, "6-person")
            wizard.follow("Keep out")
            wizard.sees("This would be done", "ada can’t sign in any more")
            self.shown(wizard, "7-keep-out")
            wizard.press("Do it")
            wizard.sees("can’t come in any more", "disabled")
            ada.open("/you")
            ada.sees("Sign in")
            wizard.press("Let in again")
            ada.fill("name", "ada")
            ada.fill("password", PASSWORD)
            ada.press("Sign in")
            ada.sees("Signed in as ada")
            wizard.follow("Another object")
            wizard.fill("number", "Bram")
            wizard.press("Preview")
            self.shown(wizard, "8-another-object")
            wizard.press("Do it")
            ada.open("/")
            ada.sees("Signed in as ada, Bram #5")
            wizard.follow("Remove")
            self.shown(wizard, "9-remove")
            wizard.press("Do it")
            wizard.sees("The account is gone.", "Players without an account", "Ada #4")
            ada.open("/you")
            ada.sees("Sign in")
            said = self.front.said()
            self.assertIn('moo-web: account removed: name="ada" number=5 by="wizard"\n', said)
            self.assertNotIn(PASSWORD, said)

    def test_all(self):
        for scene in (self.somebody_new, self.kept_out):
            with self.subTest(scene=scene.__name__):
                self.play(scene)


load_tests = kinds_of(OfPeople, WithTheMouse, WithTheKeyboard)
