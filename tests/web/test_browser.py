"""The pages in a real browser, Debian's chromium: without scripts, at 320 pixels, in the dark, by the keyboard; and a stranger's page."""

import functools
import http.server
import pathlib
import tempfile
import threading
import time
import unittest

from tests.support import browser as browsers
from tests.support import processes
from tests.support.operating import KeptService, SECONDS, make_world
from tests.support.web import PASSWORD, Front, add_person, lacking

from tests.web.test_pages import WORLD

SCRIPT = "<script>document.title='hit'</script><b>x"
PATHS = (
    "/", "/o/8", "/o/8/property?name=colour", "/o/1/children", "/find?q=box", "/find?q=.size", "/map/parents", "/map/places", "/map/exits?from=7", "/history",
    "/people", "/you", "/o/99",
    "/o/10",
)  # fmt: skip
LIGHT, DARK = 0.7, 0.1
# Run by the driver, and not by the page: the colour of each text.
COLOURS = """const found = {};
for (const one of document.querySelectorAll("h1, h2, p, a:not(.go), .n, .dim, td, th, label, span, b, code, summary, button.plain"))
    if (one.textContent.trim()) found[one.textContent.trim().slice(0, 40)] = getComputedStyle(one).color;
return found"""


# The browsers that were started, by their kinds.
STARTED = {}


def end_browsers():
    while STARTED:
        STARTED.popitem()[1].quit()


def tearDownModule():
    end_browsers()


def once_more(test):
    """Runs a test once more, in new browsers, if the driver of a browser fails and not the page."""

    @functools.wraps(test)
    def run(self):
        from selenium.common.exceptions import WebDriverException

        try:
            return test(self)
        except WebDriverException as error:
            print(f"the driver of the browser failed, so the test runs once more: {error.msg}")
        end_browsers()
        return test(self)

    return run


class Stranger:
    """A page of another site, which posts to a front as soon as it is shown and its button is pressed."""

    def __init__(self, to):
        fields = {"old": PASSWORD, "new": "another password", "again": "another password", "form": "x", "name": "ada", "password": PASSWORD}
        inputs = "".join(f'<input name="{name}" value="{value}">' for name, value in fields.items())
        page = f'<!DOCTYPE html><title>stranger</title><form method="post" action="{to}">{inputs}<button>Win</button></form>'
        body = page.encode()

        class Answers(http.server.BaseHTTPRequestHandler):
            def do_GET(self):
                self.send_response(200)
                self.send_header("Content-Type", "text/html")
                self.end_headers()
                self.wfile.write(body)

            def log_message(self, *given):
                pass

        # A browser may connect once more beside its request, and say nothing there.
        self.server = http.server.ThreadingHTTPServer(("127.0.0.1", 0), Answers)
        threading.Thread(target=self.server.serve_forever, daemon=True).start()

    def __enter__(self):
        # Another name than the front's, and so another site.
        return f"http://localhost:{self.server.server_port}/"

    def __exit__(self, *given):
        self.server.shutdown()
        self.server.server_close()


def brightness(text):
    """How bright a colour such as `rgb(1, 2, 3)` is, from 0 to 1, as the eye sees it."""
    red, green, blue = (linear(int(part) / 255) for part in text[text.index("(") + 1 : text.index(")")].split(",")[:3])
    return 0.2126 * red + 0.7152 * green + 0.0722 * blue


def linear(part):
    return part / 12.92 if part <= 0.04045 else ((part + 0.055) / 1.055) ** 2.4


def contrast(one, other):
    """The contrast of two colours, from 1 to 21."""
    less, more = sorted((brightness(one), brightness(other)))
    return (more + 0.05) / (less + 0.05)


@functools.cache
def front_for_all():
    """A front on a world, until the module ends: for all tests, which only look."""
    room = tempfile.TemporaryDirectory()
    unittest.addModuleCleanup(room.cleanup)
    unittest.addModuleCleanup(processes.end_all)
    folder = pathlib.Path(room.name)
    more = f'batch as #3\ncreate(#1)\nset(#10, "name", "{SCRIPT}")\nadd_property(#10, "text", "{SCRIPT}", {{#3, "r"}})\nend\n'
    make_world(folder / "world.db", WORLD + more)
    moo = KeptService(folder / "world.db")
    unittest.addModuleCleanup(moo.stop)
    for name, number in (("wizard", 3), ("ada", 4)):
        add_person(folder / "front", name, number)
    return Front(folder / "front", moo.port)


class BrowserTest(unittest.TestCase):
    @classmethod
    def setUpClass(cls):
        if why := lacking() or browsers.lacking():
            raise unittest.SkipTest(why)
        cls.home = f"http://127.0.0.1:{front_for_all().port}"

    def browser(self, **how):
        """A browser of this kind, without cookies: one for all tests, since it takes its time to start."""
        kind = tuple(sorted((key, value) for key, value in how.items() if value))
        if kind not in STARTED:
            STARTED[kind] = browsers.browser(**how)
            STARTED[kind].set_page_load_timeout(SECONDS)
        driver = STARTED[kind]
        # Nothing of the test before is under way any more that could bring a cookie.
        driver.get("about:blank")
        driver.execute_cdp_cmd("Network.clearBrowserCookies", {})
        return driver

    def sign_in(self, driver, name="wizard", password=PASSWORD, path="/in"):
        """Signs in by the form of a page, with the keyboard alone: the first field has the focus."""
        from selenium.webdriver.common.by import By

        driver.get(self.home + path)
        self.type_name(driver, name)
        driver.find_element(By.NAME, "password").send_keys(password + "\n")
        self.wait(lambda: driver.find_elements(By.CSS_SELECTOR, "form[action='/out']"))

    def type_name(self, driver, name):
        """Types a name into the first field, which has the focus as soon as the page is drawn."""
        self.wait(lambda: driver.switch_to.active_element.get_attribute("name") == "name")
        driver.switch_to.active_element.send_keys(name)

    def wait(self, is_so):
        """Waits until something is so."""
        end = time.monotonic() + SECONDS
        while not is_so():
            self.assertLess(time.monotonic(), end)
            time.sleep(0.05)

    def size(self, driver):
        size = driver.execute_cdp_cmd("Page.getLayoutMetrics", {})["cssContentSize"]
        return size["width"], size["height"]


class Without(BrowserTest):
    @once_more
    def test_scripts_are_off(self):
        """Every page, and what a name with a script in it does: nothing."""
        driver = self.browser()
        driver.get("data:text/html,<title>before</title><script>document.title='hit'</script>")
        self.assertEqual(driver.title, "before", "this browser runs scripts")
        self.sign_in(driver)
        for path in PATHS:
            driver.get(self.home + path)
            title = driver.title
            with self.subTest(path=path):
                self.assertTrue(title.endswith(" · moo"), title)

    @once_more
    def test_with_scripts_on_none_runs(self):
        driver = self.browser(script=True)
        driver.get("data:text/html,<title>before</title><script>document.title='hit'</script>")
        self.assertEqual(driver.title, "hit", "this browser runs no scripts")
        self.sign_in(driver)
        for path in ("/o/10", "/", "/find?q=script", "/map/parents", "/o/10/property?name=text", "/history"):
            driver.get(self.home + path)
            title, scripts = driver.title, driver.execute_script("return document.querySelectorAll('main script, main b b').length")
            with self.subTest(path=path):
                self.assertTrue(title.endswith(" · moo"), title)
                self.assertEqual(scripts, 0)
        self.assertEqual([line for line in driver.get_log("browser") if "Refused" in line["message"]], [], "what the policy had to stop")
        driver.get(self.home + "/o/10")
        self.assertIn(SCRIPT, driver.execute_script("return document.querySelector('h1').textContent"))


class Shapes(BrowserTest):
    @once_more
    def test_320_pixels(self):
        """No page is wider than the window. The map may be, in a part of its own that scrolls."""
        driver = self.browser(width=320, height=640)
        self.assert_fits(driver, "/in", 320)
        self.sign_in(driver)
        for path in PATHS:
            self.assert_fits(driver, path, 320)

    def assert_fits(self, driver, path, width):
        driver.get(self.home + path)
        found, _ = self.size(driver)
        with self.subTest(path=path):
            self.assertEqual(found, width)

    @once_more
    def test_light_and_dark(self):
        """Text has a contrast of at least 5.5 to 1 on its ground, links and small text too."""
        from selenium.webdriver.common.by import By

        for dark, ground in ((False, LIGHT), (True, DARK)):
            driver = self.browser(dark=dark)
            self.sign_in(driver)
            for path in ("/", "/o/8", "/history", "/you", "/in"):
                driver.get(self.home + path)
                paper = driver.find_element(By.TAG_NAME, "html").value_of_css_property("background-color")
                colours = driver.execute_script(COLOURS)
                with self.subTest(path=path, dark=dark):
                    self.assertEqual(brightness(paper) > 0.4, not dark)
                    self.assertTrue(brightness(paper) > ground if not dark else brightness(paper) < ground)
                    self.assertGreater(len(colours), 5)
                    self.assertEqual({text: colour for text, colour in colours.items() if contrast(colour, paper) < 5.5}, {})

    @once_more
    def test_the_style_is_the_sheets(self):
        from selenium.webdriver.common.by import By

        driver = self.browser()
        self.sign_in(driver)
        self.assertIn("serif", driver.find_element(By.TAG_NAME, "html").value_of_css_property("font-family"))
        driver.get(self.home + "/map/parents")
        drawing = driver.find_element(By.CSS_SELECTOR, ".map svg")
        cell = driver.find_element(By.CSS_SELECTOR, ".map td.lines")
        self.assertAlmostEqual(drawing.size["height"], cell.size["height"], delta=2)
        self.assertGreater(drawing.size["height"], 40)

    @once_more
    def test_trees_fold_without_scripts(self):
        from selenium.webdriver.common.by import By

        driver = self.browser()
        self.sign_in(driver)
        driver.get(self.home + "/")
        browse = driver.find_element(By.CSS_SELECTOR, "details.browse")
        if browse.get_attribute("open") is None:
            browse.find_element(By.TAG_NAME, "summary").send_keys(" ")
        hall = driver.find_element(By.CSS_SELECTOR, "section[aria-labelledby=places] > .tree > li:last-child > details")
        for is_open in (True, False, True):
            self.wait(lambda is_open=is_open: (hall.get_attribute("open") is not None) == is_open)
            hall.find_element(By.TAG_NAME, "summary").send_keys(" ")

    @once_more
    def test_the_keyboard_skips_to_the_page(self):
        from selenium.webdriver.common.keys import Keys

        driver = self.browser()
        self.sign_in(driver)
        driver.get(self.home + "/o/8")
        driver.switch_to.active_element.send_keys(Keys.TAB)
        first = driver.switch_to.active_element
        self.assertEqual((first.text, first.is_displayed()), ("Skip to the page", True))
        self.assertNotEqual(first.value_of_css_property("outline-style"), "none")
        first.send_keys(Keys.ENTER)
        self.wait(lambda: driver.current_url.endswith("#main"))
        # The focus comes with the next picture.
        self.wait(lambda: driver.switch_to.active_element.get_attribute("id") == "main")


class Sessions(BrowserTest):
    @once_more
    def test_signing_in_and_out(self):
        from selenium.webdriver.common.by import By

        driver = self.browser()
        self.sign_in(driver, "ada", path="/o/8?from=elsewhere")
        self.assertEqual(driver.current_url, f"{self.home}/o/8?from=elsewhere")
        cookie = driver.get_cookie("__Host-moo")
        self.assertEqual((cookie["httpOnly"], cookie["secure"], cookie["sameSite"], cookie["path"]), (True, True, "Lax", "/"))
        driver.find_element(By.CSS_SELECTOR, "form[action='/out'] button").click()
        self.wait(lambda: "You are signed out." in driver.page_source)
        driver.get(self.home + "/o/8")
        self.assertEqual(driver.title, "Sign in · moo")

    @once_more
    def test_an_old_session(self):
        """It has ended meanwhile: what is asked for comes after signing in again."""
        from selenium.webdriver.common.by import By

        driver = self.browser()
        self.sign_in(driver, "ada")
        driver.get(self.home + "/o/8")
        driver.delete_cookie("__Host-moo")
        driver.add_cookie({"name": "__Host-moo", "value": "an-old-one", "path": "/", "secure": True, "httpOnly": True, "sameSite": "Lax"})
        driver.find_element(By.CSS_SELECTOR, ".card a[href='/o/7']").click()
        self.wait(lambda: driver.title == "Sign in · moo")
        self.type_name(driver, "ada")
        driver.find_element(By.NAME, "password").send_keys(PASSWORD + "\n")
        # The form that asks for the password had this address already.
        self.wait(lambda: driver.find_elements(By.CSS_SELECTOR, "form[action='/out']"))
        self.assertEqual(driver.current_url, f"{self.home}/o/7")

    @once_more
    def test_a_page_of_a_stranger_that_posts(self):
        """To the form of the password, with a guessed token. The browser sends no cookie with it, or the front refuses it."""
        from selenium.webdriver.common.by import By

        driver = self.browser()
        self.sign_in(driver, "ada")
        for path in ("/you/password", "/out", "/in"):
            with Stranger(self.home + path) as page:
                driver.get(page)
                driver.find_element(By.TAG_NAME, "button").click()
                self.wait(lambda: driver.title == "Not from here · moo")
                address = driver.current_url
                with self.subTest(path=path):
                    self.assertEqual(address, self.home + path)
        driver.get(self.home + "/o/8")
        self.assertEqual(driver.title, "Ada's chest #8 · moo", "the session goes on")

    @once_more
    def test_a_page_of_a_stranger_that_shows_ours_in_a_frame(self):
        driver = self.browser()
        self.sign_in(driver, "ada")
        driver.get(f"data:text/html,<iframe src='{self.home}/o/8'></iframe>")
        driver.switch_to.frame(0)
        self.assertNotIn("chest", driver.page_source)


if __name__ == "__main__":
    unittest.main()
