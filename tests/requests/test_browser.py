"""What the pages of a real browser may do to a service of this machine: nothing."""
import unittest

from tests.support.chromium import MISSING, STRANGER, Browser, DriverFailed, Pages, once_more
from tests.support.cases import ProgramTest
from tests.support.exchange import MOO, accepted, posted, said, seq
from tests.support.service import Service, get

CREATE = '{"as":"#3","calls":["create(#1)"]}'
# A form of plain text, whose one field has a batch as its name and the end of the batch as its value: with the sign that the browser puts
# between the two the body is JSON.
FORM = """<!doctype html><title>a form</title><form method=post enctype=text/plain action="{url}">
<input name='{{"as":"#3","calls":["create(#1)"],"more":"' value='"}}'></form>
<script>addEventListener("load", () => document.forms[0].submit())</script>"""
FORM_BODY = b'{"as":"#3","calls":["create(#1)"],"more":"="}\r\n'
BLANK = "<!doctype html><title>a page</title>"

# The status and the text of an answer that a page asks for, or that the browser keeps it from the page.
FETCH = """const [url, options] = arguments;
return fetch(url, options).then(async (answer) => [answer.type, answer.status, await answer.text()], (error) => [error.name, 0, ""]);"""
FORBIDDEN = '{"error":"forbidden"}'


@unittest.skipIf(MISSING, MISSING)
class InABrowser(ProgramTest):
    def setUp(self):
        super().setUp()
        self.service = Service(MOO, ":memory:", None)
        self.addCleanup(self.service.kill)
        self.url = f"http://127.0.0.1:{self.service.port}"
        self.pages = Pages({f"/form{path}": FORM.format(url=f"{self.url}{path}") for path in ("/batch", "/ask", "/each")} | {"/blank": BLANK})
        self.addCleanup(self.pages.close)
        try:
            self.browser = Browser()
        except DriverFailed as error:
            print(f"the browser is started once more: {error}")
            self.browser = Browser()
        self.addCleanup(self.browser.close)
        self.before = said(self.service, get("/dump"))

    def unchanged(self, name):
        self.case(f"{name}: nothing changed", said(self.service, get("/dump")) == self.before, True)

    @once_more
    def test_a_form(self):
        for path in ("/batch", "/ask", "/each"):
            self.browser.open(f"http://127.0.0.1:{self.pages.port}/form{path}")
            self.case(f"a form to {path}", self.browser.text_of(f"{self.url}{path}"), FORBIDDEN)
            self.unchanged(f"a form to {path}")
        # The same bytes act if no page sends them: the line `origin` is what refuses them.
        self.case("without a page", said(self.service, posted("/batch", FORM_BODY)), accepted(1, "#4"))

    @once_more
    def test_a_fetch(self):
        self.browser.open(f"http://127.0.0.1:{self.pages.port}/blank")
        post = {"method": "POST", "body": CREATE}
        for path in ("/batch", "/batch?why", "/ask", "/each"):
            # In this mode the request is sent, and the page doesn't see its answer.
            unseen = self.browser.run(FETCH, f"{self.url}{path}", {**post, "mode": "no-cors"})
            self.case(f"unseen, to {path}", unseen, ["opaque", 0, ""])
            self.case(f"seen, to {path}", self.browser.run(FETCH, f"{self.url}{path}", post), ["TypeError", 0, ""])
            self.unchanged(f"a fetch to {path}")
        for path in ("/seq", "/objects/0", "/dump"):
            self.case(f"GET {path}", self.browser.run(FETCH, f"{self.url}{path}", {}), ["TypeError", 0, ""])
        self.case("the service goes on", said(self.service, get("/seq")), seq(0))

    @once_more
    def test_another_name(self):
        """A page whose name leads to this machine is of the same origin as the service: it sees each answer."""
        here = f"http://{STRANGER}:{self.service.port}"
        self.browser.open(f"{here}/seq")
        self.case("it reaches the service", self.browser.text(), '{"seq":0}')
        for path in ("/objects/0", "/dump"):
            self.case(f"GET {path}", self.browser.run(FETCH, f"{here}{path}", {}), ["basic", 403, FORBIDDEN])
        for path in ("/batch", "/ask", "/each"):
            answer = self.browser.run(FETCH, f"{here}{path}", {"method": "POST", "body": CREATE})
            self.case(f"POST {path}", answer, ["basic", 403, FORBIDDEN])
            self.unchanged(f"POST {path}")
        self.browser.open(f"{here}/dump")
        self.case("it opens no dump", self.browser.text(), FORBIDDEN)
        self.browser.open(f"{self.url}/dump")
        self.case("a person who opens it here reads it", self.browser.text().startswith("seq 0\ntop #3\n"), True)
