"""What is too much work for one request of `moo` (`moo serve --ticks`): what programs, people and operators are told of it.

The service answers as the program does, but refuses each request of more calls than it is told, as by ticks.
"""

import json
import time
import unittest
from unittest import mock

from tests.support.forms import FormsTest
from tests.support.operating import SECONDS
from tests.support.pages import Reader
from tests.support.web import use_web

use_web()

from moolib.errors import NoMemory  # noqa: E402
from moolib.raising import good  # noqa: E402
from moolib.service import Answer, Service  # noqa: E402

from moo_web.app import Reply, Request  # noqa: E402
from moo_web.people.growth import Growth  # noqa: E402
from moo_web.status.activity import Activity  # noqa: E402
from moo_web.status.meters import Meters  # noqa: E402
from moo_web.world.asking import TOO_MUCH, Asker  # noqa: E402

WHY = "call 3: over 4000000 ticks (moo serve --ticks)"
SAID = {"error": "nomemory", "why": WHY}
ROUTES = ("/batch", "/ask", "/each")
ENOUGH = ["valid(#4)"] * 20


def answer_of(said):
    """An answer 503 with this object."""
    return Answer(503, json.dumps(said, separators=(",", ":")).encode(), said)


class Bounded(FormsTest):
    """A world whose service takes so many calls in a request. `seen` are the routes that were asked for with more."""

    most = 10

    def setUp(self):
        super().setUp()
        self.seen = []
        sent = Service.sent

        def bounded(service, method, route, body=None, wait=None):
            calls = json.loads(body)["calls"] if body and route.startswith(ROUTES) else ()
            if len(calls) <= self.most:
                return sent(service, method, route, body, wait)
            self.seen.append(route)
            return answer_of(SAID)

        patched = mock.patch.object(Service, "sent", bounded)
        patched.start()
        self.addCleanup(patched.stop)
        self.token = self.people.tokens.make("ada")

    def api(self, path, calls):
        """The status and the body of what a program is answered."""
        answer = Reader(self.app).asked("POST", path, json.dumps({"calls": calls}).encode(), HTTP_AUTHORIZATION=f"Bearer {self.token}")
        return answer.status, json.loads(answer.bytes)


class Told(Bounded):
    def test_programs_get_the_reason_as_it_came(self):
        for path in ("/api/batch", "/api/ask", "/api/each", "/api/ask?losses"):
            with self.subTest(path):
                self.assertEqual(self.api(path, ENOUGH), (503, SAID))
                self.assertEqual(self.api(path, ["valid(#4)"])[0], 200)
        self.assertEqual(set(self.seen), {"/ask?why", "/each?why"}, "a batch that would be too much isn't sent")

    def test_a_batch_that_was_too_much_only_when_it_was_sent(self):
        """As by a service that was started anew with a lower bound in between."""
        sent = Service.sent

        def bounded(service, method, route, body=None, wait=None):
            return answer_of(SAID) if route.startswith("/batch") else sent(service, method, route, body, wait)

        with mock.patch.object(Service, "sent", bounded):
            self.assertEqual(self.api("/api/batch", ["create(#6)"]), (503, SAID))
        self.assertEqual(self.api("/api/batch", ["create(#6)"])[1]["answers"], ["#9"])
        self.assertEqual(self.writer.stopped, None)

    def test_people_are_told_in_plain_words(self):
        ada = self.somebody("ada")
        ada.get("/batch")
        page = ada.send("Preview", text="\n".join(ENOUGH))
        self.has(page, "This would be refused", "This is too much for one request: make several of it", WHY, status=409)
        self.assertNotIn("memory", page.text)
        self.assertIn("valid(#4)", ada.typed()["text"])

    def test_a_lack_of_memory_is_told_as_before(self):
        ada = self.somebody("ada")
        ada.get("/batch")
        asked = self.door.asked
        self.door.asked = lambda method, path, body, end: answer_of({"error": "nomemory"}) if path == "/ask?why" else asked(method, path, body, end)
        page = ada.send("Preview", text="valid(#4)")
        self.has(page, "moo had no memory left for it", status=409)

    def test_clients_get_the_reason(self):
        with self.assertRaisesRegex(NoMemory, "^call 3: over 4000000 ticks"):
            good(answer_of(SAID))
        with self.assertRaisesRegex(NoMemory, "^the service's memory ran out$"):
            good(answer_of({"error": "nomemory"}))

    def test_operators_arent_told_of_a_lack_of_memory(self):
        meters = Meters()
        activity = Activity(meters, lambda request: request.path, None)
        for said in (SAID, {"error": "nomemory"}):
            meters.asked("/ask?why", 0.1, answer_of(said))
            request = Request({"REQUEST_METHOD": "POST", "PATH_INFO": "/api/ask", "REMOTE_ADDR": "192.0.2.1"})
            activity.begin(request)
            activity.end(request, Reply(503, answer_of(said).body))
        self.api("/api/batch", ENOUGH)
        self.assertEqual(self.told, [line for line in self.told if "begins at number" in line])
        text = "\n".join(meters.refusals.lines())
        for by in ("moo", "front"):
            for kind in ("too much", "nomemory"):
                self.assertIn(f'{{by="{by}",kind="{kind}"}} 1', text)


class Read(Bounded):
    def test_what_is_too_much_together_is_asked_for_in_halves(self):
        asker, calls = Asker(self.door), [f"valid(#{number})" for number in range(40)]
        seq = self.writer.seq
        said = asker.said(4, calls, seq, time.monotonic() + SECONDS)
        self.assertEqual([one.text for one in said], [str(int(number <= 8)) for number in range(40)])
        self.most = 0
        self.assertEqual(asker.said(4, calls[:3], seq, time.monotonic() + SECONDS), [TOO_MUCH] * 3)

    def test_pages_are_shown(self):
        ada = self.somebody("ada")
        self.most = 1
        for path in ("/", "/o/8", "/o/8/property?name=weight", "/petitions", "/history"):
            self.assertEqual(ada.get(path).status, 200, path)

    def test_petitions_that_are_too_much_to_be_counted(self):
        self.most = 0
        growth = Growth(self.door)
        with self.assertRaisesRegex(Exception, "^your petitions that wait"):
            growth.test("ada", 4, ['petition({{"move", #8, #7}})'])
        self.has(self.somebody_at("/petitions"), "There are more than can be shown together", status=413)

    def somebody_at(self, path):
        """A page of ada's, who is signed in while the service takes any request."""
        self.most, most = 10, self.most
        ada = self.somebody("ada")
        self.most = most
        return ada.get(path)


if __name__ == "__main__":
    unittest.main()
