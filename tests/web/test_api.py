"""The interface for programs, `/api/..`, on a world that moo serves. The application is called as a server of WSGI calls it."""

import io
import json
import pathlib
import tempfile
import time
import unittest
from unittest import mock

from tests.support.operating import KeptService, SECONDS, make_world
from tests.support.web import PASSWORD, use_web

use_web()

from moo_web import api  # noqa: E402
from moo_web.api import Api  # noqa: E402
from moo_web.app import App, Reply, in_json  # noqa: E402
from moo_web.journal.journal import Journal  # noqa: E402
from moo_web.journal.writer import Writer  # noqa: E402
from moo_web.people import passwords  # noqa: E402
from moo_web.people.people import People  # noqa: E402
from moo_web.world.door import Door  # noqa: E402

# #4 is a player of ada's, who owns #5. #6 is fertile.
FIRST = """batch as #3
create(#1)
set_player_flag(#4, 1)
create(#1, #4)
create(#1)
set(#6, "f", 1)
add_property(#6, "secret", 7, {#3, ""})
end
"""


def in_pieces(file):
    """What a server makes of a file that is an answer."""
    with file:
        yield from iter(lambda: file.read(9), b"")


class Called:
    """An application, called with environments."""

    def __init__(self, app):
        self.app, self.status, self.head = app, None, None

    @staticmethod
    def environ(method, path, body=b"", query="", **more):
        """The environment of a request."""
        return {
            "REQUEST_METHOD": method, "PATH_INFO": path, "QUERY_STRING": query, "REMOTE_ADDR": "127.0.0.1",
            "CONTENT_LENGTH": str(len(body)),
            "wsgi.input": io.BytesIO(body), "wsgi.file_wrapper": in_pieces, **more,
        }  # fmt: skip

    def bytes(self, *given, **more):
        """The body of the answer; `status` and `head` are set."""
        environ = self.environ(*given, **more)

        def start(status, head):
            self.status, self.head = int(status.split()[0]), dict(head)

        return b"".join(self.app(environ, start))

    def said(self, *given, **more):
        """The status, and the object that the body is."""
        text = self.bytes(*given, **more)
        return self.status, json.loads(text)


class Api_(unittest.TestCase):
    """A world, its service, and the application, with tokens of the wizard and of ada."""

    rate = 1_000_000.0

    @classmethod
    def setUpClass(cls):
        cls.addClassCleanup(setattr, passwords, "COST", passwords.COST)
        passwords.COST = 2

    def setUp(self):
        room = tempfile.TemporaryDirectory()
        self.addCleanup(room.cleanup)
        self.room, self.told = pathlib.Path(room.name), []
        make_world(self.room / "world.db", FIRST)
        self.moo = KeptService(self.room / "world.db")
        self.addCleanup(self.moo.stop)
        (self.room / "front").mkdir()
        self.people = People(self.room / "front/people.db")
        self.addCleanup(self.people.close)
        self.journal = Journal(self.room / "front", None, self.told.append)
        self.door = Door(self.moo.port)
        self.writer = Writer(self.door, self.journal, self.told.append, patience=SECONDS)
        self.writer.start()
        self.addCleanup(lambda: (self.writer.end(SECONDS), self.journal.close()))
        self.app = App(self.told.append)
        self.api = routes = Api(self.app, self.door, self.writer, self.people, self.rate)
        # Their clock stands still, however slowly requests come.
        routes.of_tokens.clock = routes.of_addresses.clock = lambda: 1000.0
        for name, number in (("wizard", 3), ("ada", 4)):
            self.people.add(name, number, PASSWORD)
        self.tokens = {name: self.people.tokens.make(name) for name in ("wizard", "ada")}
        self.called, self.unread = Called(self.app), []

    def asked(self, who, method, path, said=None, **more):
        """What the front answers to this person."""
        body = said if isinstance(said, bytes) else b"" if said is None else json.dumps(said).encode()
        return self.called.said(method, path, body, HTTP_AUTHORIZATION=f"Bearer {self.tokens[who]}", **more)

    def post(self, who, path, said):
        return self.asked(who, "POST", path, said)


class Rights(Api_):
    def test_a_token_has_the_rights_of_its_persons_number(self):
        self.assertEqual(self.post("ada", "/api/batch", {"calls": ['set(#5, "name", "Lamp")']}), (200, {"answers": ["0"], "seq": 2}))
        status, said = self.post("ada", "/api/batch", {"calls": ['set(#6, "name", "Lamp")']})
        self.assertEqual((status, said["call"], said["error"]), (409, 1, "E_PERM"))
        status, said = self.post("ada", "/api/ask", {"calls": ['get(#6, "secret")']})
        self.assertEqual((status, said["error"]), (409, "E_PERM"))
        self.assertEqual(self.post("wizard", "/api/ask", {"calls": ['get(#6, "secret")']}), (200, {"answers": ["7"], "seq": 2}))

    def test_as_is_ones_own_or_forbidden(self):
        for path in ("/api/batch", "/api/ask", "/api/each"):
            for own in ("#4",):
                self.assertEqual(self.post("ada", path, {"as": own, "calls": ["valid(#4)"]})[0], 200)
            for other in ("#3", "#04", "4", 4, None, ["#4"], "#4 ", ""):
                with self.subTest(path=path, other=other):
                    self.assertEqual(self.post("ada", path, {"as": other, "calls": ["valid(#4)"]}), (403, {"error": "forbidden"}))
        self.assertEqual(self.post("ada", "/api/batch", b'{"as":"#3","as":"#4","calls":["max_object()"]}')[0], 200)
        self.assertEqual(self.post("ada", "/api/batch", b'{"as":"#4","as":"#3","calls":["max_object()"]}')[0], 403)

    def test_nothing_else_of_the_body_gets_through(self):
        sent = []
        asked = self.door.asked
        self.door.asked = lambda method, path, body, end: (sent.append(body), asked(method, path, body, end))[1]
        self.post("ada", "/api/ask", b'{"x":1,"calls":["valid(#1)"],"AS":"#3","a\\u0073":"#4","at":null}')
        self.assertEqual([json.loads(body) for body in sent], [{"as": "#4", "calls": ["valid(#1)"], "at": None}])

    def test_who_has_no_token(self):
        for line in ("", "Bearer", "Bearer ", "Bearer x", f"Basic {self.tokens['ada']}", self.tokens["ada"], "Bearer é"):
            for method, path in (("GET", "/api/seq"), ("POST", "/api/batch"), ("GET", "/api/nothing"), ("GET", "/api/dump")):
                with self.subTest(line=line, path=path):
                    self.assertEqual(self.called.said(method, path, b"{}", HTTP_AUTHORIZATION=line), (401, {"error": "unauthorized"}))
        self.assertEqual(self.called.head["WWW-Authenticate"], "Bearer")
        self.assertEqual(self.called.said("GET", "/api/seq", HTTP_AUTHORIZATION=f"bearer {self.tokens['ada']}"), (200, {"seq": 1}))

    def test_tokens_end(self):
        self.people.tokens.end_all("ada")
        self.assertEqual(self.asked("ada", "GET", "/api/seq"), (401, {"error": "unauthorized"}))
        self.people.disable("wizard")
        self.assertEqual(self.asked("wizard", "GET", "/api/seq"), (401, {"error": "unauthorized"}))

    def test_the_dump_is_for_wizards(self):
        self.assertEqual(self.asked("ada", "GET", "/api/dump"), (403, {"error": "forbidden"}))
        status = Door(self.moo.port).sent("GET", "/dump").status
        text = self.called.bytes("GET", "/api/dump", HTTP_AUTHORIZATION=f"Bearer {self.tokens['wizard']}")
        if status == 404:
            self.assertEqual((self.called.status, json.loads(text)), (404, {"error": "not found"}))
        else:
            self.assertEqual((self.called.status, self.called.head["Content-Type"], text[:6]), (200, "text/plain", b"seq 1\n"))
            self.assertEqual(self.called.head["Content-Length"], str(len(text)))

    def test_so_many_dumps_are_in_files_at_once(self):
        """A dump that isn't read keeps its place until its file is closed."""
        with mock.patch.object(api, "QUESTION_SECONDS", 0.2):
            token = {"HTTP_AUTHORIZATION": f"Bearer {self.tokens['wizard']}", "wsgi.file_wrapper": self.unread.append}
            for _ in range(api.DUMPS_AT_ONCE):
                self.assertIsNone(self.called.app(self.called.environ("GET", "/api/dump", **token), lambda status, head: None))
            self.assertEqual(self.asked("wizard", "GET", "/api/dump"), (503, {"error": "busy"}))
            self.unread.pop().close()
            text = self.called.bytes("GET", "/api/dump", HTTP_AUTHORIZATION=token["HTTP_AUTHORIZATION"])
        self.assertEqual(text, self.unread.pop().read())
        self.assertEqual(text[:6], b"seq 1\n")

    def test_the_dump_comes_in_pieces(self):
        self.door.copied = lambda path, file, end: file.write(b"seq 1\n" * 1000) and None
        text = self.called.bytes("GET", "/api/dump", HTTP_AUTHORIZATION=f"Bearer {self.tokens['wizard']}")
        self.assertEqual((self.called.status, self.called.head["Content-Length"], text), (200, "6000", b"seq 1\n" * 1000))
        self.post("wizard", "/api/batch", {"calls": ["set_player_flag(#3, 0)", 'set(#3, "wizard", 0)']})
        self.assertEqual(self.asked("wizard", "GET", "/api/dump"), (403, {"error": "forbidden"}))


class Answers(Api_):
    """Statuses and bodies are moo's."""

    def test_looking(self):
        self.assertEqual(self.asked("ada", "GET", "/api/seq"), (200, {"seq": 1}))
        status, said = self.asked("ada", "GET", "/api/object/5")
        self.assertEqual((status, said["owner"], said["parent"]), (200, "#4", "#1"))
        self.assertEqual(self.asked("ada", "GET", "/api/object/99"), (404, {"error": "E_INVARG"}))
        for path in ("object/99999999999", "object/x", "object/", "object/1/2", "object/1 HTTP/1.1", "", "sing"):
            with self.subTest(path):
                self.assertEqual(self.asked("ada", "GET", f"/api/{path}"), (404, {"error": "not found"}))

    def test_methods(self):
        for method, path, allowed in (("POST", "/api/seq", "GET"), ("GET", "/api/batch", "POST"), ("PUT", "/api/each", "POST")):
            self.assertEqual(self.asked("ada", method, path), (405, {"error": "method not allowed"}))
            self.assertEqual(self.called.head["Allow"], allowed)
        head = self.called.bytes("HEAD", "/api/seq", HTTP_AUTHORIZATION=f"Bearer {self.tokens['ada']}")
        self.assertEqual((self.called.status, head), (405, b""))

    def test_refusals(self):
        for said, wanted in (
            ({"calls": ["max_object()", "recycle(#99)"]}, (409, {"call": 2, "error": "E_INVARG"})),
            ({"calls": ["sing()"]}, (400, {"call": 1, "error": "malformed"})),
            ({"calls": ["é"]}, (400, {"call": 1, "error": "malformed"})),
            ({"calls": ["max_object()"], "at": 7}, (409, {"error": "stale", "seq": 1})),
            ({"calls": ["sing()"], "at": 7}, (400, {"call": 1, "error": "malformed"})),
        ):
            for path in ("/api/batch", "/api/ask"):
                status, came = self.post("ada", path, said)
                came.pop("why", None)
                with self.subTest(said=said, path=path):
                    self.assertEqual((status, came), wanted)
        self.assertEqual(self.asked("ada", "GET", "/api/seq"), (200, {"seq": 1}))

    def test_bodies_that_are_not_batches(self):
        for body in (
            b"", b"x", b"[]", b"{}", b'{"calls":1}', b'{"calls":[1]}', b'{"calls":["max_object()"],"at":"1"}',
            b'{"calls":["max_object()"],"at":-1}',
            b'{"calls":["max_object()"],"at":-0}', b'{"calls":["max_object()"],"at":1.0}', b'{"calls":["max_object()"],"at":true}',
            b'{"calls":["max_object()"],"at":NaN}', b'{"calls":["\xff"]}', b'{"calls":["max_object()"]}x', b"[" * 100_000,
            b'{"calls":null}',
            b'{"calls":["max_object()"],"at":' + b"9" * 5000 + b"}", b'{"calls":' + json.dumps(["max_object()"] * 1001).encode() + b"}",
            "{}".encode("utf-16"), b"\xef\xbb\xbf{}", b'{"calls":["\\ud800"],"at":"x"}',
        ):  # fmt: skip
            for path in ("/api/batch", "/api/ask", "/api/each"):
                status, said = self.post("ada", path, body)
                with self.subTest(body=body[:60], path=path):
                    self.assertEqual((status, said["error"]), (400, "bad request"))
        self.assertEqual(self.told[1:], [])

    def test_long_bodies(self):
        body = json.dumps({"calls": ["max_object()"], "x": "x" * 1_048_576}).encode()
        self.assertEqual(self.post("ada", "/api/batch", body), (413, {"error": "too large"}))
        body = json.dumps({"calls": ["max_object()"], "x": "x" * 1_048_000}).encode()
        self.assertEqual(self.post("ada", "/api/batch", body)[0], 200)

    def test_why(self):
        """If moo says why, so does the front."""
        refused = {"as": "#4", "calls": ["recycle(#99)"]}
        wanted = self.door.sent("POST", "/ask?why", json.dumps(refused).encode()).said
        for path in ("/api/batch", "/api/ask"):
            self.assertEqual(self.post("ada", path, {"calls": refused["calls"]}), (409, wanted))

    def test_the_bytes_are_moos(self):
        body = b'{"calls":["create(#6)","valid(#7)"]}'
        text = self.called.bytes("POST", "/api/batch", body, HTTP_AUTHORIZATION=f"Bearer {self.tokens['ada']}")
        self.assertEqual(text, b'{"answers":["#7","1"],"seq":2}')
        self.assertEqual((self.called.head["Content-Type"], self.called.head["Content-Length"]), ("application/json", "30"))

    def test_each(self):
        calls = ["create(#6)", "create(#6)", "recycle(#3)", "sing()", "max_object()"]
        status, said = self.post("ada", "/api/each", {"calls": calls})
        wanted = [{"answer": "#7"}, {"answer": "#7"}, {"error": "E_PERM"}, {"error": "malformed"}, {"answer": "#6"}]
        self.assertEqual((status, said["seq"], list(said)), (200, 1, ["each", "seq"]))
        self.assertEqual([{key: text for key, text in one.items() if key != "why"} for one in said["each"]], wanted)
        self.assertEqual(self.post("ada", "/api/each", {"calls": []}), (200, {"each": [], "seq": 1}))
        self.assertEqual(self.post("ada", "/api/each", {"calls": calls, "at": 1})[0], 200)
        self.assertEqual(self.post("ada", "/api/each", {"calls": calls, "at": 2}), (409, {"error": "stale", "seq": 1}))
        self.assertEqual(self.asked("ada", "GET", "/api/seq"), (200, {"seq": 1}))

    def test_the_journal_names_the_person(self):
        self.post("ada", "/api/batch", {"calls": ["create(#6)"]})
        lines = (self.room / "front/journal-1").read_bytes().splitlines()
        intent = json.loads(lines[1][65:])
        self.assertEqual((intent["who"], intent["as"], intent["calls"], intent["answers"]), ("ada", 4, ["create(#6)"], ["#7"]))


class Waiting(Api_):
    rate = 5.0

    def test_a_rate_of_a_token(self):
        counts = [self.asked("ada", "GET", "/api/seq")[0] for _ in range(80)]
        self.assertEqual(counts[:50], [200] * 50)
        self.assertIn(429, counts[50:])
        self.assertEqual(self.asked("ada", "GET", "/api/nothing"), (429, {"error": "too many"}))
        self.assertEqual(self.asked("wizard", "GET", "/api/seq")[0], 200)

    def test_a_rate_of_an_address(self):
        statuses = [self.called.said("GET", "/api/seq")[0] for _ in range(140)]
        self.assertEqual((statuses[:100], statuses[-1]), ([401] * 100, 429))
        self.assertEqual(self.asked("ada", "GET", "/api/seq"), (429, {"error": "too many"}))
        self.assertEqual(self.asked("ada", "GET", "/api/seq", REMOTE_ADDR="192.0.2.9")[0], 200)

    def test_moo_does_not_answer(self):
        self.moo.stop()
        self.writer.patience = 0.2
        from moo_web import api

        self.addCleanup(setattr, api, "QUESTION_SECONDS", api.QUESTION_SECONDS)
        api.QUESTION_SECONDS = 0.2
        began = time.monotonic()
        for words in ("POST /api/batch", "POST /api/ask", "POST /api/each", "GET /api/seq", "GET /api/object/3"):
            self.assertEqual(self.asked("ada", *words.split(), {"calls": ["max_object()"]}), (503, {"error": "busy"}))
        self.assertEqual(self.asked("wizard", "GET", "/api/dump"), (503, {"error": "busy"}))
        self.assertLess(time.monotonic() - began, 20)

    def test_a_gap(self):
        Door(self.moo.port).sent("POST", "/batch", b'{"as":"#3","calls":["max_object()"]}')
        for _ in range(2):
            self.assertEqual(self.post("ada", "/api/batch", {"calls": ["max_object()"]}), (503, {"error": "gap"}))
        self.assertEqual(self.asked("ada", "GET", "/api/seq"), (200, {"seq": 2}))


class Routes(unittest.TestCase):
    """The router by itself."""

    def test_what_fails_is_told_and_not_shown(self):
        told = []
        app = App(told.append)
        app.add("GET", "/", lambda request: 1 / 0)
        self.assertEqual(Called(app).said("GET", "/"), (500, {"error": "internal"}))
        self.assertIn("ZeroDivisionError", told[0])

    def test_heads(self):
        app = App(print)
        app.add("GET", r"/o/(\d+)", lambda request, number: Reply(200, number.encode(), "text/plain", (("X-Own", "1"),)))
        called = Called(app)
        self.assertEqual(called.bytes("GET", "/o/12"), b"12")
        self.assertEqual(called.head, {
            "Content-Type": "text/plain", "Content-Length": "2", "X-Own": "1", "Cache-Control": "no-store",
            "X-Content-Type-Options": "nosniff",
        })  # fmt: skip

    def test_forms(self):
        app = App(print)
        app.add("POST", "/f", lambda request: in_json(200, form=request.form(), fields=request.fields()))
        wanted = {"form": {"a": "2", "b": "", "c": "é"}, "fields": {"q": "x y"}}
        self.assertEqual(Called(app).said("POST", "/f", b"a=1&a=2&b=&c=%C3%A9", "q=x+y"), (200, wanted))


if __name__ == "__main__":
    unittest.main()
