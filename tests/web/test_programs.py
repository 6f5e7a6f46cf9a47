"""Programs at a front, by the client `Moo(url, token=..)`: the same surface as at a service, and the feed; with moo-web as a process."""

import http.client
import threading
import time
import unittest

from tests.support.operating import KeptService, SECONDS, make_world
from tests.support.web import Front, RoomTest, add_person

import moo_client
from moo_client import Moo, Obj

# #4 and #5 are players, #6 is ada's, #7 ben's. #1 is fertile.
FIRST = "\n".join([
    "batch as #3", "create(#1)", "create(#1)", "set_player_flag(#4, 1)", "set_player_flag(#5, 1)", "create(#1, #4)", "create(#1, #5)", "end", "",
])  # fmt: skip
PEOPLE = (("wizard", 3), ("ada", 4), ("ben", 5))


class AtFront(RoomTest):
    """A world, its service, a front, and tokens of its people."""

    def setUp(self):
        super().setUp()
        make_world(self.room / "world.db", FIRST)
        self.moo = KeptService(self.room / "world.db")
        self.addCleanup(self.moo.stop)
        self.tokens = {name: add_person(self.room / "front", name, number) for name, number in PEOPLE}
        self.front = Front(self.room / "front", self.moo.port, "--rate", 1_000_000)
        self.url = f"http://127.0.0.1:{self.front.port}/"

    def world(self, name, **options):
        """The client of a person."""
        return Moo(self.url, token=self.tokens[name], patience=SECONDS, **options)


class Surface(AtFront):
    """What a client does at a service it does at a front."""

    def test_batches_and_questions(self):
        world = self.world("ada")
        self.assertEqual(world.run([("create", Obj(1)), 'set(#6, "name", "Lamp")']), [Obj(8), 0])
        self.assertEqual(world.ask([("get", Obj(6), "name")]), ["Lamp"])
        self.assertEqual(world.run(["max_object()"], as_=4), [Obj(8)])
        self.assertEqual(world.seq(), 3)
        first, second = world.each(["recycle(#3)", "valid(#6)"])
        self.assertEqual((type(first), second), (moo_client.E_PERM, 1))
        self.assertEqual(world.object(6)["owner"], Obj(4))
        self.assertEqual([one["number"].number for one in world.objects(6)], [6, 7, 8])
        self.assertTrue(self.world("wizard").dump().startswith("seq 3\n"))

    def test_names_by_one_request(self):
        world = self.world("ada")
        with self.world("ada", mark=Obj(6)).batch() as batch:
            room = batch.add("create", Obj(1))
            batch.add("set", room, "name", "Inn")
        self.assertEqual(world.object(room.value)["name"], "Inn")
        marked = self.world("ada", mark=Obj(6))
        marked.run([])
        sent, inner = [], marked.service.sent
        marked.service.sent = lambda *given: (sent.append(given[1]), inner(*given))[1]
        self.assertEqual(marked.run(["$a = create(#1)", "valid($a)"])[1], 1)
        self.assertEqual(sent, ["/batch?why"])

    def test_who_may_not(self):
        world = self.world("ada")
        for call in (lambda: world.run(["max_object()"], as_=3), world.dump):
            with self.assertRaises(moo_client.Forbidden):
                call()
        with self.assertRaises(moo_client.Unauthorized):
            Moo(self.url, token="no token").seq()
        with self.assertRaises(ValueError):
            Moo("http://moo.example.org/", token="x")
        with self.assertRaises(moo_client.BadRequest):
            Moo(self.moo.port).changes()

    def test_lost_answers_are_found_in_the_journal(self):
        """For a wizard, who may read the batches of all."""
        for name, is_found in (("wizard", True), ("ada", False)):
            world = self.world(name, mark=Obj(6))
            world.run([], as_=None)
            inner, lost = world.service.sent, []

            def sent(method, route, *given):
                answer = inner(method, route, *given)
                if route.startswith("/batch") and not lost:
                    lost.append(answer)
                    raise moo_client.LostAnswer("lost")
                return answer

            world.service.sent = sent
            with self.subTest(name):
                if is_found:
                    (made,) = world.run([("create", Obj(1))])
                    self.assertEqual(made, Obj(Moo(self.moo.port).ask(["max_object()"], as_=3)[0].number))
                else:
                    with self.assertRaises(moo_client.AnswersLost):
                        world.run([("create", Obj(1))])


class Page(AtFront):
    """The page `/api`."""

    def test_it_is_for_everybody(self):
        connection = http.client.HTTPConnection("127.0.0.1", self.front.port, timeout=SECONDS)
        self.addCleanup(connection.close)
        connection.request("GET", "/api")
        came = connection.getresponse()
        text = came.read().decode()
        if came.status == 503:
            self.skipTest("python3-jinja2 is missing: apt-get install python3-jinja2")
        self.assertEqual(came.status, 200)
        for words in ("POST /api/batch", "GET /api/since/S", "/api/openapi.json", "<code>gone</code>", "<code>E_QUOTA</code>"):
            self.assertIn(words, text)
        self.assertNotIn("<script", text)


class Followers(AtFront):
    """Those who follow the feed."""

    def test_each_change_comes(self):
        world, came = self.world("ada"), []
        follower = threading.Thread(target=lambda: came.extend(next_of(self.world("ben").changes(1), 9)), daemon=True)
        follower.start()
        for place in range(4):
            world.run([f'set(#6, "name", "{place}")'])
            world.run(["create(#1)"])
        world.run(["max_object()"])
        follower.join(SECONDS)
        self.assertEqual(came[-1].seq, 10)
        self.assertEqual({one for change in came for one in change.objects}, {Obj(number) for number in (1, 6, 8, 9, 10, 11)})
        self.assertEqual(sorted(change.seq for change in came), [change.seq for change in came])

    def test_a_front_that_is_away(self):
        changes = self.world("ada").changes()
        self.world("ada").run(["valid(#6)"])
        self.assertEqual(next(changes), (2, [Obj(6)]))
        self.front.kill()
        threading.Timer(0.5, self.started_again).start()
        self.assertEqual(next(changes), (3, [Obj(7)]))

    def started_again(self):
        """The front on its port, and a batch."""
        self.front = Front(self.room / "front", self.moo.port, port=self.front.port)
        self.world("ben").run(["valid(#7)"])

    def test_a_number_that_is_gone(self):
        with self.assertRaises(moo_client.Gone) as raised:
            next(self.world("ada").changes(0))
        self.assertEqual(raised.exception.seq, 1)

    def test_those_who_wait_hold_nobody_up(self):
        """Forty wait, and the front has thirty-two threads for others."""
        threads, came = [], []
        for name in ("wizard", "ada", "ben"):
            for _ in range(14):
                world = self.world(name)
                threads.append(threading.Thread(target=lambda world=world: came.append(next(world.changes(1))), daemon=True))
        for thread in threads:
            thread.start()
        time.sleep(1)
        began = time.monotonic()
        for _ in range(20):
            self.assertEqual(self.world("ada").seq(), 1)
        self.assertLess(time.monotonic() - began, 10)
        self.assertEqual(came, [])
        self.world("ada").run(["valid(#6)"])
        for thread in threads:
            thread.join(SECONDS)
        self.assertEqual(came, [(2, [Obj(6)])] * 42)


def next_of(changes, seq):
    """The changes up to this many numbers."""
    found = []
    for change in changes:
        found.append(change)
        if change.seq > seq:
            return found
    return found


if __name__ == "__main__":
    unittest.main()
