"""Batches by a mark (moolib.once): copies that come late, clients that share a mark, and many clients side by side."""

import socket
import threading
import unittest

from tests.support.front import StandIn
from tests.support.operating import SECONDS
from tests.tools.test_client import WithService, whole_request

import moo_client
from moo_client import Moo, Obj

CLIENTS = 20
# Two calls, of which the second is refused until somebody makes the property.
CALLS = ['set(#4, "name", "once")', 'set(#5, "door", 1)']


class Delayer:
    """Stands between a client and the service. While `is_holding`, a batch is kept, and its connection closed, as if its answer was lost."""

    def __init__(self, port):
        self.port, self.is_holding, self.held = port, False, []
        self.listener = socket.create_server(("127.0.0.1", 0))
        self.own_port = self.listener.getsockname()[1]
        threading.Thread(target=self.serve, daemon=True).start()

    def serve(self):
        while True:
            try:
                peer, _ = self.listener.accept()
            except OSError:
                return
            with peer:
                request = whole_request(peer)
                if self.is_holding and request.startswith(b"POST /batch"):
                    self.is_holding = False
                    self.held.append(request)
                else:
                    peer.sendall(self.passed_on(request))

    def passed_on(self, request):
        """The service's answer to a request."""
        with socket.create_connection(("127.0.0.1", self.port), SECONDS) as service:
            service.sendall(request)
            return b"".join(iter(lambda: service.recv(65536), b""))

    def release(self):
        """Lets the batches through that were kept, and gives the answers."""
        held, self.held = self.held, []
        return [self.passed_on(request) for request in held]


class Late(WithService):
    """A copy of a batch comes after another copy was answered."""

    def setUp(self):
        super().setUp()
        self.delayer = Delayer(self.port)
        self.addCleanup(self.delayer.listener.close)
        self.world = Moo(self.delayer.own_port, mark=Obj(4))
        self.world.run([], as_=3)
        self.delayer.is_holding = True

    def test_after_one_that_acted(self):
        (made,) = self.world.run([("create", Obj(4))], as_=3)
        for _ in range(2):
            self.assertEqual(self.world.run([("create", Obj(5))], as_=3)[0].number, Moo(self.port).ask(["max_object()"], as_=3)[0].number)
        (answer,) = self.delayer.release()
        self.assertIn(b'"call":1,"error":"E_PROPNF"', answer)
        self.assertEqual(Moo(self.port).object(4)["children"], [made])

    def test_after_one_that_was_refused(self):
        """The refusal is told when no copy can act any more."""
        with self.assertRaises(moo_client.E_PROPNF) as raised:
            self.world.run(CALLS, as_=3)
        self.assertEqual(raised.exception.call, 2)
        Moo(self.port).run([("add_property", Obj(5), "door", 0, [Obj(3), ""])], as_=3)
        (answer,) = self.delayer.release()
        self.assertIn(b'"call":1,"error":"E_PROPNF"', answer)
        self.assertEqual(Moo(self.port).object(4)["name"], "")
        self.assertEqual(self.world.run(CALLS, as_=3), [0, 0])

    def test_after_another_client_has_the_mark(self):
        """A client that was ended while its batch was on its way, and the next one with its mark."""
        self.world.patience = 0.0
        with self.assertRaises(moo_client.Unsure):
            self.world.run([("create", Obj(4))], as_=3)
        self.assertEqual(Moo(self.port, mark=Obj(4)).run(['set(#4, "name", "next")'], as_=3), [0])
        (answer,) = self.delayer.release()
        self.assertIn(b'"call":1,"error":"E_PROPNF"', answer)
        self.assertEqual(Moo(self.port).object(4)["children"], [])


class Marks(WithService):
    """What a mark is, and who may use it."""

    def names(self):
        """The properties of #4."""
        return Moo(self.port).ask([("properties", Obj(4))], as_=3)[0]

    def test_one_property_whose_name_changes(self):
        first = Moo(self.port, mark=(Obj(4), "door"))
        first.run([], as_=3)
        (before,) = [name for name in self.names() if name.startswith("door-")]
        first.run([], as_=3)
        (after,) = [name for name in self.names() if name.startswith("door-")]
        self.assertNotEqual(before, after)
        Moo(self.port, mark=(Obj(4), "door")).run([], as_=3)
        self.assertEqual(len(self.names()), len(["mark", "door-"]))

    def test_a_property_that_is_there_becomes_the_mark(self):
        """So whoever may write the property needs no right on the object."""
        Moo(self.port).run(["set_player_flag(#5, 1)", 'set_property_info(#4, "mark", {#3, "rw"})', "set(#4, \"r\", 1)"], as_=3)
        self.assertEqual(Moo(self.port, mark=(Obj(4), "mark")).run(["max_object()"], as_=5), [Obj(7)])
        (name,) = self.names()
        self.assertRegex(name, "mark-[0-9a-f]{32}")
        self.assertEqual(Moo(self.port).seq(), 3)

    def test_every_programmer_may_begin_with_it(self):
        owner = Moo(self.port)
        owner.run(["set_player_flag(#5, 1)", 'add_property(#6, "of", "", {#5, ""})'], as_=3)
        world = Moo(self.port, mark=Obj(4))
        world.run([], as_=3)
        self.assertEqual(world.run(['set(#6, "of", "five")'], as_=5), [0])
        with self.assertRaises(moo_client.E_PERM) as raised:
            world.run(["max_object()", "recycle(#2)"], as_=5)
        self.assertEqual(raised.exception.call, 2)

    def test_where_none_can_be(self):
        for place, who in ((Obj(99), 3), (Obj(4), 5)):
            with self.subTest(place), self.assertRaises(moo_client.NoMark):
                Moo(self.port, mark=place).run([], as_=who)
        self.assertEqual(Moo(self.port).seq(), 1)

    def test_two_clients_with_one_mark(self):
        """It isn't meant, but nothing acts twice."""
        worlds = [Moo(self.port, mark=Obj(4)) for _ in range(2)]
        for _ in range(3):
            for world in worlds:
                world.run([("create", Obj(4))], as_=3)
        self.assertEqual(len(Moo(self.port).object(4)["children"]), 6)


class Many(WithService):
    """Many clients side by side."""

    def test_a_batch_is_a_request(self):
        there = StandIn(self.port)
        self.addCleanup(there.close)
        homes = Moo(self.port).run(["create(#1)"] * CLIENTS, as_=3)
        worlds = [Moo(there.port, mark=home, patience=SECONDS) for home in homes]
        self.each(worlds, lambda world: world.run([], as_=3))
        there.seen.clear()
        self.each(worlds, lambda world: [world.run([("create", world.marked.place)], as_=3) for _ in range(5)])
        self.assertEqual(there.seen, ["/batch?why"] * 5 * CLIENTS)
        for home in homes:
            self.assertEqual(len(Moo(self.port).object(home)["children"]), 5)

    def each(self, worlds, work):
        """Does this with each client at once."""
        threads = [threading.Thread(target=work, args=(world,)) for world in worlds]
        for thread in threads:
            thread.start()
        for thread in threads:
            thread.join(SECONDS)


class Rests(WithService):
    """Pauses between two tries."""

    def test_as_long_as_the_service_asks_for(self):
        answers = [b"HTTP/1.1 429 Too Many Requests\r\nretry-after: 3\r\ncontent-length: 20\r\n\r\n" + b'{"error":"too many"}'] * 2
        listener = socket.create_server(("127.0.0.1", 0))
        self.addCleanup(listener.close)

        def serve():
            while answers:
                peer, _ = listener.accept()
                with peer:
                    whole_request(peer)
                    peer.sendall(answers.pop())

        threading.Thread(target=serve, daemon=True).start()
        world, rests = Moo(listener.getsockname()[1], patience=SECONDS), []

        def rest(seconds):
            rests.append(seconds)
            world.service.port = self.port

        world.service.rest = rest
        self.assertEqual(world.seq(), 1)
        self.assertTrue(3 <= rests[0] < 4 and len(rests) == 1, rests)


class Handles(WithService):
    """Answers with names, in one batch."""

    def test_a_handle_stands_for_an_answer(self):
        for options in ({}, {"mark": Obj(4)}, {"alone": True}):
            with self.subTest(options):
                world = Moo(self.port, **options)
                with world.batch(as_=3) as batch:
                    room = batch.add("create", Obj(4))
                    batch.add("set", room, "name", "Inn of $a1")
                    door = batch.add(f"create({room})")
                    batch.add("move", door, room)
                    inside = batch.add("get", room, "contents")
                self.assertEqual((inside.value, door.value.number), ([door.value], room.value.number + 1))
                self.assertEqual(world.object(room.value)["name"], "Inn of $a1")

    def test_texts_and_asking(self):
        world = Moo(self.port)
        calls = ["$room = create(#1)", 'set($room, "name", "$room")', ("$same = get", moo_client.Name("room"), "name"), "valid($room)"]
        made = Obj(world.ask(["max_object()"], as_=3)[0].number + 1)
        self.assertEqual(world.ask(calls, as_=3), [made, 0, "$room", 1])
        self.assertEqual(world.run(calls, as_=3), [made, 0, "$room", 1])
        self.assertEqual(world.seq(), 2)

    def test_names_that_stand_for_nothing(self):
        world = Moo(self.port)
        for calls in (["valid($room)"], ["valid($room)", "$room = create(#1)"], ["$room = create($room)"], ["$_x = create(#1)"]):
            with self.subTest(calls), self.assertRaises(moo_client.NoName):
                world.run(calls, as_=3)
        with self.assertRaises(ValueError):
            world.batch(as_=3).add("create", Obj(1)).value
        self.assertEqual(world.seq(), 1)

    def test_a_refusal_names_the_call(self):
        with self.assertRaises(moo_client.E_INVARG) as raised:
            Moo(self.port, mark=Obj(4)).run(["$room = create(#1)", "move($room, #99)"], as_=3)
        self.assertEqual(raised.exception.call, 2)

    def test_names_that_depend_on_each_other_too_deeply(self):
        calls = ["$a0 = max_object()"] + [f"$a{place + 1} = get($a{place}, \"owner\")" for place in range(40)]
        with self.assertRaises(moo_client.MooError) as raised:
            Moo(self.port).ask(calls, as_=3)
        self.assertIn("over 32 deep", str(raised.exception))


if __name__ == "__main__":
    unittest.main()
