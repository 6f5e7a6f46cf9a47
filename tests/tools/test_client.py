"""The client of the service, tools/moo_client.py: its values and errors, and that a batch acts once though connections break.

The service is killed 200 times while four clients write to it. `KILLS` in the environment is another number of kills, `SEED` the seed.
"""

import contextlib
import os
import pathlib
import random
import socket
import tempfile
import threading
import unittest

from tests.support.front import StandIn
from tests.support.operating import KeptService, Pace, SECONDS, checked, make_world, said

import moo_client
from moo_client import ErrorValue, Moo, Obj
from moolib.service import Answer, Service

CLIENTS = 4
KILLS = int(os.environ.get("KILLS", 200))


def first_batches():
    """An object for each client, from #4 on, which is a parent of what the client makes and holds its mark."""
    calls = []
    for number in range(4, 4 + CLIENTS):
        calls += ["create(#1)", f'add_property(#{number}, "mark", "", {{#3, ""}})', f'set(#{number}, "f", 1)']
    return "\n".join(["batch as #3", *calls, "end", ""])


class Values(unittest.TestCase):
    """The texts of values, by the manual's literals."""

    PAIRS = (
        (0, "0"),
        (-12, "-12"),
        (9223372036854775807, "9223372036854775807"),
        (Obj(4), "#4"),
        (Obj(-1), "#-1"),
        ("", '""'),
        ("a\tb ~", '"a\tb ~"'),
        ('say "hi" \\', '"say \\"hi\\" \\\\"'),
        ("#4", '"#4"'),
        (ErrorValue("E_PERM"), "E_PERM"),
        ([], "{}"),
        ([1, [Obj(2), "a, {b}"], ErrorValue("E_NONE"), []], '{1, {#2, "a, {b}"}, E_NONE, {}}'),
    )

    def test_values_are_written_and_read(self):
        for value, text in self.PAIRS:
            with self.subTest(text):
                self.assertEqual(moo_client.written(value), text)
                self.assertEqual(moo_client.read(text), value)
                self.assertIs(type(moo_client.read(text)), type(value))

    def test_other_things_are_no_values(self):
        for value, kind in ((1.5, TypeError), (None, TypeError), ({}, TypeError), ("é", ValueError), ("a\nb", ValueError)):
            with self.subTest(value), self.assertRaises(kind):
                moo_client.written([value])

    def test_texts_that_are_no_values(self):
        for text in ("", "#", "{1", "{1,}", "{,}", "1 2", '"a', "e_perm", "}", "{1 2}"):
            with self.subTest(text), self.assertRaises(ValueError):
                moo_client.read(text)

    def test_calls(self):
        self.assertEqual(moo_client.written_call(("set", Obj(4), "name", "A")), 'set(#4, "name", "A")')
        self.assertEqual(moo_client.written_call(("players",)), "players()")
        self.assertEqual(moo_client.written_call("valid(#4)"), "valid(#4)")


class WhyNotNow(unittest.TestCase):
    """What a front says of a request that it doesn't take now."""

    def test_it_is_told_as_the_front_says_it(self):
        for said, wanted in (
            ({"error": "too many", "why": "your share is used up"}, "your share is used up"),
            ({"error": "too many"}, "the front has had too many requests"),
        ):
            with self.assertRaises(moo_client.NoService) as raised:
                Service(1).ended_by(Answer(429, b"", said, 5.0))
            self.assertEqual((str(raised.exception), raised.exception.after), (wanted, 5.0))


class WithService(unittest.TestCase):
    """A world in an empty folder, and its service."""

    def setUp(self):
        room = tempfile.TemporaryDirectory()
        self.addCleanup(room.cleanup)
        self.file = pathlib.Path(room.name) / "world.db"
        make_world(self.file, first_batches())
        self.service = KeptService(self.file)
        self.addCleanup(self.service.stop)
        self.port = self.service.port


class Answers(WithService):
    """What comes back of a service that runs."""

    def test_values_come_back(self):
        world = Moo(self.port)
        values = [[1, [Obj(2), 'a "b" \\ c'], ErrorValue("E_PERM")], "", -5, Obj(-1)]
        for place, value in enumerate(values):
            with self.subTest(value):
                name = f"p{place}"
                calls = [("add_property", Obj(4), name, value, [Obj(3), "r"]), ("get", Obj(4), name)]
                self.assertEqual(world.run(calls, as_=3), [0, value])

    def test_errors_have_their_names(self):
        world = Moo(self.port)
        cases = (
            (["create(#1)", "recycle(#99)"], 3, moo_client.E_INVARG, 2, "recycle(#99): E_INVARG, #99 isn't an object"),
            (['get(#1, "nothing")'], 3, moo_client.E_PROPNF, 1, 'get(#1, "nothing"): E_PROPNF, #1 has no property "nothing"'),
            (["recycle(#2)"], 4, moo_client.E_PERM, 1, "recycle(#2): E_PERM, #4 neither owns #2 nor is a wizard"),
            (["create(#1)", "sing()"], 3, moo_client.Malformed, 2, "'sing' names no call"),
        )
        for calls, who, kind, call, why in cases:
            with self.subTest(calls), self.assertRaises(kind) as raised:
                world.run(calls, as_=who)
            self.assertEqual((raised.exception.call, raised.exception.why), (call, why))
            self.assertEqual(str(raised.exception), f"call {call}: {kind.__name__}: {why}")
        self.assertEqual(world.seq(), 1)

    def test_ask_changes_nothing(self):
        world = Moo(self.port)
        self.assertEqual(world.ask([("create", Obj(1))], as_=3), [Obj(4 + CLIENTS)])
        self.assertEqual(world.seq(), 1)

    def test_each_alone(self):
        world = Moo(self.port)
        new = Obj(4 + CLIENTS)
        calls = [("create", Obj(1)), "sing()", ("valid", new), ("recycle", Obj(99)), 'get(#3, "name")']
        first, second, third, fourth, fifth = world.each(calls, as_=3)
        self.assertEqual((first, third, fifth), (new, 0, "Wizard"))
        self.assertEqual((type(second), second.call, second.why), (moo_client.Malformed, 2, "'sing' names no call"))
        self.assertEqual((type(fourth), fourth.call, fourth.why), (moo_client.E_INVARG, 4, "recycle(#99): E_INVARG, #99 isn't an object"))
        self.assertEqual((world.each([], as_=3), world.seq()), ([], 1))
        with self.assertRaises(moo_client.Stale) as raised:
            world.each(["sing()"], as_=3, at=7)
        self.assertEqual(raised.exception.seq, 1)

    def test_a_dump(self):
        world = Moo(self.port)
        text = world.dump()
        self.assertEqual(text.split("\n")[:2], ["seq 1", f"top #{3 + CLIENTS}"])
        self.assertTrue(text.endswith("\nend\n"))
        self.assertEqual(sum(line.startswith("object ") for line in text.splitlines()), 4 + CLIENTS)

    def test_an_object(self):
        world = Moo(self.port)
        world.run([("set", Obj(4), "name", "#3")], as_=3)
        shown = world.object(Obj(4))
        self.assertEqual((shown["name"], shown["parent"], shown["children"], shown["f"]), ("#3", Obj(1), [], 1))
        with self.assertRaises(moo_client.E_INVARG):
            world.object(99)

    def test_all_objects(self):
        world = Moo(self.port)
        for _ in range(2):
            world.run([("create", Obj(4))] * 999, as_=3)
        listed = list(world.objects())
        self.assertEqual([one["number"] for one in listed], [Obj(number) for number in range(4 + CLIENTS + 1998)])
        self.assertEqual((listed[4]["parent"], listed[4]["f"], listed[3]["location"], listed[3]["name"]), (Obj(1), 1, Obj(2), "Wizard"))
        self.assertEqual([one["number"] for one in world.objects(Obj(2000))], [Obj(number) for number in range(2000, 4 + CLIENTS + 1998)])

    def test_a_body_of_another_shape(self):
        with self.assertRaises(moo_client.BadRequest) as raised:
            Moo(self.port).ask(["max_object()"] * 1001, as_=3)
        self.assertEqual(raised.exception.why, "calls has over 1,000 calls")

    def test_at_another_number(self):
        world = Moo(self.port)
        self.assertEqual(world.run([("create", Obj(1))], as_=3, at=1), [Obj(4 + CLIENTS)])
        with self.assertRaises(moo_client.Stale) as raised:
            world.run([("create", Obj(1))], as_=3, at=1)
        self.assertEqual(raised.exception.seq, 2)

    def test_too_long_a_body(self):
        with self.assertRaises(ValueError):
            Moo(self.port).run([("set", Obj(4), "name", "x" * 65535)] * 17, as_=3)
        self.assertEqual(Moo(self.port).seq(), 1)

    def test_nobody_listens(self):
        self.service.stop()
        with self.assertRaises(moo_client.Unreachable):
            Moo(self.port, patience=0.2).run([("create", Obj(1))], as_=3)


class Breaker:
    """Stands between a client and the service, and breaks connections off: `plan` says how, one word a connection.

    `request` takes nothing; `answer` lets the request through and loses the answer; `other` does that too, after a batch of another
    client; `before` runs such a batch and takes nothing; `part` gives one half of the answer. Without a word all goes through.
    """

    def __init__(self, port, plan):
        self.port, self.plan = port, list(plan)
        self.listener = socket.create_server(("127.0.0.1", 0))
        self.own_port = self.listener.getsockname()[1]
        self.thread = threading.Thread(target=self.serve, daemon=True)
        self.thread.start()

    def serve(self):
        while True:
            try:
                peer, _ = self.listener.accept()
            except OSError:
                return
            # A client whose patience is over may be gone.
            with peer, contextlib.suppress(ConnectionError):
                self.treat(peer)

    def treat(self, peer):
        """One connection. The plan is for batches; what only asks goes through."""
        request = whole_request(peer)
        word = self.plan.pop(0) if self.plan and request.startswith(b"POST /batch") else ""
        if word == "before":
            Moo(self.port).run(["max_object()"], as_=3)
        if word in ("request", "before"):
            return
        with socket.create_connection(("127.0.0.1", self.port), SECONDS) as service:
            service.sendall(request)
            answer = b"".join(iter(lambda: service.recv(65536), b""))
        if word == "other":
            Moo(self.port).run(["max_object()"], as_=3)
        if word not in ("answer", "other"):
            peer.sendall(answer[: len(answer) // 2] if word == "part" else answer)

    def stop(self):
        self.listener.shutdown(socket.SHUT_RDWR)
        self.listener.close()
        self.thread.join(SECONDS)


def whole_request(peer):
    """The bytes of one request."""
    said = b""
    while b"\r\n\r\n" not in said:
        said += part_of(peer)
    head, _, body = said.partition(b"\r\n\r\n")
    length = 0
    for line in head.lower().split(b"\r\n"):
        if line.startswith(b"content-length:"):
            length = int(line.split(b":")[1])
    while len(body) < length:
        body += part_of(peer)
    return head + b"\r\n\r\n" + body


def part_of(peer):
    """What comes next of a peer. `ConnectionError`: it has gone."""
    part = peer.recv(65536)
    if not part:
        raise ConnectionResetError
    return part


class BrokenConnections(WithService):
    """Connections that break at a chosen place."""

    def through(self, *plan, **options):
        """A client whose connections break so. If it has a mark that is there already."""
        breaker = Breaker(self.port, ())
        self.addCleanup(breaker.stop)
        world = Moo(breaker.own_port, **options)
        if world.marked:
            world.run([], as_=3)
        breaker.plan = list(plan)
        return world

    def made(self):
        """What was made under #4, as the service itself says."""
        return Moo(self.port).object(4)["children"]

    def test_a_batch_acts_once(self):
        plans = [
            ("request",), ("answer",), ("part",), ("request", "answer", "answer"), ("other",), ("before",), ("before", "other", "answer")
        ]
        for plan in plans:
            with self.subTest(plan):
                world = self.through(*plan, mark=(Obj(4), "mark"))
                before = self.made()
                is_lost = set(plan) & {"answer", "part", "other"}
                with self.assertRaises(moo_client.AnswersLost) if is_lost else contextlib.nullcontext():
                    (answer,) = world.run([("create", Obj(4))], as_=3)
                    self.assertEqual(self.made(), before + [answer])
                self.assertEqual(len(self.made()), len(before) + 1)

    def test_answers_that_can_be_no_others_are_found(self):
        calls = [("set", Obj(4), "name", "Inn"), ("move", Obj(4), Obj(-1)), 'add_property(#4, "x", 1, {#3, ""})']
        world = self.through("answer", "part", "other", mark=Obj(4))
        self.assertEqual(world.run(calls, as_=3), [0, 0, 0])
        self.assertEqual(world.ask([("get", Obj(4), "name"), ("get", Obj(4), "x")], as_=3), ["Inn", 1])

    def test_answers_of_a_number_that_was_given(self):
        world = self.through("answer", mark=Obj(4))
        before = self.made()
        self.assertEqual(world.run([("create", Obj(4)), "max_object()"], as_=3, at=world.seq())[0], self.made()[-1])
        self.assertEqual(len(self.made()), len(before) + 1)

    def test_a_client_that_is_alone(self):
        for plan in (("request",), ("answer",), ("part", "answer", "request")):
            with self.subTest(plan):
                before = self.made()
                (answer,) = self.through(*plan, alone=True).run([("create", Obj(4))], as_=3)
                self.assertEqual(self.made(), before + [answer])

    def test_nothing_tells(self):
        for plan, options in ((("answer",), {}), (("other",), {"alone": True}), (("before",), {})):
            with self.subTest(plan), self.assertRaises(moo_client.Unsure) as raised:
                at = Moo(self.port).seq()
                self.through(*plan, **options).run([("create", Obj(4))], as_=3)
            self.assertEqual(raised.exception.at, at)

    def test_a_mark_that_is_gone(self):
        world = self.through("answer", mark=(Obj(4), "mark"))
        asked = world.marked.is_there

        def is_there(*given):
            Moo(self.port).run([("recycle", Obj(4))], as_=3)
            return asked(*given)

        world.marked.is_there = is_there
        with self.assertRaises(moo_client.Unsure):
            world.run([("create", Obj(1))], as_=3)
        with self.assertRaises(moo_client.NoMark):
            world.run([("create", Obj(1))], as_=3)

    def test_at_acts_once(self):
        """Also with the batch that makes the mark."""
        breaker = Breaker(self.port, ["answer"])
        self.addCleanup(breaker.stop)
        (answer,) = Moo(breaker.own_port, mark=(Obj(4), "mark")).run([("create", Obj(4))], as_=3, at=1)
        self.assertEqual(self.made(), [answer])

    def test_patience_ends(self):
        # Within its patience the batch has to be sent.
        world = self.through(*["answer"] * 1000, patience=5)
        with self.assertRaises(moo_client.Unsure):
            world.run([("create", Obj(4))], as_=3)


class Writer(threading.Thread):
    """A client that makes one object after another under its own, until it is told to stop. `made` are the answers."""

    def __init__(self, port, own, is_over):
        super().__init__(daemon=True)
        self.world = Moo(port, mark=(own, "mark"), patience=SECONDS)
        self.own, self.is_over = own, is_over
        self.made, self.wrong, self.settled, self.batches = [], None, 0, 0

    def run(self):
        try:
            while not self.is_over.is_set():
                calls = [("create", self.own), ("set", self.own, "name", f"made {self.batches + 1}")]
                try:
                    self.made.append(self.world.run(calls, as_=3)[0])
                except moo_client.AnswersLost:
                    # It has acted: what it made is the last one there.
                    self.settled += 1
                    self.made.append(self.world.ask([("children", self.own)], as_=3)[0][-1])
                self.batches += 1
        except Exception as error:  # a thread's own failure is the test's
            self.wrong = repr(error)


class Strangers(WithService):
    """Another program has the port, or had it for a moment."""

    def test_what_it_answers_is_not_believed(self):
        there = StandIn(self.port)
        self.addCleanup(there.close)
        world = Moo(there.port, patience=0.2)
        answers = ((200, {}), (200, []), (200, {"seq": "1", "answers": ["#4"]}), (409, {}), (409, {"error": "stale"}), (404, None))
        for status, body in answers:
            there.answers_all = (status, body)
            for name, call in (
                ("seq", world.seq),
                ("run", lambda: world.run(["max_object()"], as_=3)),
                ("each", lambda: world.each(["max_object()"], as_=3)),
                ("object", lambda: world.object(3)),
                ("objects", lambda: list(world.objects())),
            ):
                with self.subTest(name, status=status, body=body), self.assertRaises(moo_client.Unreachable):
                    call()

    def test_a_batch_acts_once_all_the_same(self):
        there = StandIn(self.port)
        self.addCleanup(there.close)
        world = Moo(there.port, alone=True, patience=SECONDS)
        for number, moment in enumerate(("before", "after")):
            answers = iter([(200, {}), (200, {"answers": 3, "seq": 1})])
            there.fault = lambda now, moment=moment, answers=answers: next(answers, None) if now == moment else None
            with self.subTest(moment):
                self.assertEqual(world.run([("create", Obj(1))], as_=3), [Obj(4 + CLIENTS + number)])
                self.assertEqual(world.seq(), 2 + number)


class Kills(WithService):
    """The service is killed at random moments while clients write."""

    def test_nothing_twice_and_nothing_lost(self):
        seed = int(os.environ.get("SEED", random.randrange(1_000_000)))
        chance = random.Random(seed)
        is_over = threading.Event()
        writers = [Writer(self.port, Obj(number), is_over) for number in range(4, 4 + CLIENTS)]
        for writer in writers:
            writer.start()
        kills, pace = 0, Pace(chance, 0.05)
        # On a busy machine few batches come between two kills: then there are more kills, and more time between them.
        while kills < KILLS or sum(len(writer.made) for writer in writers) <= KILLS:
            self.assertTrue(self.service.is_listening.wait(SECONDS))
            pace.rest(sum(len(writer.made) for writer in writers))
            self.service.kill()
            kills += 1
            self.assertEqual([writer.wrong for writer in writers if writer.wrong], [], f"seed {seed}")
            self.assertLess(kills, 50 * KILLS, f"seed {seed}: too few batches to show anything")
        is_over.set()
        for writer in writers:
            writer.join(SECONDS)
            self.assertFalse(writer.is_alive(), f"seed {seed}")
            self.assertIsNone(writer.wrong, f"seed {seed}")
        self.compare(writers, seed)

    def compare(self, writers, seed):
        """The world holds just what the clients were told."""
        self.service.stop()
        self.assertGreaterEqual(self.service.starts, KILLS, f"seed {seed}")
        batches = sum(writer.batches for writer in writers)
        self.assertEqual(checked(self.file), 1 + batches, f"seed {seed}")
        for writer in writers:
            calls = f'children({writer.own})\nget({writer.own}, "name")\n'
            _, reply = said("ask", self.file, "-", text=f"batch as #3\n{calls}end\n")
            children, name = map(moo_client.read, reply.splitlines()[1:3])
            self.assertEqual((children, len(children)), (writer.made, writer.batches), f"seed {seed}")
            self.assertEqual(name, f"made {len(writer.made)}", f"seed {seed}")
        settled = sum(writer.settled for writer in writers)
        print(f"{KILLS} kills, {batches} batches, {settled} found done whose answers were lost, seed {seed}")


if __name__ == "__main__":
    unittest.main()
