"""What a person and an address may use: turns at moo, its time, and what is written; peers that are gone, and people who are disabled."""

import contextlib
import io
import json
import signal
import socket
import threading
import time
import unittest
from concurrent.futures import ThreadPoolExecutor
from unittest.mock import patch

from tests.support.front import StandIn
from tests.support.operating import SECONDS, KeptService, make_world
from tests.support.web import Front, RoomTest, add_person, ask, program, use_web

use_web()

from moolib.errors import LostAnswer, NoService, TooLong, Unreachable  # noqa: E402
from moolib.service import Service  # noqa: E402

from moo_web.people.person import Person  # noqa: E402
from moo_web.traffic.shares import BUCKET_MINUTES, OF_ADDRESS, OF_WIZARD, TIME, WRITING, Share, Shares, Spent, share_of  # noqa: E402
from moo_web.traffic.turns import NobodyWaits, Queue, Turnstile  # noqa: E402
from moo_web.traffic.visitors import NOBODY, Visitor, present, visiting  # noqa: E402
from moo_web.traffic.writing import MOST_ROWS, rows_written  # noqa: E402
from moo_web.world.door import Door  # noqa: E402
from moo_web.world.things import World  # noqa: E402

ADA, BEN = Visitor("192.0.2.1", "ada"), Visitor("192.0.2.1", "ben")
CLEO, STRANGER = Visitor("192.0.2.2", "cleo"), Visitor("192.0.2.3")
# #4 is ada's player and #5 is ben's; #6 is ada's class with 200 children.
FIRST = """batch as #3
create(#1, #-1)
set_player_flag(#4, 1)
create(#1, #-1)
set_player_flag(#5, 1)
create(#1, #4)
end
batch as #4
""" + "create(#6)\n" * 200 + "end\n"  # fmt: skip


class Lines(unittest.TestCase):
    def test_an_address_after_another_and_a_person_after_another(self):
        line = Queue()
        for visitor, thing in ((ADA, 1), (ADA, 2), (ADA, 3), (BEN, 4), (BEN, 5), (CLEO, 6), (STRANGER, 7), (CLEO, 8)):
            line.put(visitor, thing)
        self.assertEqual([line.take() for _ in range(9)], [1, 6, 7, 4, 8, 2, 5, 3, None])
        self.assertEqual(line.waiting, {})

    def test_who_may_not_is_passed_over(self):
        line = Queue()
        for visitor, thing in ((ADA, 1), (BEN, 2), (CLEO, 3)):
            line.put(visitor, thing)
        self.assertEqual(line.take(lambda address, person: person == "ben"), 2)
        self.assertIsNone(line.take(lambda address, person: address == "192.0.2.9"))
        line.remove(ADA, 1)
        self.assertEqual([line.take(), line.take()], [3, None])


class Turnstiles(unittest.TestCase):
    def setUp(self):
        self.spent = []
        self.turnstile = Turnstile(lambda visitor, seconds: self.spent.append((visitor.person, seconds)))
        self.order = []

    def work(self, visitor, seconds=0.0, error=None, end=SECONDS):
        with contextlib.suppress(*([type(error)] if error else [])):
            with visiting(visitor), self.turnstile.turn(time.monotonic() + end):
                self.order.append(present().person)
                time.sleep(seconds)
                if error:
                    raise error

    def state(self):
        """Whether somebody has the turn, and how many wait for it."""
        with self.turnstile.lock:
            return self.turnstile.is_taken, sum(len(things) for people in self.turnstile.line.waiting.values() for things in people.values())

    def start(self, *given):
        """A thread that has the turn, or waits for it: so they come in their order, however slow the machine is."""
        before, end = self.state(), time.monotonic() + SECONDS
        thread = threading.Thread(target=self.work, args=given)
        thread.start()
        self.addCleanup(thread.join, SECONDS)
        while self.state() == before and time.monotonic() < end:
            time.sleep(0.002)
        return thread

    def test_one_at_a_time_and_in_turn(self):
        with visiting(ADA), self.turnstile.turn(time.monotonic() + SECONDS):
            self.order.append("ada")
            threads = [self.start(one, 0.01) for one in (ADA, ADA, BEN, CLEO, NOBODY)]
            time.sleep(0.5)
        for thread in threads:
            thread.join(SECONDS)
        self.assertEqual(self.order, ["ada", "", "ada", "cleo", "ben", "ada"])
        self.assertEqual([person for person, _ in self.spent], self.order)
        self.assertGreater(self.spent[0][1], 0.45)
        self.assertLess(max(seconds for _, seconds in self.spent[1:]), 0.45)

    def test_a_turn_that_does_not_come(self):
        self.start(ADA, 0.5)
        with self.assertRaises(NoService):
            with visiting(BEN), self.turnstile.turn(time.monotonic() + 0.1):
                self.fail("two at once")
        self.work(BEN)
        self.assertEqual(self.order, ["ada", "ben"])

    def test_nobody_waits_for_it(self):
        with self.assertRaises(NobodyWaits):
            with visiting(ADA._replace(is_gone=lambda: True)), self.turnstile.turn(time.monotonic() + 1):
                self.fail("it was sent")
        self.work(BEN)
        self.assertEqual((self.order, [person for person, _ in self.spent]), (["ben"], ["ben"]))

    def test_whose_answer_was_not_waited_for_has_what_follows(self):
        """Until moo answers again, it works for who gave up."""
        self.work(ADA, 0.1, LostAnswer("it took too long"))
        self.work(BEN, 0.2, LostAnswer("it took too long"))
        self.work(CLEO, 0.1)
        self.work(BEN, 0.1)
        self.assertEqual([person for person, _ in self.spent], ["ada", "ada", "ada", "ben"])

    def test_an_answer_that_is_too_long_counts(self):
        self.work(ADA, 0.1, TooLong("over 16 MiB"))
        self.work(BEN)
        self.assertEqual([person for person, _ in self.spent], ["ada", "ben"])
        self.assertGreater(self.spent[0][1], 0.09)


class DumpsInTurn(unittest.TestCase):
    """A dump of a service that plays moo's, by a door with a turnstile."""

    def setUp(self):
        self.moo = StandIn(0, dump="seq 0\n")
        self.addCleanup(self.moo.close)
        self.spent = []
        self.turnstile = Turnstile(lambda visitor, seconds: self.spent.append(visitor.person))
        self.door = Door(self.moo.port, turnstile=self.turnstile)

    def copied(self, visitor, seconds):
        """The dump that a visitor gets who waits for so long, or the exception that comes in its place."""
        with visiting(visitor), io.BytesIO() as file:
            try:
                refusal = self.door.copied("/dump", file, time.monotonic() + seconds)
            except (NobodyWaits, Unreachable) as error:
                return type(error)
            return refusal or file.getvalue()

    def test_it_waits_for_its_turn(self):
        with ThreadPoolExecutor() as threads:
            with visiting(BEN), self.turnstile.turn(time.monotonic() + SECONDS):
                late = threads.submit(self.copied, ADA, SECONDS)
                self.assertEqual(self.copied(CLEO, 0.3), Unreachable)
                self.assertEqual(self.moo.seen, [])
            self.assertEqual(late.result(SECONDS), b"seq 0\n")
        self.assertEqual((self.moo.seen, self.spent), (["/dump"], ["ben", "ada"]))

    def test_of_who_is_gone_none_is_made(self):
        self.assertEqual(self.copied(ADA._replace(is_gone=lambda: True), SECONDS), NobodyWaits)
        self.assertEqual((self.moo.seen, self.spent), ([], []))

    def test_the_time_of_one_that_does_not_come_whole_is_the_visitors(self):
        with patch.object(Service, "copied", side_effect=LostAnswer("the answer was cut off")):
            self.assertEqual(self.copied(ADA, SECONDS), Unreachable)
        self.copied(BEN, SECONDS)
        self.copied(BEN, SECONDS)
        self.assertEqual(self.spent, ["ada", "ada", "ben"])


class Buckets(unittest.TestCase):
    """A person has 6 seconds, 60 rows and 600 bytes a minute."""

    def setUp(self):
        self.now, self.wizards, self.asked = 1000.0, set(), []
        self.shares = Shares(Share(6, 60, 600), self.is_wizard, lambda: self.now)

    def is_wizard(self, person):
        self.asked.append(person.name)
        return person.name in self.wizards

    def wait(self, visitor, parts=TIME):
        """For how long a visitor has to wait, and what is said; nothing, if they needn't."""
        try:
            self.shares.must_have(visitor, Person(visitor.person, 4), parts)
        except Spent as spent:
            return spent.seconds, str(spent)
        return None

    def test_time(self):
        self.shares.spend(ADA, 6 * BUCKET_MINUTES - 0.1)
        self.assertIsNone(self.wait(ADA))
        self.shares.spend(ADA, 1.0)
        self.assertEqual(self.wait(ADA), (10, "your share of the world's time is used up: try again in 10 seconds"))
        self.assertIsNone(self.wait(ADA, WRITING))
        self.assertIsNone(self.wait(BEN))
        self.now += 9.1
        self.assertIsNone(self.wait(ADA))

    def test_it_fills_up_and_no_further(self):
        self.shares.spend(ADA, 1.0)
        self.now += 1_000_000
        self.shares.spend(ADA, 6 * BUCKET_MINUTES)
        self.assertIsNotNone(self.wait(ADA))

    def test_what_is_written(self):
        self.shares.spend(ADA, rows=60 * BUCKET_MINUTES + 60)
        self.assertEqual(self.wait(ADA, WRITING), (61, "your share of what may be written is used up: try again in 61 seconds"))
        self.shares.spend(BEN, bytes_=600 * BUCKET_MINUTES + 300)
        self.assertEqual(self.wait(BEN, WRITING)[0], 31)
        self.assertEqual([self.wait(ADA), self.wait(BEN)], [None, None])

    def test_an_address(self):
        for number in range(OF_ADDRESS):
            self.shares.spend(Visitor("192.0.2.9", f"one{number}"), 6 * BUCKET_MINUTES + 1)
        told = "your address's share of the world's time is used up: try again in 11 seconds"
        self.assertEqual(self.wait(Visitor("192.0.2.9", "another")), (11, told))
        self.assertIsNone(self.wait(Visitor("192.0.2.8", "another")))

    def test_a_wizard_has_more(self):
        self.wizards.add("ada")
        for visitor in (ADA, BEN):
            self.shares.spend(visitor._replace(address=visitor.person), 6 * BUCKET_MINUTES + 1)
        self.assertIsNone(self.wait(ADA))
        self.assertIsNotNone(self.wait(BEN))
        self.shares.spend(ADA, OF_WIZARD * 6 * BUCKET_MINUTES - 1)
        self.assertIsNone(self.wait(ADA))
        self.shares.spend(ADA, 2)
        for _ in range(3):
            self.assertIsNotNone(self.wait(ADA))
            self.assertIsNotNone(self.wait(BEN))
        self.assertEqual(self.asked, ["ada", "ben"], "asked once in five minutes")

    def test_the_front_itself_uses_nothing(self):
        self.shares.spend(NOBODY, 1_000_000)
        self.assertIsNone(self.wait(NOBODY))

    def test_words(self):
        self.assertEqual(share_of("20,100000,4e6"), Share(20, 100_000, 4_000_000))
        for text in ("", "20", "1,2", "1,2,3,4", "0,1,1", "1,-1,1", "nan,1,1", "inf,1,1", "a,b,c"):
            with self.subTest(text), self.assertRaises((ValueError, TypeError)):
                share_of(text)

    def test_rows(self):
        """A chain of three with 5 at its end; a call that changes a class counts for all under it."""
        world = World(1, {}, {1: (2,), 2: (3,), 3: (4, 5, 6, 7, 8)}, {}, {}, {})
        for calls, rows in (
            (["create(#1)", "get(#2, \"name\")"], 2), (['add_property(#1, "a", 0, {#3, ""})'], 8), (["chparent(#3, #1)"] * 2, 12),
            (['set(#1, "name", "x")', "nonsense", 'delete_property(#8, "a")'], 3), (['add_property(#3, "a", 0, {#3, ""})'] * 200_000, MOST_ROWS),
        ):  # fmt: skip
            with self.subTest(calls[0]):
                self.assertEqual(rows_written(calls, world), rows)
                self.assertEqual(rows_written(calls, None), len(calls))


class Together(RoomTest):
    """A front with its world, and tokens of the wizard, ada and ben."""

    words = ()

    def setUp(self):
        super().setUp()
        make_world(self.room / "world.db", FIRST)
        self.moo = KeptService(self.room / "world.db")
        self.addCleanup(self.moo.stop)
        self.folder = self.room / "front"
        self.tokens = {name: add_person(self.folder, name, number) for name, number in (("wizard", 3), ("ada", 4), ("ben", 5))}
        self.front = Front(self.folder, self.moo.port, *self.words)
        self.assertTrue(self.front.is_listening(), self.front.said())
        self.seq = self.asked("wizard", "GET", "/api/seq")[1]["seq"]

    def asked(self, who, method, path, calls=None, **how):
        return ask(self.front.port, method, path, None if calls is None else {"calls": calls}, self.tokens[who], **how)

    def sent(self, who, path, calls):
        """A connection on which this was asked."""
        body = json.dumps({"calls": calls}).encode()
        peer = socket.create_connection(("127.0.0.1", self.front.port), SECONDS)
        self.addCleanup(peer.close)
        head = f"POST {path} HTTP/1.0\r\nauthorization: Bearer {self.tokens[who]}\r\ncontent-length: {len(body)}\r\n\r\n"
        peer.sendall(head.encode() + body)
        return peer

    def got(self, peer):
        """The status and the body of the answer on a connection."""
        head, _, body = b"".join(iter(lambda: peer.recv(65536), b"")).partition(b"\r\n\r\n")
        return int(head.split()[1]), json.loads(body)

    @contextlib.contextmanager
    def moo_stands_still(self):
        self.moo.process.send_signal(signal.SIGSTOP)
        try:
            yield
        finally:
            self.moo.process.send_signal(signal.SIGCONT)


class AtOnce(Together):
    def test_more_than_24_at_once_wait(self):
        """60 requests come while moo stands still for a moment."""
        with self.moo_stands_still():
            peers = [self.sent(("wizard", "ada", "ben")[number % 3], "/api/ask", ["max_object()"]) for number in range(60)]
            time.sleep(1)
        self.assertEqual([self.got(peer)[0] for peer in peers], [200] * 60)

    def test_what_a_peer_asked_that_is_gone_is_not_sent(self):
        with self.moo_stands_still():
            first = self.sent("wizard", "/api/batch", ["max_object()"])
            time.sleep(0.3)
            for peer in [self.sent("ada", "/api/batch", ["create(#1)"]) for _ in range(5)]:
                peer.close()
            last = self.sent("ben", "/api/batch", ["create(#1)"])
            time.sleep(0.3)
        self.assertEqual(self.got(first), (200, {"answers": ["#206"], "seq": self.seq + 1}))
        self.assertEqual(self.got(last), (200, {"answers": ["#207"], "seq": self.seq + 2}))
        self.assertEqual(self.asked("wizard", "GET", "/api/seq"), (200, {"seq": self.seq + 2}))

    def test_the_batch_of_a_person_who_is_disabled_meanwhile_is_not_sent(self):
        with self.moo_stands_still():
            first = self.sent("wizard", "/api/batch", ["max_object()"])
            time.sleep(0.3)
            peer = self.sent("ada", "/api/batch", ["create(#1)"])
            time.sleep(0.3)
            self.assertEqual(program("moo-people", self.folder, "disable", "ada")[0], 0)
        self.assertEqual(self.got(first)[0], 200)
        self.assertEqual(self.got(peer), (401, {"error": "unauthorized"}))
        self.assertEqual(self.asked("wizard", "GET", "/api/seq"), (200, {"seq": self.seq + 1}))
        self.assertEqual(self.front.said().count("ada"), 0)


class TimeIsShared(Together):
    """A person has a second of moo's time each minute."""

    words = ("--share", "1,1e9,1e9")
    heavy = ['add_property(#6, "p%d", 0, {#4, "r"})' % number for number in range(1000)]

    def test_heavy_questions_of_one(self):
        """A builder asks for what is much work again and again, and is refused in the end. Others are answered meanwhile."""
        end, waits, counts = time.monotonic() + SECONDS, [], []

        def others():
            while not counts:
                began = time.monotonic()
                status = self.asked("ben", "GET", "/api/seq")[0]
                waits.append((status, time.monotonic() - began))
                time.sleep(0.2)

        thread = threading.Thread(target=others)
        thread.start()
        status, said, count = 200, {}, 0
        while status == 200:
            self.assertLess(time.monotonic(), end)
            status, said = self.asked("ada", "POST", "/api/ask", self.heavy)
            count += 1
        counts.append(count)
        thread.join(SECONDS)
        self.assertEqual((status, said["error"]), (429, "too many"))
        self.assertRegex(said["why"], r"^your share of the world's time is used up: try again in \d+ seconds?$")
        self.assertEqual({status for status, _ in waits}, {200})
        self.assertEqual(self.asked("ada", "GET", "/api/seq")[0], 429)
        self.assertEqual([self.asked(who, "GET", "/api/seq")[0] for who in ("ben", "wizard")], [200, 200])


class WritingIsShared(Together):
    """A person may write 400 rows a minute, and 10,000 bytes."""

    words = ("--share", "1e6,400,10000")

    def refused(self, who, calls):
        """How many batches of these calls are accepted before one is refused, and what is said then."""
        for count in range(100):
            status, said = self.asked(who, "POST", "/api/batch", calls)
            if status != 200:
                return count, status, said
        return count, status, said

    def test_bytes(self):
        own = self.asked("ben", "POST", "/api/batch", ["create(#1)"])[1]["answers"][0]
        count, status, said = self.refused("ben", [f'set({own}, "name", "{"x" * 5000}")'])
        self.assertEqual((count, status, said["error"]), (6, 429, "too many"))
        self.assertRegex(said["why"], r"^your share of what may be written is used up: try again in \d+ seconds?$")
        self.assertEqual(self.asked("ben", "POST", "/api/ask", ["max_object()"])[0], 200)
        self.assertEqual(self.asked("ada", "POST", "/api/batch", ["max_object()"])[0], 200)

    def test_a_wizard_may_write_more(self):
        self.assertEqual([self.asked("wizard", "POST", "/api/batch", ["max_object()"] * 300)[0] for _ in range(10)], [200] * 10)

    def test_the_answer_says_when_to_come_again(self):
        self.refused("ada", ["max_object()"] * 500)
        peer = self.sent("ada", "/api/batch", ["max_object()"])
        head = b"".join(iter(lambda: peer.recv(65536), b"")).lower()
        self.assertTrue(head.startswith(b"http/1.0 429"))
        self.assertRegex(head, rb"\r\nretry-after: \d+\r\n")


if __name__ == "__main__":
    unittest.main()
