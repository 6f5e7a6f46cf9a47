"""Connections of the front: one request at a time, slow and deaf peers, and how much all of them hold together."""

import contextlib
import os
import socket
import sys
import threading
import time
import unittest
from unittest import mock

from tests.support.operating import SECONDS
from tests.support.web import RoomTest, ask, lacking, use_web
from tests.web.test_serving import ServingTest

use_web()
sys.path.append("/usr/lib/python3/dist-packages")

from moo_web.traffic.places import OF_ADDRESS, OF_PERSON, PLACES, Places  # noqa: E402
from moo_web.traffic.visitors import Visitor  # noqa: E402

LARGE = b"x" * 20_000_000
LEAST = 1 << 16
# Far sooner than peers that do nothing are let go, also on a busy machine.
SOON = SECONDS / 4


def got(peer):
    """All that comes until the connection ends."""
    return b"".join(iter(lambda: peer.recv(1 << 16), b""))


def kept(letters):
    """A request to sign in with a form of so many letters that is kept."""
    body = b"name=x&password=yyyyyyyyy&kept=" + b'"' * letters
    return b"POST /in HTTP/1.1\r\nhost: 127.0.0.1\r\ncontent-length: %d\r\n\r\n" % len(body) + body


class ChannelTest(RoomTest):
    """A server of a small application in this process. `seen` are the paths that it was asked for."""

    silent, most, waiting = SECONDS, 1 << 28, SECONDS

    def setUp(self):
        super().setUp()
        from moo_web.traffic import connections

        self.seen, self.may_end = [], threading.Event()
        self.may_end.set()
        patched = mock.patch.object(connections, "SILENT_SECONDS", self.silent)
        patched.start()
        self.addCleanup(patched.stop)
        listening = socket.create_server(("127.0.0.1", 0))
        self.port = listening.getsockname()[1]
        self.room_for_bytes = connections.Room(self.most)
        places = Places(self.whose, waiting=self.waiting)
        self.server = connections.listen(self.app, [connections.Way(listening)], self.room_for_bytes, places)
        thread = threading.Thread(target=self.run_server, daemon=True)
        thread.start()
        self.addCleanup(thread.join, SECONDS)
        self.addCleanup(self.stop_server)

    def run_server(self):
        with contextlib.suppress(OSError):
            self.server.asyncore.loop(timeout=1, map=self.server._map, use_poll=True)

    def stop_server(self):
        self.server.task_dispatcher.shutdown(timeout=1)
        for one in list(self.server._map.values()):
            one.close()

    @staticmethod
    def whose(channel):
        """Requests name their address and person in lines of their own, as no front would believe it."""
        head = channel.requests[0].headers
        return Visitor(head.get("ADDRESS", "192.0.2.1"), head.get("PERSON", ""))

    def app(self, environ, start):
        self.seen.append(environ["PATH_INFO"])
        if environ["moo.is_refused"]:
            start("503 Service Unavailable", [("Content-Length", "4")])
            return [b"busy"]
        if environ["PATH_INFO"].startswith("/long"):
            self.may_end.wait(SECONDS)
        body = LARGE if environ["PATH_INFO"] == "/large" else environ["PATH_INFO"].encode() + environ["wsgi.input"].read()
        start("200 OK", [("Content-Type", "text/plain"), ("Content-Length", str(len(body)))])
        return [body]

    def peer(self, *texts):
        peer = socket.socket()
        self.addCleanup(peer.close)
        peer.setsockopt(socket.SOL_SOCKET, socket.SO_RCVBUF, 4096)
        peer.settimeout(SECONDS)
        peer.connect(("127.0.0.1", self.port))
        for text in texts:
            peer.sendall(text)
        return peer

    def honest(self):
        began = time.monotonic()
        self.assertEqual(ask(self.port, "GET", "/small"), (200, "/small"))
        return time.monotonic() - began

    def until(self, what):
        end = time.monotonic() + SECONDS
        while not what():
            self.assertLess(time.monotonic(), end)
            time.sleep(0.02)


class OneAtATime(ChannelTest):
    def test_the_next_request_waits_until_the_answer_was_read(self):
        peer = self.peer(b"GET /large HTTP/1.1\r\n\r\nGET /next HTTP/1.1\r\nconnection: close\r\n\r\n")
        self.until(lambda: self.seen)
        time.sleep(0.3)
        self.assertEqual(self.seen, ["/large"])
        whole = got(peer)
        self.assertEqual(self.seen, ["/large", "/next"])
        self.assertTrue(whole.endswith(b"/next"))
        self.assertIn(LARGE, whole)

    def test_requests_that_come_at_once_are_answered_in_their_order(self):
        wanted = [f"/{number}" for number in range(50)]
        text = b"".join(b"POST %b HTTP/1.1\r\ncontent-length: 3\r\n\r\nabc" % path.encode() for path in wanted)
        whole = got(self.peer(text[:777], text[777:], b"GET /end HTTP/1.0\r\n\r\n"))
        self.assertEqual(self.seen, [*wanted, "/end"])
        self.assertEqual([whole.count(path.encode() + b"abc") for path in wanted], [1] * 50)

    def test_peers_that_read_nothing_hold_no_thread(self):
        for _ in range(PLACES + 2):
            self.peer(b"GET /large HTTP/1.1\r\n\r\n" + b"GET /next HTTP/1.1\r\n\r\n")
        self.until(lambda: len(self.seen) >= 10)
        self.assertLess(self.honest(), SOON)


class Many(ChannelTest):
    """A server that may have 20 connections."""

    silent, count = 2, 20

    def setUp(self):
        if why := lacking():
            self.skipTest(why)
        from moo_web.traffic import connections

        patched = mock.patch.object(connections, "MOST_CONNECTIONS", self.count)
        patched.start()
        self.addCleanup(patched.stop)
        super().setUp()

    def test_one_more_waits_until_another_is_let_go(self):
        from moo_web.traffic.connections import open_connections

        for _ in range(self.count + 10):
            self.peer()
        self.until(lambda: open_connections(self.server) >= self.count // 2)
        late = self.peer(b"GET /late HTTP/1.0\r\n\r\n")
        time.sleep(0.3)
        self.assertLessEqual(open_connections(self.server), self.count)
        self.assertEqual(self.seen, [])
        self.assertTrue(got(late).endswith(b"/late"))


class InTurn(ChannelTest):
    """Requests to `/long..` are worked on until they may end."""

    waiting = 1.5

    def setUp(self):
        super().setUp()
        self.may_end.clear()
        self.addCleanup(self.may_end.set)

    def asks(self, path, address, person=""):
        return self.peer(f"GET {path} HTTP/1.0\r\naddress: {address}\r\nperson: {person}\r\n\r\n".encode())

    def test_more_than_there_are_places_wait_and_are_answered(self):
        peers = [self.asks(f"/long{number}", f"192.0.2.{number}") for number in range(PLACES + 20)]
        self.until(lambda: len(self.seen) == PLACES)
        time.sleep(0.3)
        self.assertEqual(len(self.seen), PLACES)
        self.may_end.set()
        self.assertEqual({got(peer).split()[1] for peer in peers}, {b"200"})
        self.assertEqual(len(self.seen), PLACES + 20)

    def test_who_has_waited_too_long_is_refused(self):
        peers = [self.asks("/long", f"192.0.2.{number}") for number in range(PLACES)]
        self.until(lambda: len(self.seen) == PLACES)
        began = time.monotonic()
        late = got(self.asks("/small", "192.0.2.99"))
        self.assertTrue(late.startswith(b"HTTP/1.0 503") and late.endswith(b"busy"), late)
        self.assertGreater(time.monotonic() - began, self.waiting - 0.1)
        self.may_end.set()
        self.assertEqual({got(peer).split()[1] for peer in peers}, {b"200"})

    def test_nobody_takes_all_places(self):
        """A person has some, an address more, and others are answered at once meanwhile."""
        for _ in range(PLACES):
            self.asks("/long", "192.0.2.1", "ada")
        self.until(lambda: len(self.seen) == OF_PERSON)
        for number in range(PLACES):
            self.asks("/long", "192.0.2.1", f"one{number}")
        self.until(lambda: len(self.seen) == OF_ADDRESS)
        for address, person in (("192.0.2.2", "ada"), ("192.0.2.2", ""), ("192.0.2.3", "ben")):
            self.assertTrue(got(self.asks("/small", address, person)).endswith(b"/small"))
        self.assertEqual(len(self.seen), OF_ADDRESS + 3)


class TooSlow(ChannelTest):
    silent = 2

    def test_slow_and_silent_peers_are_let_go(self):
        """Each moves a byte now and then, or nothing; the connection ends whatever else came on it."""
        begun = {
            "a head": b"GET /x HTTP/1.1\r\nx: ",
            "a body": b"POST /x HTTP/1.1\r\ncontent-length: 1000\r\n\r\n",
            "the second head": b"GET /small HTTP/1.1\r\n\r\nGET /x HTTP/1.1\r\nx: ",
            "nothing": b"",
        }
        began = time.monotonic()
        ends = {what: self.dripped(self.peer(text)) for what, text in begun.items()}
        for what, thread in ends.items():
            thread.join(SECONDS)
            with self.subTest(what):
                self.assertFalse(thread.is_alive())
        self.assertLess(time.monotonic() - began, 10)

    def dripped(self, peer):
        """Sends a byte each tenth of a second until the connection is closed there."""

        def drip():
            with contextlib.suppress(OSError):
                while True:
                    peer.sendall(b"a")
                    time.sleep(0.1)

        thread = threading.Thread(target=drip, daemon=True)
        thread.start()
        return thread

    def test_a_peer_that_reads_nothing_is_let_go(self):
        for more in (b"", b"GET /next HTTP/1.1\r\n\r\n"):
            peer = self.peer(b"GET /large HTTP/1.1\r\n\r\n" + more)
            with self.subTest(more):
                self.until(lambda: self.room_for_bytes.total)
                self.until(lambda: not self.room_for_bytes.total)
                with contextlib.suppress(ConnectionResetError):
                    self.assertLess(len(got(peer)), len(LARGE))
        self.assertNotIn("/next", self.seen)

    def test_a_peer_that_is_slow_and_moves_enough_is_not(self):
        peer = self.peer(b"POST /x HTTP/1.0\r\ncontent-length: %d\r\n\r\n" % (4 * LEAST))
        for _ in range(4):
            time.sleep(1.5)
            peer.sendall(b"y" * LEAST)
        self.assertTrue(got(peer).endswith(b"y" * LEAST))


class Held(ChannelTest):
    most = 8_000_000

    def test_who_holds_the_most_is_let_go(self):
        """Bodies that don't come to their end, and answers that aren't read, are bounded together."""
        peers = [self.peer(b"POST /x HTTP/1.1\r\ncontent-length: 3000000\r\n\r\n") for _ in range(8)]
        for number, peer in enumerate(peers):
            with contextlib.suppress(OSError):
                peer.sendall(b"y" * (2_000_000 + number))
        self.until(lambda: self.ended(peers) >= 5)
        self.assertLessEqual(self.room_for_bytes.total, self.most)
        self.assertLessEqual(self.files_held(), self.most)
        self.assertEqual(self.ended(peers), 5)
        self.assertLess(self.honest(), SOON)

    @staticmethod
    def files_held():
        """How many bytes temporary files of this process have."""
        found = 0
        for name in os.listdir("/proc/self/fd"):
            with contextlib.suppress(OSError):
                if "(deleted)" in os.readlink(f"/proc/self/fd/{name}"):
                    found += os.stat(f"/proc/self/fd/{name}").st_size
        return found

    @staticmethod
    def ended(peers):
        """How many of the connections were closed by the server."""
        count = 0
        for peer in peers:
            peer.setblocking(False)
            try:
                count += not peer.recv(1)
            except BlockingIOError:
                pass
            except OSError:
                count += 1
        return count


class Holders(ServingTest):
    """32 connections without an account read nothing, and each sends a long form to sign in, and then another request."""

    def test_an_honest_page_beside_them(self):
        front = self.front()
        peers = []
        for _ in range(32):
            peer = socket.socket()
            self.addCleanup(peer.close)
            peer.setsockopt(socket.SOL_SOCKET, socket.SO_RCVBUF, 2048)
            peer.settimeout(SECONDS)
            peer.connect(("127.0.0.1", front.port))
            with contextlib.suppress(OSError):
                peer.sendall(kept(4_000_000) + b"GET /in HTTP/1.1\r\nhost: 127.0.0.1\r\n\r\n")
            peers.append(peer)
        for _ in range(8):
            for path in ("/in", "/style.css"):
                began = time.monotonic()
                self.assertEqual(ask(front.port, "GET", path, wait=10)[0], 200)
                self.assertLess(time.monotonic() - began, 5)
            time.sleep(0.5)

    def test_a_long_form_that_is_kept(self):
        front = self.front()
        for letters, wanted in ((60_000, 403), (100_000, 403), (300_000, 413), (4_000_000, 413)):
            with self.subTest(letters), socket.create_connection(("127.0.0.1", front.port), SECONDS) as peer:
                peer.sendall(kept(letters).replace(b"HTTP/1.1", b"HTTP/1.0", 1))
                whole = got(peer)
                self.assertEqual(int(whole.split()[1]), wanted)
                self.assertEqual(whole.count(b"&#34;"), letters if letters <= 1 << 16 else 0)
                self.assertEqual(b"What you typed is too long to be kept here" in whole, letters > 1 << 16 and wanted == 403)


if __name__ == "__main__":
    unittest.main()
