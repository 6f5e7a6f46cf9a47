"""Answers of which a few bytes are left after a write: peers that read at once, peers that read slowly, and many of these side by side."""
import socket
import threading
import time

from tests.support.cases import ProgramTest
from tests.support.program import MOO
from tests.support.service import Service, answer, post
from tests.support.worlds import run

# How many bytes of an answer the service writes at once, and the sizes of what is left of it after that.
PIECE = 262_144
RESTS = range(1, 21)
# A value of so many bytes is read so many times; the last value of an answer makes up what lacks.
LONG = 65_000
TIMES = 4
# How many bytes a slow peer takes at once, and how long it then waits, in seconds.
SIP = 4_096
WAIT = 0.001


def text_of(size):
    """A value of so many bytes, none of which is like its neighbours."""
    return "".join(chr(ord("a") + place % 26) for place in range(size))


def body_of(last, seq):
    """The body of an answer: the long value so many times, and then this one."""
    values = [text_of(LONG)] * TIMES + [last]
    return '{"answers":[' + ",".join(f'"\\"{value}\\""' for value in values) + f'],"seq":{seq}}}'


def last_of(rest, seq):
    """The last value of an answer that is longer than a piece by so many bytes."""
    lacking = PIECE + rest - len(answer("200 OK", body_of("", seq)))
    return text_of(lacking)


def question(rest):
    calls = ['"get(#1, \\"long\\")"'] * TIMES + [f'"get(#1, \\"last{rest}\\")"']
    return post("/ask", '{"as":"#3","calls":[' + ",".join(calls) + "]}")


def add(name, value):
    return f'"add_property(#1, \\"{name}\\", \\"{value}\\", {{#3, \\"r\\"}})"'


def taken(peer, is_slow):
    """All that comes of a connection."""
    came = []
    while True:
        piece = peer.recv(SIP if is_slow else 1 << 20)
        if not piece:
            return b"".join(came)
        came.append(piece)
        if is_slow:
            time.sleep(WAIT)


class Rests(ProgramTest):
    def setUp(self):
        super().setUp()
        run("init", "rests.db")
        self.service = Service(MOO, "rests.db", 1 + len(RESTS))
        calls = [add("long", text_of(LONG))] + [add(f"last{rest}", last_of(rest, 1)) for rest in RESTS]
        made = self.service.ask(post("/batch", '{"as":"#3","calls":[' + ",".join(calls) + "]}"))
        self.case("the values are there", made[:15], b"HTTP/1.1 200 OK")

    def peer(self, is_slow):
        """A peer; the system keeps little for one that is slow."""
        peer = socket.socket()
        if is_slow:
            peer.setsockopt(socket.SOL_SOCKET, socket.SO_RCVBUF, SIP)
        peer.connect(("127.0.0.1", self.service.port))
        return peer

    def ask(self, rest, is_slow):
        with self.peer(is_slow) as peer:
            peer.sendall(question(rest))
            return taken(peer, is_slow)

    def is_whole(self, name, rest, came):
        wanted = answer("200 OK", body_of(last_of(rest, 1), 1))
        self.case(f"{name}: {rest} bytes more than a piece", len(wanted), PIECE + rest)
        self.case(f"{name}: its answer is whole with {rest} bytes more than a piece", (len(came), came == wanted), (PIECE + rest, True))

    def test_peers_that_read_at_once(self):
        for rest in RESTS:
            self.is_whole("a peer that reads at once", rest, self.ask(rest, False))
        self.case("all are answered", self.service.end(), (0, f"served {1 + len(RESTS)} failed 0\n"))

    def test_slow_peers_side_by_side(self):
        came = {}

        def ask(rest):
            came[rest] = self.ask(rest, True)

        peers = [threading.Thread(target=ask, args=(rest,)) for rest in RESTS]
        for peer in peers:
            peer.start()
        for peer in peers:
            peer.join()
        for rest in RESTS:
            self.is_whole("a slow peer", rest, came.get(rest, b""))
        self.case("all are answered", self.service.end(), (0, f"served {1 + len(RESTS)} failed 0\n"))
