"""Requests of which a part isn't read: each is answered whole, and its connection isn't reset."""
import contextlib
import math
import random
import time

from tests.support.cases import ProgramTest
from tests.support.exchange import MOO, SEQ_QUESTION, heard_to_the_end, seq
from tests.support.service import Service, heard

SEED = 49
COUNT = 600
# What the service reads on of a request that it refused.
MOST = 65_536
# How often a peer that goes on is tried, if the machine is busy.
TRIES = 20


def filler(chance, most):
    return bytes(chance.choices(range(32, 127), k=chance.randint(0, most)))


def a_head_over_its_limit(chance):
    return b"GET /seq HTTP/1.1\r\nx: " + b"y" * chance.randint(8_192, 60_000) + chance.choice([b"", b"\r\n\r\n"])


def too_many_lines(chance):
    return b"GET /seq HTTP/1.1\r\n" + b"x: y\r\n" * chance.randint(33, 5_000) + b"\r\n"


def no_head(chance):
    return b"GARBAGE\r\n\r\n" + filler(chance, 50_000)


def another_method(chance):
    body = filler(chance, 50_000)
    return b"POST /seq HTTP/1.1\r\ncontent-length: %d\r\n\r\n%s" % (len(body), body)


def no_route(chance):
    body = filler(chance, 50_000)
    return b"POST /nothing HTTP/1.1\r\ncontent-length: %d\r\n\r\n%s" % (len(body), body)


def chunks(chance):
    return b"POST /batch HTTP/1.1\r\ntransfer-encoding: chunked\r\n\r\n" + filler(chance, 50_000)


def too_large(chance):
    return b"POST /batch HTTP/1.1\r\ncontent-length: 1048577\r\n\r\n" + filler(chance, 50_000)


def a_body_that_is_no_batch(chance):
    body = filler(chance, 50_000)
    return b"POST /ask HTTP/1.1\r\ncontent-length: %d\r\n\r\n%s" % (len(body) + 1, body + b"]")


def a_question_with_a_body(chance):
    body = filler(chance, 50_000)
    return b"GET /seq HTTP/1.1\r\ncontent-length: %d\r\n\r\n%s" % (len(body), body)


def more_than_the_body(chance):
    return b"POST /ask HTTP/1.1\r\ncontent-length: 22\r\n\r\n" + b'{"as":"#3","calls":[]}' + filler(chance, 50_000)


KINDS = [
    a_head_over_its_limit, too_many_lines, no_head, another_method, no_route, chunks, too_large, a_body_that_is_no_batch,
    a_question_with_a_body, more_than_the_body,
]


def end_of(service, request):
    """What answers a request, and how its connection ends: 'closed' or 'reset'."""
    with service.peer() as peer:
        try:
            peer.sendall(request)
        except ConnectionError:
            return heard_to_the_end(peer)[0], "reset"
        return heard_to_the_end(peer)


class Resets(ProgramTest):
    def test_random_requests(self):
        chance = random.Random(SEED)
        service = Service(MOO, ":memory:", COUNT)
        for number in range(COUNT):
            kind = chance.choice(KINDS)
            text, end = end_of(service, kind(chance))
            head, _, body = text.partition(b"\r\n\r\n")
            length = int(head.rpartition(b"content-length: ")[2].split(b"\r\n")[0] or -1) if head else -1
            self.case(f"request {number}, {kind.__name__}", (text[:9], len(body), end), (b"HTTP/1.1 ", length, "closed"))
        self.case("all of them are served", service.end(), (0, f"served {COUNT} failed 0\n"))

    def waits(self, name, peer_of, sends):
        """After a refused peer that goes on sending, the next one is served within the second that the service reads on, or little more.

        On a busy machine it may be more, so that it is tried some times; the wait for a silent peer is ten seconds each time.
        """
        least, tries = math.inf, 0
        while least >= 3 and tries < TRIES:
            service = Service(MOO, ":memory:", 2)
            with peer_of(service) as peer:
                answered = heard(peer)
                began = time.monotonic()
                sends(peer)
                self.case(f"{name}: it has its answer", answered[:12], b"HTTP/1.1 400")
                self.case(f"{name}: so has the next one", self.next_answer(service), seq(0))
                least, tries = min(least, time.monotonic() - began), tries + 1
            self.case(f"{name}: both are served", service.end(), (0, "served 2 failed 0\n"))
        self.case(f"{name}: after a second", least < 3, True)

    def next_answer(self, service):
        with service.peer() as peer:
            peer.sendall(SEQ_QUESTION)
            return heard(peer)

    def test_peers_that_go_on(self):
        def refused(service):
            peer = service.peer()
            peer.sendall(b"GARBAGE\r\n\r\n")
            return peer

        # The service may have closed by then.
        def trickles(peer):
            with contextlib.suppress(ConnectionError):
                for _ in range(8):
                    time.sleep(0.1)
                    peer.send(b"x")

        def floods(peer):
            with contextlib.suppress(ConnectionError):
                for _ in range(64):
                    peer.sendall(b"x" * MOST)

        self.waits("a silent one", refused, lambda peer: None)
        self.waits("one that sends a byte now and then", refused, trickles)
        self.waits("one that sends without end", refused, floods)
