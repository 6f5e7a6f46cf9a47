"""The service beside peers that are silent, slow or deaf, and peers that break off: who is slow waits alone, and each is counted."""
import random
import re
import socket
import threading
import time

from tests.support.cases import ProgramTest
from tests.support.program import MOO
from tests.support.service import Service, answer, get, heard, post, reset
from tests.support.worlds import run

# Within how many seconds an honest peer is answered: the median of several requests.
SOON = 0.05
SEQ = answer("200 OK", '{"seq":0}')
# One answer of some 60 MB: a property of 65,000 bytes, read so many times.
LONG = "x" * 65_000
READS = 925


def create(name):
    """A batch that makes an object with a name of its own, and says it."""
    return post("/batch", f'{{"as":"#3","calls":["create(#1)"],"for":"{name}"}}')


def own(route, number):
    """A batch that makes a property with a name and a value of its own, and reads it."""
    name = f'\\"own{number}\\"'
    return post(route, f'{{"as":"#3","calls":["add_property(#1, {name}, {number}, {{#3, \\"r\\"}})","get(#1, {name})"]}}')


def told(came):
    """The value that the last call of a batch was answered."""
    found = re.search(rb'"(\d+)"\],"seq":\d+}$', came)
    return int(found[1]) if found else came


def ask_each(service, request, times):
    """The answers to a request, asked so often, and the median time of one."""
    came, waits = [], []
    for _ in range(times):
        began = time.monotonic()
        came.append(service.ask(request))
        waits.append(time.monotonic() - began)
    return came, sorted(waits)[times // 2]


class Desk(ProgramTest):
    def is_quick(self, name, service, times=9):
        """An honest peer is answered soon."""
        came, wait = ask_each(service, get("/seq"), times)
        self.case(f"{name}: an honest peer is answered", came, [SEQ] * times)
        self.case(f"{name}: and soon, in {wait:.3f} s", wait < SOON, True)

    def test_silent_peers(self):
        for count in (1, 12, 63):
            service = Service(MOO, ":memory:", None)
            peers = [service.peer() for _ in range(count)]
            self.is_quick(f"beside {count} silent peers", service)
            for peer in peers:
                peer.close()
            service.kill()

    def test_many_idle_peers(self):
        service = Service(MOO, ":memory:", None)
        peers = []
        # The system keeps 128 that wait to be taken; the others connect as these are taken.
        came = threading.Thread(target=lambda: peers.extend(service.peer() for _ in range(500)))
        came.start()
        came.join(20)
        began = time.monotonic()
        self.case("beside 500 idle peers an honest one is answered", service.ask(get("/seq")), SEQ)
        self.case("within 5 s", time.monotonic() - began < 5, True)
        for peer in peers:
            peer.close()
        service.kill()

    def test_slow_peer(self):
        service = Service(MOO, ":memory:", None)
        slow = service.peer()
        is_over = threading.Event()

        def trickle():
            for byte in create("slow"):
                if is_over.wait(1):
                    return
                slow.send(bytes([byte]))

        thread = threading.Thread(target=trickle)
        thread.start()
        for _ in range(3):
            self.is_quick("beside a peer that sends a byte a second", service)
            time.sleep(0.5)
        is_over.set()
        thread.join()
        slow.close()
        service.kill()

    def test_peer_that_takes_too_long(self):
        service = Service(MOO, ":memory:", 2)
        began = time.monotonic()
        with service.peer() as slow:
            try:
                for byte in create("slow") * 2:
                    slow.send(bytes([byte]))
                    time.sleep(0.5)
            except OSError:
                pass
        waited = time.monotonic() - began
        self.case(f"a request has 30 s in all, seen {waited:.1f}", 29 < waited < 36, True)
        self.case("the next is answered", service.ask(get("/seq")), SEQ)
        self.case("the slow one has failed", service.end(), (0, "served 1 failed 1\n"))
        self.case("the log says why", "failed: waiting for the request: it took too long" in service.told, True)

    def test_deaf_peer(self):
        run("init", "long.db")
        service = Service(MOO, "long.db", 8)
        made = post("/batch", f'{{"as":"#3","calls":["add_property(#1, \\"long\\", \\"{LONG}\\", {{#3, \\"r\\"}})"]}}')
        self.case("a long property", service.ask(made)[:15], b"HTTP/1.1 200 OK")
        deaf = service.peer()
        deaf.sendall(post("/ask", '{"as":"#3","calls":[' + ",".join(['"get(#1, \\"long\\")"'] * READS) + "]}"))
        began = deaf.recv(1, socket.MSG_PEEK)
        self.case("its answer begins", began, b"H")
        answers, waited = ask_each(service, get("/seq"), 5)
        self.case("beside a peer that reads nothing of 60 MB", answers, [answer("200 OK", '{"seq":1}')] * 5)
        self.case(f"the next are answered soon, in {waited:.3f} s", waited < SOON, True)
        came = heard(deaf)
        deaf.close()
        self.case("its answer is whole when it reads on", len(came) > READS * len(LONG), True)
        self.case("one more", service.ask(get("/seq")), answer("200 OK", '{"seq":1}'))
        self.case("all are answered", service.end(), (0, "served 8 failed 0\n"))

    def test_two_deaf_peers(self):
        """Two answers that are larger than the budget: one of them is given up once a third request waits."""
        run("init", "long.db")
        service = Service(MOO, "long.db", 4)
        made = post("/batch", f'{{"as":"#3","calls":["add_property(#1, \\"long\\", \\"{LONG}\\", {{#3, \\"r\\"}})"]}}')
        service.ask(made)
        peers = [service.peer(), service.peer()]
        for deaf in peers:
            deaf.sendall(post("/ask", '{"as":"#3","calls":[' + ",".join(['"get(#1, \\"long\\")"'] * READS) + "]}"))
        for deaf in peers:
            deaf.recv(1, socket.MSG_PEEK)
        began = time.monotonic()
        self.case("beside two that read nothing of 60 MB the next is answered", service.ask(get("/seq")), answer("200 OK", '{"seq":1}'))
        waited = time.monotonic() - began
        self.case(f"within 3 s, seen {waited:.1f}", waited < 3, True)
        self.case("one of them has its whole answer", sum(len(heard(deaf)) > READS * len(LONG) for deaf in peers), 1)
        self.case("the other has failed", service.end(), (0, "served 3 failed 1\n"))
        self.case("the log says why", "/ask: failed: waiting for the answer to be taken: its place was needed" in service.told, True)

    def test_deaf_peer_that_resets(self):
        run("init", "long.db")
        service = Service(MOO, "long.db", 3)
        made = post("/batch", f'{{"as":"#3","calls":["add_property(#1, \\"long\\", \\"{LONG}\\", {{#3, \\"r\\"}})"]}}')
        service.ask(made)
        deaf = service.peer()
        deaf.sendall(post("/ask", '{"as":"#3","calls":[' + ",".join(['"get(#1, \\"long\\")"'] * READS) + "]}"))
        deaf.recv(1, socket.MSG_PEEK)
        reset(deaf)
        self.case("behind a peer that resets in its answer the next is answered", service.ask(get("/seq")), answer("200 OK", '{"seq":1}'))
        self.case("it has failed, after it was judged", service.end(), (0, "served 2 failed 1\n"))
        self.case("the log says so, with its route", "/ask: failed: waiting for the answer to be taken: the peer broke off" in service.told, True)

    def test_breaking_off(self):
        """64 peers that each break off at a random byte, with honest ones between: each honest one gets the answer to its own question."""
        chance = random.Random(7)
        service = Service(MOO, ":memory:", 128)
        peers = []
        for number in range(64):
            peer = service.peer()
            text = own("/ask", 1000 + number)
            peer.sendall(text[: chance.randrange(len(text))])
            peers.append(peer)
            if len(peers) > 20:
                reset(peers.pop(chance.randrange(len(peers))))
            self.case(f"between peers that break off, number {number}", told(service.ask(own("/ask", number))), number)
        for peer in peers:
            reset(peer)
        status, line = service.end()
        counts = re.fullmatch(r"served (\d+) failed (\d+)\n", line)
        self.case("each of them is counted", (status, bool(counts) and int(counts[1]) + int(counts[2])), (0, 128))
        self.case("the honest ones are answered", bool(counts) and int(counts[1]) >= 64, True)

    def test_own_answers(self):
        """Clients at once, each of which asks for a value of its own."""
        service = Service(MOO, ":memory:", 64)
        came = {}

        def ask(number):
            came[number] = told(service.ask(own("/ask", number)))

        clients = [threading.Thread(target=ask, args=(number,)) for number in range(64)]
        for client in clients:
            client.start()
        for client in clients:
            client.join()
        self.case("each gets the answer to its own question", came, {number: number for number in range(64)})
        self.case("all are answered", service.end(), (0, "served 64 failed 0\n"))

    def test_kill(self):
        """Batches of clients at once, beside peers that break off in a batch, and a kill: what was acknowledged is there."""
        run("init", "killed.db")
        service = Service(MOO, "killed.db", None)
        chance, stop, kept = random.Random(8), threading.Event(), set()

        def change(first):
            for number in range(first, first + 200):
                if stop.is_set():
                    return
                try:
                    if number % 4 == 0:
                        with service.peer() as broken:
                            text = own("/batch", 10_000 + number)
                            broken.sendall(text[: chance.randrange(len(text))])
                    if told(service.ask(own("/batch", number))) == number:
                        kept.add(number)
                except OSError:
                    return

        clients = [threading.Thread(target=change, args=(1000 * share,)) for share in range(1, 17)]
        for client in clients:
            client.start()
        time.sleep(1)
        service.kill()
        stop.set()
        for client in clients:
            client.join()
        self.case("batches were acknowledged before the kill", len(kept) > 16, True)
        again = Service(MOO, "killed.db", len(kept))
        there = {told(again.ask(post("/ask", f'{{"as":"#3","calls":["get(#1, \\"own{number}\\")"]}}'))) for number in kept}
        self.case("and none of them is lost", there, kept)
        self.case("the next run ends", again.end(), (0, f"served {len(kept)} failed 0\n"))
