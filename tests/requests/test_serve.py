"""The service, over sockets of this machine: what it says, what it answers, and what becomes of peers that don't do their part."""
import errno
import json
import re
import shutil
import socket
import threading
import time
import unittest
from pathlib import Path

from tests.support.cases import ProgramTest
from tests.support.program import MOO, edit, ended
from tests.support.refusing import Fault, build_refuser
from tests.support.service import Service, answer, free_port, get, heard, post, reset
from tests.support.worlds import run, text_of

# A line to the operator: its time, route and cause.
TOLD = r"moo: (\w{3}, \d\d \w{3} \d{4} \d\d:\d\d:\d\d GMT): (\S+): (.+)"
CREATE = '{"as":"#3","calls":["create(#1)"]}'
ROOT = (
    '{"children":["#0","#2","#3"],"contents":[],"f":1,"location":"#-1","name":"Root Class","owner":"#3","parent":"#-1",'
    '"player":0,"programmer":0,"r":0,"w":0,"wizard":0}'
)


def error(word):
    return f'{{"error":"{word}"}}'


# On a new world, in turn: what is asked, and its answer to the byte.
ANSWERS = [
    ("an object", get("/object/1"), answer("200 OK", ROOT)),
    ("no object", get("/object/9"), answer("404 Not Found", error("E_INVARG"))),
    ("a batch", post("/batch", CREATE), answer("200 OK", '{"answers":["#4"],"seq":1}')),
    ("the number", get("/seq"), answer("200 OK", '{"seq":1}')),
    ("the number, with a question", get("/seq?x"), answer("200 OK", '{"seq":1}')),
    ("a question", post("/ask", CREATE), answer("200 OK", '{"answers":["#5"],"seq":1}')),
    ("it changed nothing", get("/object/5"), answer("404 Not Found", error("E_INVARG"))),
    ("a batch with its number", post("/batch", '{"as":"#3","at":1,"calls":[]}'), answer("200 OK", '{"answers":[],"seq":2}')),
    ("the same again", post("/batch", '{"as":"#3","at":1,"calls":[]}'), answer("409 Conflict", '{"error":"stale","seq":2}')),
    (
        "a batch that is refused",
        post("/batch", '{"as":"#3","calls":["create(#1)","recycle(#9)"]}'),
        answer("409 Conflict", '{"call":2,"error":"E_INVARG"}'),
    ),
    ("no call", post("/batch", '{"as":"#3","calls":["creat(#1)"]}'), answer("400 Bad Request", '{"call":1,"error":"malformed"}')),
    ("no JSON", post("/batch", "{"), answer("400 Bad Request", error("bad request"))),
    ("no head", b"GARBAGE\r\n\r\n", answer("400 Bad Request", error("bad request"))),
    ("no route", get("/nothing"), answer("404 Not Found", error("not found"))),
    ("no number", get("/object/2147483648"), answer("404 Not Found", error("not found"))),
    ("another method", get("/batch"), answer("405 Method Not Allowed", error("method not allowed"), "allow: POST\r\n")),
    (
        "HEAD",
        b"HEAD /seq HTTP/1.1\r\n\r\n",
        answer("405 Method Not Allowed", error("method not allowed"), "allow: GET\r\n", is_head=True),
    ),
    (
        "a body that is too large, none of which is sent",
        b"POST /batch HTTP/1.1\r\ncontent-length: 1048577\r\n\r\n",
        answer("413 Payload Too Large", error("too large")),
    ),
    (
        "a body of the greatest length",
        post("/ask", CREATE + " " * (1048576 - len(CREATE))),
        answer("200 OK", '{"answers":["#5"],"seq":2}'),
    ),
    ("no body", b"POST /batch HTTP/1.1\r\n\r\n", answer("400 Bad Request", error("bad request"))),
]


def is_reached(address, port):
    try:
        socket.create_connection((address, port), 3).close()
        return True
    except OSError:
        return False


def other_addresses():
    """Addresses of this machine that aren't 127.0.0.1."""
    found = {"127.0.0.2", "::1"}
    with socket.socket(socket.AF_INET, socket.SOCK_DGRAM) as probe:
        try:
            # Nothing is sent: this asks which address would be.
            probe.connect(("192.0.2.1", 9))
            found.add(probe.getsockname()[0])
        except OSError:
            pass
    return sorted(found - {"127.0.0.1"})


class Serve(ProgramTest):
    def test_answers(self):
        run("init", "world.db")
        service = Service(MOO, "world.db", len(ANSWERS) + 1)
        self.case(
            "it says that it listens, into a pipe and at once",
            (service.first, service.process.poll()),
            (f"listening 127.0.0.1:{service.port}\n", None),
        )
        for name, request, wanted in ANSWERS:
            self.case(name, service.ask(request), wanted)
        with service.peer() as peer:
            peer.setsockopt(socket.IPPROTO_TCP, socket.TCP_NODELAY, 1)
            for byte in post("/batch", CREATE):
                peer.send(bytes([byte]))
            self.case("a batch, byte by byte", heard(peer), answer("200 OK", '{"answers":["#5"],"seq":3}'))
        self.case("it ends after so many connections", service.end(), (0, f"served {len(ANSWERS) + 1} failed 0\n"))
        self.case("what it acknowledged is there", run("check", "world.db"), (0, "ok seq 3 objects 6\n"))

    def test_words(self):
        run("init", "world.db")
        port = str(free_port())
        two_lines = f"listening 127.0.0.1:{port}\nserved 0 failed 0\n"
        self.case("no connections", run("serve", ":memory:", port, "0"), (0, two_lines))
        self.case("the same port again", run("serve", "world.db", port, "0"), (0, two_lines))
        for port_word, count in [("0", "1"), ("65536", "1"), ("-1", "1"), ("x", "1"), (port, "1000001"), (port, "-1"), (port, "x")]:
            self.case(f"a port {port_word} and a count {count} are none", run("serve", ":memory:", port_word, count)[0], 2)
        with open("/dev/full", "wb") as full:
            self.case("a line that can't be written", ended("serve", ":memory:", port, "0", output=full).status, 1)

    def test_no_count(self):
        service = Service(MOO, ":memory:", None)
        self.case("without a count it listens", service.is_listening(), True)
        for number in range(3):
            self.case(f"it answers connection {number}", service.ask(get("/seq")), answer("200 OK", '{"seq":0}'))
        self.case("and goes on", service.process.poll(), None)
        service.kill()

    def test_port_and_file(self):
        run("init", "world.db")
        with socket.socket() as other:
            other.bind(("127.0.0.1", 0))
            other.listen()
            taken = str(other.getsockname()[1])
            self.case("a port that is taken", run("serve", "world.db", taken, "1"), (1, "moo: cannot listen\n"))
            self.case("the cause is said", "is the port in use" in ended("serve", ":memory:", taken, "1").complaint, True)
            self.case("FILE is opened before the port", run("serve", "nothing.db", taken, "1"), (1, "moo: store fault\n"))
            run("init", "damaged.db")
            edit("damaged.db", "delete from head")
            self.case("so is a damaged one", run("serve", "damaged.db", taken, "1"), (3, "moo: damaged bad-head head\n"))
        self.case("nothing is served of it", run("serve", "damaged.db", str(free_port()), "1"), (3, "moo: damaged bad-head head\n"))

    def test_one_address(self):
        service = Service(MOO, ":memory:", 1)
        self.case("no other address is bound", [address for address in other_addresses() if is_reached(address, service.port)], [])
        self.case("127.0.0.1 is", service.ask(get("/seq")), answer("200 OK", '{"seq":0}'))
        self.case("and that alone was a connection", service.end(), (0, "served 1 failed 0\n"))

    def test_peers_that_break_off(self):
        service = Service(MOO, ":memory:", 6)
        service.peer().close()
        with service.peer() as peer:
            peer.sendall(post("/batch", CREATE)[:-1])
            peer.shutdown(socket.SHUT_WR)
            self.case("a body that is cut off", heard(peer), answer("400 Bad Request", error("bad request")))
        with service.peer() as peer:
            peer.sendall(post("/batch", CREATE)[:-1])
        peer = service.peer()
        peer.sendall(post("/batch", CREATE)[:-1])
        reset(peer)
        reset(service.peer())
        self.case("nothing of them acted", service.ask(get("/seq")), answer("200 OK", '{"seq":0}'))
        status, line = service.end()
        counts = re.fullmatch(r"served (\d+) failed (\d+)\n", line)
        self.case("a peer that resets has failed", (status, line), (0, "served 4 failed 2\n"))
        self.case("each of them is counted", bool(counts) and int(counts[1]) + int(counts[2]), 6)

    def test_silent_peer(self):
        service = Service(MOO, ":memory:", 2)
        began = time.monotonic()
        silent = service.peer()
        self.case("beside a silent peer the next is served", service.ask(get("/seq")), answer("200 OK", '{"seq":0}'))
        # On a busy machine both times may be more.
        self.case("at once", time.monotonic() - began < 5, True)
        self.case("the silent one is told nothing", heard(silent), b"")
        waited = time.monotonic() - began
        self.case("and is closed after ten seconds", 9 < waited < 60, True)
        silent.close()
        self.case("and has failed", service.end(), (0, "served 1 failed 1\n"))

    def test_a_bound_on_memory(self):
        """What would take more than a run may have, as by LimitAS of the unit, is refused, and the next is served."""
        run("init", "many.db")
        run("apply", "many.db", "-", text=text_of(["create(#1)"] * 999))
        service = Service(MOO, "many.db", 1)
        taken = re.search(r"VmPeak:\s+(\d+) kB", Path(f"/proc/{service.process.pid}/status").read_text())
        service.ask(get("/seq"))
        service.end()
        # The answer below has 6 MB, and its values take 40 more.
        Path("bounded").write_text(f'#!/bin/sh\nulimit -v {int(taken[1]) + 12_000}\nexec {MOO} "$@"\n')
        Path("bounded").chmod(0o755)
        service = Service("./bounded", "many.db", 3)
        long = json.dumps({"as": "#3", "calls": ["children(#1)"] * 1000})
        self.case("a long answer", service.ask(post("/ask", long)), answer("503 Service Unavailable", error("nomemory")))
        self.case("the next one", service.ask(get("/seq")), answer("200 OK", '{"seq":1}'))
        self.case("a batch", service.ask(post("/batch", CREATE)), answer("200 OK", '{"answers":["#1003"],"seq":2}'))
        self.case("it goes on to its end", service.end(), (0, "served 3 failed 0\n"))
        told = [re.sub(r"^moo: .* GMT: ", "", line) for line in service.told.splitlines()]
        self.case("the operator is told", told, ["/ask: 503: out of memory"])

    def test_lines_to_the_operator(self):
        service = Service(MOO, ":memory:", 24)
        self.case("an answer has none", service.ask(get("/seq")), answer("200 OK", '{"seq":0}'))
        self.case("nor has a refusal", service.ask(get("/nothing")), answer("404 Not Found", error("not found")))
        peer = service.peer()
        peer.sendall(post("/batch", CREATE)[:-1])
        reset(peer)
        for _ in range(20):
            reset(service.peer())
        service.ask(get("/seq"))
        status, line = service.end()
        failed = int(re.fullmatch(r"served \d+ failed (\d+)\n", line)[1])
        lines = service.told.splitlines()
        told = [re.fullmatch(TOLD, line) for line in lines]
        left_out = [re.fullmatch(r"moo: (\d+) more connections failed or were answered 503", line) for line in lines]
        self.case("each line has its form", [line for line, first, second in zip(lines, told, left_out) if not first and not second], [])
        self.case(
            "each that failed has a line or is counted", sum(1 for it in told if it) + sum(int(it[1]) for it in left_out if it), failed
        )
        times = [it[1] for it in told if it]
        self.case("a second has ten lines at most", max(times.count(time) for time in times) <= 10, True)

    @unittest.skipUnless(shutil.which("cc"), "the command cc isn't on this machine")
    def test_lines_of_a_store_that_fails(self):
        build_refuser()
        run("init", "full.db")
        fault = Fault("file", errno.ENOSPC, True)
        wanted = [("/batch", "503: the store failed"), ("/object/1", "503: the store failed before, and the world is closed")]
        number, told = 1, []
        # The first calls open the file; from some call on the first one that is refused is in the batch.
        while number < 400 and [it[1:] for it in told] != wanted:
            run("init", "again.db")
            shutil.move("again.db", "full.db")
            service = Service(MOO, "full.db", 2, env=fault.env(number, "refused"))
            if service.is_listening():
                service.ask(post("/batch", CREATE))
                service.ask(get("/object/1"))
            service.end()
            told = [re.fullmatch(TOLD, line) for line in service.told.splitlines()]
            told = [it.groups() for it in told if it]
            number += 1
        self.case("each 503 has its line, with its route and cause", [it[1:] for it in told], wanted)

    def test_many_at_once(self):
        run("init", "many.db")
        service = Service(MOO, "many.db", 20)
        came = []
        clients = [threading.Thread(target=lambda: came.append(service.ask(post("/batch", CREATE)))) for _ in range(20)]
        for client in clients:
            client.start()
        for client in clients:
            client.join()
        # Each is answered once, in some order.
        wanted = [answer("200 OK", f'{{"answers":["#{number + 3}"],"seq":{number}}}') for number in range(1, 21)]
        self.case("20 clients at once", sorted(came), sorted(wanted))
        self.case("all of them are answered", service.end(), (0, "served 20 failed 0\n"))

    def test_kill(self):
        run("init", "killed.db")
        service = Service(MOO, "killed.db", 9)
        self.case("a batch before a kill", service.ask(post("/batch", CREATE)), answer("200 OK", '{"answers":["#4"],"seq":1}'))
        waiting = service.peer()
        waiting.sendall(post("/batch", CREATE)[:-1])
        service.kill()
        waiting.close()
        self.case("it is there, and the one in hand isn't", run("check", "killed.db"), (0, "ok seq 1 objects 5\n"))
        again = Service(MOO, "killed.db", 1, port=service.port)
        self.case("the next service has the same port", again.is_listening(), True)
        self.case("and goes on", again.ask(post("/batch", CREATE)), answer("200 OK", '{"answers":["#5"],"seq":2}'))
        self.case("to its end", again.end(), (0, "served 1 failed 0\n"))
        self.case("with both", run("check", "killed.db"), (0, "ok seq 2 objects 6\n"))
