"""moo-web as a process, by Debian's waitress: its words, what it prints, long and slow requests, a proxy, two fronts on one folder."""

import contextlib
import json
import resource
import signal
import socket
import stat
import subprocess
import sys
import time
import unittest

from tests.support import processes
from tests.support.operating import KeptService, SECONDS, TOOLS, make_world
from tests.support.program import MOO
from tests.support.web import Front, RoomTest, WEB, add_person, ask, program, use_web

use_web()

from moo_web.world.door import Door  # noqa: E402

BATCH = {"calls": ["max_object()"]}


class ServingTest(RoomTest):
    """A world with its service, and a folder with the wizard's token."""

    def setUp(self):
        super().setUp()
        make_world(self.room / "world.db", "")
        self.moo = KeptService(self.room / "world.db")
        self.addCleanup(self.moo.stop)
        self.folder = self.room / "front"
        self.token = add_person(self.folder, "wizard", 3)

    def front(self, *words, folder=None, **how):
        front = Front(folder or self.folder, self.moo.port, *words, **how)
        self.assertTrue(front.is_listening(), f"{front.first!r} {front.said()}")
        return front

    def refused(self, *words, folder=None, port=None):
        """Why a front doesn't start. Its status is 1."""
        front = Front(folder or self.folder, self.moo.port, *words, port=port)
        self.assertEqual((front.first, front.end()), ("", 1))
        return front.said().splitlines()[-1]


class Starts(ServingTest):
    def test_it_answers_once_it_says_so_and_ends_at_a_signal(self):
        front = self.front("--journal", self.room / "second")
        self.assertEqual(ask(front.port, "POST", "/api/batch", BATCH, self.token), (200, {"answers": ["#3"], "seq": 1}))
        # The accounts may be copied just now, to `people.db.new`.
        files = [path for path in (*self.folder.iterdir(), *(self.room / "second").iterdir()) if path.suffix != ".new"]
        modes = {path.name: stat.S_IMODE(path.stat().st_mode) for path in files}
        self.assertEqual(modes, {"people.db": 0o600, "journal-0": 0o600})
        self.assertEqual(stat.S_IMODE((self.room / "second").stat().st_mode), 0o700)
        self.assertEqual((self.folder / "journal-0").read_bytes(), (self.room / "second/journal-0").read_bytes())
        front.process.send_signal(signal.SIGTERM)
        self.assertEqual(front.end(), 0)
        again = self.front("--journal", self.room / "second", port=front.port)
        self.assertEqual(ask(again.port, "GET", "/api/seq", token=self.token), (200, {"seq": 1}))

    def test_the_second_folder_has_the_accounts_too(self):
        """With it alone a front goes on, for the same people."""
        front = self.front("--journal", self.room / "second")
        token = add_person(self.folder, "ada", 3)
        end = time.monotonic() + SECONDS
        while program("moo-people", self.room / "second", "list")[1] != "ada #3 0 sessions, 1 tokens\nwizard #3 0 sessions, 1 tokens\n":
            self.assertLess(time.monotonic(), end)
            time.sleep(0.1)
        front.kill()
        again = self.front(folder=self.room / "second", port=front.port)
        for each in (token, self.token):
            self.assertEqual(ask(again.port, "GET", "/api/seq", token=each), (200, {"seq": 0}))

    def test_two_fronts(self):
        front = self.front("--journal", self.room / "second")
        self.assertIn("front is in use by another front", self.refused())
        self.assertIn("second is in use by another front", self.refused("--journal", self.room / "second", folder=self.room / "other"))
        self.assertIn("Address already in use", self.refused(folder=self.room / "third", port=front.port))
        self.assertEqual(ask(front.port, "POST", "/api/batch", BATCH, self.token)[0], 200)

    def test_words(self):
        for words in ((), (self.folder,), (self.folder, "--moo-port", "x"), (self.folder, "--moo-port", "70000")):
            self.assertEqual(program("moo-web", *words)[:2], (2, ""))
        self.assertIn("are the same folder", self.refused("--journal", self.folder))

    def test_it_waits_for_moo(self):
        self.moo.stop()
        front = Front(self.folder, self.moo.port, wait=False)
        end = time.monotonic() + SECONDS
        while "doesn't answer" not in front.said() and time.monotonic() < end:
            time.sleep(0.1)
        self.assertIn(f"moo doesn't answer at port {self.moo.port} yet", front.said())
        service = processes.start([MOO, "serve", "world.db", str(self.moo.port), "99"], cwd=self.room, stdout=subprocess.DEVNULL)
        self.assertEqual(front.process.stdout.readline().decode(), f"listening http://127.0.0.1:{front.port}/\n")
        service.kill()

    def test_a_gap_and_rebase(self):
        front = self.front()
        Door(self.moo.port).sent("POST", "/batch", b'{"as":"#3","calls":["max_object()"]}')
        self.assertEqual(ask(front.port, "POST", "/api/batch", BATCH, self.token), (503, {"error": "gap"}))
        self.assertIn("start it with --rebase", front.said())
        front.kill()
        front = self.front()
        self.assertEqual(ask(front.port, "POST", "/api/batch", BATCH, self.token), (503, {"error": "gap"}))
        self.assertEqual(ask(front.port, "GET", "/api/seq", token=self.token), (200, {"seq": 1}))
        front.kill()
        front = self.front("--rebase")
        self.assertIn("the journal begins at number 1 of the world", front.said())
        self.assertEqual(ask(front.port, "POST", "/api/batch", BATCH, self.token), (200, {"answers": ["#3"], "seq": 2}))

    def test_a_full_disk(self):
        """As a limit on the size of the front's files, which is taken away again."""
        front = self.front("--journal", self.room / "second")
        self.assertEqual(ask(front.port, "POST", "/api/batch", BATCH, self.token)[0], 200)
        size = (self.folder / "journal-0").stat().st_size
        limits = resource.prlimit(front.process.pid, resource.RLIMIT_FSIZE, (size + 100, resource.RLIM_INFINITY))
        for _ in range(3):
            self.assertEqual(ask(front.port, "POST", "/api/batch", BATCH, self.token), (503, {"error": "busy"}))
        self.assertEqual(ask(front.port, "GET", "/api/seq", token=self.token), (200, {"seq": 1}))
        self.assertIn("no batch is taken", front.said())
        self.assertEqual([(folder / "journal-0").stat().st_size for folder in (self.folder, self.room / "second")], [size, size])
        resource.prlimit(front.process.pid, resource.RLIMIT_FSIZE, limits)
        self.assertEqual(ask(front.port, "POST", "/api/batch", BATCH, self.token), (200, {"answers": ["#3"], "seq": 2}))

    def test_without_waitress(self):
        """The line names the command that installs it."""
        script = "import sys; sys.path[:0] = sys.argv[1:3]; sys.modules['waitress'] = None; sys.argv[1:] = ['f', '--moo-port', '1']\n"
        words = [sys.executable, "-I", "-c", f"{script}from moo_web import serving; serving.main()", str(WEB), str(TOOLS)]
        ran = subprocess.run(words, stderr=subprocess.PIPE, text=True, check=False, cwd=self.room, timeout=SECONDS)
        self.assertEqual((ran.returncode, ran.stderr), (1, "moo-web: python3-waitress is missing: apt-get install python3-waitress\n"))


class Requests(ServingTest):
    def test_long_bodies(self):
        front = self.front()
        for size, wanted in ((1_048_576, (400, "bad request")), (1_048_577, (413, "too large")), (4_000_000, (413, "too large"))):
            status, said = ask(front.port, "POST", "/api/batch", b"x" * size, self.token)
            self.assertEqual((status, said["error"]), wanted)
        # Of a longer one the body isn't read: the connection may break before the answer is heard.
        with contextlib.suppress(OSError):
            self.assertEqual(ask(front.port, "POST", "/api/batch", b"x" * 5_000_000, self.token)[0], 413)
        self.assertEqual(ask(front.port, "GET", "/api/seq", token=self.token), (200, {"seq": 0}))

    def test_a_body_in_chunks(self):
        front = self.front()
        with socket.create_connection(("127.0.0.1", front.port), SECONDS) as peer:
            body = json.dumps(BATCH).encode()
            peer.sendall(b"POST /api/batch HTTP/1.1\r\nhost: 127.0.0.1\r\nconnection: close\r\ntransfer-encoding: chunked\r\n")
            peer.sendall(f"authorization: Bearer {self.token}\r\n\r\n{len(body):x}\r\n".encode() + body + b"\r\n0\r\n\r\n")
            self.assertIn(b'{"answers":["#3"],"seq":1}', b"".join(iter(lambda: peer.recv(65536), b"")))

    def test_paths_that_are_not_paths(self):
        front = self.front()
        for path in ("/api/object/3%0d%0ax", "/api/object/3%20", "/api/object/%33%3fwhy", "/api/object/..%2fseq", "/api/seq/"):
            with self.subTest(path):
                self.assertEqual(ask(front.port, "GET", path, token=self.token)[0], 404)
        self.assertEqual(ask(front.port, "GET", "/api/object/%33", token=self.token)[0], 200)
        self.assertEqual(ask(front.port, "GET", "/api/seq?x=1", token=self.token), (200, {"seq": 0}))

    def test_paths_that_lead_out(self):
        """To the file of accounts, which is beside the journal, and to the front's own files."""
        front = self.front()
        for path in (
            "/static/style.css", "/..%2f..%2fpeople.db", "/style.css/../../people.db", "/%2e%2e/people.db", "/../people.db", "/people.db",
            "/templates/base.html", "/style.css%00", "/style.css/..%5cpeople.db", "//etc/passwd",
        ):  # fmt: skip
            with self.subTest(path):
                self.assertEqual(ask(front.port, "GET", path, token=self.token)[0], 404)

    def test_slow_peers_hold_nobody(self):
        front = self.front()
        peers = [socket.create_connection(("127.0.0.1", front.port), SECONDS) for _ in range(100)]
        for number, peer in enumerate(peers):
            self.addCleanup(peer.close)
            head = f"POST /api/batch HTTP/1.1\r\nhost: 127.0.0.1\r\nauthorization: Bearer {self.token}\r\ncontent-length: 100\r\n\r\n{{"
            peer.sendall(head.encode()[: 30 + number * 2])
        began = time.monotonic()
        for _ in range(5):
            self.assertEqual(ask(front.port, "POST", "/api/batch", BATCH, self.token)[0], 200)
        self.assertLess(time.monotonic() - began, 30)

    def test_an_address_of_a_proxy(self):
        """With --rate 0.05 an address has one request, and the next one ten seconds later; so 401 comes once for each address."""
        for words, others in ((("--proxy", "127.0.0.1"), 401), ((), 429)):
            front = self.front("--rate", 0.05, *words)
            for address, wanted in (("192.0.2.1", 401), ("192.0.2.2", others), ("192.0.2.1", 429)):
                with self.subTest(words=words, address=address):
                    self.assertEqual(ask(front.port, "GET", "/api/seq", head={"X-Forwarded-For": f"9.9.9.9, {address}"})[0], wanted)
            front.kill()

    def test_other_heads(self):
        front = self.front()
        with socket.create_connection(("127.0.0.1", front.port), SECONDS) as peer:
            peer.sendall(b"GET /api/seq HTTP/1.0\r\n\r\n")
            head = b"".join(iter(lambda: peer.recv(65536), b"")).lower()
        self.assertTrue(head.startswith(b"http/1.0 401"))
        for line in (b"cache-control: no-store", b"x-content-type-options: nosniff", b"www-authenticate: bearer"):
            self.assertIn(line, head)
        self.assertNotIn(b"server:", head)


if __name__ == "__main__":
    unittest.main()
