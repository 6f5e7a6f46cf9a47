"""tools/moo-watch: a file that is gone, and answers of other programs. What the unit runs is in test_install."""

import http.server
import os
import pathlib
import re
import resource
import shutil
import socket
import stat
import subprocess
import sys
import tempfile
import threading
import time
import unittest
import unittest.mock
import urllib.request

from tests.support import processes
from tests.support.operating import KeptService, SECONDS, TOOLS, make_world, tool
from tests.support.service import free_port

FIRST = "batch as #3\ncreate(#1)\nend\n"


class Stranger(http.server.BaseHTTPRequestHandler):
    """Another program that listens at the port of the service."""

    status, body = 200, b""

    def do_GET(self) -> None:
        """Answers what the test says."""
        self.send_response(self.status)
        self.end_headers()
        self.wfile.write(self.body)

    def log_message(self, *_: object) -> None:
        """Says nothing."""


# A service whose store has failed, as its port and its words show it: `serve FILE PORT`.
CLOSED = """
import http.server, sys
class Closed(http.server.BaseHTTPRequestHandler):
    def do_GET(self):
        self.send_response(503)
        self.end_headers()
        self.wfile.write(b'{"error":"closed"}')
    def log_message(self, *_):
        pass
server = http.server.HTTPServer(("127.0.0.1", int(sys.argv[3])), Closed)
print("listening", flush=True)
server.serve_forever()
"""


class Watch(unittest.TestCase):
    """An empty folder."""

    def setUp(self) -> None:
        room = tempfile.TemporaryDirectory()
        self.addCleanup(room.cleanup)
        self.room = pathlib.Path(room.name)
        self.file = self.room / "world.db"

    def watch(self, *words: object) -> tuple[int, str, str]:
        """The status of moo-watch, and what it printed and complained of. Its command would make the file `ran`."""
        command = [sys.executable, TOOLS / "moo-watch", "--wait", "60", *words, "touch", self.room / "ran"]
        ran = subprocess.run(list(map(str, command)), stdout=subprocess.PIPE, stderr=subprocess.PIPE, text=True, timeout=SECONDS)
        return ran.returncode, ran.stdout, ran.stderr

    def assert_wrong(self, reason: str, *words: object) -> None:
        """It fails for this reason, and runs nothing."""
        status, printed, complaint = self.watch(*words)
        self.assertEqual((status, printed), (1, ""))
        self.assertIn(reason, complaint)
        self.assertNotIn("Traceback", complaint)
        self.assertFalse((self.room / "ran").exists())


class File(Watch):
    """The file that a service has open."""

    def serve(self, count: int = 1_000_000) -> KeptService:
        """A service of a new world."""
        make_world(self.file, FIRST)
        service = KeptService(self.file, count)
        self.addCleanup(service.stop)
        return service

    def test_the_file_of_the_service(self) -> None:
        port = self.serve().port
        self.assertEqual(self.watch("--world", self.file, port), (0, "seq 1\n", ""))

    def test_a_run_that_ends_with_the_answer(self) -> None:
        service = self.serve(count=1)
        for number in range(1, 4):
            # Between two runs nobody has the file open, which on a busy machine may be so for long.
            end = time.monotonic() + SECONDS
            while service.starts < number and time.monotonic() < end:
                time.sleep(0.01)
            self.assertEqual(self.watch("--world", self.file, service.port), (0, "seq 1\n", ""))

    def test_a_file_that_is_gone(self) -> None:
        port = self.serve().port
        self.file.unlink()
        self.assert_wrong(f"the file {self.file} is gone: ", "--world", self.file, port)

    def test_a_file_that_was_replaced(self) -> None:
        port = self.serve().port
        shutil.copy(self.file, self.room / "other.db")
        (self.room / "other.db").rename(self.file)
        self.assert_wrong(f"the service has another file open than {self.file}: ", "--world", self.file, port)


class Front(Watch):
    """A front beside the service, played by another program, at whose status port it is asked whether it is ready."""

    def setUp(self) -> None:
        super().setUp()
        make_world(self.file, FIRST)
        self.service = KeptService(self.file)
        self.addCleanup(self.service.stop)
        self.server = http.server.HTTPServer(("127.0.0.1", 0), Stranger)
        self.addCleanup(self.server.server_close)
        self.addCleanup(self.server.shutdown)
        threading.Thread(target=self.server.serve_forever, daemon=True).start()

    def test_a_front_that_is_ready(self) -> None:
        Stranger.status, Stranger.body = 200, b"ok"
        self.assertEqual(self.watch("--front", self.server.server_port, self.service.port), (0, "seq 1\n", ""))

    def test_a_front_whose_disk_is_full(self) -> None:
        Stranger.status, Stranger.body = 503, b"no batch is taken: /srv/journal: No space left on device\n"
        self.assert_wrong(
            "moo-watch: the front isn't ready: no batch is taken: /srv/journal: No space left on device\n",
            "--wait", "0.5", "--front", self.server.server_port, self.service.port,
        )  # fmt: skip

    def test_a_front_that_is_gone(self) -> None:
        with socket.create_server(("127.0.0.1", 0)) as other:
            port = other.getsockname()[1]
        self.assert_wrong(f"it doesn't answer at its status port {port}", "--wait", "0.5", "--front", port, self.service.port)


class Left(Watch):
    """What is left for Prometheus."""

    def metrics(self) -> dict[str, float]:
        """What is in the file."""
        lines = (self.room / "left.prom").read_text().splitlines()
        return {name: float(value) for name, value in (line.split(" ") for line in lines if not line.startswith("#"))}

    def test_what_was_seen(self) -> None:
        make_world(self.file, FIRST)
        service = KeptService(self.file)
        self.addCleanup(service.stop)
        copies = self.room / "copies"
        now = time.time()
        for name, moment in (("world.db-20261126T130000.000000Z-seq1", now - 500), ("world.db-20301126T130000.000000Z-seq1", now + 5000)):
            (copies / name).mkdir(parents=True)
            (copies / name / "SHA256SUMS").touch()
            os.utime(copies / name / "SHA256SUMS", (moment, moment))
        words = ("--world", self.file, "--copies", copies, "--metrics", self.room / "left.prom", service.port)
        self.assertEqual(self.watch(*words), (0, "seq 1\n", ""))
        self.assertEqual(stat.S_IMODE((self.room / "left.prom").stat().st_mode), 0o644)
        found = self.metrics()
        self.assertEqual(found["moo_watch_well"], 1)
        self.assertAlmostEqual(found["moo_world_copy_timestamp_seconds"], now - 500, delta=1)
        self.assertGreaterEqual(found["moo_watch_timestamp_seconds"], int(now))
        self.assertGreater(found["moo_memory_bytes"], 1 << 20)
        self.assertEqual(found["moo_memory_bound_bytes"], float("inf"))
        self.assertEqual(found["moo_world_bytes"], sum(path.stat().st_size for path in self.room.glob("world.db*")))
        service.stop()
        self.assertEqual(self.watch("--wait", "0.1", *words)[0], 1)
        self.assertEqual(self.metrics()["moo_watch_well"], 0)

    def test_a_disk_with_little_room(self) -> None:
        watch = tool("moo-watch")
        with unittest.mock.patch.object(watch.os, "statvfs") as found:
            found.return_value = unittest.mock.Mock(f_bavail=3 << 10, f_frsize=1 << 20, f_blocks=100 << 10)
            watch.test_disk(self.room)
            for free, size in ((900, 100 << 10), (4, 100)):
                found.return_value = unittest.mock.Mock(f_bavail=free, f_frsize=1 << 20, f_blocks=size)
                with self.assertRaisesRegex(watch.Failure, f"is nearly full: {free} of {size} MB are free"):
                    watch.test_disk(self.room)


def bound(pid: int, times: float, more: int = 0) -> None:
    """Sets the bound of a process to so many times the address space that it takes now, and so many bytes more."""
    taken = int(re.findall(r"(?m)^VmSize:\s+(\d+) kB$", pathlib.Path(f"/proc/{pid}/status").read_text())[0]) << 10
    resource.prlimit(pid, resource.RLIMIT_AS, (int(taken * times) + more, resource.RLIM_INFINITY))


class Memory(Watch):
    """A service with little memory, by a bound of its address space that is set while it runs."""

    def serve(self, text: str) -> None:
        """A service of a world of this text."""
        make_world(self.file, text)
        self.service = KeptService(self.file)
        self.addCleanup(self.service.stop)

    def bound(self, times: float, more: int = 0) -> None:
        """Sets the bound of the service."""
        assert self.service.process
        bound(self.service.process.pid, times, more)

    def seq(self) -> bytes:
        """What the service answers about the number of its world."""
        with urllib.request.urlopen(f"http://127.0.0.1:{self.service.port}/seq", timeout=SECONDS) as answer:
            return bytes(answer.read())

    def test_a_world_that_is_full(self) -> None:
        # Some 20 MB, so that a part of it is more than a batch takes.
        long = '"' + "x" * 60_000 + '"'
        self.serve(FIRST + "batch as #3\n" + "".join(f'add_property(#4, "p{n}", {long}, {{#3, "r"}})\n' for n in range(300)) + "end\n")
        full, words = self.room / "full", ("--world", self.file, "--full", self.room / "full", self.service.port)
        self.assertEqual(self.watch(*words), (0, "seq 2\n", ""))
        self.bound(1.25)
        self.assert_wrong("the world is full", *words)
        self.assertTrue(full.exists())
        self.bound(2)
        self.assertEqual(self.watch(*words), (0, "seq 2\n", ""))
        self.assertFalse(full.exists())

    def test_no_memory_for_a_batch(self) -> None:
        self.serve(FIRST)
        # Room for a short request, and not for the batch of moo-watch, which has 900,000 bytes.
        self.bound(1, 1 << 18)
        self.assertEqual(self.seq(), b'{"seq":1}')
        full = self.room / "full"
        words = ("--wait", "2", "--world", self.file, "--full", full, self.service.port)
        self.assert_wrong("the service has no memory for a batch (nomemory)", *words)
        self.assertTrue(full.exists(), "what has no memory for a batch is full")
        self.bound(3)
        self.assertEqual(self.watch(*words), (0, "seq 1\n", ""))
        self.assertFalse(full.exists())
        self.assertEqual(self.seq(), b'{"seq":1}', "the batch has changed nothing")


class Closed(Watch):
    """A store that failed as its run came to its bound."""

    def test_the_world_is_marked_before_the_run_ends(self) -> None:
        self.file.touch()
        port, full = free_port(), self.room / "full"
        service = processes.start([sys.executable, "-c", CLOSED, "serve", str(self.file), str(port)], stdout=subprocess.PIPE)
        assert service.stdout
        self.assertEqual(service.stdout.readline(), b"listening\n")
        bound(service.pid, 1.1)
        script = 'test -e "$0" && touch "$1"'
        status, _, told = self.watch("--world", self.file, "--full", full, port, "sh", "-c", script, full, self.room / "marked")
        self.assertEqual(status, 1)
        self.assertRegex(told, r"the service answers 503 closed; the service takes \d+ of \d+ MB: the world is full")
        self.assertTrue((self.room / "marked").exists(), "the file was there when the command ran")


class Answers(Watch):
    """Another program at the port."""

    def test_another_program(self) -> None:
        server = http.server.HTTPServer(("127.0.0.1", 0), Stranger)
        self.addCleanup(server.server_close)
        self.addCleanup(server.shutdown)
        threading.Thread(target=server.serve_forever, daemon=True).start()
        answers = [(200, body) for body in (b"{}", b"[1]", b'{"seq":"1"}', b'{"seq":true}', b'{"seq":-1}', b'{"seq":1.5}')]
        for status, body in (*answers, (503, b"7"), (503, b"{}"), (404, b"null")):
            with self.subTest(status=status, body=body):
                Stranger.status, Stranger.body = status, body
                self.assert_wrong(f"another program than moo answers at port {server.server_port}", server.server_port)
        Stranger.status = 200
        for name, body in (("no JSON", b"<html>"), ("lists in lists", b"[" * 60_000), ("without end", b'{"seq":1' + b" " * 100_000)):
            with self.subTest(name):
                Stranger.body = body
                self.assert_wrong("moo-watch: no answer: ", server.server_port)


if __name__ == "__main__":
    unittest.main()
