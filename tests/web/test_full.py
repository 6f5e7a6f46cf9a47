"""A builder fills a world, under bounds as those of its units but smaller: it goes on serving reads, refuses growth, and starts again.

The bound of a start is four times that of a run, as in packaging/moo@.service. `moo-watch`, which its timer runs each minute, looks more often.
"""

from __future__ import annotations

import http.client
import json
import resource
import subprocess
import sys
import threading
import unittest

from tests.support import processes
from tests.support.operating import SECONDS, TOOLS, make_world
from tests.support.program import MOO
from tests.support.service import free_port
from tests.support.web import Front, RoomTest, add_person

RUN_BYTES = 40 << 20
START_BYTES = 4 * RUN_BYTES
MOST_BATCHES = 300
WORLD = "batch as #3\ncreate(#1, #-1)\nset_player_flag(#4, 1)\ncreate(#1, #4)\nset(#5, \"f\", 1)\nend\n"
LONG = '"' + "x" * 60_000 + '"'
CHILDREN = 1000


def calls_of_values(number):
    """A megabyte of values on one object."""
    return [f'add_property(#4, "z{number}_{part}", {LONG}, {{#4, "rw"}})' for part in range(15)]


def calls_of_slots(number):
    """A few bytes, and five thousand slots."""
    return [f'add_property(#5, "z{number}_{part}", 0, {{#4, "rw"}})' for part in range(5)]


class Full(RoomTest):
    def serve(self):
        """The service, as its unit starts it."""
        words = ["sh", "-c", f'ulimit -v {START_BYTES >> 10}; exec "$@"', "sh", MOO, "serve", self.room / "world.db", str(self.port)]
        self.service = processes.start([str(word) for word in words], stdout=subprocess.PIPE, stderr=subprocess.DEVNULL)
        self.assertEqual(self.service.stdout.readline().decode(), f"listening 127.0.0.1:{self.port}\n")
        subprocess.run([sys.executable, TOOLS / "moo-bound", str(self.service.pid), str(self.port), str(RUN_BYTES)], check=True, timeout=SECONDS)
        self.assertEqual(resource.prlimit(self.service.pid, resource.RLIMIT_AS), (RUN_BYTES, START_BYTES))

    def watch(self, *command):
        """How moo-watch ends, and what it says. A command ends the run if its store has failed."""
        words = ["--wait", "10", "--world", self.room / "world.db", "--full", self.room / "full", self.port, *command]
        ran = subprocess.run([sys.executable, TOOLS / "moo-watch", *map(str, words)], capture_output=True, text=True, check=False)
        return ran.returncode, ran.stderr

    def watch_on(self):
        while not self.is_over.wait(0.3):
            self.watch()

    def asked(self, method, path, said=None):
        """The status and the body of what the front answers to the builder."""
        connection = http.client.HTTPConnection("127.0.0.1", self.front.port, timeout=SECONDS)
        try:
            connection.request(method, path, json.dumps(said) if said else None, {"Authorization": f"Bearer {self.token}"})
            answer = connection.getresponse()
            return answer.status, json.loads(answer.read())
        finally:
            connection.close()

    def batch(self, *calls):
        return self.asked("POST", "/api/batch", {"calls": calls})

    def test_by_long_values(self):
        self.fill(calls_of_values)

    def test_by_slots(self):
        self.fill(calls_of_slots)

    def test_by_a_writer_who_is_faster_than_the_watch(self):
        self.begin()
        self.fill_to_the_bound()
        status, told = self.watch("kill", self.service.pid)
        self.assertEqual(status, 1)
        # Where the memory ran out decides which it is: the store failed, and the watch ended the run; or a batch has no memory.
        self.assertRegex(told, r"the service (answers 503 closed|has no memory for a batch.*); the service takes \d+ of 40 MB: the world is full")
        self.service.terminate()
        self.service.wait(SECONDS)
        self.serve()
        # A run begins with more address space than it may ask for, and would hold more than the one before.
        status, said = self.batch('add_property(#4, "more", 1, {#4, "rw"})')
        self.assertEqual((status, said.get("error")), (429, "too many"), said)
        self.assertIn("the world is full", said["why"])
        self.read()

    def fill_to_the_bound(self):
        """Adds one value after the other, while nobody watches, until a batch isn't answered."""
        for number in range(2 * RUN_BYTES // len(LONG)):
            status, said = self.batch(f'add_property(#4, "y{number}", {LONG}, {{#4, "rw"}})')
            if status != 200:
                self.assertEqual(status, 503, said)
                return
        self.fail("a run has taken twice its bound")

    def begin(self):
        """A world with its service, and a front with a builder."""
        make_world(self.room / "world.db", WORLD + "".join("batch as #4\n" + "create(#5)\n" * 1000 + "end\n" for _ in range(CHILDREN // 1000)))
        self.port, self.is_over = free_port(), threading.Event()
        self.serve()
        self.token = add_person(self.room / "front", "ada", 4)
        self.front = Front(self.room / "front", self.port, "--full", self.room / "full", "--daily-bytes", 1 << 40, "--share", "1e6,1e9,1e12")
        self.assertTrue(self.front.is_listening(), self.front.said())

    def fill(self, calls_of):
        self.begin()
        watching = threading.Thread(target=self.watch_on)
        watching.start()
        try:
            answers, refused = [], 0
            while len(answers) < MOST_BATCHES and refused < 2:
                answers.append(self.batch(*calls_of(len(answers))))
                # A batch takes more while it is made. So there may be room again after a rest.
                refused = refused + 1 if answers[-1][0] != 200 else 0
                self.is_over.wait(2 if refused else 0)
        finally:
            self.is_over.set()
            watching.join()
        status, said = answers[-1]
        self.assertEqual((status, said.get("error")), (429, "too many"), said)
        self.assertIn("the world is full", said["why"])
        self.assertGreater(len(answers), 3)
        status, told = self.watch()
        self.assertEqual(status, 1)
        self.assertRegex(told, r"the service takes \d+ of 40 MB: the world is full")
        self.assertEqual(self.batch('add_property(#4, "more", 1, {#4, "rw"})')[0], 429)
        self.read()
        self.service.terminate()
        self.service.wait(SECONDS)
        # The next run may take less, and then has room again.
        self.serve()
        self.read()

    def read(self):
        """Whoever reads is answered."""
        self.assertEqual(self.asked("GET", "/api/object/4")[0], 200)
        self.assertEqual(self.asked("POST", "/api/ask", {"calls": ['get(#4, "name")', "properties(#4)"]})[0], 200)
        self.assertEqual(self.batch("max_object()")[0], 200)


if __name__ == "__main__":
    unittest.main()
