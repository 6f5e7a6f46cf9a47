"""A world and its front in a network of their own, as their units have it: nobody else comes in, or takes a port, while both are killed.

The network is made by `ip netns`, and this test holds the front's port, as systemd does. Another user tries to connect to moo's port, or to
play moo outside, and to take the front's port (packaging/rehearsing/stranger.py). It wants root. `packaging/rehearse` does the same with
the units under systemd.
"""

import os
import pathlib
import random
import shutil
import socket
import subprocess
import tempfile
import time
import unittest

from tests.support import processes
from tests.support.operating import SECONDS, checked, make_world
from tests.support.program import MOO, TOP
from tests.support.web import DEBIANS_PYTHON, WEB, add_person, ask, lacking

KILLS = 12
# The seconds for which it goes on at least.
LONG_ENOUGH = 10
NOBODY = 65534
NETWORK = f"moo-test-{os.getpid()}"


def why_not():
    """What is missing for it."""
    if os.geteuid() != 0:
        return "it wants root"
    if not shutil.which("ip"):
        return "the command ip is missing: apt-get install iproute2"
    made = subprocess.run(["ip", "netns", "add", NETWORK], stdout=subprocess.DEVNULL, stderr=subprocess.DEVNULL, check=False)
    if made.returncode:
        return "this machine makes no networks"
    return lacking()


class Alone(unittest.TestCase):
    """A world in a network of its own, at a port that somebody else may have outside."""

    def setUp(self):
        if why := why_not():
            self.skipTest(why)
        self.addCleanup(subprocess.run, ["ip", "netns", "delete", NETWORK], stderr=subprocess.DEVNULL, check=False)
        subprocess.run(["ip", "-n", NETWORK, "link", "set", "lo", "up"], check=True)
        room = tempfile.TemporaryDirectory()
        self.addCleanup(room.cleanup)
        self.addCleanup(processes.end_all)
        self.room = pathlib.Path(room.name)
        make_world(self.room / "world.db", "")
        self.token = add_person(self.room / "front", "wizard", 3)
        # Outside, no other program gets this port by chance.
        self.port = random.randrange(20_000, 30_000)
        self.door = socket.create_server(("127.0.0.1", 0), backlog=128)
        self.addCleanup(self.door.close)
        self.web_port = self.door.getsockname()[1]

    def inside(self, words, **how):
        """A process in the network."""
        return processes.start(
            ["ip", "netns", "exec", NETWORK, *map(str, words)], stdout=subprocess.DEVNULL, stderr=subprocess.DEVNULL, **how
        )

    def moo(self):
        return self.inside([MOO, "serve", self.room / "world.db", self.port])

    def front(self):
        """The front, which is given its port as systemd gives it."""
        given = self.door.fileno()
        words = ["ip", "netns", "exec", NETWORK, DEBIANS_PYTHON, "-I", WEB / "moo-web", self.room / "front", "--moo-port", self.port]
        script = f'exec 3<&{given}; export LISTEN_PID=$$ LISTEN_FDS=1; exec "$@"'
        how = {"stdout": subprocess.DEVNULL, "stderr": subprocess.DEVNULL, "pass_fds": (given,)}
        return processes.start(["sh", "-c", script, "sh", *map(str, words)], **how)

    def stranger(self, way):
        """Another user, outside. The script comes by standard input, since that user can't read it."""
        words = [DEBIANS_PYTHON, "-", way, str(self.port), str(self.web_port)]
        with open(TOP / "packaging/rehearsing/stranger.py", "rb") as script:
            return processes.start(words, stdin=script, stdout=subprocess.PIPE, user=NOBODY, group=NOBODY, extra_groups=[], cwd="/")

    def answered(self):
        """The number that the front answers to a batch, in the end."""
        end = time.monotonic() + SECONDS
        while time.monotonic() < end:
            try:
                status, told = ask(self.web_port, "POST", "/api/batch", {"calls": ["max_object()"]}, self.token, wait=SECONDS)
            except OSError:
                status = 0
            if status == 200:
                return told["seq"]
            time.sleep(0.05)
        self.fail("the front doesn't answer")

    def test_a_stranger_stays_outside(self):
        chance = random.Random(1)
        for way in ("reach", "impostor"):
            with self.subTest(way):
                running = {"moo": self.moo(), "front": self.front()}
                stranger = self.stranger(way)
                last = self.answered()
                began = time.monotonic()
                rounds = 0
                # On a busy machine the stranger tries less often.
                while rounds < KILLS or time.monotonic() < began + LONG_ENOUGH:
                    rounds += 1
                    for name in chance.choice((["moo"], ["front"], ["moo", "front"])):
                        running[name].kill()
                        running[name].wait()
                        time.sleep(chance.uniform(0, 0.2))
                        running[name] = self.moo() if name == "moo" else self.front()
                    now = self.answered()
                    self.assertGreater(now, last)
                    last = now
                stranger.terminate()
                told = stranger.communicate(timeout=SECONDS)[0].decode().splitlines()
                self.assertEqual(len(told), 1, told)
                self.assertGreater(int(told[0].removeprefix("tried ")), 20)
                for process in running.values():
                    process.kill()
                    process.wait()
                self.assertEqual(checked(self.room / "world.db"), last)


if __name__ == "__main__":
    unittest.main()
