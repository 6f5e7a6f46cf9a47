"""How moo-web ends at a signal: always, whatever it does at that moment.

`ENDS` in the environment is another number of fronts that end at a random moment (8), `SEED` the seed.
"""

import contextlib
import http.client
import os
import random
import signal
import subprocess
import threading
import time
import unittest

from tests.support import processes
from tests.support.operating import TOOLS
from tests.support.web import DEBIANS_PYTHON, Front, WEB, ask
from tests.web.test_serving import ServingTest

STARTS, SERVES = ("moo_web.serving", "need_server"), ("moo_web.status.heart", "Heart.beat")
ENDS = int(os.environ.get("ENDS", 8))
# It takes ten at most to end in order. A front that has missed the signal never ends.
LONGEST_END = 60.0
BATCH = {"calls": ["max_object()"]}
# A front whose second disk doesn't answer once the file `stuck` is there. Then it makes the file `waits`.
STUCK = f"""
import os, pathlib, sys, threading
sys.path[:0] = {[str(WEB), str(TOOLS)]!r}
room, sync = pathlib.Path(sys.argv.pop(1)), os.fdatasync
def slow(file):
    if threading.current_thread().name.startswith("second-disk") and (room / "stuck").exists():
        (room / "waits").touch()
        threading.Event().wait()
    sync(file)
os.fdatasync = slow
from moo_web.serving import main
main()
"""


class EndTest(ServingTest):
    def ended(self, front):
        """The status with which a front ends by now."""
        try:
            return front.process.wait(LONGEST_END)
        except subprocess.TimeoutExpired:
            return f"it goes on: {front.said()}"


    def send_batch(self, front):
        """Sends a batch, whether it is answered or not."""
        with contextlib.suppress(OSError, http.client.HTTPException):
            ask(front.port, "POST", "/api/batch", BATCH, self.token)


class Signals(EndTest):
    def test_one_that_comes_while_an_object_is_freed(self):
        """What a handler raises then is thrown away, as it is during an import."""
        for number, moment, status in (
            (signal.SIGTERM, STARTS, 0), (signal.SIGTERM, SERVES, 0), (signal.SIGINT, STARTS, 130), (signal.SIGINT, SERVES, 0)
        ):  # fmt: skip
            with self.subTest(f"{number.name} after {moment[1]}"), processes.inherited_signal(number, signal.SIG_DFL):
                script = (DEBIANS_PYTHON, "-I", processes.SIGNALLED, int(number), *moment, "moo_web.serving")
                self.assertEqual(self.ended(Front(self.folder, self.moo.port, script=script, wait=False)), status)

    def test_one_that_comes_at_any_moment(self):
        """Before Python has begun with its work, a signal ends it as any program."""
        began = time.monotonic()
        self.front().kill()
        longest = 1.5 * (time.monotonic() - began)
        chance = random.Random(os.environ.get("SEED"))
        for place in range(ENDS):
            rest = chance.uniform(0, longest)
            with self.subTest(f"{place}: after {rest:.3f} of {longest:.3f} seconds"):
                front = Front(self.folder, self.moo.port, wait=False)
                time.sleep(rest)
                front.process.send_signal(signal.SIGTERM)
                self.assertIn(self.ended(front), (0, -signal.SIGTERM))
                self.assertNotIn("Traceback", front.said())

    def test_one_that_comes_while_it_waits_for_moo(self):
        self.moo.stop()
        front = Front(self.folder, self.moo.port, wait=False)
        while "doesn't answer" not in front.said():
            time.sleep(0.05)
        front.process.send_signal(signal.SIGTERM)
        self.assertEqual(self.ended(front), 0)

    def test_a_second_one(self):
        """It ends a front at once that waits for what is being answered. Here moo is stopped, so that nothing is."""
        with processes.inherited_signal(signal.SIGINT, signal.SIG_DFL):
            front = self.front()
        os.kill(self.moo.process.pid, signal.SIGSTOP)
        self.addCleanup(os.kill, self.moo.process.pid, signal.SIGCONT)
        threading.Thread(target=self.send_batch, args=(front,), daemon=True).start()
        time.sleep(1)
        front.process.send_signal(signal.SIGTERM)
        time.sleep(1)
        self.assertIsNone(front.process.poll())
        front.process.send_signal(signal.SIGINT)
        # By the first one its status would be 0.
        self.assertEqual(self.ended(front), 130)

    def test_one_that_comes_while_a_disk_does_not_answer(self):
        """The thread that waits for the disk isn't waited for."""
        script = (DEBIANS_PYTHON, "-I", "-c", STUCK, self.room)
        front = self.front("--journal", self.room / "second", script=script)
        (self.room / "stuck").touch()
        threading.Thread(target=self.send_batch, args=(front,), daemon=True).start()
        while not (self.room / "waits").exists():
            time.sleep(0.05)
        front.process.send_signal(signal.SIGTERM)
        self.assertEqual(self.ended(front), 0)

    def test_one_that_is_ignored(self):
        """As Ctrl-C is in the background of a shell."""
        with processes.inherited_signal(signal.SIGINT, signal.SIG_IGN):
            front = self.front()
        front.process.send_signal(signal.SIGINT)
        self.assertEqual(ask(front.port, "POST", "/api/batch", BATCH, self.token)[0], 200)


if __name__ == "__main__":
    unittest.main()
