"""`make demo`: it prints an address and passwords that work, says what is missing, and leaves nothing running and no file at its end."""

import http.client
import os
import pathlib
import re
import signal
import subprocess
import sys
import tempfile
import unittest
import urllib.parse

from tests.support import processes
from tests.support.operating import SECONDS, TOOLS
from tests.support.program import MOO, TOP
from tests.support.pages import lacking as lacking_pages
from tests.support.web import DEBIANS_PYTHON, WEB, lacking

FOUND = re.compile(r"http://127\.0\.0\.1:(\d+)/")
LINE = re.compile(r"^    (\w+) +([0-9a-f]{8}) +(\S.*)$", re.M)


class DemoTest(unittest.TestCase):
    def setUp(self):
        if why := lacking() or lacking_pages():
            self.skipTest(why)
        room = tempfile.TemporaryDirectory()
        self.addCleanup(room.cleanup)
        self.addCleanup(processes.end_all)
        self.room = pathlib.Path(room.name)

    def start(self, *words):
        """A demo whose folder is in this room, and what it says up to the line about Ctrl-C."""
        env = dict(os.environ, TMPDIR=str(self.room), MOO=MOO)
        demo = processes.start(
            [str(word) for word in words] or ["make", "-s", "-C", str(TOP), "-o", "all", "demo", f"MOO={MOO}"], env=env,
            stdout=subprocess.PIPE,
            stderr=subprocess.STDOUT, text=True, start_new_session=True,
            # A shell that runs the tests in the background has them ignore Ctrl-C, and what they start would, too.
            preexec_fn=lambda: signal.signal(signal.SIGINT, signal.SIG_DFL),
        )  # fmt: skip
        self.addCleanup(lambda: demo.poll() is None and os.killpg(demo.pid, signal.SIGKILL))
        said = []
        while not said or "Ctrl-C" not in said[-1]:
            line = demo.stdout.readline()
            self.assertTrue(line, "".join(said))
            said.append(line)
        return demo, "".join(said)

    def running(self):
        """The processes that have the room in their words."""
        found = []
        for entry in pathlib.Path("/proc").iterdir():
            if entry.name.isdigit():
                try:
                    words = (entry / "cmdline").read_bytes().decode(errors="replace")
                except OSError:
                    continue
                if str(self.room) in words:
                    found.append(words.replace("\0", " "))
        return found

    def sign_in(self, port, name, password):
        connection = http.client.HTTPConnection("127.0.0.1", port, timeout=SECONDS)
        connection.request("POST", "/in", urllib.parse.urlencode({"name": name, "password": password, "to": "/history"}))
        answer = connection.getresponse()
        answer.read()
        cookie = (answer.getheader("Set-Cookie") or "").partition(";")[0]
        connection.request("GET", "/history", headers={"Cookie": cookie})
        answer = connection.getresponse()
        text = answer.read().decode()
        connection.close()
        return answer.status, text


class Runs(DemoTest):
    def test_the_address_and_the_passwords(self):
        for number in (signal.SIGINT, signal.SIGTERM):
            demo, said = self.start()
            port, people = int(FOUND.search(said)[1]), LINE.findall(said)
            self.assertEqual([name for name, _, _ in people], ["wizard", "ada", "ben", "cleo"])
            self.assertEqual(len({password for _, password, _ in people}), 4)
            for (name, password, _), batches in zip(people, (10, 4, 3, 3)):
                status, text = self.sign_in(port, name, password)
                self.assertEqual(status, 200)
                self.assertIn(f"{batches} batch", re.sub("<[^>]+>", "", text))
            self.assertEqual(self.sign_in(port, "ada", people[0][1])[0], 401)
            self.assertEqual(len([words for words in self.running() if " serve " in words or "moo-web" in words]), 2)
            # Ctrl-C goes to every process of the terminal.
            os.killpg(demo.pid, number)
            rest, _ = demo.communicate(timeout=SECONDS)
            self.assertNotIn("Traceback", rest)
            self.assertEqual(self.running(), [])
            self.assertEqual(list(self.room.iterdir()), [])

    def test_the_rooms_that_people_are_in(self):
        demo, said = self.start(WEB / "moo-demo", "--moo", MOO)
        name, password, _ = LINE.findall(said)[0]
        text = self.sign_in(int(FOUND.search(said)[1]), name, password)[1]
        for wanted in ("The Village", "Ben&#39;s Boat", "brass lamp"):
            self.assertIn(wanted, text)
        demo.send_signal(signal.SIGINT)
        self.assertEqual(demo.wait(SECONDS), 0)
        self.assertEqual(self.running(), [])

    def test_a_signal_whose_exception_is_thrown_away(self):
        """It comes while an object is freed, before anything was started."""
        words = [DEBIANS_PYTHON, "-I", processes.SIGNALLED, int(signal.SIGTERM), "moo_web.demo", "lacking", "moo_web.demo", "--moo", MOO]
        how = {"env": dict(os.environ, TMPDIR=str(self.room)), "stdout": subprocess.PIPE, "stderr": subprocess.DEVNULL}
        demo = processes.start([str(word) for word in words], **how)
        said, _ = demo.communicate(timeout=60)
        self.assertEqual((demo.returncode, said), (0, b"\nIt is over, and nothing is left.\n"))
        self.assertEqual((self.running(), list(self.room.iterdir())), ([], []))


class Lacks(DemoTest):
    def ended(self, script, *words):
        """How a demo ends that can't run, and what it says."""
        words = [sys.executable, "-I", "-c", f"import sys; sys.path[:0] = {[str(WEB), str(TOOLS)]!r}; {script}; sys.argv[0] = 'moo-demo'\n"
                 "from moo_web.demo import main; main()", *map(str, words)]  # fmt: skip
        env = dict(os.environ, TMPDIR=str(self.room))
        ran = subprocess.run(words, capture_output=True, text=True, timeout=SECONDS, env=env, check=False)
        return ran.returncode, ran.stdout, ran.stderr

    def test_what_is_missing_is_named_with_the_command_that_installs_it(self):
        for script, told in (
            ("sys.modules['jinja2'] = None", "python3-jinja2 is missing: apt-get install python3-jinja2"),
            (
                "sys.modules['waitress'] = sys.modules['jinja2'] = None",
                "python3-waitress and python3-jinja2 are missing: apt-get install python3-waitress python3-jinja2",
            ),
        ):  # fmt: skip
            self.assertEqual(self.ended(script, "--moo", MOO), (1, "", f"moo-demo: {told}\n"))
        status, printed, told = self.ended("pass", "--moo", self.room / "moo")
        self.assertEqual((status, printed), (1, ""))
        self.assertIn(f"the program {self.room}/moo is missing: run 'make'", told)
        self.assertEqual(list(self.room.iterdir()), [])

    def test_a_program_that_fails_leaves_nothing(self):
        status, printed, told = self.ended("pass", "--moo", "/bin/false")
        self.assertEqual((status, printed), (1, ""))
        self.assertIn("a world can't be made", told)
        self.assertEqual(list(self.room.iterdir()), [])


class Without(DemoTest):
    def test_the_front_without_jinja2_serves_programs(self):
        """The line names the package, a browser is told so, and /api works."""
        from tests.support.operating import KeptService, make_world
        from tests.support.web import Front, add_person, ask

        make_world(self.room / "world.db", "")
        moo = KeptService(self.room / "world.db")
        self.addCleanup(moo.stop)
        token = add_person(self.room / "front", "wizard", 3)
        script = f"import sys; sys.path[:0] = {[str(WEB), str(TOOLS)]!r}; sys.modules['jinja2'] = None\n"
        script += "from moo_web.serving import main; main()"
        front = Front(self.room / "front", moo.port, script=(sys.executable, "-I", "-c", script))
        self.assertTrue(front.is_listening(), front.said())
        told = "there are no pages, since python3-jinja2 is missing: apt-get install python3-jinja2."
        self.assertIn(f"{told} What programs ask for", front.said())
        self.assertEqual(ask(front.port, "POST", "/api/batch", {"calls": ["max_object()"]}, token), (200, {"answers": ["#3"], "seq": 1}))
        self.assertEqual(ask(front.port, "GET", "/"), (503, f"{told}\n"))
        front.kill()


if __name__ == "__main__":
    unittest.main()
