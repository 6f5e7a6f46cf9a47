"""The programs of examples/programs/, run as their pages say: a game of two that is played, and clients in three languages."""

import os
import re
import shutil
import subprocess
import sys
import unittest

from tests.support import TOOLS
from tests.support.operating import KeptService, SECONDS, said
from tests.support.program import TOP
from tests.support.web import Front, RoomTest, add_person, use_web
from tests.web.test_programs import AtFront

use_web()

import moo_client  # noqa: E402
from moo_web.interface.interface import CAUSES  # noqa: E402
from moolib.errors import MANUAL  # noqa: E402

FOLDER = TOP / "examples/programs"
# Moves, and what the rules make of them.
GAME = (
    ("ada: look", ["ada: Hall: ben, lamp; exits up, east"]),
    ("ben: take lamp", ["ben: taken: lamp", "ada sees: lamp goes"]),
    ("ada: take lamp", ["ada: no lamp here"]),
    ("ben: east", ["ben: Garden: apple; exits west, down", "ada sees: ben goes"]),
    ("ada: north", ["ada: no way there"]),
    ("ada: east", ["ada: Garden: apple, ben; exits west, down", "ben sees: ada comes"]),
    ("ben: drop lamp", ["ben: dropped: lamp", "ada sees: lamp comes"]),
    ("ada: take ben", ["ada: no ben here"]),
    ("ada: make kite", ["ada: made: kite", "ben sees: kite comes"]),
    ("ada: make drum", ["ada: nothing left to make it of"]),
    ("ada: beg", ["ada: granted"]),
    ("ada: make drum", ["ada: made: drum", "ben sees: drum comes"]),
    ("ben: take drum", ["ben: taken: drum", "ada sees: drum goes"]),
    ("ada: beg", ["ada: granted"]),
    ("ada: make bell", ["ada: made: bell", "ben sees: bell comes"]),
    ("ada: beg", ["ada: declined"]),
    ("ada: make flag", ["ada: nothing left to make it of"]),
    ("ben: make flag", ["ben: made: flag", "ada sees: flag comes"]),
    ("ben: down", ["ben: Cellar: nothing; exits up", "ada sees: ben goes"]),
)


class Examples(AtFront):
    """A front, and programs that talk to it."""

    def ran(self, *words, text=""):
        """What a program prints."""
        env = dict(os.environ, PYTHONPATH=str(TOOLS), PYTHONDONTWRITEBYTECODE="1")
        done = subprocess.run([str(word) for word in words], input=text, capture_output=True, text=True, timeout=SECONDS, env=env, check=False)
        self.assertEqual((done.returncode, done.stderr), (0, ""))
        return done.stdout

    def test_the_game(self):
        world = self.world("wizard")
        # A player owns nothing at the begin, so that what ada has are the things of the game.
        world.run(["recycle(#6)", "recycle(#7)"])
        people = [f"{name}={number}={self.tokens[name]}" for name, number in (("wizard", 3), ("ada", 4), ("ben", 5))]
        came = self.ran(sys.executable, FOLDER / "game.py", self.url, *people, text="".join(f"{move}\n" for move, _ in GAME))
        self.assertEqual(came.splitlines(), [line for _, lines in GAME for line in lines])
        self.moo.stop()
        self.assertRegex(said("check", self.room / "world.db")[1], r"^ok seq \d+ objects 18\n$")

    def test_python(self):
        self.compare(sys.executable, FOLDER / "inn.py")

    def test_javascript(self):
        self.compare(self.found("node"), FOLDER / "inn.mjs")

    def test_perl(self):
        self.compare(self.found("perl"), FOLDER / "inn.pl")

    def test_shell(self):
        self.found("curl")
        self.compare("sh", FOLDER / "inn.sh")

    def found(self, name):
        """A program of this machine."""
        path = shutil.which(name)
        if not path:
            self.skipTest(f"this machine has no {name}")
        return path

    def compare(self, *words):
        """Each of these programs does the same: it makes an inn, reads it, is refused, and follows."""
        printed = self.ran(*words, self.url, self.tokens["ada"])
        wanted = ["made #8", "The Inn has 3 beds and #4 owns it", "refused: E_PERM at call 1", "changed: #8"]
        self.assertEqual(printed.splitlines(), wanted)
        self.assertEqual(self.world("ada").object(8)["name"], "The Inn")


class Pages(RoomTest):
    """The commands of docs/HTTP.md that ask a front, run in their order in a new world."""

    def test_answers_are_as_printed(self):
        if not shutil.which("curl"):
            self.skipTest("this machine has no curl")
        self.assertEqual(said("init", self.room / "world.db")[0], 0)
        moo = KeptService(self.room / "world.db")
        self.addCleanup(moo.stop)
        token = add_person(self.room / "front", "wizard", 3)
        front = Front(self.room / "front", moo.port)
        lines = (TOP / "docs/HTTP.md").read_text().splitlines()
        commands = [(line.strip(), wanted.strip()) for line, wanted in zip(lines, lines[1:]) if "Bearer TOKEN" in line]
        self.assertEqual(len(commands), 2)
        for command, wanted in commands:
            with self.subTest(command):
                command = command.replace("TOKEN", token).replace("8088", str(front.port))
                self.assertEqual(subprocess.run(["sh", "-c", command], capture_output=True, text=True, timeout=SECONDS, check=True).stdout, wanted)

    def test_each_error_is_on_its_page(self):
        text = (TOP / "docs/ERRORS.md").read_text()
        codes = [*(cause.code for cause in CAUSES), *MANUAL, "full"]
        self.assertEqual([code for code in codes if f"`{code}`" not in text], [])
        for kind in re.findall(r"`([A-Z]\w+)` \|$", text, re.MULTILINE):
            self.assertTrue(issubclass(getattr(moo_client, kind), moo_client.MooError), kind)


if __name__ == "__main__":
    unittest.main()
