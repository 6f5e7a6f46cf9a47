"""`.ci/test` itself: modules side by side and alone, what it lists at the end, and that nothing of it stays.

It runs in a small repository of its own, with a copy of the scripts and modules of tests that are written here.
"""
from __future__ import annotations

import os
import re
import shutil
import signal
import subprocess
import sys
import tempfile
import time
import unittest
from pathlib import Path

TOP = Path(__file__).resolve().parents[2]
SECONDS = 300
HEAD = "import os, pathlib, time, unittest\nTOP = pathlib.Path(__file__).parents[2]\n\n\nclass Some(unittest.TestCase):\n"
PASSES = "    def test_passes(self):\n        for number in range(3):\n            with self.subTest(number):\n                pass\n"
FAILS = '    def test_fails(self):\n        print("stray words")\n        self.assertEqual(1, 2)\n'
LEFT = '    @unittest.skip("this machine has no lamp")\n    def test_lamp(self):\n        pass\n'
LEFT_WHOLE = '    @classmethod\n    def setUpClass(cls):\n        raise unittest.SkipTest("this machine has no wick")\n\n' + PASSES
CANT_BE_LOADED = "    import no_such_lamp\n"
DIES = "    def test_dies(self):\n        os._exit(7)\n"
# It says when it runs, and waits for another one that runs at the same time.
MEETS = """    def test_meets(self):
        (TOP / "{own}").touch()
        end = time.monotonic() + 200
        while not (TOP / "{other}").exists():
            self.assertLess(time.monotonic(), end)
            time.sleep(0.01)
"""
# It fails if another one runs at the same time.
ALONE = """    def test_is_alone(self):
        mark = TOP / "alone"
        mark.mkdir()
        time.sleep(0.3)
        mark.rmdir()
"""
GOES_ON = """    def test_goes_on(self):
        (TOP / "begun").write_text(str(os.getpid()))
        time.sleep(250)
"""


class TestCommand(unittest.TestCase):
    """A small repository."""

    def setUp(self) -> None:
        room = tempfile.TemporaryDirectory()
        self.addCleanup(room.cleanup)
        self.top, self.temporary = Path(room.name, "top"), Path(room.name, "tmp")
        self.temporary.mkdir()
        for name in ("lint", "testing"):
            (self.top / ".ci" / name).mkdir(parents=True)
        shutil.copy(TOP / ".ci/test", self.top / ".ci/test")
        for path in (TOP / ".ci/testing").glob("*.py"):
            shutil.copy(path, self.top / ".ci/testing" / path.name)
        order = self.top / ".ci/testing/order.py"
        changed = re.sub(r"(?s)ALONE = \{.*?\n\}", 'ALONE = {"lamps.first_alone": "", "lamps.second_alone": ""}', order.read_text())
        order.write_text(re.sub(r"(?s)FIRST = \(.*?\n\)", 'FIRST = ("lamps.third", "lamps.second")', changed))
        (self.top / ".ci/lint/tidy.py").write_text('def cases():\n    yield "a", ""\n    yield "b", None\n')
        (self.top / "tests/lamps").mkdir(parents=True)
        (self.top / "tests/__init__.py").touch()
        (self.top / "tests/lamps/__init__.py").touch()

    def module(self, name: str, *tests: str) -> None:
        (self.top / f"tests/lamps/test_{name}.py").write_text(HEAD + "\n".join(tests))

    def start(self, *words: str) -> subprocess.Popen[str]:
        return subprocess.Popen(
            [sys.executable, ".ci/test", *words], cwd=self.top, env={**os.environ, "TMPDIR": str(self.temporary)}, stdout=subprocess.PIPE,
            stderr=subprocess.STDOUT, text=True
        )

    def ran(self, *words: str) -> tuple[int, list[str]]:
        """The status, and the lines that were printed, with the seconds left out."""
        run = self.start(*words)
        said, _ = run.communicate(timeout=SECONDS)
        self.assertEqual(list(self.temporary.iterdir()), [], "nothing is left in the folder for temporary files")
        return run.returncode, re.sub(r"\d+\.\d s\n", "N s\n", said).splitlines()

    def test_all_is_well(self) -> None:
        self.module("good", PASSES)
        for words in ([], ["lamps", "tidy"]):
            self.assertEqual(self.ran(*words), (0, ["lamps.good: 3 passed, 0 failed, N s", "tidy: 2 passed, 0 failed, N s", "5 passed, 0 failed"]))
        status, lines = self.ran("-j")
        self.assertEqual((status, lines[2:]), (0, ["5 passed, 0 failed"]))
        said = {line.partition("] ")[2] for line in lines[:2]}
        self.assertEqual(said, {"lamps.good: 3 passed, 0 failed, N s", "tidy: 2 passed, 0 failed, N s"})
        self.assertEqual([line.partition(" ")[0] for line in lines[:2]], ["[1/2]", "[2/2]"])

    def test_what_failed_and_what_was_left_out_is_at_the_end(self) -> None:
        self.module("bad", FAILS, PASSES)
        self.module("dark", LEFT)
        self.module("dead", DIES)
        status, lines = self.ran("-j1")
        self.assertEqual(status, 1)
        end = lines[lines.index("left out: 1, for these reasons:") :]
        self.assertEqual(end, [
            "left out: 1, for these reasons:", "  this machine has no lamp", "    lamps.test_dark.Some.test_lamp", "failed: 2",
            "  lamps.test_bad.Some.test_fails: 1 != 2", "  lamps.dead: its process ended with status 7", "5 passed, 2 failed",
        ])
        self.assertIn("FAILED lamps.test_bad.Some.test_fails: 1 != 2", lines)
        self.assertIn("stray words", lines, "what a module with a failure said is shown")

    def test_a_class_that_is_left_out_and_a_module_that_cant_be_loaded(self) -> None:
        self.module("dark", LEFT_WHOLE)
        self.module("lost", CANT_BE_LOADED)
        _, lines = self.ran("-j1")
        self.assertEqual(lines[lines.index("left out: 1, for these reasons:") :], [
            "left out: 1, for these reasons:", "  this machine has no wick", "    lamps.test_dark.Some", "failed: 1",
            "  unittest.loader._FailedTest.test_lost: it can't be loaded: ModuleNotFoundError: No module named 'no_such_lamp'",
            "2 passed, 1 failed",
        ])

    def test_modules_run_side_by_side(self) -> None:
        self.module("one", MEETS.format(own="one", other="two"))
        self.module("two", MEETS.format(own="two", other="one"))
        self.assertEqual(self.ran("-j2", "lamps")[1][-1], "2 passed, 0 failed")

    def test_those_that_run_alone_come_last(self) -> None:
        for name in ("first_alone", "second_alone"):
            self.module(name, ALONE)
        self.module("third", ALONE)
        status, lines = self.ran("-j3", "lamps")
        self.assertEqual((status, lines[-1]), (0, "3 passed, 0 failed"))
        self.assertEqual([line.split(" ")[1] for line in lines[:-1]], ["lamps.third:", "lamps.first_alone:", "lamps.second_alone:"])

    def test_broken_off(self) -> None:
        self.module("long", GOES_ON)
        for words in (["-j2", "lamps"], ["lamps"]):
            (self.top / "begun").unlink(missing_ok=True)
            run = self.start(*words)
            end = time.monotonic() + SECONDS
            while not (self.top / "begun").exists() or not (self.top / "begun").read_text():
                self.assertLess(time.monotonic(), end)
                time.sleep(0.01)
            run.send_signal(signal.SIGTERM)
            said, _ = run.communicate(timeout=SECONDS)
            self.assertEqual((run.returncode, said.splitlines()[-1]), (130, "broken off"))
            self.assertFalse(Path("/proc", (self.top / "begun").read_text()).exists(), "what it started has ended")
            self.assertEqual(list(self.temporary.iterdir()), [])

    def test_a_folder_in_which_no_program_can_be_run(self) -> None:
        self.module("good", PASSES)
        mounted = ["unshare", "--map-root-user", "--mount", "sh", "-c", 'mount -t tmpfs -o noexec tmpfs "$0" && exec "$@"', str(self.temporary)]
        tried = subprocess.run([*mounted, "true"], capture_output=True, text=True) if shutil.which("unshare") else None
        if not tried or tried.returncode:
            self.skipTest(f"this machine mounts nothing: {tried.stderr.strip() if tried else 'the command unshare is missing'}")
        env = {**os.environ, "TMPDIR": str(self.temporary)}
        ran = subprocess.run([*mounted, sys.executable, ".ci/test", "lamps"], cwd=self.top, env=env, capture_output=True, text=True, timeout=SECONDS)
        self.assertEqual((ran.returncode, ran.stdout.splitlines()[-1]), (0, "3 passed, 0 failed"))
        self.assertIn(f"no program can be run in {self.temporary} (is it mounted noexec?): the tests use /", ran.stderr)

    def test_words_that_mean_nothing(self) -> None:
        self.module("good", PASSES)
        for word, said in (("lamp", "no subject is named lamp; there are lamps, "), ("-j0", "a number from 1 on"), ("-k", "has no word -k")):
            status, lines = self.ran(word)
            self.assertEqual((status, len(lines), said in lines[0]), (1, 1, True), lines)

    def test_the_longest_begin_first(self) -> None:
        for name in ("first", "second", "third"):
            self.module(name, PASSES)
        _, lines = self.ran("-j1", "lamps")
        self.assertEqual([line.split(" ")[1] for line in lines[:-1]], ["lamps.third:", "lamps.second:", "lamps.first:"])

    def test_each_module_that_has_its_place_is_there(self) -> None:
        names = re.findall(r'^    "([a-z_.]+)"[:,]', (TOP / ".ci/testing/order.py").read_text(), re.MULTILINE)
        self.assertGreater(len(names), 20)
        for name in names:
            file = f"tests/{name.replace('.', '/test_')}.py" if "." in name else f".ci/lint/{name}.py"
            self.assertTrue((TOP / file).is_file(), name)


if __name__ == "__main__":
    unittest.main()
