"""The program is killed at calls on its two files that are drawn by lot: while it opens, migrates, commits, copies its log and closes.

A run without a kill tells the calls on the files. Then each of some of them is the last one of a run of its own. The file has to open then,
with the number of the last batch that was acknowledged or one more; SQLite has to find the rows of just these batches; and so it has to be
if opening is killed too. It wants strace.
"""
import random
import re
import shutil
import sqlite3
import subprocess
import unittest

from tests.support.cases import ProgramTest
from tests.support.columns import OPENING_OBJECTS, first_objects, thing
from tests.support.first import make_first
from tests.support.program import MOO
from tests.support.service import PATIENCE
from tests.support.worlds import remove

WORLD, BEGIN = "world.db", "begin.db"
KILLED = (-9, 137)
# The seed of the lots, and how many calls of a task are drawn.
SEED, DRAWN = 76, 40
BATCHES = 500
# The objects of a new world.
OPENING = 4
# With pages of 1,024 bytes the log gets so long that it is copied several times within the run.
LONG = "x" * 6000


def text(count):
    """So many batches, of which each makes one object and gives it a long name with its number."""
    return "".join(f'batch as #3\ncreate(#1)\nset(#{OPENING + at}, "name", "{at + 1} {LONG}")\nend\n' for at in range(count)).encode()


def acknowledged(printed):
    """How many batches were answered `accepted`, in replies that are whole."""
    return len(re.findall(rb"^accepted \d+\n(?:.+\n)*?end\n", printed, re.M))


def run(words, given=b"", before=()):
    """How the program ends, under a command if one is given before it."""
    return subprocess.run([*before, MOO, *words], input=given, stdout=subprocess.PIPE, stderr=subprocess.DEVNULL, timeout=PATIENCE, check=False)


def restore(file):
    """The world of the test is that of this file again, without a log."""
    remove(WORLD)
    shutil.copy(file, WORLD)


def calls(words, given=b""):
    """The calls on the two files that the program makes: the name of each, and which of its name it is."""
    run(words, given, ["strace", "-y", "-o", "trace"])
    counts, found = {}, []
    with open("trace", encoding="utf-8", errors="replace") as lines:
        for line in lines:
            called = re.match(r"(\w+)\((.*)", line)
            if called:
                name = called[1]
                counts[name] = counts.get(name, 0) + 1
                if name != "execve" and re.search(r'world\.db(-\w+)?[">]', called[2]):
                    found.append((name, counts[name]))
    return found


def kill(words, call, given=b""):
    """A run that is killed as it makes this call."""
    name, number = call
    traced = ["strace", "-qq", "-o", "/dev/null", "-e", f"trace={name}", "-e", f"inject={name}:signal=KILL:when={number}"]
    return run(words, given, traced)


def seen_by_sqlite():
    """The number of the last batch, and the numbers and names of the objects that batches made, as SQLite reads them."""
    connection = sqlite3.connect(WORLD)
    ((number,),) = connection.execute("select seq from head").fetchall()
    made = connection.execute("select n, name from object where n >= ? order by n", (OPENING,)).fetchall()
    connection.close()
    return number, made


def wanted(number):
    """The same after so many batches."""
    return number, [(OPENING + at, f"{at + 1} {LONG}") for at in range(number)]


@unittest.skipUnless(shutil.which("strace"), "strace isn't there")
class TestKilled(ProgramTest):
    """A kill at calls that are drawn by lot."""

    def test_batches(self):
        """Opening, commits, the copying of the log in between, and closing."""
        self.assertEqual(run(["init", BEGIN]).returncode, 0)
        restore(BEGIN)
        lots, all_calls = random.Random(SEED), calls(["apply", WORLD, "-"], text(BATCHES))
        self.assertEqual(seen_by_sqlite(), wanted(BATCHES))
        self.assertGreater(len(all_calls), BATCHES)
        drawn = lots.sample(all_calls[:-8], DRAWN - 16) + all_calls[:8] + all_calls[-8:]
        for call in drawn:
            restore(BEGIN)
            ran = kill(["apply", WORLD, "-"], call, text(BATCHES))
            last = acknowledged(ran.stdout)
            self.case(f"{call}: killed", ran.returncode in KILLED, True)
            # Opening is killed too, and then goes on.
            opening = calls(["check", WORLD])
            kill(["check", WORLD], lots.choice(opening))
            checked = run(["check", WORLD])
            found = re.fullmatch(rb"ok seq (\d+) objects (\d+)\n", checked.stdout)
            number = int(found[1]) if found else -1
            self.case(f"{call}: {last} acknowledged", (number - last in (0, 1), checked.returncode), (True, 0))
            self.case(f"{call}: the rows", seen_by_sqlite() if found else None, wanted(number))

    def test_migration(self):
        """A file of version 1 that is opened: it stays of version 1, or is of version 2, with the same objects."""
        rows = {
            "head": [(1, 1, 9, 43, 2, 1)],
            "object": first_objects([*OPENING_OBJECTS, *(thing(number) for number in range(4, 44))]),
            "prop": [(1, 4, "a")],
            "slot": [(4, 1, 3, "rc", "7")],
            "verb": [],
        }
        make_first(BEGIN, rows)
        restore(BEGIN)
        lots, all_calls = random.Random(SEED), calls(["check", WORLD])
        self.assertGreater(len(all_calls), 0)
        for call in lots.sample(all_calls, min(DRAWN, len(all_calls))):
            restore(BEGIN)
            ran = kill(["check", WORLD], call)
            self.case(f"{call}: killed", ran.returncode in KILLED, True)
            checked = run(["check", WORLD])
            self.case(f"{call}: opens", (checked.returncode, checked.stdout), (0, b"ok seq 9 objects 44\n"))
            connection = sqlite3.connect(WORLD)
            self.case(f"{call}: version", connection.execute("select version from head").fetchall(), [(2,)])
            self.case(f"{call}: slots", connection.execute("select object, prop, owner, value from slot2").fetchall(), [(4, 1, 3, "7")])
            connection.close()
