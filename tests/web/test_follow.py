"""A standby: moo-replay --follow of a live journal, or of a copy of it that moo-send brings up.

`Kills` kills the front and moo on one side and two standbys and the way to one of them on the other, while four clients write. Both
standbys have to end with the same dump as the world that was served, byte for byte, and one of them becomes a world with a front of its
own. `KILLS` in the environment is how many kills of each side (100), `SEED` the seed.
"""

import argparse
import contextlib
import io
import json
import os
import pathlib
import random
import re
import shutil
import signal
import socket
import sqlite3
import tempfile
import threading
import time
import unittest
from unittest import mock

from tests.support import processes
from tests.support.crashing_front import STEPS
from tests.support.operating import KeptService, Pace, SECONDS, checked, make_world, said
from tests.support.program import MOO
from tests.support.service import free_port
from tests.support.web import DEBIANS_PYTHON, Front, Kept, PASSWORD, RoomTest, WEB, add_person, ask, program, use_web
from tests.web.test_kills import FIRST, NAMES, SCRIPT, Client, done_by
from tests.web.test_replay import ReplayTest

use_web()

from moo_web.journal import following  # noqa: E402
from moo_web.journal.segments import FIRST_SUM, new_line  # noqa: E402
from moo_web.journal.tail import LinesGone, Tail  # noqa: E402
from moo_web.world.door import Door  # noqa: E402

KILLS = int(os.environ.get("KILLS", 100))
PATIENCE = 4 * SECONDS


class Standby:
    """`moo-replay FOLDER FILE --follow` as a process. `lines` are those that it has printed, `told` a file with what it says otherwise."""

    def __init__(self, folder, file, *words):
        self.told, self.out = pathlib.Path(f"{file}.told"), pathlib.Path(f"{file}.out")
        with open(self.told, "ab") as told, open(self.out, "wb") as out:
            how = {"stdout": out, "stderr": told, "env": dict(os.environ, MOO=MOO)}
            self.process = processes.start([str(WEB / "moo-replay"), str(folder), str(file), "--follow", *map(str, words)], **how)

    def lines(self):
        return self.out.read_text().splitlines()

    def said(self):
        return self.told.read_text()

    def wait_for(self, line, seconds=PATIENCE):
        """Waits until its last line is this one. If it ends first, or in that time isn't there, that is a failure."""
        end = time.monotonic() + seconds
        while self.lines()[-1:] != [line]:
            if self.process.poll() is not None or time.monotonic() > end:
                raise AssertionError(f"{line!r} didn't come: {self.lines()[-3:]}, {self.said()[-2000:]}")
            time.sleep(0.02)

    def stop(self):
        """Ends it as an operator does, and gives its status."""
        self.process.send_signal(signal.SIGTERM)
        return self.process.wait(SECONDS)


def journal_of(*objects):
    """The lines of a journal, each a `bytes`."""
    former, lines = FIRST_SUM, []
    for said_ in objects:
        former, text = new_line(former, said_)
        lines.append(text)
    return lines, former


def base(seq, segment=1, former=FIRST_SUM, why="new"):
    return {"k": "base", "version": 1, "segment": segment, "seq": seq, "former": former, "t": 1.0, "why": why}


def intent(at, calls=("max_object()",)):
    return {"k": "intent", "at": at, "t": 2.0, "who": "ada", "as": 3, "calls": list(calls), "answers": ["#3"]}


class Tails(unittest.TestCase):
    """What of a growing journal is read."""

    def setUp(self):
        room = tempfile.TemporaryDirectory()
        self.addCleanup(room.cleanup)
        self.folder = pathlib.Path(room.name)
        self.path = self.folder / "journal-0"
        self.kept, self.sum = journal_of(base(0), intent(0), {"k": "done", "seq": 1}, intent(1), {"k": "void", "at": 1, "answer": {}})

    def kinds(self, tail):
        return [line.kind for line in tail.lines()]

    def test_a_line_counts_when_it_is_whole(self):
        text, tail, given = b"".join(self.kept), Tail(self.folder), []
        self.assertEqual(self.kinds(tail), [])
        for length in range(len(text) + 1):
            self.path.write_bytes(text[:length])
            given += self.kinds(tail)
            self.assertEqual(len(given), text[:length].count(b"\n"), length)
        self.assertEqual(given, ["base", "intent", "done", "intent", "void"])

    def test_a_torn_line_is_cut_and_another_one_comes(self):
        tail = Tail(self.folder)
        self.path.write_bytes(b"".join(self.kept[:3]) + self.kept[3][:50])
        self.assertEqual(self.kinds(tail), ["base", "intent", "done"])
        self.assertEqual(tail.why, "its last line isn't whole")
        other, _ = journal_of(base(0), intent(0), {"k": "done", "seq": 1}, intent(1, ["players()"]))
        self.path.write_bytes(b"".join(other))
        self.assertEqual([line.said()["calls"] for line in tail.lines()], [["players()"]])

    def test_lines_that_are_lost_with_the_power(self):
        """Also if others are there in their place."""
        for left in (b"".join(self.kept[:2]), b"".join(self.kept[:2]) + b"x" * 5000, b""):
            tail = Tail(self.folder)
            self.path.write_bytes(b"".join(self.kept))
            self.assertEqual(len(self.kinds(tail)), 5)
            self.path.write_bytes(left)
            with self.assertRaises(LinesGone):
                self.kinds(tail)

    def test_a_wrong_sum(self):
        for old, new in ((b'"who":"ada"', b'"who":"eve"'), (b"\n", b"\r")):
            self.path.write_bytes(b"".join([self.kept[0], self.kept[1].replace(old, new, 1), *self.kept[2:]]))
            tail = Tail(self.folder)
            self.assertEqual(self.kinds(tail), ["base"])
            self.assertIn("journal-0, line 2: its sum is wrong", tail.why)

    def test_a_segment_comes_before_the_end_of_the_one_before(self):
        """As a copy may have it that is under way."""
        _, text = new_line(self.sum, base(1, 2, self.sum, "full"))
        (self.folder / "journal-1").write_bytes(text)
        self.path.write_bytes(b"".join(self.kept[:4]))
        tail = Tail(self.folder)
        self.assertEqual(self.kinds(tail), ["base", "intent", "done", "intent"])
        self.assertEqual(tail.why, "between journal-0 and journal-1 lines are missing")
        self.path.write_bytes(b"".join(self.kept))
        self.assertEqual(self.kinds(tail), ["void", "base"])

    def test_the_head_of_a_segment_is_torn(self):
        self.path.write_bytes(b"".join(self.kept))
        _, text = new_line(self.sum, base(1, 2, self.sum, "full"))
        tail = Tail(self.folder)
        self.assertEqual(len(self.kinds(tail)), 5)
        for length in range(len(text)):
            (self.folder / "journal-1").write_bytes(text[:length])
            self.assertEqual(self.kinds(tail), [])
        (self.folder / "journal-1").write_bytes(text)
        self.assertEqual(self.kinds(tail), ["base"])


class FollowTest(ReplayTest):
    """A standby of the folder of a front's writer."""

    def setUp(self):
        super().setUp()
        self.addCleanup(processes.end_all)

    def standby(self, *words, folder=None, file=None):
        return Standby(folder or self.folder, file or self.file, *words)

    def from_other(self):
        """The words for a standby that copies the folder."""
        return "--from", f"exec {WEB / 'moo-send'} {self.folder}"

    def assert_ends(self, standby, why):
        """It ends by itself, with status 1 and this in its last line."""
        self.assertEqual(standby.process.wait(SECONDS), 1)
        self.assertIn(why, standby.said())
        self.assertNotIn("Traceback", standby.said())


class Follows(FollowTest):
    def test_what_is_there_and_what_comes(self):
        self.write(["create(#1)"])
        standby = self.standby()
        standby.wait_for("seq 1")
        self.write(["create(#1)"], [PETITION], ["grant(1)"])
        standby.wait_for("seq 4")
        self.assertEqual(standby.stop(), 0)
        self.assertEqual((standby.lines()[-1], standby.said()), ("seq 4", ""))
        self.assert_same()
        self.assertEqual(self.replay(), (0, "seq 4\n", ""), "it is a world like any other")

    def test_a_journal_that_isnt_there_yet(self):
        standby = self.standby(folder=self.room / "later")
        standby.wait_for("seq 0")
        shutil.rmtree(self.folder)
        self.folder = self.room / "later"
        self.folder.mkdir()
        self.write(["create(#1)"])
        standby.wait_for("seq 1")

    def test_it_says_how_far_behind_it_is(self):
        """While another program has the world, and when it goes on."""
        self.write(*[["create(#1)"]] * 30)
        slow = self.room / "slow"
        slow.write_text(
            f'#!/bin/sh\n[ "$1" = apply ] || exec {MOO} "$@"\nwhile read -r line; do sleep 0.05; echo "$line"; done | {MOO} "$@"\n'
        )
        slow.chmod(0o755)
        standby = self.standby("--moo", slow)
        standby.wait_for("seq 30")
        behind = [re.fullmatch(r"seq (\d+) behind (\d+)", line) for line in standby.lines()[:-1]]
        self.assertTrue(behind)
        for line in behind:
            self.assertEqual(int(line[1]) + int(line[2]), 30)

    def test_it_has_all_when_it_is_stopped(self):
        """All that the journal has when the signal comes is run first."""
        standby = self.standby()
        standby.wait_for("seq 0")
        standby.process.send_signal(signal.SIGSTOP)
        self.write(*[["create(#1)"]] * 20)
        standby.process.send_signal(signal.SIGTERM)
        standby.process.send_signal(signal.SIGCONT)
        self.assertEqual((standby.process.wait(SECONDS), standby.lines()[-1]), (0, "seq 20"))
        self.assert_same()

    def test_an_intent_alone_isnt_run(self):
        self.write(["create(#1)"])
        path = self.folder / "journal-0"
        text = path.read_bytes()
        _, line = new_line(text.splitlines()[-1][:64].decode(), intent(1, ["create(#1)"]))
        path.write_bytes(text + line)
        standby = self.standby()
        standby.wait_for("seq 1")
        time.sleep(0.5)
        self.assertEqual((standby.stop(), standby.lines()[-1], checked(self.file)), (0, "seq 1", 1))

    def test_while_another_program_has_the_world(self):
        self.write(["create(#1)"])
        service = KeptService(self.file)
        self.addCleanup(service.stop)
        standby = self.standby()
        end = time.monotonic() + SECONDS
        while "in use by another program" not in standby.said() and time.monotonic() < end:
            time.sleep(0.02)
        self.assertIsNone(standby.process.poll())
        service.stop()
        standby.wait_for("seq 1")

    def test_another_world(self):
        self.write(["create(#1)"], ["create(#1)"])
        make_world(self.file.with_name("other.db"), "batch as #3\ncreate(#1)\ncreate(#1)\nend\n")
        self.assert_ends(self.standby(file=self.file.with_name("other.db")), "call 1 of batch 2 answered #6, and #5 by the journal")

    def test_words(self):
        for words, wanted in ((("--to", "3"), 2), (("--at", "2027-01-01"), 2), (("--moo", self.room / "nothing"), 1)):
            self.assertEqual(program("moo-replay", self.folder, self.file, "--follow", *words)[0], wanted, words)
        self.assertEqual(program("moo-replay", self.folder, self.file, "--from", "true")[0], 2)
        self.assertEqual(program("moo-replay", self.folder, self.room / "nothing.db", "--follow")[0], 1)
        self.assertEqual(program("moo-send", self.room / "nothing")[0], 1)
        self.assertEqual(program("moo-send", self.folder, text="nonsense\n")[0], 1)
        self.assertEqual(program("moo-send")[0], 2)


PETITION = 'petition({{"create", #1}})'


class Eras(FollowTest):
    """The journal was begun anew."""

    def stranger(self, port):
        Door(port).sent("POST", "/batch", b'{"as":"#3","calls":["create(#1)"]}')

    def test_at_the_same_number(self):
        self.write(["create(#1)"])
        standby = self.standby()
        standby.wait_for("seq 1")
        self.write(["create(#1)"], is_rebase=True)
        standby.wait_for("seq 2")
        self.assertEqual(standby.stop(), 0)
        self.assert_same()

    def test_after_a_stranger(self):
        """What it wrote isn't in the journal, so another copy is needed; what comes before it is told."""
        self.write(["create(#1)"], self.stranger)
        standby = self.standby()
        standby.wait_for("seq 1")
        with contextlib.suppress(AssertionError):
            self.write()
        end = time.monotonic() + SECONDS
        while "there writing has stopped: the world has number 2 and the journal 1" not in standby.said() and time.monotonic() < end:
            time.sleep(0.02)
        self.assertIsNone(standby.process.poll())
        copy = self.copy_world("copy.db")
        self.write(["create(#1)"], is_rebase=True)
        self.assert_ends(standby, "the journal has no batch for it, and goes on at 2: take a copy of that number or a later one")
        standby = self.standby(file=copy)
        standby.wait_for("seq 3")
        self.assertEqual(standby.stop(), 0)
        self.assert_same(copy)

    def test_an_older_copy_was_restored(self):
        """A standby that was past it has batches that aren't in the world any more, while it follows and if it is started again."""
        for is_running in (True, False):
            with self.subTest(is_running):
                self.setUp()
                self.write(["create(#1)"], ["create(#1)"])
                copy = self.copy_world("copy.db")
                self.write(['set(#4, "name", "lost")'])
                standby = self.standby()
                standby.wait_for("seq 3")
                if not is_running:
                    self.assertEqual(standby.stop(), 0)
                self.world = copy
                # The same call, so that no answer tells it.
                self.write(['set(#4, "name", "kept")'], ["max_object()"], is_rebase=True)
                standby = standby if is_running else self.standby()
                self.assert_ends(standby, "was brought up to number 3 before the journal was begun anew at 2")
                make_world(self.room / "second.db", "")
                second = self.standby(file=self.room / "second.db")
                second.wait_for("seq 4")
                self.assertEqual(second.stop(), 0)
                self.assert_same(self.room / "second.db")


    def back_to_two(self):
        """The world went on to 4, and back to 2: there is a copy of each."""
        self.write(["create(#1)"], ["create(#1)"])
        good = self.copy_world("good.db")
        self.write(['set(#4, "name", "SPOILED")'], ["max_object()"])
        spoiled = self.copy_world("spoiled.db")
        self.world = good
        self.write(["max_object()"], is_rebase=True)
        return spoiled

    def test_a_new_standby_after_it(self):
        """Also one to which the journal comes bit by bit: nothing is run before it is known what was given up."""
        self.back_to_two()
        for name, words in (("live.db", {}), ("copied.db", {"folder": self.room / "copy"})):
            make_world(self.room / name, "")
            standby = self.standby(*(self.from_other() if words else ()), file=self.room / name, **words)
            standby.wait_for("seq 3")
            self.assertEqual(standby.stop(), 0)
            self.assert_same(self.room / name)

    def test_an_old_gap_isnt_told(self):
        """Writing goes on, since the journal was begun anew."""
        self.write(["create(#1)"], self.stranger)
        with contextlib.suppress(AssertionError):
            self.write()
        copy = self.copy_world("copy.db")
        self.write(["create(#1)"], is_rebase=True)
        standby = self.standby(file=copy)
        standby.wait_for("seq 3")
        self.assertEqual((standby.stop(), standby.said()), (0, ""))

    def test_a_copy_of_what_was_given_up(self):
        """It is refused at once, though no batch is there that could be run on it."""
        spoiled = self.back_to_two()
        self.assert_ends(self.standby(file=spoiled), "has number 4, and the journal was begun anew at 2: it may have batches")
        self.assert_ends(self.standby("--branch", FIRST_SUM, file=spoiled), "was brought up to number 4 before the journal was begun anew at 2")
        sums = [json.loads(line[65:])["former"] for line in (self.folder / "journal-2").read_text().splitlines()[:1]]
        standby = self.standby("--branch", sums[0], file=self.copy_world("now.db"))
        standby.wait_for("seq 3")
        self.write(["max_object()"])
        standby.wait_for("seq 4")
        self.assertEqual(standby.stop(), 0)


class Source:
    """What a standby sees of the way to the other machine: when something came, and for how many seconds nothing did."""

    def __init__(self):
        self.came_at = self.whole_at = None
        self.quiet = 0.0

    def silence(self):
        return self.quiet

    def look(self):
        pass


class Late(unittest.TestCase):
    """What systemd and a terminal are told while something comes from the other machine, or nothing does."""

    def setUp(self):
        room = tempfile.TemporaryDirectory()
        self.addCleanup(room.cleanup)
        self.room = pathlib.Path(room.name)
        self.socket = socket.socket(socket.AF_UNIX, socket.SOCK_DGRAM)
        self.addCleanup(self.socket.close)
        self.socket.bind(str(self.room / "notify"))
        self.socket.setblocking(False)
        self.source, self.printed = Source(), io.StringIO()
        words = argparse.Namespace(folder=self.room, file="standby.db", branch=None, late=900)
        self.follower = following.Follower(words, MOO, self.source, self.fail)
        self.follower.world = argparse.Namespace(seq=7)

    def told(self):
        """What systemd was told meanwhile."""
        texts = []
        with contextlib.suppress(BlockingIOError):
            while True:
                texts.append(self.socket.recv(4096).decode())
        return texts

    def say(self, quiet, behind=0):
        """What is said if nothing came for so many seconds: to systemd, and on standard output."""
        self.source.quiet, self.follower.said_at = quiet, 0.0
        self.printed.truncate(self.printed.seek(0))
        with mock.patch.dict(os.environ, NOTIFY_SOCKET=str(self.room / "notify")), contextlib.redirect_stdout(self.printed):
            self.follower.say(behind)
        return self.told(), self.printed.getvalue()

    def test_it_isnt_ready_before_something_came(self):
        self.assertEqual(self.say(13), (["STATUS=seq 7, LATE 13 seconds: nothing has come from the other machine yet"], "seq 7 LATE 13\n"))
        self.source.came_at = time.monotonic()
        self.assertEqual(self.say(1)[0], ["STATUS=seq 7, and the first copy of the journal is coming"])
        self.source.whole_at = self.follower.even_at = time.monotonic()
        self.assertEqual(self.say(1, 3), (["STATUS=seq 7, 3 batches behind, lag 0 seconds"], "seq 7 behind 3\n"))
        self.assertEqual(self.say(1), (["STATUS=seq 7, 0 batches behind, lag 0 seconds\nREADY=1"], "seq 7\n"))

    def test_nothing_comes_any_more(self):
        self.source.came_at = self.source.whole_at = time.monotonic()
        for quiet, wanted in ((30, "seq 7, 0 batches behind, lag "), (31, "seq 7, LATE 31 seconds: nothing came from the other machine")):
            self.assertIn(wanted, self.say(quiet)[0][0])
        self.assertEqual(self.say(32)[1], "", "it is printed once in a while, and the status has each second")

    def test_the_lag_in_seconds(self):
        """It counts from when it had all, also while batches come."""
        self.source.came_at = self.source.whole_at = time.monotonic()
        self.follower.even_at = time.monotonic() - 3600
        seconds = [int(re.search(r"5 batches behind, lag (\d+) seconds$", text)[1]) for text in self.say(1, 5)[0]]
        self.assertTrue(3600 <= seconds[0] < 3600 + SECONDS, seconds)

    def test_it_fails_in_the_end(self):
        self.source.quiet = 900.5
        with self.assertRaisesRegex(following.Late, "nothing came from the other machine for 900 seconds; standby.db has number 7"):
            self.follower.wait()


class Copied(FollowTest):
    """A standby with a copy of the folder, which moo-send brings up."""

    def setUp(self):
        super().setUp()
        self.copy = self.room / "copy"

    def test_the_journal_and_the_people(self):
        add_person(self.folder, "ada", 3)
        self.write(["create(#1)"])
        standby = self.standby(*self.from_other(), folder=self.copy)
        standby.wait_for("seq 1")
        self.write(["create(#1)"], is_rebase=True)
        standby.wait_for("seq 2")
        add_person(self.folder, "ben", 3)
        end = time.monotonic() + SECONDS
        while self.people() != ["ada", "ben"] and time.monotonic() < end:
            time.sleep(0.05)
        self.assertEqual(standby.stop(), 0)
        self.assertEqual(self.people(), ["ada", "ben"])
        self.assert_same()
        self.assert_copied()

    def people(self):
        file = self.copy / "people.db"
        if not file.is_file():
            return []
        with contextlib.closing(sqlite3.connect(file)) as people:
            return [name for (name,) in people.execute("SELECT name FROM person ORDER BY name")]

    def assert_copied(self):
        for path in self.folder.glob("journal-*"):
            self.assertEqual(path.read_bytes(), (self.copy / path.name).read_bytes(), path.name)
        self.assertEqual({path.stat().st_mode & 0o777 for path in self.copy.iterdir()}, {0o600})

    def test_the_other_machine_lost_its_last_lines(self):
        """The copy loses them too, and the batch that was run stays run, since its intent is there."""
        self.write(["create(#1)"], ["create(#1)"])
        standby = self.standby(*self.from_other(), folder=self.copy)
        standby.wait_for("seq 2")
        lines = (self.folder / "journal-0").read_bytes().splitlines(keepends=True)
        self.assertIn(b'"k":"done"', lines[-1])
        (self.folder / "journal-0").write_bytes(b"".join(lines[:-1]))
        # The next start of the front finds the intent open, and the world at its number.
        self.write(["create(#1)"])
        standby.wait_for("seq 3")
        self.assertEqual(standby.stop(), 0)
        self.assert_same()
        self.assert_copied()

    def test_the_lines_that_were_lost_come_otherwise(self):
        """An intent that was never sent was lost with the power, with its segment, and another one has its place now."""
        first = [base(0), intent(0), {"k": "done", "seq": 1}]
        lines, former = journal_of(*first)
        second = new_line(former, base(1, 2, former, "full"))
        (self.folder / "journal-0").write_bytes(b"".join(lines))
        (self.folder / "journal-1").write_bytes(second[1] + new_line(second[0], intent(1, ["create(#1)"]))[1])
        self.assertEqual(program("moo-send", self.folder, self.copy), (0, "", ""))
        self.assert_copied()
        (self.folder / "journal-1").unlink()
        lines, _ = journal_of(*first, intent(1, ["players()"]), {"k": "done", "seq": 2})
        (self.folder / "journal-0").write_bytes(b"".join(lines))
        status, printed, told = program("moo-send", self.folder, self.copy)
        self.assertEqual((status, printed), (0, ""))
        self.assertIn("the other machine has lost the last lines of the journal", told)
        self.assert_copied()
        self.assertFalse((self.copy / "journal-1").exists())

    def test_once(self):
        """As a backup has it; the second time only what came since is copied, and a line that is under way isn't."""
        add_person(self.folder, "ada", 3)
        self.write(["create(#1)"])
        for count in (1, 2):
            self.assertEqual(program("moo-send", self.folder, self.copy), (0, "", ""))
            self.assertEqual((self.copy / "journal-0").read_bytes().count(b'"k":"done"'), count)
            self.write(["create(#1)"])
        path = self.folder / "journal-0"
        whole = path.read_bytes()
        path.write_bytes(whole + b"0123")
        self.assertEqual(program("moo-send", self.folder, self.copy), (0, "", ""))
        self.assertEqual((self.copy / "journal-0").read_bytes(), whole)
        self.assertEqual(self.people(), ["ada"])

    def test_the_journal_of_another_world(self):
        self.write(["create(#1)"])
        self.assertEqual(program("moo-send", self.folder, self.copy)[0], 0)
        (self.folder / "journal-0").write_bytes(b"".join(journal_of(base(0), intent(0))[0]))
        status, printed, told = program("moo-send", self.folder, self.copy)
        self.assertEqual((status, printed), (1, ""))
        self.assertIn("has the journal of another world", told)
        self.assert_ends(self.standby(*self.from_other(), folder=self.copy), "has the journal of another world")

    def test_a_front_has_the_copy(self):
        """Two don't write one folder."""
        self.write(["create(#1)"])
        standby = self.standby(*self.from_other(), folder=self.copy)
        standby.wait_for("seq 1")
        status, _, told = program("moo-replay", self.copy, self.room / "world.db", "--follow", *self.from_other())
        self.assertEqual(status, 1)
        self.assertIn("is in use by another front", told)

    def test_a_source_that_is_dead(self):
        """It is never ready, says so, and ends with a status of its own after the time that was set."""
        self.write(["create(#1)"])
        with socket.socket(socket.AF_UNIX, socket.SOCK_DGRAM) as told:
            told.bind(str(self.room / "notify"))
            told.setblocking(False)
            with mock.patch.dict(os.environ, NOTIFY_SOCKET=str(self.room / "notify")):
                standby = self.standby("--from", "exit 255", "--late", 2, folder=self.copy)
            self.assertEqual(standby.process.wait(SECONDS), 3)
            texts = []
            with contextlib.suppress(BlockingIOError):
                while True:
                    texts.append(told.recv(4096).decode())
        self.assertIn("nothing came from the other machine for 2 seconds", standby.said())
        self.assertRegex(texts[0], r"^STATUS=seq 0, LATE \d+ seconds: nothing has come from the other machine yet$")
        self.assertFalse([text for text in texts if "READY" in text])
        self.assertNotIn("seq 0", standby.lines(), "it doesn't say that it has all")

    def test_a_command_that_fails(self):
        """It is run again, and said."""
        self.write(["create(#1)"])
        flag = self.room / "flag"
        standby = self.standby("--from", f"test -e {flag} || exit 7; exec {WEB / 'moo-send'} {self.folder}", folder=self.copy)
        end = time.monotonic() + SECONDS
        while "the command ended with status 7" not in standby.said() and time.monotonic() < end:
            time.sleep(0.02)
        flag.touch()
        standby.wait_for("seq 1")
        self.assertIn("the command ended with status 7", standby.said())


class Kills(RoomTest):
    """One long run of it."""

    def setUp(self):
        super().setUp()
        self.folder, self.copy, self.sender = self.room / "front", self.room / "copy", self.room / "sender"
        self.seed = int(os.environ.get("SEED", random.randrange(1_000_000)))
        self.chance = random.Random(self.seed)
        self.kills = {"front": 0, "moo": 0, "standby": 0, "copying standby": 0, "way": 0}
        for name in ("world.db", "live.db", "copied.db"):
            make_world(self.room / name, FIRST)

    def front(self, **env):
        words = ("--rate", 1_000_000, "--segment", 6000)
        return Front(self.folder, self.moo.port, *words, port=self.port, script=(DEBIANS_PYTHON, SCRIPT[1]), env=env, wait=False)

    def crashing(self, count):
        """A front that ends at the next step in turn, soon."""
        step = STEPS[count % len(STEPS)]
        return self.front(STEP=step, TIMES=str(1 if "segment" in step else self.chance.randrange(1, 8)))

    def live(self, _=0):
        return Standby(self.folder, self.room / "live.db")

    def copying(self, _=0):
        return Standby(self.copy, self.room / "copied.db", "--from", f"echo $$ >{self.sender}; exec {WEB / 'moo-send'} {self.folder}")

    def cut_the_way(self):
        """Kills the sender that was started last, if it runs."""
        with contextlib.suppress(OSError, ValueError):
            number = int(self.sender.read_text())
            if str(self.folder).encode() in pathlib.Path(f"/proc/{number}/cmdline").read_bytes():
                os.kill(number, signal.SIGKILL)
                return True
        return False

    def test_a_standby_ends_with_the_same_world(self):
        self.moo, self.port = KeptService(self.room / "world.db"), free_port()
        self.addCleanup(self.moo.stop)
        is_over = threading.Event()
        tokens = [add_person(self.folder, name, number) for number, name in enumerate(NAMES, 3)]
        clients = [Client(self.port, name, number, tokens[number - 3], self.seed, is_over) for number, name in enumerate(NAMES, 3)]
        kept = {"front": Kept(self.crashing), "standby": Kept(self.live), "copying standby": Kept(self.copying)}
        for one in kept.values():
            self.addCleanup(one.stop)
        kept["front"].on_end = lambda: self.count("front")
        for client in clients:
            client.start()
        self.kill(kept, clients)
        is_over.set()
        # What a client is told must be known before its front is stopped.
        for client in clients:
            client.join(2 * SECONDS)
            self.assertFalse(client.is_alive())
            self.assertIsNone(client.wrong)
        for one in kept.values():
            one.stop()
        for name in ("standby", "copying standby"):
            self.assertEqual(kept[name].statuses, {-signal.SIGKILL}, kept[name].front.said()[-2000:])
        self.compare(clients)
        self.promote(tokens[0])

    def count(self, name):
        self.kills[name] += 1

    def kill(self, kept, clients):
        """Kills one or the other until each side has had its kills. On a busy machine few batches come between two: then there are more."""
        pace = Pace(self.chance, 0.8)
        while not any(client.wrong for client in clients):
            here, there = self.kills["front"] + self.kills["moo"], sum(self.kills[name] for name in ("standby", "copying standby", "way"))
            if min(here, there) >= KILLS and min(self.kills.values()) >= KILLS // 10 and done_by(clients) > KILLS // 4:
                return
            pace.rest(done_by(clients))
            if self.chance.random() < 0.3 and self.moo.is_listening.wait(SECONDS):
                self.moo.kill()
                self.count("moo")
            name = self.chance.choice(("standby", "copying standby", "way"))
            if name == "way":
                self.kills["way"] += self.cut_the_way()
            elif kept[name].front:
                kept[name].front.process.kill()
                self.count(name)

    def compare(self, clients):
        """A last start of the front decides what was left open; then both standbys come to its number, and end with its dump."""
        front = self.front()
        self.assertEqual(front.process.stdout.readline().decode(), f"listening http://127.0.0.1:{self.port}/\n", front.said())
        front.process.terminate()
        self.assertEqual(front.end(), 0)
        self.moo.stop()
        number = checked(self.room / "world.db")
        told = max(said_["seq"] for client in clients for _, outcome, said_ in client.outcomes if outcome == "done")
        self.assertGreaterEqual(number, told)
        for standby in (self.live(), self.copying()):
            standby.wait_for(f"seq {number}")
            self.assertEqual((standby.stop(), standby.lines()[-1]), (0, f"seq {number}"))
        print(f"{self.kills} kills, {number - 1} batches, seed {self.seed}", flush=True)
        dumps = [said("dump", self.room / name) for name in ("world.db", "live.db", "copied.db")]
        self.assertEqual(dumps[0][0], 0)
        self.assertTrue(dumps[0] == dumps[1] == dumps[2], f"the dumps differ, seed {self.seed}")
        self.assertGreater(number, KILLS // 4, "too few to show anything")

    def promote(self, token):
        """The copy is a world like any other, with a front of its own and the accounts of the other."""
        service = KeptService(self.room / "copied.db")
        self.addCleanup(service.stop)
        front = Front(self.copy, service.port)
        self.assertTrue(front.is_listening(), front.said())
        number = checked(self.room / "world.db")
        status, answer = ask(front.port, "POST", "/api/batch", {"calls": ["max_object()"]}, token)
        self.assertEqual((status, answer.get("seq")), (200, number + 1), answer)
        self.assertEqual(program("moo-people", self.copy, "passwd", "ada", text=f"{PASSWORD} 2\n")[0], 0)


if __name__ == "__main__":
    unittest.main()
