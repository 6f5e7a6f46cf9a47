"""Copies of a world under load: by tools/moo-backup between two runs of the service, and as a snapshot of the file system would be.

`COPIES` in the environment is another number of copies of each kind.
"""

import contextlib
import fcntl
import hashlib
import os
import pathlib
import random
import re
import shutil
import signal
import sqlite3
import subprocess
import sys
import tempfile
import threading
import time
import unittest
from unittest import mock

from tests.support import processes
from tests.support.operating import KeptService, SECONDS, TOOLS, checked, make_world, said, tool
from tests.support.program import MOO
from tests.support.service import free_port

import moo_client
from moo_client import Moo, Obj

COPIES = int(os.environ.get("COPIES", 4))
FIRST = 'batch as #3\ncreate(#1)\nadd_property(#4, "mark", "", {#3, ""})\nend\n'
FORM = r"world\.db-\d{8}T\d{6}\.\d{6}Z-seq\d+"


def children(file):
    """What is under #4 in the world of a file."""
    _, reply = said("ask", file, "-", text="batch as #3\nchildren(#4)\nend\n")
    return moo_client.read(reply.splitlines()[1])


def version(file):
    """The version of the tables in a file."""
    with contextlib.closing(sqlite3.connect(file)) as world:
        return world.execute("SELECT version FROM head").fetchone()[0]


class Writer(threading.Thread):
    """A client that makes one object after another under #4. `made` are the answers."""

    def __init__(self, port):
        super().__init__(daemon=True)
        self.world = Moo(port, mark=(Obj(4), "mark"), patience=SECONDS)
        self.is_over, self.made, self.wrong = threading.Event(), [], None

    def run(self):
        try:
            while not self.is_over.is_set():
                try:
                    self.made += self.world.run([("create", Obj(4))], as_=3)
                except moo_client.AnswersLost:
                    # It has acted, and nobody else makes objects there.
                    self.made.append(self.world.ask([("children", Obj(4))], as_=3)[0][-1])
        except Exception as error:  # a thread's own failure is the test's
            self.wrong = repr(error)

    def end(self):
        self.is_over.set()
        self.join(SECONDS)


class Copies(unittest.TestCase):
    """A world in an empty folder, and a folder for its copies."""

    def setUp(self):
        room = tempfile.TemporaryDirectory()
        self.addCleanup(room.cleanup)
        self.room = pathlib.Path(room.name)
        self.file, self.folder = self.room / "world.db", self.room / "copies"
        make_world(self.file, FIRST)

    def backup(self, *words):
        """The status of moo-backup, and what it printed and complained of."""
        command = [sys.executable, str(TOOLS / "moo-backup"), "--moo", MOO, *words, str(self.file), str(self.folder)]
        ran = subprocess.run(command, stdout=subprocess.PIPE, stderr=subprocess.PIPE, text=True, timeout=SECONDS)
        return ran.returncode, ran.stdout, ran.stderr

    def copied(self, *words):
        """The folder of a copy that has to come about."""
        status, printed, complaint = self.backup(*words)
        self.assertEqual((status, complaint), (0, ""))
        folder = pathlib.Path(printed.rstrip("\n"))
        self.assertEqual(folder.parent, self.folder)
        self.assertRegex(folder.name, f"^{FORM}$")
        return folder

    def assert_not_copied(self, reason, *words):
        """No copy comes about, for this reason, and those that are there stay as they are."""
        before = self.bytes_of_copies()
        status, printed, complaint = self.backup(*words)
        self.assertEqual((status, printed), (1, ""))
        self.assertIn(reason, complaint)
        self.assertEqual(self.bytes_of_copies(), before)

    def bytes_of_copies(self):
        """Each file of the folder, with its bytes."""
        return {path: path.read_bytes() for path in self.folder.rglob("*") if path.is_file()} if self.folder.exists() else {}

    def restored(self, copy):
        """The file of a world that a copy was put back to, as an operator would."""
        target = self.room / f"restored-{copy.name}"
        shutil.copytree(copy, target)
        self.assertEqual(subprocess.run(["sha256sum", "--quiet", "-c", "SHA256SUMS"], cwd=target, timeout=SECONDS).returncode, 0)
        return target / "world.db"


class AtRest(Copies):
    """A world that nobody has open."""

    def test_both_files_as_they_are(self):
        copy = self.copied()
        for name in ("world.db", "world.db-wal"):
            self.assertEqual((copy / name).read_bytes(), (self.room / name).read_bytes())
            self.assertIn(f"{hashlib.sha256((copy / name).read_bytes()).hexdigest()}  {name}\n", (copy / "SHA256SUMS").read_text())
        self.assertTrue(copy.name.endswith("-seq1"), copy.name)

    def test_a_log_that_a_kill_left(self):
        service = KeptService(self.file)
        self.addCleanup(service.stop)
        made = Moo(service.port).run([("create", Obj(4))] * 20, as_=3)
        service.stop()
        copy = self.copied()
        self.assertGreater((copy / "world.db-wal").stat().st_size, 100)
        self.assertTrue(copy.name.endswith("-seq2"), copy.name)
        self.assertEqual(children(self.restored(copy)), made)

    def test_a_link_to_the_world(self):
        """The log is beside the file, and not beside the link. What the log alone holds is in the copy, under the link's name."""
        service = KeptService(self.file)
        self.addCleanup(service.stop)
        made = Moo(service.port).run([("create", Obj(4))] * 20, as_=3)
        service.stop()
        (self.room / "disk").mkdir()
        for end in ("", "-wal"):
            (self.room / f"world.db{end}").rename(self.room / f"disk/real.db{end}")
        self.file.symlink_to("disk/real.db")
        copy = self.copied()
        self.assertEqual(sorted(path.name for path in copy.iterdir()), ["SHA256SUMS", "SOURCE", "world.db", "world.db-wal"])
        self.assertTrue(copy.name.endswith("-seq2"), copy.name)
        self.assertEqual(children(self.restored(copy)), made)
        # By its own path it is the same world, which may have its copies there.
        self.file.unlink()
        self.file.symlink_to(self.room / "disk/real.db")
        self.copied()

    def test_no_run_begins_while_it_copies(self):
        """Another program that opens the world before each file is copied is refused."""
        module = tool("moo-backup")
        copy, refusals = module.copy, []

        def copy_and_try(source, target):
            refusals.append(said("check", self.file))
            return copy(source, target)

        module.copy = copy_and_try
        module.backup(module.read_words(["--moo", MOO, str(self.file), str(self.folder)]))
        self.assertEqual(refusals, [(1, "moo: store fault\n")] * 2)
        self.assertEqual(checked(self.file), 1)

    def test_an_alarm_that_comes_too_early(self):
        """One that comes just before the wait for the lock doesn't end it, and the next one does."""
        module, service = tool("moo-backup"), processes.start([MOO, "serve", self.file, str(free_port())], stdout=subprocess.PIPE)
        self.addCleanup(processes.end_all)
        service.stdout.readline()

        def lock_after_alarm(*words):
            signal.pthread_sigmask(signal.SIG_BLOCK, {signal.SIGALRM})
            signal.sigwait({signal.SIGALRM})
            signal.pthread_sigmask(signal.SIG_UNBLOCK, {signal.SIGALRM})
            return fcntl.lockf(*words)

        # A wait that nothing ends ends with the run.
        end = threading.Timer(30, service.kill)
        end.start()
        self.addCleanup(end.cancel)
        with mock.patch.object(module, "fcntl", mock.Mock(lockf=lock_after_alarm, LOCK_SH=fcntl.LOCK_SH)), open(self.file, "rb") as file:
            self.assertFalse(module.is_locked_within(file, 0.5))

    def test_the_newest_are_kept(self):
        self.folder.mkdir()
        for name in ("other", "world.db", "other.db-20200101T000000.000000Z-seq1", ".unfinished-a"):
            (self.folder / name).mkdir()
        made = [self.copied("--keep", "2").name for _ in range(4)]
        left = sorted(path.name for path in self.folder.iterdir())
        self.assertEqual(left, sorted([*made[2:], "other", "world.db", "other.db-20200101T000000.000000Z-seq1"]))

    def test_strays_are_no_copies(self):
        """A file, a link and a link's target that are named like a copy stay, and what a killed backup seems to have left goes."""
        elsewhere = self.room / "elsewhere"
        elsewhere.mkdir()
        (elsewhere / "precious").touch()
        self.folder.mkdir()
        link, file = (self.folder / f"world.db-2020010{day}T000000.000000Z-seq1" for day in (1, 2))
        link.symlink_to(elsewhere)
        file.touch()
        (self.folder / ".unfinished-x").touch()
        (self.folder / ".unfinished-y").symlink_to(elsewhere)
        made = [self.copied("--keep", "1") for _ in range(2)]
        self.assertEqual(sorted(self.folder.iterdir()), [link, file, made[1]])
        self.assertEqual(list(elsewhere.iterdir()), [elsewhere / "precious"])

    def test_a_neighbour_of_the_same_name(self):
        """Another world of this file name may not use the folder, so that neither deletes the copies of the other."""
        self.copied("--keep", "1")
        ours, self.file = self.file, self.room / "neighbour/world.db"
        self.file.parent.mkdir()
        make_world(self.file, FIRST)
        self.assert_not_copied(f"is a copy of {ours}: give {self.file} a folder of its own", "--keep", "1")
        self.folder = self.room / "copies of the neighbour"
        self.copied("--keep", "1")

    def test_names_of_any_bytes(self):
        """A folder's name needn't be UTF-8, nor need what a stranger wrote into a copy be."""
        here = self.room / os.fsdecode(b"caf\xe9")
        here.mkdir()
        for path in self.room.glob("world.db*"):
            path.rename(here / path.name)
        self.file, self.folder = here / "world.db", self.room / "copies"
        for _ in range(2):
            copy = self.copied("--keep", "1")
        (copy / "SOURCE").write_bytes(b"\xff\xfe\n")
        self.assert_not_copied(f"{copy.name} is a copy of ")

    def test_weeks_and_months(self):
        """The newest copies stay, and the last one of each of the newest weeks and months. Weeks begin on Mondays."""
        self.folder.mkdir()
        moments = ("20200115", "20200131", "20200210", "20200228", "20200302", "20200308", "20200309", "20200315", "20200316", "20200317")
        for moment in moments:
            (self.folder / f"world.db-{moment}T120000.000000Z-seq1").mkdir()
        copy = self.copied("--keep", "2", "--weekly", "4", "--monthly", "3")
        left = [path.name[9:17] for path in sorted(self.folder.iterdir())]
        # the two newest are 0317 and the one made now; the weeks are that of now and those of 0317, 0315, 0308;
        # the months are now's, March and February
        self.assertEqual(left, ["20200228", "20200308", "20200315", "20200317", copy.name[9:17]])

    def test_the_command_after_a_copy(self):
        away = self.room / "away"
        away.mkdir()
        copy = self.copied("--after", f"cp -r -t {away}")
        self.assertEqual([path.name for path in away.iterdir()], [copy.name])
        status, printed, complaint = self.backup("--after", "false")
        self.assertEqual((status, len(list(self.folder.iterdir()))), (1, 2))
        self.assertTrue(pathlib.Path(printed.rstrip("\n")).is_dir())
        self.assertIn("is made, but the command after it failed with status 1: false", complaint)

    def test_nobody_else_may_read_a_copy(self):
        before = os.umask(0)
        self.addCleanup(os.umask, before)
        copy = self.copied()
        self.assertEqual({path.name: path.stat().st_mode & 0o777 for path in (self.folder, copy)}, {"copies": 0o700, copy.name: 0o700})
        self.assertEqual({path.stat().st_mode & 0o777 for path in copy.iterdir()}, {0o600})
        self.assertEqual((copy / "SOURCE").read_text(), f"{self.file.resolve()}\n")

    def test_a_failed_backup_leaves_the_good_ones(self):
        self.copied("--keep", "1")
        good = self.file.read_bytes()
        self.file.write_bytes(good[: len(good) // 2])
        self.assert_not_copied("the copy is not whole", "--keep", "1")
        self.file.write_bytes(b"")
        self.assert_not_copied("the copy is not whole", "--keep", "1")
        self.file.unlink()
        self.assert_not_copied("No such file", "--keep", "1")
        self.file.write_bytes(good)
        self.assert_not_copied("No such file", "--keep", "1", "--moo", str(self.room / "nothing"))
        self.assertEqual(len(list(self.folder.iterdir())), 1)
        self.copied("--keep", "1")

    def test_a_damaged_world_is_not_kept(self):
        self.copied()
        with contextlib.closing(sqlite3.connect(self.file)) as world, world:
            world.execute("DELETE FROM object WHERE n = 1")
        self.assert_not_copied("the copy is not whole: moo: damaged")

    def test_the_copy_of_version_1_is_of_version_1(self):
        """What checks the copy takes over what it opens; so that is not a part of the copy."""
        for end in ("", "-wal"):
            self.file.with_name("world.db" + end).unlink()
        self.assertEqual(said("init", self.file)[0], 0)
        with contextlib.closing(sqlite3.connect(self.file)) as world, world:
            world.execute("UPDATE head SET version = 1")
            for table in ("slot2", "petition", "petition_head"):
                world.execute(f"DROP TABLE {table}")
        restored = self.restored(self.copied())
        self.assertEqual((version(self.file), version(restored)), (1, 1))
        self.assertEqual(checked(restored), 0)
        self.assertEqual((version(self.file), version(restored)), (1, 2))

    def test_the_clock_was_set_back(self):
        """The copy that was made just now stays, and the oldest others go."""
        for year in (2098, 2099):
            copy = self.copied()
            copy.rename(self.folder / re.sub(r"-\d{4}", f"-{year}", copy.name))
        copy = self.copied("--keep", "2")
        self.assertEqual([path.name[:13] for path in sorted(self.folder.iterdir())], [copy.name[:13], "world.db-2099"])

    def test_a_clock_that_was_ahead(self):
        """Copies of moments to come crowd out no others: they are the first to go, and aren't those of a week or a month."""
        for month in (1, 2, 3):
            self.copied().rename(self.folder / f"world.db-2098{month:02}01T000000.000000Z-seq1")
        made = [self.copied("--keep", "3", "--weekly", "2", "--monthly", "2").name for _ in range(4)]
        self.assertEqual([path.name for path in sorted(self.folder.iterdir())], made[1:])

    def test_each_copy_is_tested(self):
        """Its checksums, what it holds, and its number; nothing is changed, and a copy that isn't whole is named."""
        self.assertEqual(self.backup("--check")[0], 1, "there isn't a folder")
        good = [self.copied() for _ in range(2)]
        before = self.bytes_of_copies()
        told = "".join(f"ok seq 1 {copy}\n" for copy in good)
        self.assertEqual(self.backup("--check"), (0, told, ""))
        self.assertEqual(self.bytes_of_copies(), before)
        (good[0] / "world.db").write_bytes((good[0] / "world.db").read_bytes()[:-1])
        wrong = good[1].with_name(good[1].name.replace("-seq1", "-seq2"))
        good[1].rename(wrong)
        status, printed, complaint = self.backup("--check")
        self.assertEqual((status, complaint), (1, "moo-backup: 2 of 2 copies aren't whole\n"))
        self.assertIn(f"{good[0]} isn't whole: the checksum of world.db is wrong\n", printed)
        self.assertIn(f"{wrong} isn't whole: it has number 1\n", printed)
        for copy in (good[0], wrong):
            shutil.rmtree(copy)
        self.assertEqual(self.backup("--check"), (1, "", f"moo-backup: {self.folder} has no copy of world.db\n"))

    def test_a_journal_that_isnt_there(self):
        """No run is ended for it, and no copy comes about."""
        self.assert_not_copied("has no journal", "--journal", str(self.room))

    def test_backups_of_one_folder_wait_for_each_other(self):
        other = self.room / "other.db"
        make_world(other, FIRST)
        command = [sys.executable, str(TOOLS / "moo-backup"), "--moo", MOO]
        runs = [subprocess.Popen([*command, str(world), str(self.folder)], stdout=subprocess.PIPE) for world in (self.file, other) * 3]
        for run in runs:
            run.communicate(timeout=SECONDS)
        self.assertEqual([run.returncode for run in runs], [0] * 6)
        left = sorted(path.name.partition("-")[0] for path in self.folder.iterdir())
        self.assertEqual(left, ["other.db"] * 3 + ["world.db"] * 3)

    def test_a_kill_leaves_the_good_ones(self):
        self.copied()
        before = self.bytes_of_copies()
        slow = self.room / "slow"
        slow.write_text("#!/bin/sh\necho $$ >\"$0.pid\"\nexec sleep 60\n")
        slow.chmod(0o755)
        command = [sys.executable, str(TOOLS / "moo-backup"), "--moo", str(slow), str(self.file), str(self.folder)]
        with subprocess.Popen(command) as run:
            pid = self.room / "slow.pid"
            end = time.monotonic() + SECONDS
            while not (pid.exists() and pid.read_text().strip()) and time.monotonic() < end:
                time.sleep(0.01)
            run.kill()
        os.kill(int(pid.read_text()), signal.SIGKILL)
        self.assertEqual({path: data for path, data in self.bytes_of_copies().items() if path in before}, before)
        self.copied()
        self.assertEqual([path for path in self.folder.iterdir() if path.name.startswith(".")], [])

    def test_wrong_words(self):
        for words in (["--keep", "0"], ["--weekly", "-1"], ["--monthly", "-1"], ["--wait", "x"], ["--nothing"]):
            with self.subTest(words):
                self.assertEqual(self.backup(*words)[0], 2)


class UnderLoad(Copies):
    """A world that a service has open, and a client writes to."""

    def load(self, count=1_000_000, rest=0.1):
        self.service = KeptService(self.file, count, rest)
        self.addCleanup(self.service.stop)
        self.writer = Writer(self.service.port)
        self.addCleanup(self.writer.end)
        self.writer.start()

    def assert_is_of_the_moment(self, file, before):
        """The file holds all that was acknowledged before the copy, and nothing that wasn't made in this order."""
        under = children(file)
        self.assertGreaterEqual(len(under), before)
        self.writer_goes_on(len(under))
        self.assertEqual(under, self.writer.made[: len(under)])
        self.assertEqual(checked(file), 1 + len(under))

    def writer_goes_on(self, number):
        """The client gets so many answers, and one more."""
        end = time.monotonic() + SECONDS
        while len(self.writer.made) <= number and not self.writer.wrong and time.monotonic() < end:
            time.sleep(0.005)
        self.assertIsNone(self.writer.wrong)
        self.assertGreater(len(self.writer.made), number)

    def test_between_two_runs(self):
        self.load(count=40)
        for _ in range(COPIES):
            before = len(self.writer.made)
            self.assert_is_of_the_moment(self.restored(self.copied()), before)
        self.assertGreater(self.service.starts, COPIES)

    def test_a_run_that_goes_on(self):
        # The command ends one run: so the next one may not come before the copy on a busy machine.
        self.load(rest=1)
        for _ in range(3):
            before = len(self.writer.made)
            self.assert_not_copied("the world was in use for 0.1 seconds", "--wait", "0.1")
            copy = self.copied("--wait", "0.1", "--end", f"sh -c 'kill {self.service.process.pid}'")
            self.assert_is_of_the_moment(self.restored(copy), before)

    def test_the_command_fails(self):
        self.load()
        self.assert_not_copied("the command to end the run failed: false", "--wait", "0.1", "--end", "false")

    def test_a_snapshot_of_the_file_system(self):
        """Both files, as they are at one moment: the service stands still while they are copied."""
        self.load()
        chance = random.Random(1)
        for number in range(COPIES):
            time.sleep(chance.uniform(0, 0.1))
            processes.stand_still(self.service.process)
            before = len(self.writer.made)
            folder = self.room / f"snapshot-{number}"
            folder.mkdir()
            for name in ("world.db", "world.db-wal"):
                shutil.copyfile(self.room / name, folder / name)
            self.service.process.send_signal(signal.SIGCONT)
            self.assert_is_of_the_moment(folder / "world.db", before)

    def test_one_file_without_its_log(self):
        """What may not be done: the file alone lacks what its log holds."""
        service = KeptService(self.file)
        self.addCleanup(service.stop)
        made = Moo(service.port).run([("create", Obj(4))], as_=3)
        alone = self.room / "alone.db"
        shutil.copyfile(self.file, alone)
        self.assertNotEqual((checked(alone), children(alone) if checked(alone) else []), (2, made))


if __name__ == "__main__":
    unittest.main()
