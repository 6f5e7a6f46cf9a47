"""The journal's protocol over thousands of stops, in one process: no front is started, so that each stop takes milliseconds.

A front ends at a random step: before a line, in the middle of one, before its sync, after it, before a batch is sent, after that, before
the answer is read. Some of the stops take the power too: then each disk keeps what was synced, and of the rest some beginning. The world
loses answers, fails, is closed, has no memory, and takes copies of requests late. At the end the journal has to tell just what the world
has done.

`STOPS` in the environment is another number of stops (2,000), `SEED` the seed. test_kills does the same to real processes.
"""

import collections
import concurrent.futures
import json
import os
import pathlib
import random
import shutil
import tempfile
import unittest

from tests.support.journals import accepted_in
from tests.support.web import use_web
from tests.web.test_writer import World

use_web()

from moo_client import LostAnswer  # noqa: E402
from moo_web.journal import journal as journal_module  # noqa: E402
from moo_web.journal import writer as writer_module  # noqa: E402
from moo_web.journal.journal import Journal  # noqa: E402
from moo_web.journal.segments import Accepted  # noqa: E402
from moo_web.journal.jobs import Busy, Job  # noqa: E402
from moo_web.journal.writer import Writer  # noqa: E402

STOPS = int(os.environ.get("STOPS", 2000))
STOPS_OF_A_WORLD = 100
WORDS = ("lost", "taken", "fault", "broken", "closed", "nomemory", "delayed")


class Stop(BaseException):
    """The end of the front's process."""


class LateWorld(World):
    """A world that fails at random, and that may take a copy of a request later. `is_calm` ends that."""

    def __init__(self, chance, reach):
        super().__init__()
        self.chance, self.reach, self.backlog, self.is_calm = chance, reach, [], False

    def sent(self, method, path, body=None, wait=None):
        while self.backlog and (self.is_calm or self.chance.random() < 0.3):
            self.act(self.backlog.pop(0))
        return super().sent(method, path, body, wait)

    def batch(self, said, word):
        if not self.is_calm and self.chance.random() < 0.3:
            word = self.chance.choice(WORDS)
        self.reach("before a batch")
        if word == "delayed":
            self.backlog.append(said)
            raise LostAnswer
        answer = super().batch(said, word)
        self.reach("after a batch")
        return answer


class NoThread:
    """In place of the writer's thread: the test calls what it would."""

    def start(self):
        pass


class AtOnce:
    """In place of the second disk's thread: what is given to it is done at once."""

    def submit(self, function, *given):
        done = concurrent.futures.Future()
        done.set_result(function(*given))
        return done

    def shutdown(self):
        pass


class Disks:
    """What is synced of each file of two folders, and the steps at which a front may end."""

    def __init__(self, chance):
        self.chance, self.synced, self.named, self.is_calm = chance, {}, set(), True
        self.steps = collections.Counter()

    def reach(self, step):
        """A step: the front may end here."""
        if not self.is_calm and self.chance.random() < 0.03:
            self.steps[step] += 1
            raise Stop

    def write_whole(self, file, text):
        """As the journal's, with steps."""
        kind = json.loads(text[65:])["k"]
        self.reach(f"before a line: {kind}")
        if not self.is_calm and self.chance.random() < 0.02:
            self.steps[f"within a line: {kind}"] += 1
            os.write(file, text[: self.chance.randrange(1, len(text))])
            raise Stop
        os.write(file, text)
        self.reach(f"after a line: {kind}")

    def sync(self, file):
        """In place of the system's call, which takes long."""
        self.reach("before a sync")
        path = pathlib.Path(os.readlink(f"/proc/self/fd/{file}"))
        if path.is_dir():
            self.named.update((one, one.stat().st_ino) for one in path.iterdir())
        else:
            self.synced[path, os.fstat(file).st_ino] = os.fstat(file).st_size
        self.reach("after a sync")

    def lose_power(self, folders):
        """Of what isn't synced each file keeps some beginning. A file whose folder wasn't synced since it was made may be gone."""
        for path in (path for folder in folders for path in folder.glob("journal-*")):
            key, size = (path, path.stat().st_ino), path.stat().st_size
            synced = min(self.synced.get(key, 0), size)
            left = self.chance.choice((synced, size, self.chance.randint(synced, size)))
            os.truncate(path, left)
            if key not in self.named and self.chance.random() < 0.5:
                path.unlink()


class Crashes(unittest.TestCase):
    """Worlds with a front that is stopped again and again."""

    def setUp(self):
        room = tempfile.TemporaryDirectory()
        self.addCleanup(room.cleanup)
        self.room = pathlib.Path(room.name)
        self.seed = int(os.environ.get("SEED", random.randrange(1_000_000)))
        self.chance = random.Random(self.seed)
        self.disks = Disks(self.chance)
        self.counts, self.told = collections.Counter(), []
        self.replace(journal_module, "write_whole", self.disks.write_whole)
        for name in ("fsync", "fdatasync"):
            self.replace(os, name, self.disks.sync)
        self.replace(writer_module.time, "sleep", lambda seconds: None)

    def replace(self, module, name, function):
        self.addCleanup(setattr, module, name, getattr(module, name))
        setattr(module, name, function)

    def test_the_journal_tells_what_the_world_has_done(self):
        stops = 0
        while stops < STOPS:
            stops += self.one_world()
        self.assertGreaterEqual(min(self.counts[word] for word in ("done", "stopped", "power", "refused", "nomemory")), STOPS // 100)
        kinds = {step.partition(":")[0] for step in self.disks.steps}
        parts = ("a line", "a sync", "a batch")
        self.assertEqual(kinds, {"within a line", *(f"{side} {part}" for side in ("before", "after") for part in parts)})
        print(f"{stops} stops at {len(self.disks.steps)} steps, {dict(self.counts)}, seed {self.seed}")

    def one_world(self):
        """A new world and its front, which is stopped so many times. Gives how many stops that were."""
        self.folders = [self.room / "first", self.room / "second"]
        for folder in self.folders:
            shutil.rmtree(folder, ignore_errors=True)
            folder.mkdir()
        self.has_second = self.chance.random() < 0.5
        self.world, self.outcomes = LateWorld(self.chance, self.disks.reach), {}
        self.disks.synced, self.disks.named = {}, set()
        for _ in range(STOPS_OF_A_WORLD):
            self.run_until_a_stop()
        self.world.is_calm = self.disks.is_calm = True
        journal, writer = self.started()
        self.finish(journal)
        self.assertIsNone(writer.stopped, f"seed {self.seed}")
        self.compare()
        return STOPS_OF_A_WORLD

    def started(self):
        """A front that has started."""
        self.told.clear()
        self.journal = None
        second = self.folders[1] if self.has_second else None
        journal = self.journal = Journal(self.folders[0], second, self.told.append, segment_bytes=1500)
        journal.syncing.shutdown()
        journal.syncing = AtOnce()
        writer = Writer(self.world, journal, self.told.append, patience=5)
        writer.thread = NoThread()
        writer.start()
        return journal, writer

    def run_until_a_stop(self):
        """Starts a front and writes until it ends."""
        self.disks.is_calm = self.world.is_calm = False
        try:
            _, writer = self.started()
            while True:
                self.write(writer)
        except Stop:
            self.counts["stopped"] += 1
        finally:
            self.disks.is_calm = True
            if self.journal:
                self.finish(self.journal)
        if self.chance.random() < 0.5:
            self.counts["power"] += 1
            self.disks.lose_power(self.folders)

    def finish(self, journal):
        """Lets the folders go, as the end of a process does."""
        journal.close()

    def write(self, writer):
        """One batch. Its outcome is known only if the front doesn't end in it."""
        tag = f"batch {len(self.outcomes)}"
        calls = [tag, self.chance.choice(("make", "look", "no"))]
        self.outcomes[tag] = ("unknown", None)
        job = Job("ada", 4, calls, None, 5)
        writer.serve(job)
        self.assertTrue(job.decided.is_set())
        self.assertIsNone(writer.stopped, f"seed {self.seed}: {self.told}")
        if isinstance(job.failure, Busy):
            self.outcomes[tag] = ("busy", None)
        else:
            self.assertIsNone(job.failure)
            outcome = {200: "done", 409: "refused", 503: "nomemory"}[job.answer.status]
            self.outcomes[tag] = (outcome, job.answer.said)
        self.counts[self.outcomes[tag][0]] += 1

    def compare(self):
        """The journal, the world and what was told."""
        batches = [one for one in accepted_in(self.folders[0]) if isinstance(one, Accepted)]
        self.assertEqual([one.at for one in batches], list(range(len(batches))), f"seed {self.seed}")
        self.assertEqual([tuple(one.calls) for one in batches], self.world.acted, f"seed {self.seed}")
        where = {one.calls[0]: one for one in batches}
        self.assertEqual(len(where), len(batches), f"seed {self.seed}: one acted twice")
        for tag, (outcome, said) in self.outcomes.items():
            one = where.get(tag)
            if outcome == "done":
                self.assertEqual((one.seq, one.answers), (said["seq"], said["answers"]), f"seed {self.seed}, {tag}")
            elif outcome != "unknown":
                self.assertIsNone(one, f"seed {self.seed}, {tag}, {outcome}")
        files = [{path.name: path.read_bytes() for path in folder.glob("journal-*")} for folder in self.folders]
        self.assertEqual(files[1], files[0] if self.has_second else {}, f"seed {self.seed}")


if __name__ == "__main__":
    unittest.main()
