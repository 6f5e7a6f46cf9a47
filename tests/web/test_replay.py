"""moo-replay: a world is brought up to a journal, from a new one or a copy, up to a number or a moment, and its answers are compared."""

import json
import pathlib
import shutil
import subprocess
import sys
import tempfile
import unittest

from tests.support.operating import KeptService, SECONDS, TOOLS, checked, make_world, said
from tests.support.program import MOO
from tests.support.web import program, use_web

use_web()

from moo_web.journal import writer as writer_module  # noqa: E402
from moo_web.journal.journal import Journal  # noqa: E402
from moo_web.journal.segments import new_line  # noqa: E402
from moo_web.journal.writer import Writer  # noqa: E402
from moo_web.world.door import Door  # noqa: E402

NOON = 1_800_000_000.0
PETITION = 'petition({{"create", #1}})'


class Clock:
    """The module time, for the writer: its clock is set by hand."""

    def __init__(self, time):
        self.now, self.monotonic, self.sleep = NOON, time.monotonic, time.sleep

    def time(self):
        return self.now


class ReplayTest(unittest.TestCase):
    """A world that a front's writer writes. `write` runs batches, a second one after another."""

    def setUp(self):
        room = tempfile.TemporaryDirectory()
        self.addCleanup(room.cleanup)
        self.room = pathlib.Path(room.name)
        self.folder, self.world, self.file = self.room / "front", self.room / "world.db", self.room / "new.db"
        self.folder.mkdir()
        self.clock = Clock(writer_module.time)
        self.addCleanup(setattr, writer_module, "time", writer_module.time)
        writer_module.time = self.clock
        make_world(self.world, "")
        make_world(self.file, "")

    def write(self, *batches, is_rebase=False, world=None):
        """Runs batches through the journal, each a list of calls or a function."""
        service = KeptService(world or self.world)
        journal = Journal(self.folder, None, lambda text: None)
        try:
            writer = Writer(Door(service.port), journal, lambda text: None, SECONDS)
            writer.start(is_rebase)
            for calls in batches:
                self.clock.now += 1
                if callable(calls):
                    calls(service.port)
                else:
                    self.assertEqual(writer.write("ada", 3, calls).status, 200, calls)
            writer.end(SECONDS)
        finally:
            journal.close()
            service.stop()

    def replay(self, *words, file=None):
        return program("moo-replay", self.folder, file or self.file, *words)

    def assert_same(self, file=None):
        dumps = [said("dump", one)[1] for one in (self.world, file or self.file)]
        self.assertEqual(dumps[0], dumps[1])

    def copy_world(self, name, source=None):
        for end in ("", "-wal"):
            shutil.copy(f"{source or self.world}{end}", self.room / f"{name}{end}")
        return self.room / name


class Replays(ReplayTest):
    def test_a_new_world(self):
        first = ["create(#1)", 'set(#4, "name", "a \\"b\\" \t c")']
        self.write(first, [" max_object( ) "], [], ['add_property(#4, "p", {1, {"x"}}, {#3, ""})'])
        self.assertEqual(self.replay(), (0, "seq 4\n", ""))
        self.assert_same()
        self.assertEqual(self.replay(), (0, "seq 4\n", ""), "once more changes nothing")

    def test_up_to_a_number(self):
        self.write(*[["create(#1)"]] * 5)
        for number in (0, 2, 2, 4, 5):
            self.assertEqual(self.replay("--to", number), (0, f"seq {number}\n", ""))
            self.assertEqual(checked(self.file), number)
        self.assert_same()
        status, printed, told = self.replay("--to", 6)
        self.assertEqual((status, printed), (1, ""))
        self.assertIn("the journal ends at number 5", told)
        status, printed, told = self.replay("--to", 3)
        self.assertEqual((status, printed), (1, ""))
        self.assertIn("has number 5 already", told)

    def test_up_to_a_moment(self):
        """The first batch is of one second after 2027-01-15 08:00:00 UTC."""
        self.write(*[["create(#1)"]] * 5)
        for moment, number in (
            ("2027-01-15T08:00:00", 0), ("2027-01-15T08:00:01Z", 1), ("2027-01-15T09:00:02.5+01:00", 2), ("2027-01-15 08:00:03", 3),
            ("2027-01-16", 5),
        ):  # fmt: skip
            with self.subTest(moment):
                self.assertEqual(self.replay("--at", moment), (0, f"seq {number}\n", ""))
        self.assertEqual(self.replay("--at", "2027-01-01")[0], 1)
        self.assertEqual(self.replay("--at", "noon")[0], 2)

    def test_a_clock_that_went_back(self):
        """Up to a moment means up to the first batch past it."""
        self.write(["create(#1)"], ["create(#1)"])
        self.clock.now += 3600
        self.write(["create(#1)"])
        self.clock.now -= 3600
        self.write(["create(#1)"])
        status, printed, told = self.replay("--at", "2027-01-15T08:30:00")
        self.assertEqual((status, printed, told), (0, "seq 2\n", ""))
        status, printed, told = self.replay()
        self.assertEqual((status, printed), (0, "seq 4\n"))
        self.assertIn("the clock went back before batch 4: from 2027-01-15T09:00:03.000+00:00 to 2027-01-15T08:00:04.000+00:00", told)

    def test_a_copy(self):
        self.write(["create(#1)"], [PETITION], ["grant(1)"])
        copy = self.copy_world("copy.db")
        self.write([PETITION], ["grant(2)"], ['set(#4, "name", "end")'])
        self.assertEqual(self.replay(file=copy), (0, "seq 6\n", ""))
        self.assert_same(copy)

    def test_a_dump_gives_numbers_of_petitions_again(self):
        self.write(["create(#1)"], [PETITION], ["grant(1)"])
        text = said("dump", self.world)[1]
        self.write([PETITION], ["grant(2)"])
        (self.room / "world.txt").write_text(text)
        loaded = self.room / "loaded.db"
        self.assertEqual(said("load", loaded, self.room / "world.txt")[0], 0)
        status, printed, told = self.replay(file=loaded)
        self.assertEqual((status, printed), (1, ""))
        self.assertIn("call 1 of batch 4 answered 1, and 2 by the journal", told)
        self.assertIn("begin with a copy of the file", told)

    def test_another_world(self):
        self.write(["create(#1)"], ['set(#4, "name", "x")'], ["create(#1)"])
        make_world(self.room / "other.db", "batch as #3\nmax_object()\nend\n")
        status, printed, told = self.replay(file=self.room / "other.db")
        self.assertEqual((status, printed), (1, ""))
        self.assertIn("batch 2 was accepted by the journal, and moo replies 'refused 1 E_INVIND'", told)
        make_world(self.room / "third.db", "batch as #3\ncreate(#1)\ncreate(#1)\nend\n")
        status, printed, told = self.replay(file=self.room / "third.db")
        self.assertEqual((status, printed), (1, ""))
        self.assertIn("call 1 of batch 3 answered #6, and #5 by the journal", told)


class Eras(ReplayTest):
    def test_a_journal_that_begins_later(self):
        make_world(self.room / "later.db", "batch as #3\nmax_object()\nend\n")
        copy = self.copy_world("copy.db", self.room / "later.db")
        self.write(["create(#1)"], world=self.room / "later.db")
        status, printed, told = self.replay()
        self.assertEqual((status, printed), (1, ""))
        self.assertIn("has number 0; the journal has no batch for it, and goes on at 1", told)
        self.assertEqual(self.replay(file=copy), (0, "seq 2\n", ""))

    def test_a_hole(self):
        def stranger(port):
            Door(port).sent("POST", "/batch", b'{"as":"#3","calls":["create(#1)"]}')

        self.write(["create(#1)"], ["create(#1)"], stranger)
        copy = self.copy_world("copy.db")
        self.write(["create(#1)"], is_rebase=True)
        status, printed, told = self.replay()
        self.assertEqual((status, printed, checked(self.file)), (1, "", 2))
        self.assertIn("goes on at 3: take a copy of that number or a later one", told)
        self.assertEqual(self.replay(file=copy), (0, "seq 4\n", ""))
        self.assert_same(copy)

    def test_an_older_copy_was_restored(self):
        """The batches after it don't belong to the world any more; up to a moment before that they do."""
        self.write(["create(#1)"], ["create(#1)"])
        copy = self.copy_world("copy.db")
        self.write(['set(#4, "name", "lost")'], ['set(#5, "name", "lost")'])
        lost = self.copy_world("lost.db")
        self.clock.now += 60
        self.world = copy
        self.write(['set(#4, "name", "kept")'], is_rebase=True)
        self.assertEqual(self.replay("--at", "2027-01-15T08:00:30"), (0, "seq 4\n", ""))
        self.assertEqual(said("dump", self.file)[1], said("dump", lost)[1])
        make_world(self.room / "second.db", "")
        self.assertEqual(self.replay(file=self.room / "second.db"), (0, "seq 3\n", ""))
        self.assert_same(self.room / "second.db")


class Branches(ReplayTest):
    """Copies of before the journal was begun anew at a lower number: the spoiled world doesn't come back unseen."""

    def setUp(self):
        super().setUp()
        self.copies = self.room / "copies"
        self.write(["create(#1)"], ['set(#4, "name", "hall")'])

    def backup(self, *words, world=None):
        """The folder of a copy that moo-backup makes of the world that nobody has open."""
        command = [sys.executable, TOOLS / "moo-backup", "--moo", MOO, *words, world or self.world, self.copies]
        ran = subprocess.run(list(map(str, command)), capture_output=True, text=True, timeout=SECONDS)
        self.assertEqual((ran.returncode, ran.stderr), (0, ""))
        return pathlib.Path(ran.stdout.rstrip("\n"))

    def noon(self, *words):
        """A copy at 2, a spoiler up to 5 and a copy of that; back to 2, and on to 4. Gives both copies."""
        good = self.backup(*words)
        self.clock.now += 60
        self.write(['set(#4, "name", "SPOILED")'], ['set(#4, "w", 1)'], ["max_object()"])
        spoiled = self.backup(*words)
        self.again(good)
        self.clock.now += 60
        self.write(["max_object()"], ["max_object()"], is_rebase=True)
        return good, spoiled

    def again(self, copy):
        """Puts a copy in the place of the world."""
        for end in ("", "-wal"):
            shutil.copy(copy / f"world.db{end}", f"{self.world}{end}")

    def restored(self, copy):
        """The file of a copy in a folder of its own, as an operator has it."""
        return shutil.copytree(copy, self.room / f"restored-{copy.name}") / "world.db"

    def sums(self):
        """The sums of all lines of the journal, and what the lines say, in the order of the segments."""
        lines = [line for path in sorted(self.folder.glob("journal-*")) for line in path.read_text().splitlines()]
        return [(line[:64], json.loads(line[65:])) for line in lines]

    def assert_refused(self, why, *words, file):
        before = checked(file)
        status, printed, told = self.replay(*words, file=file)
        self.assertEqual((status, printed, checked(file)), (1, "", before))
        self.assertIn(why, told)

    def test_a_copy_says_its_place(self):
        place = json.loads((self.backup("--journal", self.folder) / "BRANCH").read_text())
        last, said_ = self.sums()[-1]
        self.assertEqual((said_, place), ({"k": "done", "seq": 2}, {"branch": "0" * 64, "seq": 2, "sum": last}))

    def test_a_copy_after_the_journal_was_begun_anew(self):
        self.noon()
        place = json.loads((self.backup("--journal", self.folder) / "BRANCH").read_text())
        (begun,) = [said_ for _, said_ in self.sums() if said_.get("why") == "rebase"]
        self.assertEqual((place["branch"], place["seq"]), (begun["former"], 4))
        self.assertIn(place["sum"], [sum_ for sum_, said_ in self.sums() if said_.get("seq") == 4])

    def test_a_journal_that_lacks_the_number(self):
        """As that of another world, or of a world that somebody else wrote: no copy comes about."""
        make_world(self.room / "later.db", "batch as #3\nmax_object()\nend\n" * 3)
        command = [sys.executable, TOOLS / "moo-backup", "--moo", MOO, "--journal", self.folder, self.room / "later.db", self.copies]
        ran = subprocess.run(list(map(str, command)), capture_output=True, text=True, timeout=SECONDS)
        self.assertEqual((ran.returncode, ran.stdout, list(self.copies.iterdir())), (1, "", []))
        self.assertIn(f"the world has number 3, and the journal of {self.folder} has 2 there: it isn't the journal of this world", ran.stderr)

    def test_a_spoiled_copy_is_refused(self):
        """Answers alone wouldn't tell it: those of `set` are 0 in both histories."""
        good, spoiled = self.noon("--journal", self.folder)
        why = "was brought up to number 5 before the journal was begun anew at 2: it has batches that were given up then"
        self.assert_refused(why, file=self.restored(spoiled))
        file = self.restored(good)
        self.assertEqual(self.replay(file=file), (0, "seq 4\n", ""))
        self.assert_same(file)

    def test_a_copy_that_says_no_place(self):
        good, spoiled = self.noon()
        now = self.restored(self.backup())
        for file, number in ((self.restored(spoiled), 5), (now, 4)):
            why = f"has number {number}, and the journal was begun anew at 2: it may have batches that were given up then"
            self.assert_refused(why, file=file)
        (begun,) = [said_ for _, said_ in self.sums() if said_.get("why") == "rebase"]
        self.assert_refused("before the journal was begun anew at 2", "--branch", "0" * 64, file=now)
        self.assert_refused("by batches that this journal doesn't have", "--branch", "1" * 64, file=now)
        self.assertEqual(self.replay("--branch", begun["former"], file=now), (0, "seq 4\n", ""))
        self.assertEqual(self.replay(file=now), (0, "seq 4\n", ""), "what was said once is kept")
        self.assertEqual(self.replay(file=self.restored(good)), (0, "seq 4\n", ""), "2 isn't past 2")

    def test_up_to_a_moment_before(self):
        """Then the branch that was left later is the one that counts."""
        _, spoiled = self.noon("--journal", self.folder)
        file = self.restored(spoiled)
        self.assertEqual(self.replay("--at", "2027-01-15T08:01:30", file=file), (0, "seq 5\n", ""))
        self.assert_refused("has number 5, and the world had 2 at that moment", "--at", "2027-01-15T08:00:30", file=file)

    def test_a_file_that_was_brought_up_before(self):
        """Its mark tells of which branch it is, whatever its copy was."""
        self.write(['set(#4, "name", "SPOILED")'])
        self.assertEqual(self.replay(), (0, "seq 3\n", ""))
        copy = self.copy_world("two.db", self.file)
        make_world(self.room / "restored.db", "")
        self.assertEqual(self.replay("--to", 2, file=self.room / "restored.db")[0], 0)
        self.world = self.room / "restored.db"
        self.write(["max_object()"], ["max_object()"], is_rebase=True)
        self.assert_refused("was brought up to number 3 before the journal was begun anew at 2", file=self.file)
        self.assert_refused("has number 3, and the journal was begun anew at 2", file=copy)

    def test_another_journal(self):
        """A copy of a world that has another front."""
        copy = self.backup("--journal", self.folder)
        (copy / "BRANCH").write_text(json.dumps({"branch": "0" * 64, "seq": 2, "sum": "1" * 64}))
        self.assert_refused("by batches that this journal doesn't have: take a copy of the world of this journal", file=self.restored(copy))
        (copy / "BRANCH").write_text("nonsense")
        shutil.rmtree(self.room / f"restored-{copy.name}")
        self.assert_refused("isn't the file BRANCH of a copy", file=self.restored(copy))

    def test_a_hole_without_a_batch_after_it(self):
        self.write(lambda port: Door(port).sent("POST", "/batch", b'{"as":"#3","calls":["create(#1)"]}'))
        self.write(is_rebase=True)
        self.assertEqual(self.replay()[:2], (1, ""))

    def made(self, *words):
        """The status, and what is said, of a world that is made from the copies."""
        room = pathlib.Path(tempfile.mkdtemp(dir=self.room))
        return room / "world.db", *self.replay("--copies", self.copies, *words, file=room / "world.db")

    def test_the_best_copy_is_taken(self):
        """By branch and number: not the spoiled one, though it has the greatest number, and not the one of the latest name."""
        good, spoiled = self.noon("--journal", self.folder)
        good.rename(self.copies / good.name.replace("world.db-20", "world.db-19"))
        now = self.backup("--journal", self.folder)
        now = now.rename(self.copies / now.name.replace("world.db-20", "world.db-18"))
        self.write(["max_object()"])
        file, status, printed, told = self.made()
        self.assertEqual((status, printed), (0, "seq 5\n"))
        self.assertIn(f"left out: {spoiled}: {spoiled} was brought up to number 5 before the journal was begun anew at 2", told)
        self.assertIn(f"it begins with {now}\n", told)
        self.assert_same(file)
        self.assertEqual(self.made("--to", 3)[1:3], (0, "seq 3\n"))
        self.assertEqual(self.made("--at", "2027-01-15T08:01:30")[1:3], (0, "seq 5\n"), "the spoiled world of then")

    def test_a_damaged_copy_is_left_out(self):
        good, _ = self.noon("--journal", self.folder)
        now = self.backup("--journal", self.folder)
        (now / "world.db").write_bytes((now / "world.db").read_bytes()[:-1])
        _, status, printed, told = self.made()
        self.assertEqual((status, printed), (0, "seq 4\n"))
        self.assertIn(f"left out: {now}: the checksum of world.db is wrong", told)
        self.assertIn(f"it begins with {good}\n", told)

    def test_without_a_copy_that_fits(self):
        """A journal that begins at 0 makes the world alone, and leaves out what was given up; another one can't."""
        _, spoiled = self.noon("--journal", self.folder)
        for path in self.copies.iterdir():
            if path != spoiled:
                shutil.rmtree(path)
        file, status, printed, told = self.made()
        self.assertEqual((status, printed), (0, "seq 4\n"))
        self.assertIn("it begins with a new world", told)
        self.assert_same(file)
        self.assertEqual(self.replay("--copies", self.copies, file=file)[:2], (1, ""), "nothing is made in place of a file")
        (self.folder / "journal-0").unlink()
        _, status, printed, told = self.made()
        self.assertEqual((status, printed), (1, ""))
        self.assertIn("has no copy of world.db from which this journal can go on: it begins at number 2", told)

    def test_wrong_words(self):
        for words in (("--branch", "x"), ("--copies", "a", "--branch", "0" * 64), ("--late", "5"), ("--follow", "--from", "true", "--late", "0")):
            self.assertEqual(self.replay(*words)[0], 2, words)


class Mistakes(ReplayTest):
    def test_what_cannot_be_replayed(self):
        self.write(["create(#1)"])
        for words, wanted in (
            ((self.folder, self.room / "nothing.db"), 1), ((self.room, self.file), 1), ((self.room / "nothing", self.file), 1),
            ((self.folder,), 2), ((self.folder, self.file, "--to", "x"), 2), ((self.folder, self.file, "--moo", self.room / "nothing"), 1),
        ):  # fmt: skip
            status, printed, told = program("moo-replay", *words)
            with self.subTest(words):
                self.assertEqual((status, printed), (wanted, ""))
                self.assertIn("moo-replay", told)
                self.assertNotIn("Traceback", told)

    def test_a_damaged_journal(self):
        self.write(["create(#1)"], ["create(#1)"])
        path = self.folder / "journal-0"
        text = path.read_bytes()
        path.write_bytes(text.replace(b'"who":"ada"', b'"who":"eve"', 1))
        status, printed, told = self.replay()
        self.assertEqual((status, printed, checked(self.file)), (1, "", 0))
        self.assertIn("journal-0, line 2: its sum is wrong", told)

    def test_a_journal_that_somebody_made_right_again(self):
        """Who changes a line and all sums after it is found out by the answers, if they change."""
        self.write(["create(#1)"], ["max_object()"])
        lines, former = (self.folder / "journal-0").read_bytes().splitlines(), "0" * 64
        with open(self.folder / "journal-0", "wb") as file:
            for line in lines:
                changed = json.loads(line[65:].replace(b'"calls":["create(#1)"]', b'"calls":["valid(#1)"]'))
                former, text = new_line(former, changed)
                file.write(text)
        status, printed, told = self.replay()
        self.assertEqual((status, printed), (1, ""))
        self.assertIn("call 1 of batch 1 answered 1, and #4 by the journal", told)


if __name__ == "__main__":
    unittest.main()
