"""The one writer of a world: what it does with lost answers, refusals, strangers, full disks and slow worlds (web/moo_web/journal/writer.py).

The world is one of this module, which answers as docs/HTTP.md says and fails by a plan. Real ones are in test_api and test_kills.
"""

import errno
import hashlib
import json
import os
import pathlib
import tempfile
import threading
import time
import unittest

from tests.support.journals import accepted_in
from tests.support.web import use_web

use_web()

from moo_client import LostAnswer, NoService  # noqa: E402
from moo_web.journal import writer as writer_module  # noqa: E402
from moo_web.journal.journal import Journal, NoRoom  # noqa: E402
from moo_web.journal.segments import Accepted  # noqa: E402
from moo_web.journal.jobs import Barred, Busy, Stopped, Unknown  # noqa: E402
from moo_web.journal.writer import Writer  # noqa: E402
from moo_web.traffic.turns import NobodyWaits  # noqa: E402
from moo_web.traffic.writing import Free  # noqa: E402
from moo_web.world.door import Door, TooLong, own_answer  # noqa: E402

# How long is waited for what comes at once on a machine that has time; and how long if it doesn't come, but a batch has to be sent.
SECONDS = 60
PATIENCE = 2


class World(Door):
    """A world in memory. Of its calls `make` makes an object, `no` is refused, and all else answers 0.

    `plan` has a word for each batch that is sent: `lost` it acts and the answer is lost; `taken` the request is; `fault` it acts and the
    store fails; `broken` the store fails before; `closed`, `nomemory`, `away` as they say; `stranger` another batch comes first;
    `strangers` two do; `late` it acts, two others come, and the answer is lost. Without a word it is answered. With `is_away` nobody
    answers anything.
    """

    def __init__(self, plan=()):
        super().__init__(1)
        self.plan, self.acted, self.seq, self.top = list(plan), [], 0, 8
        self.is_away, self.sends = False, 0

    def strange(self, times=1):
        self.acted += [("stranger",)] * times
        self.seq += times

    def judged(self, said):
        """The answer to a batch, which isn't done."""
        if "at" in said and said["at"] != self.seq:
            return own_answer(409, error="stale", seq=self.seq)
        for place, call in enumerate(said["calls"], 1):
            if call == "no":
                return own_answer(409, call=place, error="E_PERM", why="no")
        answers, top = [], self.top
        for call in said["calls"]:
            top += call == "make"
            answers.append(f"#{top}" if call == "make" else "0")
        return own_answer(200, answers=answers, seq=self.seq)

    def act(self, said):
        """Does a batch."""
        answer = self.judged(said)
        if answer.status != 200:
            return answer
        self.seq += 1
        self.top += said["calls"].count("make")
        self.acted.append(tuple(said["calls"]))
        return own_answer(200, answers=answer.said["answers"], seq=self.seq)

    def sent(self, method, path, body=None, wait=None):
        if self.is_away:
            raise NoService
        if path == "/seq":
            return own_answer(200, seq=self.seq)
        said = json.loads(body)
        if path == "/ask?why":
            return self.judged(said)
        self.sends += 1
        return self.batch(said, self.plan.pop(0) if self.plan else "")

    def batch(self, said, word):
        self.strange({"stranger": 1, "strangers": 2}.get(word, 0))
        if word in ("taken", "away"):
            raise LostAnswer if word == "taken" else NoService
        if word in ("broken", "closed", "nomemory"):
            return own_answer(503, error={"broken": "fault"}.get(word, word))
        answer = self.act(said)
        self.strange(2 if word == "late" else 0)
        if word in ("lost", "late"):
            raise LostAnswer
        return own_answer(503, error="fault") if word == "fault" and answer.status == 200 else answer


class WriterTest(unittest.TestCase):
    """A world with a plan, a journal in a folder, and a writer. `told` is what an operator was told."""

    def setUp(self):
        room = tempfile.TemporaryDirectory()
        self.addCleanup(room.cleanup)
        self.folder, self.told = pathlib.Path(room.name), []
        self.writer = self.journal = None
        self.addCleanup(self.end)

    def begin(self, *plan, world=None, is_rebase=False, patience=SECONDS, **how):
        """A writer that has started."""
        self.end()
        self.world = world or World()
        self.world.plan = list(plan)
        self.told.clear()
        self.journal = Journal(self.folder, None, self.told.append, **how)
        self.writer = Writer(self.world, self.journal, self.told.append, patience)
        self.writer.start(is_rebase)
        return self.writer

    def end(self):
        if self.journal:
            self.world.is_away, self.world.plan = False, []
            self.writer.end(SECONDS)
            self.journal.close()
            self.journal = None

    def write(self, *calls, at=None):
        return self.writer.write("ada", 4, list(calls), at)

    def lines(self):
        """The lines of the journal, in their order."""
        files = [path.read_text().splitlines() for path in self.folder.glob("journal-*")]
        files.sort(key=lambda lines: json.loads(lines[0][65:])["segment"])
        return [json.loads(line[65:]) for lines in files for line in lines]

    def kinds(self):
        return [line["k"] for line in self.lines()]

    def wait_for(self, what):
        end = time.monotonic() + SECONDS
        while not what():
            self.assertLess(time.monotonic(), end)
            time.sleep(0.005)


class Outcomes(WriterTest):
    def test_an_accepted_batch(self):
        self.begin()
        answer = self.write("make", "look")
        self.assertEqual((answer.status, answer.said), (200, {"answers": ["#9", "0"], "seq": 1}))
        base, intent, done = self.lines()
        self.assertEqual((base["k"], base["seq"], base["why"]), ("base", 0, "new"))
        self.assertAlmostEqual(intent.pop("t"), time.time(), delta=60)
        self.assertEqual(intent, {
            "k": "intent", "at": 0, "who": "ada", "as": 4, "calls": ["make", "look"], "answers": ["#9", "0"], "before": [None, None], "names": {}
        })  # fmt: skip
        self.assertEqual(done, {"k": "done", "seq": 1})

    def test_a_refused_batch_is_not_journaled(self):
        self.begin()
        answer = self.write("make", "no")
        self.assertEqual((answer.status, answer.said), (409, {"call": 2, "error": "E_PERM", "why": "no"}))
        self.assertEqual((self.kinds(), self.world.sends), (["base"], 0))

    def test_at(self):
        self.begin()
        self.assertEqual(self.write("make", at=0).said["seq"], 1)
        self.assertEqual(self.write("make", at=0).said, {"error": "stale", "seq": 1})
        self.assertEqual(self.write("make", at=7).said, {"error": "stale", "seq": 1})
        self.assertEqual(self.write("make", at=1).said["seq"], 2)
        self.assertEqual(self.world.acted, [("make",)] * 2)

    def test_answers_that_are_lost(self):
        for plan in (
            ["lost"], ["taken"], ["fault"], ["broken"], ["closed"], ["away"], ["taken", "lost"], ["lost", "closed", "nomemory"],
            ["fault", "away", "taken", "nomemory"], ["taken", "nomemory", "nomemory"], ["away", "closed", "broken", "lost"],
        ):  # fmt: skip
            with self.subTest(plan):
                self.begin(*plan, world=World(), patience=SECONDS)
                before = self.writer.seq
                self.assertEqual(self.write("make").said, {"answers": ["#9"], "seq": before + 1})
                self.assertEqual(self.write("look").said, {"answers": ["0"], "seq": before + 2})
                self.assertEqual(self.world.acted, [("make",), ("look",)])
                self.assertEqual(self.kinds()[-4:], ["intent", "done", "intent", "done"])
                self.end()
                (self.folder / "journal-0").unlink()

    def test_memory_that_runs_out_is_an_answer(self):
        self.begin("nomemory")
        self.assertEqual(self.write("make").said, {"error": "nomemory"})
        self.assertEqual(self.write("make").said["seq"], 1)
        self.assertEqual(self.kinds(), ["base", "intent", "void", "intent", "done"])
        self.begin(world=self.world)
        self.assertEqual(self.told, [])

    def test_memory_that_runs_out_after_it_was_told_to_be_decided(self):
        self.begin(patience=PATIENCE)
        words, sent, batch = ["closed"], [], self.world.batch
        self.world.batch = lambda said, word: (sent.append(words[-1]), batch(said, words[-1]))[1]
        with self.assertRaises(Unknown):
            self.write("make")
        words.append("nomemory")
        self.wait_for(lambda: sent.count("nomemory") > 1)
        words.append("")
        self.wait_for(lambda: self.writer.seq == 1)
        self.assertEqual((self.world.acted, self.kinds()), ([("make",)], ["base", "intent", "done"]))

    def test_four_who_write_at_once(self):
        self.begin(patience=SECONDS)
        answers = []
        threads = [threading.Thread(target=lambda: answers.extend(self.write("make").said["seq"] for _ in range(25))) for _ in range(4)]
        for thread in threads:
            thread.start()
        for thread in threads:
            thread.join(SECONDS)
        self.assertEqual(sorted(answers), list(range(1, 101)))
        self.assertEqual(self.kinds(), ["base"] + ["intent", "done"] * 100)

    def test_who_keeps_up_hears_of_it_before_the_answer(self):
        heard = []
        self.begin().listeners += [lambda one: 1 / 0, heard.append]
        self.assertEqual(self.write("make").said["seq"], 1)
        self.assertEqual([(one.seq, one.who, one.answers) for one in heard], [(1, "ada", ["#9"])])
        self.assertEqual(len(self.told), 2)
        self.assertEqual(self.write("no").status, 409)
        self.assertEqual(len(heard), 1)

    def test_a_full_segment(self):
        self.begin(segment_bytes=600, patience=SECONDS)
        for _ in range(6):
            self.write("make")
        self.assertGreater(self.kinds().count("base"), 2)
        world = self.world
        self.begin(world=world)
        self.assertEqual((self.writer.seq, self.writer.stopped, self.told), (6, None, []))


class Sizes(WriterTest):
    def test_long_answers_are_kept_as_their_sum(self):
        self.begin(patience=SECONDS)
        judged, long = self.world.judged, "x" * 1_100_000

        def judging(said):
            answer = judged(said)
            is_much = answer.status == 200 and said["calls"] == ["much"]
            return own_answer(200, answers=[long], seq=self.world.seq) if is_much else answer

        self.world.judged = judging
        for plan in ([], ["lost"]):
            self.world.plan = plan
            self.assertEqual(self.write("much").said["answers"], [long])
        wanted = hashlib.sha256(json.dumps([long]).encode()).hexdigest()
        intents = [line for line in self.lines() if line["k"] == "intent"]
        self.assertEqual([(line["answers_sum"], "answers" in line) for line in intents], [(wanted, False)] * 2)
        kept = [one.kept for one in accepted_in(self.folder) if isinstance(one, Accepted)]
        self.assertEqual(kept, [{"answers_sum": wanted}] * 2)
        self.assertLess((self.folder / "journal-0").stat().st_size, 2000)

    def test_an_answer_that_is_too_long(self):
        self.begin()
        judged = self.world.judged

        def judging(said):
            if said["calls"] == ["much"]:
                raise TooLong
            return judged(said)

        self.world.judged = judging
        with self.assertRaises(TooLong):
            self.write("much")
        self.assertEqual(self.write("make").said["seq"], 1)
        self.assertEqual(self.kinds(), ["base", "intent", "done"])


class Memories(WriterTest):
    """Before a batch is sent, the writer reads what its calls replace."""

    def remembering(self, failure):
        """What fails so in place of that."""
        def keys(*given):
            raise failure

        return keys

    def test_who_waited_is_gone_meanwhile(self):
        self.begin().memory.keys = self.remembering(NobodyWaits())
        with self.assertRaises(Busy):
            self.write("make")
        self.assertEqual((self.world.acted, self.kinds(), self.writer.stopped), ([], ["base"], None))

    def test_what_cannot_be_followed_stops_nothing(self):
        self.begin().memory.keys = self.remembering(IndexError("the list ends"))
        self.assertEqual(self.write("make", "look").said, {"answers": ["#9", "0"], "seq": 1})
        self.assertEqual(self.lines()[1]["before"], [None, None])
        self.assertIn("the list ends", self.told[-1])

    def test_who_wrote_is_disabled_meanwhile(self):
        answers = [True, False]

        class Watch(Free):
            def may_send(self, name):
                return answers.pop(0)

        self.begin().watch = Watch()
        with self.assertRaises(Barred):
            self.write("make")
        self.assertEqual((self.world.acted, self.kinds()), ([], ["base"]))


class Strangers(WriterTest):
    def stopped(self, *calls):
        with self.assertRaises(Stopped):
            self.write(*calls or ("make",))
        self.assertIn("--rebase", self.told[-1])

    def test_a_write_while_idle(self):
        self.begin()
        self.write("make")
        self.world.strange()
        self.stopped()
        self.assertEqual({key: value for key, value in self.lines()[-1].items() if key != "t"}, {"k": "gap", "world": 2, "journal": 1})
        sends = self.world.sends
        self.stopped("look")
        self.assertEqual((self.world.sends, self.kinds()), (sends, ["base", "intent", "done", "gap"]))

    def test_a_batch_with_at_sees_it_too(self):
        for at in (0, 1):
            with self.subTest(at=at):
                self.begin(world=World())
                self.world.strange()
                with self.assertRaises(Stopped):
                    self.write("make", at=at)
                self.end()
                (self.folder / "journal-0").unlink()

    def test_a_write_between_the_question_and_the_batch(self):
        for word in ("stranger", "strangers", "late"):
            with self.subTest(word):
                self.begin(word, world=World())
                self.stopped()
                self.assertEqual(self.kinds(), ["base", "intent", "gap"])
                self.end()
                (self.folder / "journal-0").unlink()

    def test_a_stranger_who_takes_the_very_number_is_believed_ours(self):
        """docs/JOURNAL.md says so: the front has to be the only writer."""
        self.begin("taken", "stranger")
        self.assertEqual(self.write("make").said, {"answers": ["#9"], "seq": 1})
        self.assertEqual(self.world.acted, [("stranger",)])

    def test_a_write_while_no_front_ran(self):
        self.begin()
        self.write("make")
        world = self.world
        self.end()
        world.strange()
        self.begin(world=world)
        self.stopped()
        self.assertEqual(self.kinds(), ["base", "intent", "done", "gap"])

    def test_an_older_world(self):
        self.begin()
        self.write("make")
        self.write("make")
        self.begin(world=World())
        self.stopped()
        self.assertEqual(self.kinds()[-1], "gap")

    def test_a_gap_stays_until_an_operator_decides(self):
        self.begin()
        self.write("make")
        world = self.world
        world.strange()
        self.stopped()
        world.seq = 1
        self.begin(world=world)
        self.stopped()
        world.seq = 5
        self.begin(world=world, is_rebase=True)
        self.assertIn("the journal begins at number 5 of the world", self.told)
        self.assertEqual(self.write("make").said["seq"], 6)
        self.assertEqual(self.kinds(), ["base", "intent", "done", "gap", "base", "intent", "done"])
        self.begin(world=world)
        self.assertEqual((self.writer.seq, self.writer.stopped, self.told), (6, None, []))

    def test_rebase_of_a_new_journal(self):
        world = World()
        world.seq = 57
        self.begin(world=world, is_rebase=True)
        self.assertEqual((self.kinds(), self.writer.seq), (["base"], 57))


class Starts(WriterTest):
    """An intent is open at the start."""

    def left_open(self, is_done, strangers=0):
        """A journal whose last intent is open, and its world."""
        self.begin()
        self.write("make")
        world = self.world
        self.journal.append({"k": "intent", "at": 1, "t": 7.0, "who": "ben", "as": 5, "calls": ["make"], "answers": ["#10"]}, True)
        self.end()
        if is_done:
            world.act({"calls": ["make"], "at": 1})
        world.strange(strangers)
        return world

    def test_it_was_not_sent(self):
        world = self.left_open(False)
        self.begin(world=world)
        self.assertEqual((world.acted, self.kinds()[-2:], self.writer.seq), ([("make",)] * 2, ["intent", "done"], 2))

    def test_it_was_accepted(self):
        world = self.left_open(True)
        self.begin("lost", world=world)
        self.assertEqual((world.acted, self.kinds()[-2:], self.writer.seq), ([("make",)] * 2, ["intent", "done"], 2))
        self.assertEqual(self.lines()[-1], {"k": "done", "seq": 2})

    def test_the_world_fails_again(self):
        for plan in (["taken", "lost"], ["fault"], ["closed", "nomemory", "away"]):
            with self.subTest(plan):
                world = self.left_open(False)
                self.begin(*plan, world=world)
                self.assertEqual((world.acted, self.writer.seq), ([("make",)] * 2, 2))
                self.end()
                (self.folder / "journal-0").unlink()

    def test_others_wrote_too(self):
        world = self.left_open(True, strangers=1)
        self.begin(world=world)
        with self.assertRaises(Stopped):
            self.write("make")
        self.assertEqual(self.kinds()[-2:], ["intent", "gap"])

    def test_it_is_refused_now(self):
        world = self.left_open(False)
        world.judged = lambda said: own_answer(409, call=1, error="E_QUOTA")
        self.begin(world=world)
        self.assertEqual((self.kinds()[-2:], self.writer.seq), (["intent", "void"], 1))


class Waiting(WriterTest):
    def test_nobody_answers(self):
        self.begin(patience=PATIENCE)
        self.world.is_away = True
        began = time.monotonic()
        with self.assertRaises(Busy):
            self.write("make")
        self.assertLess(time.monotonic() - began, PATIENCE + 20)
        self.world.is_away = False
        self.writer.patience = SECONDS
        self.assertEqual(self.write("look").said["seq"], 1)
        self.assertEqual((self.world.acted, self.kinds()), ([("look",)], ["base", "intent", "done"]))

    def test_a_batch_that_was_sent_is_decided_later(self):
        self.begin("lost", patience=PATIENCE)
        sent, self.world.sent = self.world.sent, None
        hold = threading.Event()

        def held(method, path, body=None, wait=None):
            if path == "/batch?why" and self.world.sends:
                hold.wait(SECONDS)
            return sent(method, path, body, wait)

        self.world.sent = held
        with self.assertRaises(Unknown) as raised:
            self.write("make")
        self.assertEqual(raised.exception.at, 0)
        with self.assertRaises(Busy):
            self.write("look")
        hold.set()
        self.wait_for(lambda: self.writer.seq == 1)
        self.writer.patience = SECONDS
        self.assertEqual(self.write("last").said["seq"], 2)
        self.assertEqual(self.world.acted, [("make",), ("last",)], "who was told busy isn't sent later")

    def test_a_queue_that_is_full(self):
        self.begin()
        is_held, hold, sent = threading.Event(), threading.Event(), self.world.sent
        self.world.sent = lambda *given: (is_held.set(), hold.wait(SECONDS), sent(*given))[2]
        self.addCleanup(setattr, writer_module, "LONGEST_QUEUE", writer_module.LONGEST_QUEUE)
        writer_module.LONGEST_QUEUE = 3
        answers = []
        threads = [threading.Thread(target=lambda: answers.append(self.write("make").status)) for _ in range(4)]
        # The first is in hand, and the others wait.
        for number, thread in enumerate(threads):
            thread.start()
            self.assertTrue(is_held.wait(SECONDS))
            self.wait_for(lambda number=number: len(self.writer.queue) == number)
        began = time.monotonic()
        with self.assertRaises(Busy):
            self.write("make")
        self.assertLess(time.monotonic() - began, SECONDS / 2)
        hold.set()
        for thread in threads:
            thread.join(SECONDS)
        self.assertEqual(answers, [200] * 4)


class Disks(WriterTest):
    def full(self):
        """Makes the disk full, and gives what makes room."""
        write = os.write

        def writing(file, text):
            write(file, text[:9])
            raise OSError(errno.ENOSPC, "No space left on device")

        os.write = writing
        self.addCleanup(setattr, os, "write", write)
        return lambda: setattr(os, "write", write)

    def test_an_intent_finds_no_room(self):
        self.begin()
        make_room = self.full()
        for _ in range(2):
            with self.assertRaises(Busy):
                self.write("make")
        self.assertEqual((self.world.sends, self.kinds()), (0, ["base"]))
        self.assertIn("No space left on device", self.told[-1])
        make_room()
        self.assertEqual(self.write("make").said["seq"], 1)
        self.assertEqual(self.kinds(), ["base", "intent", "done"])

    def fill_at_the_batch(self):
        """Lets the disk fill up as the first batch is sent. A list that then has the function which makes room, and the sending of before."""
        room, sent = [], self.world.sent

        def filling(method, path, body=None, wait=None):
            if path == "/batch?why" and not room:
                room.append(self.full())
            return sent(method, path, body, wait)

        self.world.sent = filling
        return room, sent

    def test_an_outcome_finds_no_room(self):
        self.begin()
        room, _ = self.fill_at_the_batch()
        self.assertEqual(self.write("make").said["seq"], 1)
        self.assertEqual(self.kinds(), ["base", "intent"])
        with self.assertRaises(Busy):
            self.write("make")
        room[0]()
        self.assertEqual(self.write("make").said["seq"], 2)
        self.assertEqual(self.kinds(), ["base", "intent", "done", "intent", "done"])

    def test_an_outcome_that_was_never_written(self):
        self.begin()
        room, sent = self.fill_at_the_batch()
        self.write("make")
        room[0]()
        self.world.sent = sent
        self.begin(world=self.world)
        self.assertEqual((self.kinds(), self.world.acted), (["base", "intent", "done"], [("make",)]))

    def test_a_disk_that_fails(self):
        self.begin()
        sync = os.fdatasync

        def failing(_file):
            raise OSError(errno.EIO, "Input/output error")

        os.fdatasync = failing
        self.addCleanup(setattr, os, "fdatasync", sync)
        with self.assertRaises(Unknown):
            self.write("make")
        with self.assertRaises(Stopped):
            self.write("make")
        self.assertEqual(self.world.sends, 0)

    def test_a_start_without_room(self):
        self.full()
        with self.assertRaises(NoRoom):
            self.begin()
        self.writer.thread.start()


class Clocks(WriterTest):
    def test_a_clock_that_goes_back_is_told(self):
        now = [2000.0]
        self.addCleanup(setattr, time, "time", time.time)
        time.time = lambda: now[0]
        self.begin()
        for moment, told in ((2001.5, 0), (1990.25, 1), (1991.0, 1), (2500.0, 1), (1000.0, 2)):
            now[0] = moment
            self.write("make")
            self.assertEqual(len(self.told) - 1, told)
        self.assertIn("11.250 seconds", self.told[1])
        self.assertEqual([line["t"] for line in self.lines() if line["k"] == "intent"], [2001.5, 1990.25, 1991.0, 2500.0, 1000.0])


if __name__ == "__main__":
    unittest.main()
