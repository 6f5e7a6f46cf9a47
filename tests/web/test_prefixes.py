"""The files beside the segments of a journal: what was read once isn't read again, and a file that isn't right is made anew."""

import os
import pathlib
import random
import tempfile
import unittest
from unittest import mock

from tests.support.journals import accepted_in
from tests.support.pages import PagesTest
from tests.support.web import program, use_web

use_web()

from moo_web.app import App, Request  # noqa: E402
from moo_web.journal import history as history_module  # noqa: E402
from moo_web.journal import segments  # noqa: E402
from moo_web.journal.history import History  # noqa: E402
from moo_web.journal.journal import Journal  # noqa: E402
from moo_web.journal.mending import Survey  # noqa: E402
from moo_web.journal.segments import Accepted, Damaged  # noqa: E402
from moo_web.journal.tables import sum_of  # noqa: E402
from moo_web.journal.talks import decided_of  # noqa: E402

SEED = 11
PEOPLE = {"ada": 4, "Ben": 5, "wizard": 3}
SEGMENT = 2000


class JournalTest(unittest.TestCase):
    """A journal of small segments, in a folder or in two, and its index, whose files are written at each look."""

    def setUp(self):
        room = tempfile.TemporaryDirectory()
        self.addCleanup(room.cleanup)
        self.folder, self.second = pathlib.Path(room.name, "first"), pathlib.Path(room.name, "second")
        self.folder.mkdir(), self.second.mkdir()
        self.told = []
        self.journal, self.seq, self.petitions = None, 0, 0
        self.open_again()
        self.journal.begin(0, 1.0, "new")
        self.addCleanup(lambda: self.journal.close())

    def open_again(self, second=None):
        if self.journal:
            self.journal.close()
        self.journal = Journal(self.folder, second, self.told.append, SEGMENT)

    def history(self, second=None):
        return History(self.folder, second, 1, 1)

    def accept(self, who, calls, answers):
        """A batch that is accepted."""
        if self.journal.is_full:
            self.journal.begin(self.seq, 1.0 + self.seq, "full")
        said = {"k": "intent", "at": self.seq, "t": 1.0 + self.seq, "who": who, "as": PEOPLE[who], "calls": calls, "answers": answers}
        self.journal.append(said, False)
        self.seq += 1
        self.journal.append({"k": "done", "seq": self.seq}, False)

    def one_more(self, rng):
        """A line or two of any kind."""
        kind, who = rng.choice(("move", "move", "move", "create", "petition", "grant", "void", "rebase")), rng.choice(list(PEOPLE))
        if kind == "move":
            self.accept(who, [f"move(#{rng.randrange(9)}, #1)"], ["0"])
        elif kind == "create":
            self.accept(who, ["create(#1)"], [f"#{rng.randrange(20)}"])
        elif kind == "petition":
            self.petitions += 1
            self.accept(who, [f'petition({{{{"recycle", #{rng.randrange(9)}}}}})'], [str(self.petitions)])
        elif kind == "grant" and self.petitions:
            self.accept("wizard", [f"{rng.choice(('grant', 'decline'))}({rng.randrange(self.petitions) + 1})"], ["0"])
        elif kind == "void":
            said = {"k": "intent", "at": self.seq, "t": 1.0, "who": who, "as": 4, "calls": ["max_object()"], "answers": ["#1"]}
            self.journal.append(said, False)
            self.journal.append({"k": "void", "at": self.seq, "answer": {"error": "E_PERM"}}, False)
        elif rng.random() < 0.1:
            self.seq = rng.randrange(50)
            self.journal.begin(self.seq, 1.0, "rebase")

    def fill(self, count, rng=None):
        for number in range(count):
            self.one_more(rng) if rng else self.accept("ada", [f"move(#{number}, #1)"], ["0"])

    def files(self, folder=None):
        return sorted((folder or self.folder).glob("index-*"), key=lambda file: float(file.name[6:]))

    def lines_read(self, work):
        """How many lines of the journal are read, and their sums checked, while this is done."""
        with mock.patch.object(segments, "sum_after", wraps=segments.sum_after) as summed:
            work()
        return summed.call_count


def seen_in(history):
    """All that an index answers about the journals of these tests. It looks at the folder once."""
    history.found(None, None, 0)
    with mock.patch.object(history, "catch_up"):
        return answers_of(history)


def answers_of(history):
    """What an index answers to all questions of these tests."""
    said = [history.found(who, number, 1000) for who in (None, "ada", "ben", "wizard") for number in (None, *range(20))]
    said += [decided_of(history, who, 100) for who in PEOPLE]
    said += [history.one(seq) for seq in range(100)]
    said += [history.same(who, sum_of([f"move(#{number}, #1)"]), after) for who in PEOPLE for number in range(9) for after in (0, 20)]
    return said + [history.petition(number) for number in range(20)]


def state_of(survey):
    """What a start learns from a journal."""
    return survey.seq, survey.moment, survey.gap, survey.open_intents(), survey.length, survey.reading.sum


def without_files(folder):
    for file in folder.glob("index-*"):
        file.unlink()


class Read(JournalTest):
    """What is read again."""

    def test_a_start_reads_what_came_since(self):
        self.fill(300)
        count = len(list(accepted_in(self.folder)))
        self.assertGreater(self.lines_read(lambda: Survey(self.folder)), count)
        self.history().found(None, None, 0)
        self.assertEqual(self.lines_read(lambda: Survey(self.folder)), 0)
        self.fill(2)
        self.assertLessEqual(self.lines_read(lambda: Survey(self.folder)), 6)
        self.assertEqual(Survey(self.folder).seq, 302)

    def test_a_start_with_two_folders_reads_neither(self):
        self.open_again(self.second)
        self.fill(300)
        self.history(self.second).found(None, None, 0)
        self.assertGreater(len(self.files()), 10)
        self.assertEqual([file.name for file in self.files()], [file.name for file in self.files(self.second)])
        compared = []
        with mock.patch("moo_web.journal.mending.is_beginning", side_effect=lambda part, full, size: compared.append(size) or True):
            self.assertEqual(self.lines_read(lambda: self.open_again(self.second)), 0)
        self.assertEqual(set(compared), {0})

    def test_the_index_reads_what_came_since(self):
        self.fill(300)
        first = self.history()
        wanted = first.found("ada", 7, 10)
        with mock.patch.object(history_module.Growing, "take") as take:
            again = self.history()
            self.assertEqual(again.found("ada", 7, 10), wanted)
        self.assertEqual(take.call_count, 0)
        self.assertEqual(sum(isinstance(part.batches, history_module.Growing) for part in first.parts), 1, "the last one is in memory")

    def test_a_batch_is_looked_up_once(self):
        self.fill(300)
        history = self.history()
        history.found(None, None, 0)
        with mock.patch.object(history_module, "line_at", wraps=history_module.line_at) as line_at:
            found = history.one(7)
        self.assertEqual((line_at.call_count, found.seq), (2, 7))

    def test_of_a_page_of_batches_those_lines_are_read(self):
        self.fill(300)
        history = self.history()
        history.found(None, None, 0)
        for who, number in ((None, None), ("ada", None), (None, 7), ("ada", 7)):
            with self.subTest(who=who, number=number), mock.patch.object(history_module, "line_at", wraps=history_module.line_at) as line_at:
                found = history.found(who, number, 10)
                self.assertEqual(line_at.call_count, 2 * len(found.batches))

    def test_a_batch_of_a_journal_that_is_still_read_isnt_told_to_be_missing(self):
        self.fill(3)
        history, app = self.history(), App(print)
        app.add("GET", "/batch", lambda request: self.fail(history.one(1, patience=0.01)))
        with history.turn:
            reply = app.reply(Request({"REQUEST_METHOD": "GET", "PATH_INFO": "/batch"}))
        self.assertEqual((reply.status, reply.body), (503, b'{"error":"busy"}'))
        self.assertIsNone(history.one(99))

    def test_a_copy_isnt_read_again(self):
        self.journal.segment_bytes = 1 << 22
        self.fill(3000)
        copy = self.folder.parent / "copy"
        self.assertEqual(program("moo-send", self.folder, copy), (0, "", ""))
        self.assertEqual(self.lines_read(lambda: Survey(copy)), 0)
        self.fill(1)
        self.assertEqual(program("moo-send", self.folder, copy), (0, "", ""))
        self.assertEqual(state_of(Survey(copy)), state_of(Survey(self.folder)))
        self.assertLessEqual(self.lines_read(lambda: Survey(copy)), 2)


class Right(JournalTest):
    """What is answered is what the journal says."""

    def test_with_and_without_files(self):
        rng = random.Random(SEED)
        for turn in range(6):
            self.fill(50, rng)
            history = self.history()
            seen, state = seen_in(history), state_of(Survey(self.folder))
            for file in self.files():
                damage(file, rng)
            with self.subTest(turn=turn):
                self.assertEqual(state_of(Survey(self.folder)), state, "with damaged files")
                self.assertEqual(seen_in(self.history()), seen, "with damaged files")
                self.assertEqual(seen_in(self.history()), seen, "with new ones")
                without_files(self.folder)
                self.assertEqual(state_of(Survey(self.folder)), state, "without files")
                self.assertEqual(seen_in(self.history()), seen, "without files")
        batches = [one for one in accepted_in(self.folder) if isinstance(one, Accepted)]
        self.assertEqual(self.history().found(None, None, 1000).batches[::-1], batches)
        self.assertGreater(len(self.files()), 15)

    def test_one_that_was_read_line_by_line(self):
        rng = random.Random(SEED + 1)
        history = self.history()
        for _ in range(300):
            self.one_more(rng)
            if rng.random() < 0.2:
                history.found(None, None, 0)
        self.assertEqual(seen_in(history), seen_in(self.history()))
        without_files(self.folder)
        self.assertEqual(seen_in(history), seen_in(self.history()))

    def test_an_intent_that_is_open(self):
        self.fill(50)
        history = self.history()
        self.journal.append({"k": "intent", "at": 50, "t": 60.0, "who": "ada", "as": 4, "calls": ["max_object()"], "answers": ["#1"]}, False)
        history.found(None, None, 0)
        self.assertEqual([said["at"] for said in Survey(self.folder).open_intents()], [50])
        self.journal.append({"k": "done", "seq": 51}, False)
        self.assertEqual(history.one(51).calls, ["max_object()"])
        self.assertEqual(self.history().one(51).calls, ["max_object()"])

    def test_a_file_that_cant_be_written_costs_nothing_but_time(self):
        self.fill(100)
        with mock.patch.object(history_module, "put_prefix", side_effect=OSError(28, "No space left on device")):
            history = self.history()
            self.assertEqual(history.one(3).calls, ["move(#2, #1)"])
            history.end()
        self.assertEqual(self.files(), [])
        self.assertEqual(self.history().one(3).calls, ["move(#2, #1)"])


def damage(file, rng):
    """Deletes a file, cuts it, turns one bit of it, or lets it be."""
    kind, raw = rng.choice(("delete", "cut", "turn", "nothing")), bytearray(file.read_bytes())
    if kind == "delete":
        file.unlink()
    elif kind == "cut":
        file.write_bytes(raw[: rng.randrange(len(raw))])
    elif kind == "turn":
        raw[rng.randrange(len(raw))] ^= 1 << rng.randrange(8)
        file.write_bytes(raw)


class Damage(JournalTest):
    """A segment that was changed since it was read."""

    def setUp(self):
        super().setUp()
        self.fill(100)
        self.kept = self.history()
        self.kept.found(None, None, 0)
        self.first = self.folder / "journal-0"
        raw = self.first.read_bytes()
        self.changed = raw.replace(b"move(#2, #1)", b"move(#3, #1)")
        self.assertNotEqual(raw, self.changed)

    def test_one_that_was_written_is_read_again(self):
        self.first.write_bytes(self.changed)
        with self.assertRaisesRegex(Damaged, "journal-0, line 6: its sum is wrong"):
            Survey(self.folder)

    def test_one_of_the_same_moment_is_found_now_and_then(self):
        state = self.first.stat()
        self.first.write_bytes(self.changed)
        os.utime(self.first, ns=(state.st_atime_ns, state.st_mtime_ns))
        Survey(self.folder)
        told = []
        for _ in self.files()[:-1]:
            self.kept.check_one(told.append)
        self.assertEqual([text.partition(": ")[0] for text in told], [str(self.first)])
        with self.assertRaises(Damaged):
            list(accepted_in(self.folder))

    def test_one_whose_last_line_is_another(self):
        state, raw = self.first.stat(), bytearray(self.first.read_bytes())
        raw[-3] ^= 1
        self.first.write_bytes(raw)
        os.utime(self.first, ns=(state.st_atime_ns, state.st_mtime_ns))
        with self.assertRaises(Damaged):
            Survey(self.folder)

    def test_a_file_of_another_segment(self):
        files = self.files()
        raw = files[1].read_bytes()
        files[0].write_bytes(raw)
        self.assertGreater(self.lines_read(lambda: Survey(self.folder)), 0)
        self.assertEqual(self.history().one(1).calls, ["move(#0, #1)"])


class OnPages(PagesTest):
    numbers = {"wizard": 3, "ada": 4}
    world = "batch as #3\ncreate(#1)\nset_player_flag(#4, 1)\nend\n"

    def test_a_batch_is_shown_whatever_another_segment_holds(self):
        """Who asks for an old batch reads that batch, and not the journal."""
        from moo_web.pages.site import make_pages

        self.journal.segment_bytes = 1000
        for number in range(40):
            self.write("wizard", f'set(#2, "name", "name {number}")')
        # A front that is started anew remembers nothing.
        self.app = App(self.told.append)
        make_pages(self.app, self.people, self.writer, History(self.room / "front"), self.rate)
        wizard, ada = self.reader("wizard"), self.reader("ada")
        self.assertEqual(wizard.get("/done/9").status, 200)
        path = sorted((self.room / "front").glob("journal-*"), key=lambda file: float(file.name[8:]))[-2]
        path.write_bytes(path.read_bytes().replace(b"name", b"game"))
        answer = wizard.get("/done/9")
        self.assertEqual(answer.status, 200)
        self.assertIn('"name 7"', answer.text)
        self.assertEqual([ada.get(f"/done/{seq}").status for seq in (9, 41, 999, 0)], [404] * 4)


if __name__ == "__main__":
    unittest.main()
