"""The journal of a front on the disk: its lines and sums, torn and damaged ones, two folders, full disks (web/moo_web/journal/journal.py)."""

import errno
import hashlib
import json
import os
import pathlib
import resource
import shutil
import stat
import tempfile
import unittest

from tests.support.journals import accepted_in
from tests.support.web import use_web

use_web()

from moo_web.journal import journal as journal_module  # noqa: E402
from moo_web.journal.journal import Broken, InUse, Journal, NoRoom  # noqa: E402
from moo_web.journal.segments import Accepted, Damaged  # noqa: E402

BASE_KEYS = ["k", "version", "segment", "seq", "former", "t", "why", "branch"]


def intent(at, t=None, calls=("create(#1)",)):
    moment = 1000.0 + at if t is None else t
    return {"k": "intent", "at": at, "t": moment, "who": "ada", "as": 4, "calls": list(calls), "answers": [f"#{9 + at}"]}


def done(at):
    return {"k": "done", "seq": at + 1}


def void(at):
    return {"k": "void", "at": at, "answer": {"error": "nomemory"}}


def gap(world, at):
    return {"k": "gap", "world": world, "journal": at, "t": 1000.0 + at}


class JournalTest(unittest.TestCase):
    """Journals in folders of a room that is removed. `told` is what an operator was told."""

    def setUp(self):
        room = tempfile.TemporaryDirectory()
        self.addCleanup(room.cleanup)
        self.room, self.told = pathlib.Path(room.name), []
        self.folder, self.second = self.made("first"), self.made("second")
        self.open_ones = []
        self.addCleanup(lambda: [one.close() for one in self.open_ones])

    def made(self, name):
        (self.room / name).mkdir()
        return self.room / name

    def opened(self, folder=None, second=None, **how):
        """The journal of a folder, which is let go at the end."""
        self.told.clear()
        journal = Journal(folder or self.folder, second, self.told.append, **how)
        self.open_ones.append(journal)
        return journal

    def close(self):
        while self.open_ones:
            self.open_ones.pop().close()

    def written(self, *lines, second=None, **how):
        """A journal that begins at 0 and holds these lines; then it is let go."""
        journal = self.opened(second=second, **how)
        journal.begin(0, 999.0, "new")
        for line in lines:
            journal.append(line, line["k"] == "intent")
        self.close()
        return self.folder / "journal-0"

    def state(self, folder=None, second=None):
        """Where a journal is: its number, its open intents' numbers, and whether it has a gap. Then it is let go."""
        journal = self.opened(folder, second)
        state = journal.seq, [one["at"] for one in journal.open_intents], journal.gap is not None
        self.close()
        return state

    def lines_of(self, folder=None):
        return [line for path in self.segments(folder) for line in path.read_bytes().splitlines(keepends=True)]

    def segments(self, folder=None):
        files = (folder or self.folder).glob("journal-*")
        return sorted(files, key=lambda path: json.loads(path.read_bytes().split(b"\n")[0][65:])["segment"])


class Lines(JournalTest):
    def test_each_sum_is_over_the_one_before_and_the_text(self):
        path = self.written(intent(0), done(0), intent(1), void(1))
        former = "0" * 64
        for line in path.read_bytes().splitlines(keepends=True):
            former = hashlib.sha256(former.encode() + line[65:-1]).hexdigest()
            self.assertEqual(line[:65], former.encode() + b" ")
        self.assertEqual([json.loads(line[65:])["k"] for line in self.lines_of()], ["base", "intent", "done", "intent", "void"])

    def test_the_first_line_has_the_version(self):
        path = self.written()
        first = json.loads(path.read_bytes()[65:])
        self.assertEqual(list(first), BASE_KEYS)
        self.assertEqual((first["version"], first["segment"], first["seq"], first["former"], first["why"]), (2, 1, 0, "0" * 64, "new"))

    def test_files_are_for_their_owner(self):
        self.written(intent(0), second=self.second)
        for folder in (self.folder, self.second):
            self.assertEqual(stat.S_IMODE((folder / "journal-0").stat().st_mode), 0o600)

    def test_where_a_journal_is(self):
        for lines, wanted in (
            ((), (0, [], False)),
            ((intent(0),), (0, [0], False)),
            ((intent(0), done(0)), (1, [], False)),
            ((intent(0), void(0)), (0, [], False)),
            ((intent(0), void(0), intent(0)), (0, [0], False)),
            ((intent(0), done(0), intent(1), gap(5, 1)), (1, [1], True)),
            ((intent(0), done(0), gap(5, 1)), (1, [], True)),
        ):
            with self.subTest([line["k"] for line in lines]):
                self.written(*lines)
                self.assertEqual(self.state(), wanted)
                self.assertEqual(self.told, [])
                (self.folder / "journal-0").unlink()

    def test_an_empty_folder(self):
        self.assertEqual(self.state(), (None, [], False))

    def test_it_goes_on_after_what_is_there(self):
        self.written(intent(0), done(0))
        journal = self.opened()
        self.assertEqual(journal.moment, 1000.0)
        journal.append(intent(1), True)
        journal.append(done(1), False)
        self.close()
        self.assertEqual(self.state(), (2, [], False))

    def test_one_front_at_a_time(self):
        self.opened(second=self.second)
        for folders in ((self.folder, None), (self.second, None), (self.made("third"), self.second)):
            with self.assertRaises(InUse):
                Journal(*folders, self.told.append)
        self.close()
        self.state(self.room / "third")


class Segments(JournalTest):
    def test_a_full_segment_is_followed_by_another(self):
        journal = self.opened(segment_bytes=1000)
        journal.begin(0, 999.0, "new")
        for at in range(20):
            if journal.is_full:
                journal.begin(at, 1000.0, "full")
            journal.append(intent(at), True)
            journal.append(done(at), False)
        self.close()
        self.assertGreater(len(self.segments()), 3)
        self.assertLess(max(path.stat().st_size for path in self.segments()), 1500)
        for former, path in zip(self.segments(), self.segments()[1:]):
            first = json.loads(path.read_bytes().split(b"\n")[0][65:])
            self.assertEqual(first["former"].encode(), former.read_bytes().splitlines()[-1][:64])
            self.assertEqual(path.name, f"journal-{first['seq']}")
        self.assertEqual(self.state(), (20, [], False))
        self.assertEqual([one.at for one in accepted_in(self.folder) if isinstance(one, Accepted)], list(range(20)))

    def test_it_begins_anew_at_any_number(self):
        journal = self.opened()
        for seq, why in ((0, "new"), (5, "rebase"), (5, "rebase"), (0, "rebase")):
            journal.begin(seq, 1000.0, why)
            journal.append(intent(seq), True)
            journal.append(gap(9, seq), True)
        journal.begin(0, 1000.0, "rebase")
        self.close()
        self.assertEqual(self.state(), (0, [], False))
        self.assertEqual([path.name for path in self.segments()], ["journal-0", "journal-5", "journal-5.3", "journal-0.4", "journal-0.5"])

    def test_a_missing_segment(self):
        journal = self.opened()
        for seq in range(4):
            journal.begin(seq, 1000.0, "rebase")
        self.close()
        (self.folder / "journal-0").unlink()
        self.assertEqual(self.state(), (3, [], False), "the older ones may be moved away")
        (self.folder / "journal-2").unlink()
        with self.assertRaises(Damaged):
            self.state()

    def test_a_segment_of_another_journal(self):
        self.written(intent(0))
        for seq in (0, 1):
            journal = self.opened(self.second)
            journal.begin(seq, 1000.0, "rebase")
            self.close()
        shutil.copy(self.second / "journal-1", self.folder)
        with self.assertRaises(Damaged):
            self.state()

    def test_a_later_version(self):
        path = self.written()
        text = path.read_bytes()[65:-1].replace(b'"version":2', b'"version":3')
        path.write_bytes(hashlib.sha256(b"0" * 64 + text).hexdigest().encode() + b" " + text + b"\n")
        with self.assertRaisesRegex(Damaged, "version 3"):
            self.state()


class Tails(JournalTest):
    def test_a_tail_that_is_torn_at_each_byte(self):
        for lines, before, whole in (
            ((intent(0), done(0), intent(1)), (1, [], False), (1, [1], False)),
            ((intent(0), done(0)), (0, [0], False), (1, [], False)),
            ((intent(0), void(0)), (0, [0], False), (0, [], False)),
        ):
            path = self.written(*lines)
            text = path.read_bytes()
            last = text[:-1].rfind(b"\n") + 1
            for cut in range(last, len(text) + 1):
                path.write_bytes(text[:cut])
                with self.subTest(cut=cut, of=lines[-1]["k"]):
                    self.assertEqual(self.state(), whole if cut == len(text) else before)
                    self.assertEqual(len(self.told), last < cut < len(text))
                    self.assertEqual(path.read_bytes(), text if cut == len(text) else text[:last])
            for path in self.folder.iterdir():
                path.unlink()

    def test_a_segment_that_was_torn_when_it_was_made(self):
        self.written(intent(0), done(0))
        journal = self.opened()
        journal.begin(1, 1001.0, "full")
        self.close()
        text = (self.folder / "journal-1").read_bytes()
        for cut in range(len(text)):
            (self.folder / "journal-1").write_bytes(text[:cut])
            with self.subTest(cut=cut):
                self.assertEqual(self.state(), (1, [], False))
                self.assertEqual(len(self.told), 1)
                self.assertFalse((self.folder / "journal-1").exists())

    def test_a_flipped_bit_anywhere_is_told(self):
        self.written(intent(0), done(0))
        journal = self.opened()
        journal.begin(1, 1001.0, "full")
        journal.append(intent(1), True)
        journal.append(done(1), False)
        self.close()
        for name in ("journal-0", "journal-1"):
            path = self.folder / name
            text = path.read_bytes()
            for place in range(len(text)):
                flipped = bytearray(text)
                flipped[place] ^= 1 << place % 8
                path.write_bytes(flipped)
                with self.subTest(name=name, place=place):
                    try:
                        self.state()
                        self.assertEqual(len(self.told), 1)
                        self.assertGreaterEqual(place, text[:-1].rfind(b"\n"), "of the last line alone, or of the line end before it")
                        self.assertEqual(name, "journal-1")
                    except Damaged:
                        pass
            path.write_bytes(text)
        self.assertEqual(self.state(), (2, [], False))

    def test_a_damaged_last_line_is_kept_aside(self):
        path = self.written(intent(0), done(0))
        text = path.read_bytes()
        path.write_bytes(text[:-3] + b"7" + text[-2:])
        self.assertEqual(self.state(), (0, [0], False))
        aside = [one for one in self.folder.iterdir() if one.name.startswith("damaged-")]
        self.assertEqual([one.read_bytes() for one in aside], [text[text[:-1].rfind(b"\n") + 1 : -3] + b"7" + text[-2:]])

    def test_lines_that_are_missing_twice_or_moved(self):
        path = self.written(intent(0), done(0), intent(1), done(1))
        lines = path.read_bytes().splitlines(keepends=True)
        for name, changed in (
            ("missing", lines[:2] + lines[3:]),
            ("twice", lines[:2] + lines[1:]),
            ("moved", [lines[0], lines[3], lines[4], lines[1], lines[2]]),
            ("the first is missing", lines[1:]),
        ):
            path.write_bytes(b"".join(changed))
            with self.subTest(name), self.assertRaises(Damaged):
                self.state()


class TwoFolders(JournalTest):
    def both(self):
        return [{path.name: path.read_bytes() for path in folder.glob("journal-*")} for folder in (self.folder, self.second)]

    def test_both_have_the_same(self):
        self.written(intent(0), done(0), second=self.second)
        first, second = self.both()
        self.assertEqual(first, second)
        self.assertEqual(len(self.lines_of()), 3)

    def long_one(self):
        """A journal of three segments in both folders."""
        self.written(intent(0), done(0), second=self.second)
        journal = self.opened(second=self.second)
        for at in (1, 2):
            journal.begin(at, 1000.0, "full")
            journal.append(intent(at), True)
            journal.append(done(at), False)
        self.close()
        return self.both()[0]

    def test_the_one_with_less_is_completed(self):
        whole = self.long_one()
        for folder in (self.folder, self.second):
            for missing in (["journal-2"], ["journal-2", "journal-1"], list(whole)):
                for name in missing:
                    (folder / name).unlink()
                with self.subTest(folder=folder.name, missing=missing):
                    self.assertEqual(self.state(second=self.second), (3, [], False))
                    self.assertEqual(self.both(), [whole, whole])
                    self.assertEqual(len(self.told), 1)

    def test_a_tail_is_completed_from_each_byte(self):
        whole = self.long_one()
        for folder in (self.folder, self.second):
            for cut in range(0, len(whole["journal-2"])):
                (folder / "journal-2").write_bytes(whole["journal-2"][:cut])
                with self.subTest(folder=folder.name, cut=cut):
                    self.assertEqual(self.state(second=self.second), (3, [], False))
                    self.assertEqual(self.both(), [whole, whole])

    def test_two_journals(self):
        self.written(intent(0), done(0), second=self.second)
        for line in (intent(1), intent(1, t=5.0)):
            folder = self.folder if line["t"] > 5 else self.second
            journal = self.opened(folder)
            journal.append(line, True)
            self.close()
        with self.assertRaises(Damaged):
            self.state(second=self.second)

    def test_older_segments_were_moved_away_in_one(self):
        whole = self.long_one()
        (self.second / "journal-0").unlink()
        self.assertEqual(self.state(second=self.second), (3, [], False))
        self.assertEqual(sorted(self.both()[1]), ["journal-1", "journal-2"])
        self.assertEqual(self.both()[0], whole)


class Failures(JournalTest):
    """The disk is full, or fails."""

    def replaced(self, name, function):
        """Puts a function in the place of one of the module os, as the journal knows it."""
        self.addCleanup(setattr, os, name, getattr(os, name))
        setattr(os, name, function)

    def full_after(self, count):
        """Makes the disk full after so many bytes, and gives what makes room again."""
        left, write = [count], os.write

        def writing(file, text):
            if left[0] < len(text):
                write(file, text[: left[0]])
                left[0] = 0
                raise OSError(errno.ENOSPC, "No space left on device")
            left[0] -= len(text)
            return write(file, text)

        self.replaced("write", writing)
        return lambda: left.__setitem__(0, 1 << 30)

    def test_a_line_that_finds_no_room_leaves_nothing(self):
        for room in range(0, 500, 7):
            shutil.rmtree(self.folder), shutil.rmtree(self.second)
            self.made("first"), self.made("second")
            self.written(intent(0), done(0), second=self.second)
            journal = self.opened(second=self.second)
            before = (self.folder / "journal-0").read_bytes()
            make_room = self.full_after(room)
            try:
                journal.append(intent(1), True)
            except NoRoom:
                self.assertEqual((self.folder / "journal-0").read_bytes(), before)
                self.assertEqual((self.second / "journal-0").read_bytes(), before)
                make_room()
                journal.append(intent(1), True)
            self.doCleanups_of_os()
            self.close()
            self.assertEqual(self.state(second=self.second), (1, [1], False))

    def doCleanups_of_os(self):
        """Takes the last replaced function back."""
        function, given, _ = self._cleanups.pop()
        function(*given)

    def test_a_limit_on_the_size_of_files(self):
        self.written(intent(0), done(0))
        journal = self.opened()
        size = (self.folder / "journal-0").stat().st_size
        limits = resource.getrlimit(resource.RLIMIT_FSIZE)
        self.addCleanup(resource.setrlimit, resource.RLIMIT_FSIZE, limits)
        resource.setrlimit(resource.RLIMIT_FSIZE, (size + 50, limits[1]))
        with self.assertRaises(NoRoom):
            journal.append(intent(1), True)
        resource.setrlimit(resource.RLIMIT_FSIZE, limits)
        self.assertEqual((self.folder / "journal-0").stat().st_size, size)
        journal.append(intent(1), True)
        self.close()
        self.assertEqual(self.state(), (1, [1], False))

    def test_a_segment_that_finds_no_room(self):
        journal = self.opened(second=self.second)
        journal.begin(0, 999.0, "new")
        for room in range(0, 450, 30):
            make_room = self.full_after(room)
            try:
                journal.begin(0, 999.0, "full")
            except NoRoom:
                self.assertEqual(len(list(self.folder.iterdir())), journal.number)
                self.assertEqual(len(list(self.second.iterdir())), journal.number)
            make_room()
            self.doCleanups_of_os()
        journal.append(intent(0), True)
        self.close()
        self.assertEqual(self.state(second=self.second), (0, [0], False))

    def test_a_sync_that_fails_stops_all(self):
        for folder in (self.folder, self.second):
            with self.subTest(folder.name):
                journal = self.opened(second=self.second)
                journal.begin(0, 999.0, "new")
                held = [place.file for place in journal.places if place.folder == folder]
                sync = os.fdatasync

                def failing(file):
                    if file in held:
                        raise OSError(errno.EIO, "Input/output error")
                    sync(file)

                self.replaced("fdatasync", failing)
                with self.assertRaises(Broken):
                    journal.append(intent(0), True)
                self.doCleanups_of_os()
                with self.assertRaises(Broken):
                    journal.append(intent(0), True)
                self.close()
                self.assertEqual(self.state(second=self.second), (0, [], False))
                for place in (self.folder, self.second):
                    (place / "journal-0").unlink()

    def test_a_line_that_cannot_be_taken_back_stops_all(self):
        journal = self.opened()
        journal.begin(0, 999.0, "new")
        self.full_after(10)

        def failing(*_):
            raise OSError(errno.EIO, "Input/output error")

        self.replaced("ftruncate", failing)
        with self.assertRaises(Broken):
            journal.append(intent(0), True)
        self.doCleanups_of_os()
        self.doCleanups_of_os()
        with self.assertRaises(Broken):
            journal.append(intent(0), True)
        self.close()
        self.assertEqual(self.state(), (0, [], False))
        self.assertEqual(len(self.told), 1)


class Histories(JournalTest):
    def test_what_was_accepted(self):
        other = {**done(2), "answers": ["#99"]}
        self.written(intent(0), done(0), intent(1), void(1), intent(1, 7.0), done(1), intent(2), other, intent(3))
        told = list(accepted_in(self.folder))
        self.assertEqual(told[0]["why"], "new")
        self.assertEqual([(one.at, one.seq, one.t, one.answers) for one in told[1:]], [
            (0, 1, 1000.0, ["#9"]), (1, 2, 7.0, ["#10"]), (2, 3, 1002.0, ["#99"]),
        ])  # fmt: skip
        self.assertEqual({(one.who, one.programmer, *one.calls) for one in told[1:]}, {("ada", 4, "create(#1)")})

    def test_an_outcome_of_nothing(self):
        self.written(intent(0), done(0), done(1))
        with self.assertRaises(Damaged):
            list(accepted_in(self.folder))

    def test_it_can_be_read_while_it_is_written(self):
        journal = self.opened()
        journal.begin(0, 999.0, "new")
        journal.append(intent(0), True)
        journal.append(done(0), False)
        journal_module.write_whole(journal.places[0].file, b"0" * 70)
        self.assertEqual([one.at for one in accepted_in(self.folder) if isinstance(one, Accepted)], [0])


if __name__ == "__main__":
    unittest.main()
