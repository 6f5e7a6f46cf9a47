"""The feed of changes, `/api/since/S`: what it tells of each batch, how it waits, and what it says when it can't."""

import contextlib
import threading
import time
import unittest
from unittest import mock

from tests.support.operating import SECONDS
from tests.web.test_api import Api_

from moo_web.api import Api
from moo_web.app import App
from moo_web.journal.since import batches_of
from moo_web.journal.writer import Writer
from moo_web.traffic.visitors import present


class Feeds(Api_):
    """A world at number 1, with #4 a player of ada's, #5 of hers, and #6 fertile."""

    def since(self, at, who="ada", query=""):
        return self.asked(who, "GET", f"/api/since/{at}", query=query)

    def batch(self, who, *calls):
        status, said = self.post(who, "/api/batch", {"calls": list(calls)})
        self.assertEqual(status, 200, said)
        return said["seq"]


class Objects(Feeds):
    """Which objects a batch names or made."""

    def test_calls_and_answers(self):
        for calls, objects in (
            (["create(#6)"], ["#6", "#7"]),
            (['set(#5, "name", "near #3")'], ["#5"]),
            (['add_property(#5, "x", {#2, {#3, #-1}}, {#4, ""})', "move(#7, #-1)"], ["#2", "#3", "#4", "#5", "#7"]),
            (["players()", "max_object()"], []),
            ([" SET ( #5 , \"name\" , \"a\" ) ", "valid(#99)"], ["#5", "#99"]),
        ):
            at = self.asked("ada", "GET", "/api/seq")[1]["seq"]
            self.batch("ada", *calls)
            with self.subTest(calls=calls):
                self.assertEqual(self.since(at), (200, {"objects": objects, "seq": at + 1}))

    def test_many_batches_each_object_once(self):
        for place in range(3):
            self.batch("ada", f'set(#5, "name", "{place}")', "create(#6)")
        self.assertEqual(self.since(1), (200, {"objects": ["#5", "#6", "#7", "#8", "#9"], "seq": 4}))
        self.assertEqual(self.since(3), (200, {"objects": ["#5", "#6", "#9"], "seq": 4}))
        self.assertEqual(self.since(4), (200, {"objects": [], "seq": 4}))

    def test_a_refused_batch_is_no_change(self):
        self.assertEqual(self.post("ada", "/api/batch", {"calls": ["recycle(#3)"]})[0], 409)
        self.assertEqual(self.since(1), (200, {"objects": [], "seq": 1}))

    def test_a_petition_counts_when_it_is_granted(self):
        self.batch("ada", 'petition({{"set", #5, "name", "Lamp"}, {"create", #6}, {"create", #2}})')
        self.assertEqual(self.since(1), (200, {"objects": [], "seq": 2}))
        self.batch("wizard", "grant(1)", "create(#6)")
        self.assertEqual(self.since(2), (200, {"objects": ["#2", "#5", "#6", "#7", "#8", "#9"], "seq": 3}))

    def test_what_a_grant_made_and_nothing_tells(self):
        """No `create` was answered, so moo is asked which number was given last."""
        self.batch("ada", 'petition({{"create", #6}})', 'petition({{"recycle", #5}})')
        self.batch("wizard", "grant(1)", "decline(2)")
        self.assertEqual(self.since(2), (200, {"objects": ["#6", "#7"], "seq": 3}))

    def test_at_most_a_thousand_batches(self):
        for place in range(1003):
            self.writer.write("ada", 4, [f"valid(#{place})"])
        self.assertEqual(self.since(1), (200, {"objects": [f"#{place}" for place in range(1000)], "seq": 1001}))
        self.assertEqual(self.since(1001), (200, {"objects": ["#1000", "#1001", "#1002"], "seq": 1004}))


class Batches(Feeds):
    """`?batches`, for wizards."""

    def test_all_of_a_batch(self):
        before = time.time()
        self.batch("ada", "create(#6)", "players()")
        self.batch("wizard", 'set(#7, "name", "x")')
        status, said = self.since(1, "wizard", "batches")
        self.assertEqual((status, list(said), said["objects"], said["seq"]), (200, ["batches", "objects", "seq"], ["#6", "#7"], 3))
        first, second = said["batches"]
        moment = first.pop("at")
        self.assertRegex(moment, r"\d{4}-\d\d-\d\dT\d\d:\d\d:\d\d\.\d{3}Z")
        self.assertLess(abs(time.mktime(time.strptime(moment[:19], "%Y-%m-%dT%H:%M:%S")) - time.mktime(time.gmtime(before))), 60)
        self.assertEqual(first, {"answers": ["#7", "{#3, #4}"], "as": "#4", "calls": ["create(#6)", "players()"], "seq": 2, "who": "ada"})
        self.assertEqual((second["as"], second["seq"], second["who"]), ("#3", 3, "wizard"))

    def test_a_hundred_at_once(self):
        for place in range(102):
            self.writer.write("ada", 4, [f"valid(#{place})"])
        said = self.since(1, "wizard", "batches")[1]
        self.assertEqual((len(said["batches"]), said["seq"], said["objects"][-1]), (100, 101, "#99"))
        self.assertEqual(len(self.since(101, "wizard", "batches=1&wait=0")[1]["batches"]), 2)

    def test_they_are_for_wizards(self):
        self.assertEqual(self.since(1, "ada", "batches"), (403, {"error": "forbidden"}))
        self.assertEqual(self.since(1, "wizard", "batches"), (200, {"batches": [], "objects": [], "seq": 1}))


class Ends(Feeds):
    """Numbers that can't be followed."""

    def test_over_the_present_number(self):
        self.assertEqual(self.since(2), (400, {"error": "bad request", "why": "the world has number 1"}))
        self.assertEqual(self.since(10**18)[0], 400)

    def test_before_the_journal(self):
        self.assertEqual(self.since(0), (410, {"error": "gone", "seq": 1}))
        self.batch("ada", "players()")
        self.assertEqual(self.since(0), (410, {"error": "gone", "seq": 1}))

    def test_other_words(self):
        for wait in ("-1", "26", "1.5", "x", ""):
            status, said = self.since(1, query=f"wait={wait}")
            self.assertEqual((status, said["error"]), (400, "bad request"))
        for path in ("/api/since/", "/api/since/x", "/api/since/-1", "/api/since"):
            self.assertEqual(self.asked("ada", "GET", path), (404, {"error": "not found"}))
        self.assertEqual(self.called.said("GET", "/api/since/1"), (401, {"error": "unauthorized"}))


class Waits(Feeds):
    """Followers that wait."""

    def later(self, *given, **more):
        """What a follower gets, by a thread; and the moment at which it came."""
        came = []

        def work():
            came.extend([self.since(*given, **more), time.monotonic()])

        thread = threading.Thread(target=work)
        thread.start()
        return thread, came

    def test_until_something_changes(self):
        thread, came = self.later(1, query="wait=25")
        time.sleep(0.3)
        self.assertEqual(came, [])
        self.assertEqual(self.writer.write("ada", 4, ['set(#5, "name", "x")']).status, 200)
        moment = time.monotonic()
        thread.join(SECONDS)
        self.assertEqual(came[0], (200, {"objects": ["#5"], "seq": 2}))
        self.assertLess(came[1] - moment, 5)

    def test_until_the_time_is_over(self):
        began = time.monotonic()
        self.assertEqual(self.since(1, query="wait=1"), (200, {"objects": [], "seq": 1}))
        self.assertGreater(time.monotonic() - began, 0.9)

    def test_no_wait_if_something_has_changed(self):
        self.batch("ada", "players()")
        began = time.monotonic()
        self.assertEqual(self.since(1, query="wait=25"), (200, {"objects": [], "seq": 2}))
        self.assertLess(time.monotonic() - began, 20)

    def test_who_waits_is_away_from_the_server(self):
        """A server with places gives the place of who waits to others. What is asked of the world later is counted as theirs all the same."""
        moments, people = [], []

        @contextlib.contextmanager
        def away():
            moments.append("away")
            people.append(present().person)
            yield
            moments.append("back")

        self.assertEqual(self.asked("ada", "GET", "/api/since/1", query="wait=1", **{"moo.away": away})[0], 200)
        self.assertEqual(moments, ["away", "back"])
        self.asked("ada", "GET", "/api/since/1", **{"moo.away": away})
        self.assertEqual((moments, people), (["away", "back"], ["ada"]))

    def test_so_many_of_one_person(self):
        followers = self.api.followers
        for _ in range(16):
            followers.waiting.begin("ada")
        self.assertEqual(self.since(1, query="wait=1"), (503, {"error": "busy"}))
        self.assertEqual(self.since(1), (200, {"objects": [], "seq": 1}))
        self.assertEqual(self.since(1, "wizard", "wait=1")[0], 200)
        for _ in range(16):
            followers.waiting.end("ada")
        self.assertEqual(self.since(1, query="wait=1")[0], 200)
        self.assertEqual(followers.waiting.of.total(), 0)

    def test_so_many_of_all(self):
        followers = self.api.followers
        for number in range(64):
            followers.waiting.begin(f"one{number}")
        self.assertEqual(self.since(1, query="wait=1"), (503, {"error": "busy"}))
        self.assertEqual(self.since(1), (200, {"objects": [], "seq": 1}))


class Older(Feeds):
    """Batches that aren't in memory, as after a start of the front."""

    def restart(self, **more):
        """A new front on the same journal, in this process."""
        self.writer.end(SECONDS)
        self.writer.listeners.clear()
        self.app = App(self.told.append)
        self.writer = Writer(self.door, self.journal, self.told.append, patience=SECONDS)
        self.api = Api(self.app, self.door, self.writer, self.people, self.rate)
        self.journal.open_intents = []
        self.journal.seq = Writer.number(self.writer)
        self.writer.seq = self.journal.seq
        self.called.app = self.app
        self.writer.start(**more)

    def test_the_same_from_the_journal(self):
        self.batch("ada", 'petition({{"set", #5, "name", "Lamp"}, {"create", #6}})', 'Petition({{"create", #2}})')
        for place in range(5):
            self.batch("ada", f"valid(#{place})")
        self.batch("wizard", "grant(1)")
        self.batch("ada", "create(#6)")
        self.batch("wizard", "grant(2)")
        numbers = range(1, 10)
        before = [self.since(number) for number in numbers]
        self.assertEqual(before[6], (200, {"objects": ["#2", "#5", "#6", "#7", "#8", "#9"], "seq": 10}))
        self.restart()
        self.assertEqual([self.since(number) for number in numbers], before)
        self.assertEqual(self.since(10), (200, {"objects": [], "seq": 10}))

    def test_petitions_of_before_the_start(self):
        self.batch("ada", 'petition({{"set", #5, "name", "Lamp"}, {"create", #6}})', 'petition({{"create", #6}})')
        self.restart()
        self.batch("wizard", "grant(2)")
        self.assertEqual(self.since(2), (200, {"objects": ["#6", "#7"], "seq": 3}))
        self.batch("wizard", "grant(1)")
        self.assertEqual(self.since(3), (200, {"objects": ["#5", "#6", "#8"], "seq": 4}))

    def test_several_segments(self):
        self.journal.segment_bytes = 400
        for place in range(12):
            self.batch("ada", f"valid(#{place})")
        self.assertGreater(len(list((self.room / "front").glob("journal-*"))), 3)
        self.restart()
        for at in range(1, 13):
            self.assertEqual(self.since(at), (200, {"objects": [f"#{place}" for place in sorted(range(at - 1, 12))], "seq": 13}))

    def read_for(self, at):
        """The numbers at which the segments begin that are read for who asks for what came after a number."""
        with mock.patch("moo_web.journal.since.batches_of", wraps=batches_of) as read:
            self.assertEqual(self.since(at)[0], 200)
        return [int(call.args[0].name.removeprefix("journal-")) for call in read.call_args_list]

    def test_what_is_read(self):
        """Nothing, if the batches are in memory; else the segments from that on in which the number is."""
        self.journal.segment_bytes = 400
        for place in range(12):
            self.batch("ada", f"valid(#{place})")
        begins = sorted(int(path.name.removeprefix("journal-")) for path in (self.room / "front").glob("journal-*"))
        self.assertEqual([self.read_for(at) for at in range(1, 14)], [[]] * 13)
        self.restart()
        for at in range(1, 13):
            last = max(begin for begin in begins if begin <= at)
            self.assertEqual(self.read_for(at), [begin for begin in begins if begin >= last])
        self.assertEqual(self.read_for(13), [])

    def test_for_a_petition_of_before_all_is_read(self):
        self.journal.segment_bytes = 400
        self.batch("ada", 'petition({{"set", #5, "name", "Lamp"}})')
        for place in range(6):
            self.batch("ada", f"valid(#{place})")
        self.batch("wizard", "grant(1)")
        begins = sorted(int(path.name.removeprefix("journal-")) for path in (self.room / "front").glob("journal-*"))
        self.restart()
        self.assertEqual(self.since(8), (200, {"objects": ["#5"], "seq": 9}))
        self.assertEqual(set(self.read_for(8)), set(begins))

    def test_one_reads_at_a_time(self):
        self.batch("ada", "valid(#1)")
        self.restart()
        feed = self.api.followers.feed
        with mock.patch("moo_web.interface.feed.READING", 0.2), feed.reading:
            self.assertEqual(self.since(1), (503, {"error": "busy"}))
            self.assertEqual(self.since(2), (200, {"objects": [], "seq": 2}), "nothing is read for it")
        self.assertEqual(self.since(1), (200, {"objects": ["#1"], "seq": 2}))

    def test_a_journal_that_began_anew(self):
        self.batch("ada", "valid(#1)")
        self.assertEqual(self.door.sent("POST", "/batch", b'{"as":"#3","calls":["max_object()"]}').status, 200)
        self.restart(is_rebase=True)
        self.assertEqual(self.since(2), (410, {"error": "gone", "seq": 3}))
        self.assertEqual(self.since(3), (200, {"objects": [], "seq": 3}))
        self.batch("ada", "valid(#6)")
        self.assertEqual(self.since(3), (200, {"objects": ["#6"], "seq": 4}))
        self.assertEqual(self.since(2), (410, {"error": "gone", "seq": 3}))


if __name__ == "__main__":
    unittest.main()
