"""What a person may add to a world through the front: bytes a day, and petitions that wait (web/moo_web/people/growth.py)."""

import json
import unittest
from unittest.mock import patch

from tests.support.forms import FormsTest
from tests.support.pages import Reader
from tests.support.web import use_web

use_web()

from moo_web.people.growth import DAILY_BYTES, DAY, MOST_PETITION_BYTES, Growth  # noqa: E402
from moo_web.journal.jobs import TooMuch  # noqa: E402
from moo_web.journal.journal import NoRoom  # noqa: E402
from moo_web.journal.segments import Accepted  # noqa: E402

LONG = '"' + "x" * 65_000 + '"'
# As one fills the list of a wizard: a petition of 260 kB.
LONG_PETITION = 'petition({{"set", #5, "name", {' + ",".join([LONG] * 4) + "}}})"


def add(growth, who, number, length):
    """Tests a batch of so many bytes, its one answer among them, and counts it."""
    calls = ["x" * (length - 1)]
    growth.test(who, number, calls)
    growth.take(Accepted(1, 0.0, who, number, calls, {"answers": ["0"]}))


class GrowthTest(FormsTest):
    """A front that bounds what people add as `moo-web` does."""

    def setUp(self):
        super().setUp()
        growth = Growth(self.door, full=self.room / "full", clock=self.clock)
        self.writer.bound = growth.test
        self.writer.listeners.append(growth.take)
        self.tokens = {name: self.people.tokens.make(name) for name in self.numbers}

    def batch(self, who, *calls):
        """The status and the body of what `/api/batch` answers, and the seconds after which to try again."""
        body = json.dumps({"calls": calls}).encode()
        answer = Reader(self.app).asked("POST", "/api/batch", body, HTTP_AUTHORIZATION=f"Bearer {self.tokens[who]}")
        return answer.status, json.loads(answer.bytes), answer.head.get("Retry-After")


class OfPetitions(GrowthTest):
    def test_nobody_hides_the_petitions_of_others(self):
        ada = self.batch("ada", 'petition({{"set", #4, "name", "Ada the first"}})')
        self.assertEqual(ada[0], 200)
        statuses = [self.batch("bram", *[LONG_PETITION] * 4)[0] for _ in range(25)] + [self.batch("bram", LONG_PETITION)[0] for _ in range(3)]
        self.assertEqual(set(statuses[:25]), {429})
        page = self.somebody("wizard").get("/petitions")
        self.has(page, "petition 1", "is called “Ada the first”.", status=200)
        self.assertNotIn("There are none", page.text)

    def test_at_most_100_wait(self):
        call = 'petition({{"move", #5, #7}})'
        self.assertEqual(self.batch("bram", *[call] * 99)[0], 200)
        self.assertEqual(self.batch("bram", call, call)[0], 429)
        self.assertEqual(self.batch("bram", " Petition ( {{\"move\", #5, #7}})")[0], 200)
        status, said, seconds = self.batch("bram", call)
        self.assertEqual((status, said["error"]), (429, "too many"))
        self.assertRegex(said["why"], "^at most 100 petitions of yours")
        self.assertEqual(seconds, "3600")
        self.assertEqual(self.batch("ada", call)[0], 200, "another's share is another's")
        self.assertEqual(self.batch("bram", "decline(7)")[0], 200)
        self.assertEqual(self.batch("bram", call)[0], 200)
        bram = self.somebody("bram")
        bram.get("/batch")
        self.has(bram.send("Ask for it", text="move(#8, #7)"), "This would be asked for")
        self.has(bram.send("Send the petition"), "At most 100 petitions of yours", "what you typed is still here", status=429)

    def test_256_kB_wait(self):
        quarter = f'petition({{{{"set", #5, "name", {LONG}}}}})'
        self.assertEqual([self.batch("bram", quarter)[0] for _ in range(6)], [200] * 4 + [429] * 2)
        asked = self.answered("petitions()")
        self.assertLess(len(asked), MOST_PETITION_BYTES + 1000)
        self.assertEqual(self.batch("bram", 'petition({{"move", #5, #7}})')[0], 200, "a short one has room")

    def test_others_than_petitions_dont_count(self):
        self.assertEqual(self.batch("bram", *['petition({{"move", #5, #7}})'] * 100)[0], 200)
        self.assertEqual(self.batch("bram", "max_object()")[0], 200)
        self.assertEqual(self.batch("bram", "petition()")[1]["error"], "E_ARGS", "what moo refuses is refused as ever")


class TooLongToBeShown(GrowthTest):
    """A world that had more petitions than can be shown before there was a bound."""

    def setUp(self):
        super().setUp()
        bound, self.writer.bound = self.writer.bound, lambda *_: None
        self.assertEqual(self.batch("ada", 'petition({{"set", #4, "name", "Ada the first"}})')[0], 200)
        for _ in range(17):
            self.assertEqual(self.batch("bram", *[LONG_PETITION] * 4)[0], 200)
        self.writer.bound = bound

    def test_it_is_said(self):
        wizard, bram = self.somebody("wizard"), self.somebody("bram")
        for reader in (wizard, bram):
            page = reader.get("/petitions")
            self.has(page, "There are more than can be shown together", status=413)
            self.assertNotIn("There are none", page.text)
        self.has(bram.get("/petitions?of=4"), "There are more than can be shown together", status=413)

    def test_a_wizard_sees_those_of_each_player(self):
        wizard = self.somebody("wizard")
        page = wizard.get(next(link for link in wizard.get("/petitions").links if "of=4" in link))
        self.has(page, "petition 1", "is called “Ada the first”.", status=200)
        self.assertNotRegex(page.text, r"\bGrant petition")
        self.has(wizard.get("/petitions?of=5"), "There are more than can be shown together", status=413)
        for first in range(2, 70, 17):
            self.assertEqual(self.batch("wizard", *[f"decline({number})" for number in range(first, first + 17)])[0], 200)
        self.has(wizard.get("/petitions"), "Grant petition 1", status=200)

    def test_no_more_are_taken(self):
        self.assertEqual(self.batch("bram", 'petition({{"move", #5, #7}})')[0], 429)


class OfBytes(GrowthTest):
    def test_a_day_of_filling(self):
        """Who stores long values on one object, which no quota of objects bounds, is stopped after the bytes of a day."""
        statuses = []
        for first in range(0, 450, 15):
            calls = [f'add_property(#5, "z{number}", {LONG}, {{#5, "rw"}})' for number in range(first, first + 15)]
            statuses.append(self.batch("bram", *calls))
        accepted = [status for status, *_ in statuses].index(429)
        self.assertEqual([status for status, *_ in statuses], [200] * accepted + [429] * (30 - accepted))
        self.assertAlmostEqual(accepted * 15 * 65_000, DAILY_BYTES, delta=15 * 66_000)
        _, said, seconds = statuses[-1]
        self.assertRegex(said["why"], "^you have added as much as you may in a day")
        self.assertEqual(self.batch("ada", "max_object()")[0], 200)
        self.now += int(seconds) - 2
        self.assertEqual(self.batch("bram", "max_object()")[0], 429)
        self.now += 3
        self.assertEqual(self.batch("bram", "max_object()")[0], 200)
        bram = self.somebody("bram")
        bram.get("/batch")
        self.has(bram.send("Preview", text=f'add_property(#5, "more", {LONG}, {{#5, "rw"}})'), "This would be done")
        bram.send("Do it")
        bram.get("/batch")
        bram.send("Preview", text="max_object()")
        self.has(bram.send("Do it"), "You have added as much as you may in a day", status=429)

    def test_what_is_refused_costs_nothing(self):
        for _ in range(30):
            self.assertEqual(self.batch("bram", *[f'set(#3, "name", {LONG})'] * 15)[1]["error"], "E_PERM")
        self.assertEqual(self.batch("bram", "max_object()")[0], 200)

    def test_what_is_not_sent_costs_nothing(self):
        """It would be accepted, but its intent can't be put on the disk."""
        large = [f'add_property(#5, "z{number}", {LONG}, {{#5, "rw"}})' for number in range(15)]
        with patch.object(self.journal, "append", side_effect=NoRoom("No space left on device")):
            self.assertEqual([self.batch("bram", *large)[:2] for _ in range(20)], [(503, {"error": "busy"})] * 20)
        self.assertEqual(self.batch("bram", *large)[0], 200)

    def test_long_answers_that_are_not_kept_cost_nothing(self):
        self.assertEqual(self.batch("bram", f'add_property(#5, "long", {LONG}, {{#5, "rw"}})')[0], 200)
        for _ in range(10):
            status, said, _ = self.batch("bram", *['get(#5, "long")'] * 30)
            self.assertEqual((status, len(said["answers"])), (200, 30))

    def test_it_comes_back_in_a_day(self):
        growth = Growth(self.door, 1000, clock=self.clock)
        add(growth, "bram", 5, 5000)
        with self.assertRaises(TooMuch) as raised:
            add(growth, "Bram", 5, 1)
        self.assertAlmostEqual(raised.exception.seconds, 4 * DAY, delta=200)
        self.now += 5 * DAY
        add(growth, "bram", 5, 1)
        self.now += 10 * DAY
        add(growth, "bram", 5, 999)
        add(growth, "bram", 5, 1)
        self.assertRaises(TooMuch, add, growth, "bram", 5, 1)

    def test_wizards_may_add_ten_times_as_many(self):
        growth = Growth(self.door, 1000, clock=self.clock)
        for count, who, number in ((1, "ada", 4), (11, "wizard", 3)):
            for _ in range(count):
                add(growth, who, number, 1000)
            self.assertRaises(TooMuch, add, growth, who, number, 1)


class OfAWorldThatIsFull(GrowthTest):
    def test_nothing_is_added_and_all_is_read_and_removed(self):
        self.assertEqual(self.batch("wizard", 'add_property(#5, "more", 1, {#5, "rw"})', "create(#6, #5)")[0], 200)
        (self.room / "full").touch()
        for call in ('add_property(#5, "yet", 1, {#5, "rw"})', "create(#6)", 'set(#5, "more", 2)', 'petition({{"move", #5, #7}})', " Create (#6)"):
            status, said, seconds = self.batch("bram", call)
            self.assertEqual((status, said["error"], seconds), (429, "too many", "60"), call)
            self.assertRegex(said["why"], "^the world is full")
        self.assertEqual(self.batch("wizard", "create(#6)")[0], 429)
        for call in ('get(#5, "more")', "move(#5, #7)", 'delete_property(#5, "more")', "recycle(#9)"):
            self.assertEqual(self.batch("bram" if "recycle" not in call else "wizard", call)[0], 200, call)
        self.assertEqual(self.somebody("bram").get("/o/5").status, 200)
        (self.room / "full").unlink()
        self.assertEqual(self.batch("wizard", "create(#6)")[0], 200)


if __name__ == "__main__":
    unittest.main()
