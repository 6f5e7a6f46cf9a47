"""Previews and what is applied of them: with a world of the program, a journal, and others who write meanwhile (web/moo_web/forms/previews.py)."""

import pathlib
import tempfile
import unittest

from tests.support import processes
from tests.support.operating import KeptService, make_world
from tests.support.web import use_web

use_web()

from moolib.batches import Item  # noqa: E402
from moo_web.forms.catalogue import FORMS  # noqa: E402
from moo_web.forms.excuses import excuse  # noqa: E402
from moo_web.forms.forms import Me  # noqa: E402
from moo_web.forms.input import Mistyped  # noqa: E402
from moo_web.forms.petitions import asked_of, petition_item, petitions_in  # noqa: E402
from moo_web.forms.previewing import Preview  # noqa: E402
from moo_web.forms.previews import Done, Previews  # noqa: E402
from moo_web.forms.questions import Questions, reads_before  # noqa: E402
from moo_web.journal.journal import Journal  # noqa: E402
from moo_web.journal.history import History  # noqa: E402
from moo_web.journal.recent import Recent, Seen  # noqa: E402
from moo_web.journal.tables import sum_of  # noqa: E402
from moo_web.journal.jobs import Unknown  # noqa: E402
from moo_web.journal.writer import Writer  # noqa: E402
from moo_web.people.person import Person  # noqa: E402
from moo_web.world.door import Door  # noqa: E402

# Ada #4 and Bram #5 are residents, #6 is a fertile class of things with a property, #7 a thing of Ada's in the room #2.
WORLD = """batch as #3
create(#1, #-1)
create(#1, #-1)
create(#1)
create(#6, #4)
set(#4, "name", "Ada")
set(#5, "name", "Bram")
set(#6, "name", "Generic Thing")
set(#6, "f", 1)
add_property(#6, "weight", 1, {#3, "rc"})
set(#7, "name", "Lamp")
move(#7, #2)
set_player_flag(#4, 1)
end
"""
ADA, BRAM, WIZARD = Person("ada", 4), Person("bram", 5), Person("wizard", 3)


def items(*calls):
    return [Item(call) for call in calls]


def seen(preview):
    return Seen(preview.seq, preview.seen, preview.sent)


class WithWorld(unittest.TestCase):
    """A world, its journal and its writer."""

    def setUp(self):
        room = tempfile.TemporaryDirectory()
        self.addCleanup(room.cleanup)
        self.addCleanup(processes.end_all)
        self.room = pathlib.Path(room.name)
        make_world(self.room / "world.db", WORLD)
        self.moo = KeptService(self.room / "world.db")
        self.addCleanup(self.moo.stop)
        (self.room / "front").mkdir()
        self.start()

    def start(self, is_rebase=False):
        """A front's writer."""
        self.journal = Journal(self.room / "front", None, lambda told: None)
        self.door = Door(self.moo.port)
        self.writer = Writer(self.door, self.journal, lambda told: None, 5.0)
        self.writer.start(is_rebase)
        self.history = History(self.room / "front")
        self.questions = Questions(self.door, 5.0)
        self.previews = Previews(self.questions, self.writer, Recent(self.writer, self.history))
        self.addCleanup(self.stop)

    def stop(self):
        if self.journal.places:
            self.writer.end(5)
            self.journal.close()

    def read(self, call, who=3):
        return self.questions.read(who, [call], self.questions.number())[0].text

    def petitions_of(self, who):
        """The petitions that this programmer sees."""
        return petitions_in(self.questions.read(who, ["petitions()"], self.questions.number())[0])

    def apply(self, person, calls, look=None):
        """What comes of calls that were looked at before."""
        return self.previews.apply(person, calls, look or seen(self.previews.of(person, calls)))


class Looks(WithWorld):
    """What a preview shows."""

    def test_what_is_there_and_what_it_would_answer(self):
        preview = self.previews.of(ADA, items('set(#7, "name", "Oil lamp")', "move(#7, #-1)", 'set(#7, "weight", 4)'))
        self.assertIsNone(preview.refusal)
        self.assertEqual(
            [(change.call, change.answer, [said.text for _, said in change.before]) for change in preview.changes],
            [('set(#7, "name", "Oil lamp")', "0", ['"Lamp"']), ("move(#7, #-1)", "0", ["#2"]), ('set(#7, "weight", 4)', "0", ["1"])],
        )
        self.assertEqual(self.read('get(#7, "name")'), '"Lamp"')

    def test_new_objects_have_their_numbers(self):
        calls = [Item("create(#6)", "$a"), Item('set($a, "name", "Key")'), Item("create(#6)", "$b"), Item("move($b, $a)")]
        preview = self.previews.of(WIZARD, calls)
        self.assertIsNone(preview.refusal)
        self.assertEqual(preview.calls, ["create(#6)", 'set(#8, "name", "Key")', "create(#6)", "move(#9, #8)"])
        self.assertEqual([change.answer for change in preview.changes], ["#8", "0", "#9", "0"])

    def test_a_refusal_has_its_call_and_why(self):
        calls = [Item("create(#6)", "$a"), Item('set($a, "name", "Key")'), Item("move($a, #7)")]
        refusal = self.previews.of(BRAM, calls).refusal
        self.assertEqual((refusal.call, refusal.error), (3, "E_NACC"))
        self.assertTrue(refusal.why.startswith("move(#8, #7): E_NACC"), refusal.why)
        refusal = self.previews.of(BRAM, items('set(#7, "name", "Mine")')).refusal
        self.assertEqual((refusal.call, refusal.error), (1, "E_PERM"))
        told = excuse(FORMS["rename"], 'set(#7, "name", "Mine")', refusal.error, refusal.why)
        self.assertEqual((told.words, told.manual, told.field), ("You may not write this.", "Permission denied", "object"))
        self.assertEqual(told.detail, "#5 neither owns #7 nor is a wizard")

    def test_what_may_not_be_read_is_left_out(self):
        preview = self.previews.of(BRAM, items('set(#6, "nothing", 1)', 'set(#7, "weight", 2)'))
        self.assertEqual([[said.text for _, said in change.before] for change in preview.changes], [["E_PROPNF"], ["1"]])

    def test_each_call_that_changes_something_tells_what_is_there(self):
        for call, reads in (
            ('set(#4, "a", 1)', ['get(#4, "a")']),
            ("move(#4, #5)", ['get(#4, "location")']),
            ("chparent(#4, #5)", ["parent(#4)"]),
            ("recycle(#4)", ['get(#4, "name")', "children(#4)", 'get(#4, "contents")']),
            ("set_player_flag(#4, 1)", ["is_player(#4)"]),
            ("set_accept(#4, 0)", ["accept_list(#4)"]),
            ('delete_property(#4, "a")', ['get(#4, "a")', 'property_info(#4, "a")']),
            ('set_property_info(#4, "a", {#3, ""})', ['property_info(#4, "a")']),
            ('clear_property(#4, "a")', ['get(#4, "a")', 'is_clear_property(#4, "a")']),
            ("delete_verb(#4, 1)", ["verb_info(#4, 1)", "verb_args(#4, 1)"]),
            ('set_verb_info(#4, "x", {#3, "", "x"})', ['verb_info(#4, "x")']),
            ('set_verb_args(#4, "x", {"this", "none", "none"})', ['verb_info(#4, "x")', 'verb_args(#4, "x")']),
            ("create(#4)", []),
            ("max_object()", []),
            ("nonsense", []),
            ("set(1, 2, 3)", []),
        ):
            with self.subTest(call=call):
                self.assertEqual([before.call for before in reads_before(call)], reads)


class Applied(WithWorld):
    """What is sent, and what is shown again."""

    def test_it_is_done_as_it_was_seen(self):
        done = self.apply(ADA, items('set(#7, "name", "Oil lamp")'))
        self.assertEqual(done, Done(2, ['set(#7, "name", "Oil lamp")']))
        self.assertEqual(self.read('get(#7, "name")'), '"Oil lamp"')

    def test_if_the_world_moved_on_and_the_preview_is_the_same_it_is_done(self):
        calls = items('set(#7, "name", "Oil lamp")')
        look = seen(self.previews.of(ADA, calls))
        self.writer.write("wizard", 3, ['set(#6, "r", 1)'])
        self.assertEqual(self.apply(ADA, calls, look).seq, 3)

    def test_if_somebody_changed_the_same_it_is_shown_again(self):
        calls = items('set(#7, "name", "Oil lamp")')
        look = seen(self.previews.of(ADA, calls))
        self.writer.write("wizard", 3, ['set(#7, "name", "Lantern")'])
        shown = self.apply(ADA, calls, look)
        self.assertIsInstance(shown, Preview)
        self.assertEqual([said.text for _, said in shown.changes[0].before], ['"Lantern"'])
        self.assertEqual(self.read('get(#7, "name")'), '"Lantern"')
        self.assertIsInstance(self.apply(ADA, calls, seen(shown)), Done)

    def test_a_verb_that_moved_down_isnt_taken_for_another(self):
        for name in ("look", "take"):
            self.writer.write("wizard", 3, [f'add_verb(#7, {{#3, "r", "{name}"}}, {{"this", "none", "none"}})'])
        calls = items("delete_verb(#7, 1)")
        look = seen(self.previews.of(ADA, calls))
        self.writer.write("wizard", 3, ["delete_verb(#7, 1)"])
        self.assertIsInstance(self.apply(ADA, calls, look), Preview)
        self.assertEqual(self.read("verbs(#7)"), '{"take"}')

    def test_another_number_of_a_new_object_is_shown_first(self):
        calls = [Item("create(#6)", "$a"), Item('set($a, "name", "Key")')]
        look = seen(self.previews.of(ADA, calls))
        self.writer.write("wizard", 3, ["create(#6)"])
        shown = self.apply(ADA, calls, look)
        self.assertIsInstance(shown, Preview)
        self.assertEqual(shown.calls, ["create(#6)", 'set(#9, "name", "Key")'])

    def test_sent_twice_it_acts_once(self):
        calls = items("create(#6)")
        look = seen(self.previews.of(ADA, calls))
        first, second = self.apply(ADA, calls, look), self.apply(ADA, calls, look)
        self.assertFalse(first.is_again)
        self.assertEqual((second.seq, second.is_again), (first.seq, True))
        self.assertEqual(self.read("max_object()"), "#8")

    def test_sent_twice_across_a_stop_of_the_front_it_acts_once(self):
        calls = items('set(#7, "weight", 4)')
        look = seen(self.previews.of(ADA, calls))
        self.assertIsInstance(self.apply(ADA, calls, look), Done)
        self.writer.write("wizard", 3, ['set(#7, "weight", 1)'])
        self.stop()
        self.start()
        again = self.apply(ADA, calls, look)
        self.assertTrue(again.is_again)
        self.assertEqual(self.read('get(#7, "weight")'), "1")

    def test_a_batch_of_a_world_that_was_put_back_isnt_found(self):
        calls = items('set(#7, "weight", 4)')
        look = seen(self.previews.of(ADA, calls))
        self.assertIsInstance(self.apply(ADA, calls, look), Done)
        self.stop()
        self.moo.stop()
        for file in self.room.glob("world.db*"):
            file.unlink()
        make_world(self.room / "world.db", WORLD)
        self.moo = KeptService(self.room / "world.db")
        self.addCleanup(self.moo.stop)
        self.start(is_rebase=True)
        done = self.apply(ADA, calls, look)
        self.assertEqual((done.is_again, self.read('get(#7, "weight")')), (False, "4"))

    def test_the_same_calls_of_somebody_else_are_another_batch(self):
        calls = items("create(#6)")
        look = seen(self.previews.of(ADA, calls))
        self.writer.write("bram", 5, ["create(#6)"])
        self.assertIsInstance(self.apply(ADA, calls, look), Preview)

    def test_what_isnt_decided_yet_is_found_later(self):
        calls = items('set(#7, "weight", 4)')
        look = seen(self.previews.of(ADA, calls))
        held, sent = [], self.door.sent

        def lost(method, path, body=None, wait=None):
            if path.startswith("/batch") and not held:
                sent(method, path, body, wait)
                held.append(path)
                raise batches_lost
            return sent(method, path, body, wait)

        from moo_client import LostAnswer

        batches_lost = LostAnswer()
        self.door.sent = lost
        self.writer.patience = 5.0
        done = self.apply(ADA, calls, look)
        self.assertEqual((done.seq, self.read("max_object()"), self.apply(ADA, calls, look).is_again), (2, "#7", True))

    def test_an_unknown_outcome_is_told_and_sending_again_finds_it(self):
        calls = items('set(#7, "weight", 4)')
        look = seen(self.previews.of(ADA, calls))
        self.writer.patience = 1.0
        sent = self.door.sent

        def silent(method, path, body=None, wait=None):
            if path.startswith("/batch"):
                sent(method, path, body, wait)
                from moo_client import LostAnswer

                raise LostAnswer
            return sent(method, path, body, wait)

        self.door.sent = silent
        sends = iter(range(1000))

        def stale_is_lost(method, path, body=None, wait=None):
            if path.startswith("/batch") and next(sends) < 12:
                return silent(method, path, body, wait)
            return sent(method, path, body, wait)

        self.door.sent = stale_is_lost
        with self.assertRaises(Unknown) as raised:
            self.apply(ADA, calls, look)
        self.assertEqual(raised.exception.at, 1)
        self.writer.patience = 20.0
        done = self.apply(ADA, calls, look)
        self.assertEqual((done.seq, done.is_again), (2, True))

    def test_a_refusal_between_preview_and_batch_is_shown(self):
        calls = items('set(#7, "weight", 4)')
        look = seen(self.previews.of(ADA, calls))
        self.writer.write("wizard", 3, ["recycle(#7)"])
        shown = self.apply(ADA, calls, look)
        self.assertEqual((shown.refusal.call, shown.refusal.error), (1, "E_INVIND"))

    def test_what_is_remembered_is_bounded(self):
        recent = Recent(self.writer, self.history, 3)
        for _ in range(5):
            self.writer.write("wizard", 3, ["max_object()"])
        self.assertEqual((sorted(recent.kept), recent.first), ([4, 5, 6], 3))
        self.assertEqual([one.seq for seq in range(9) if (one := self.history.one(seq))], [2, 3, 4, 5, 6], "the journal begins at 1")
        small = Recent(self.writer, self.history, 1000, 40)
        for text in ("x" * 10, "y" * 30):
            self.writer.write("wizard", 3, [f'set(#7, "name", "{text}")'])
        self.assertEqual((sorted(small.kept), small.first, small.held), ([], 8, 0))
        self.assertEqual([one.seq for seq in range(9) if (one := self.history.one(seq))], [2, 3, 4, 5, 6, 7, 8])


class Asking(WithWorld):
    """Petitions of the calls of forms."""

    def test_a_petition_of_a_form_and_its_grant(self):
        asked = asked_of(items('set(#6, "name", "Thing")', "create(#1)"), Me(5))
        self.assertEqual(asked, (['set(#6, "name", "Thing")', "create(#1, #5)"], []))
        self.assertIsInstance(self.apply(BRAM, [petition_item(asked.calls)]), Done)
        (petition,) = self.petitions_of(3)
        self.assertEqual(petition, (1, 5, asked.calls))
        self.assertEqual((self.petitions_of(4), self.petitions_of(5)), ([], [petition]))
        preview = self.previews.of(WIZARD, items("grant(1)"))
        self.assertEqual([(each.call, each.answer) for each in preview.inner], [(asked.calls[0], "0"), (asked.calls[1], "#8")])
        self.assertIsInstance(self.apply(WIZARD, items("grant(1)"), seen(preview)), Done)
        self.assertEqual((self.read('get(#6, "name")'), self.read('get(#8, "owner")')), ('"Thing"', "#5"))

    def test_if_granting_would_do_something_else_by_now_it_is_shown_again(self):
        self.apply(BRAM, [petition_item(['set(#6, "name", "Thing")'])])
        look = seen(self.previews.of(WIZARD, items("grant(1)")))
        self.writer.write("ada", 4, ['set(#7, "weight", 9)'])
        self.writer.write("wizard", 3, ['set(#6, "name", "Other")'])
        self.assertIsInstance(self.apply(WIZARD, items("grant(1)"), look), Preview)

    def test_a_petition_that_cant_be_granted(self):
        self.apply(BRAM, [petition_item(["recycle(#99)"])])
        preview = self.previews.of(WIZARD, items("grant(1)"))
        self.assertEqual((preview.refusal.error, preview.inner[0].call), ("E_INVARG", "recycle(#99)"))
        self.assertIn("#99 isn't an object", preview.refusal.why)

    def test_what_is_about_a_new_object_cant_be_asked_for(self):
        asked = asked_of([Item("create(#1)", "$new1"), Item('set($new1, "name", "Key")')], Me(5))
        self.assertEqual(asked, (["create(#1, #5)"], ['set((the new object), "name", "Key")']))

    def test_what_no_petition_can_have(self):
        for calls, told in (([], "Nothing"), (["max_object()"] * 65, "at most 64"), (["nonsense"], "can’t be read")):
            with self.subTest(calls=calls[:1]), self.assertRaisesRegex(Mistyped, told):
                petition_item(calls)
        deepest = "{" * 28 + "}" * 28
        self.assertIsInstance(self.apply(BRAM, [petition_item([f'set(#5, "name", {deepest})'])]), Done)
        with self.assertRaisesRegex(Mistyped, "30 deep"):
            petition_item([f'set(#5, "name", {{{deepest}}})'])

    def test_all_of_a_value_comes_through(self):
        call = r'set(#5, "name", {1, #-1, "a \"b\" \\", E_PERM, {}})'
        self.apply(BRAM, [petition_item([call])])
        self.assertEqual(self.petitions_of(5)[0].calls, [call])


class Sums(unittest.TestCase):
    def test_what_was_seen_is_read_again(self):
        fields = {"seen.at": "7", "seen.all": "a", "seen.calls": "b"}
        self.assertEqual(Seen.read(fields), Seen(7, "a", "b"))
        for at in ("", "x", "-1", "1" * 20, "²"):
            self.assertIsNone(Seen.read({**fields, "seen.at": at}), at)

    def test_sums_differ(self):
        self.assertNotEqual(sum_of(["a"]), sum_of(["b"]))


if __name__ == "__main__":
    unittest.main()
