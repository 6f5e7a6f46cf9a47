"""Petitions with words: why somebody asks, what the owner and the wizards say, and how few requests a page of them takes.

The words are in the journal and not in the world: they outlive a restart, and a replay.
"""

import json
import random
import shutil
import unittest

from tests.support.forms import FormsTest
from tests.support.operating import make_world
from tests.support.pages import Reader
from tests.support.web import program, use_web

use_web()

from moolib.batches import Item  # noqa: E402
from moo_web.app import App  # noqa: E402
from moo_web.forms.granting import outcomes_of  # noqa: E402
from moo_web.forms.petitions import petitions_in  # noqa: E402
from moo_web.forms.previews import Previews  # noqa: E402
from moo_web.forms.questions import Questions  # noqa: E402
from moo_web.journal.history import History  # noqa: E402
from moo_web.journal.recent import Recent  # noqa: E402
from moo_web.journal.talks import talks_of  # noqa: E402
from moo_web.people.person import Person  # noqa: E402

SEED = 20261130
WHY = "It is dark in there, and I would like to read."
NOT_NOW = "Not before the fair: I need it there."


class AskingTest(FormsTest):
    """The village of the forms, with one more resident, who has nothing to do with it."""

    numbers = {"wizard": 3, "ada": 4, "bram": 5, "cleo": 9}

    def setUp(self):
        super().setUp()
        self.assertEqual(self.write("wizard", "create(#1, #-1)", 'set(#9, "name", "Cleo")', "move(#9, #2)", "set_player_flag(#9, 1)")[0], "#9")

    def ask(self, who="bram", why=WHY, text='set(#8, "name", "Reading lamp")'):
        """Asks for calls by the editor, and gives the page after it."""
        reader = self.somebody(who)
        reader.get("/batch")
        self.has(reader.send("Ask for it", text=text), "This would be asked for", status=200)
        return reader.send("Send the petition", words=why)

    def waits(self, who):
        """How many petitions wait for somebody, as the menu says."""
        page = self.somebody(who).get("/history")
        for count in range(1, 100):
            if f"Petitions {count} wait for you" in page.text:
                return count
        self.assertNotIn("wait for you", page.text)
        return 0

    def intents(self):
        """The intents of the journal."""
        lines = [json.loads(line[65:]) for line in next((self.room / "front").glob("journal-*")).read_text().splitlines()]
        return [line for line in lines if line["k"] == "intent"]

    def open_ones(self, number=3):
        """The numbers of the petitions that moo has, as this programmer sees them."""
        questions = Questions(self.door)
        return [one.number for one in petitions_in(questions.read(number, ["petitions()"], questions.number())[0])]


class Reasons(AskingTest):
    def test_who_decides_reads_why_and_nobody_else(self):
        self.has(self.ask(), "It is asked for", status=200)
        for reader in ("wizard", "ada", "bram"):
            self.has(self.somebody(reader).get("/petitions"), WHY, "is called “Reading lamp”", status=200)
            self.has(self.somebody(reader).get("/petitions/1"), WHY, "is called “Reading lamp”", status=200)
        cleo = self.somebody("cleo")
        for path in ("/petitions", "/petitions/1", "/history", "/history/2", "/history?o=8", "/o/8", "/"):
            page = cleo.get(path)
            for words in (WHY, "Reading lamp"):
                self.assertNotIn(words, page.text, path)
        self.assertEqual((cleo.get("/petitions/1").status, cleo.get("/petitions/2").status), (404, 404))

    def test_the_reason_is_in_the_journal_with_the_petition(self):
        self.ask(why="  Too dark.\r\nTruly.  ")
        asked = self.intents()[-1]
        self.assertEqual((asked["calls"], asked["words"]), (['petition({{"set", #8, "name", "Reading lamp"}})'], "Too dark.\nTruly."))
        self.assertNotIn("says", asked)

    def test_a_petition_needs_no_reason(self):
        self.has(self.ask(why=""), "It is asked for", status=200)
        self.assertNotIn("words", self.intents()[-1])
        self.has(self.somebody("wizard").get("/petitions"), "No reason was given.", status=200)

    def test_words_of_any_language_are_shown_as_they_were_typed(self):
        why = "Der Größe wegen; 暗い。 <b>&amp; \"quotes\"</b> 🙂"
        self.ask(why=why)
        page = self.somebody("ada").get("/petitions/1")
        self.has(page, why, status=200)
        self.assertNotIn("<b>&amp;amp;", page.html)

    def test_what_cant_be_kept_is_told_and_nothing_is_sent(self):
        for why, words in (("x" * 1001, "at most 1,000 letters, and these have 1,001"), ("a\x07b", "U+0007"), ("a\ufffeb", "U+FFFE")):
            bram = self.somebody("bram")
            bram.get("/batch")
            bram.send("Ask for it", text="move(#8, #7)")
            page = bram.send("Send the petition", words=why)
            self.has(page, words, "Send the petition", status=422)
            self.assertEqual(bram.typed("Send the petition")["words"], why.replace("\x07", "").replace("\ufffe", ""))
        self.assertEqual(self.open_ones(), [])
        self.has(self.ask(why="x" * 1000), "It is asked for", status=200)

    def test_the_reason_is_still_there_if_others_change_the_world(self):
        bram = self.somebody("bram")
        bram.get("/batch")
        bram.send("Ask for it", text="move(#8, #7)")
        self.ask("cleo")
        page = bram.send("Send the petition", words=WHY)
        self.has(page, "Others have changed the world", status=409)
        self.assertEqual(bram.typed("Send the petition")["words"], WHY)
        self.has(bram.send("Send the petition"), "It is asked for", status=200)
        self.has(self.somebody("wizard").get("/petitions/2"), WHY, status=200)

    def test_programs_say_why_too(self):
        token = self.people.tokens.make("bram")
        reader = Reader(self.app)

        def batch(**said):
            answer = reader.asked("POST", "/api/batch", json.dumps(said).encode(), HTTP_AUTHORIZATION=f"Bearer {token}")
            return answer.status, json.loads(answer.bytes)

        call = 'petition({{"set", #8, "name", "Reading lamp"}})'
        self.assertEqual(batch(calls=[call], words=7), (400, {"error": "bad request", "why": "the value of words isn't a string"}))
        self.assertEqual(batch(calls=[call], words="x" * 1001)[0], 400)
        self.assertEqual(batch(calls=[call], words=WHY)[0], 200)
        self.has(self.somebody("ada").get("/petitions"), WHY, status=200)


class Answers(AskingTest):
    def test_a_word_on_decline_is_read_by_who_asked(self):
        self.ask()
        wizard = self.somebody("wizard")
        wizard.get("/petitions")
        self.has(wizard.send("Decline petition 1", words=NOT_NOW), "The petition is gone", status=200)
        page = self.somebody("bram").get("/petitions")
        self.has(page, "Declined petition 1, by wizard", NOT_NOW, status=200)
        self.has(self.somebody("bram").get("/petitions/1"), "Declined", WHY, NOT_NOW, "is called “Reading lamp”", status=200)
        for other in ("ada", "cleo"):
            self.assertEqual(self.somebody(other).get("/petitions/1").status, 404)

    def test_the_owner_is_asked_says_no_and_then_does_it(self):
        """Who asks, asks the owner; reads why not; asks again, and is accepted."""
        bram, ada = self.somebody("bram"), self.somebody("ada")
        bram.get("/do/rename?object=%238")
        page = bram.send("Ask for it", name="Reading lamp")
        self.has(page, "The wizards are asked and Ada #4 , since it is about what is theirs.", status=200)
        bram.send("Send the petition", words=WHY)
        self.has(ada.get("/petitions"), "Bram #5 asks for 1 change petition 1", WHY, "Asked too: you", "Answer petition 1")
        page = ada.get("/petitions/1")
        self.has(page, WHY, 'name now: "Lamp"', "Do it", "Decline", status=200)
        self.has(ada.send("Decline", words=NOT_NOW), "Your answer is there for who asked", status=200)
        self.has(bram.get("/petitions"), "ada says no.", NOT_NOW, "Take it back", "Ask again")
        self.assertEqual(self.answered('get(#8, "name")'), '"Lamp"')
        self.has(bram.send("Ask again for petition 1", words="The fair is over."), "It is asked for", status=200)
        self.assertEqual(self.open_ones(), [2])
        self.has(ada.get("/petitions/2"), "The fair is over.", status=200)
        self.has(ada.send("Do it", words="Here you are."), "It is done.", status=200)
        self.assertEqual(self.answered('get(#8, "name")'), '"Reading lamp"')
        self.has(bram.get("/petitions"), "ada has done it.", "Here you are.", "It is done: nothing of it is left", "Close it")
        self.has(bram.send("Close it petition 2"), "The petition is gone", "Done petition 2, by ada", status=200)
        self.assertEqual(self.open_ones(), [])
        done = next(each for each in self.intents() if each.get("says") == "done")
        self.assertEqual((done["who"], done["as"], done["calls"], done["petition"]), ("ada", 4, ['set(#8, "name", "Reading lamp")'], 2))

    def test_everybody_acts_by_their_own_number(self):
        """No answer of an owner's is sent by another number than the owner's."""
        self.test_the_owner_is_asked_says_no_and_then_does_it()
        numbers = {each["who"]: {one["as"] for one in self.intents() if one["who"] == each["who"]} for each in self.intents()}
        self.assertEqual(numbers, {name: {self.numbers[name]} for name in ("wizard", "ada", "bram")})

    def test_an_answer_changes_nothing_in_the_world(self):
        self.ask()
        before = self.answered('get(#8, "name")')
        ada = self.somebody("ada")
        ada.get("/petitions/1")
        ada.send("Leave it to a wizard", words="Fine with me.")
        self.assertEqual(self.intents()[-1]["calls"], [])
        self.assertEqual((self.answered('get(#8, "name")'), self.open_ones()), (before, [1]))
        self.has(self.somebody("wizard").get("/petitions"), "ada agrees: a wizard may do it.", "Fine with me.", "It can be granted whole.")
        count = len(self.intents())
        ada.get("/petitions/1")
        self.has(ada.send("Leave it to a wizard", words="Fine with me."), "Your answer is there", status=200)
        self.assertEqual(len(self.intents()), count, "what was said already isn't said twice")

    def test_what_the_owner_may_not_do_is_left_to_a_wizard(self):
        self.ask(text='set(#8, "name", "Reading lamp")\nset(#8, "owner", #5)')
        page = self.somebody("ada").get("/petitions/1")
        self.has(page, "You can’t do it yourself", "Leave it to a wizard", status=200)
        self.assertNotIn("Do it", page.text)

    def test_of_what_is_of_others_the_owner_sees_nothing(self):
        self.ask(text='set(#8, "name", "Reading lamp")\nset(#6, "secret", "a tale of others")')
        for path in ("/petitions", "/petitions/1"):
            page = self.somebody("ada").get(path)
            self.has(page, "Reading lamp", "And 1 change of things of others", status=200)
            self.assertNotIn("a tale of others", page.text)
        self.assertNotIn("Do it", page.text)
        # What isn't offered isn't done either.
        ada = self.somebody("ada")
        ada.get("/petitions/1")
        form, _ = ada.page.form_with("Decline")
        ada.post("/petitions/1", form.fields | {"go": "done", "seen.at": "2", "seen.all": "", "seen.calls": ""})
        self.assertEqual(self.answered('get(#8, "name")'), '"Lamp"')

    def test_a_stranger_answers_nothing(self):
        self.ask()
        count = len(self.intents())
        cleo = self.somebody("cleo")
        cleo.get("/petitions")
        token = cleo.page.forms[-1].fields["form"]
        for go in ("no", "yes", "done", "again"):
            self.assertEqual(cleo.post("/petitions/1", {"form": token, "go": go, "words": "x"}).status, 404)
        self.assertEqual(len(self.intents()), count)

    def test_who_asks_doesnt_answer_for_the_owner(self):
        self.ask()
        bram = self.somebody("bram")
        bram.get("/petitions/1")
        count = len(self.intents())
        for go in ("no", "yes", "done"):
            bram.post("/petitions/1", bram.page.forms[-1].fields | {"go": go})
        self.assertEqual(len(self.intents()), count)


class InTheMenu(AskingTest):
    def test_those_are_counted_that_wait_for_ones_answer(self):
        self.assertEqual([self.waits(name) for name in self.numbers], [0, 0, 0, 0])
        self.ask()
        self.ask("cleo", text="move(#5, #7)")
        self.assertEqual([self.waits(name) for name in self.numbers], [2, 1, 1, 0])
        ada = self.somebody("ada")
        ada.get("/petitions/1")
        ada.send("Decline", words=NOT_NOW)
        self.assertEqual([self.waits(name) for name in self.numbers], [1, 0, 1, 0])
        wizard = self.somebody("wizard")
        wizard.get("/petitions")
        wizard.send("Decline petition 2")
        self.assertEqual([self.waits(name) for name in self.numbers], [0, 0, 0, 0])

    def test_a_front_that_is_started_again_counts_the_same(self):
        from moo_web.pages.site import make_pages

        self.ask()
        self.ask("cleo", text="move(#8, #7)")
        ada = self.somebody("ada")
        ada.get("/petitions/1")
        ada.send("Decline", words=NOT_NOW)
        self.app = App(self.told.append)
        self.pages = make_pages(self.app, self.people, self.writer, History(self.room / "front"), self.rate)
        self.pages.rate.clock = self.clock
        self.pages.warm()
        self.assertEqual([self.waits(name) for name in self.numbers], [1, 1, 0, 0])
        self.has(self.somebody("bram").get("/petitions"), WHY, "ada says no.", NOT_NOW)

    def test_the_count_asks_moo_nothing(self):
        self.ask()
        ada = self.somebody("ada")
        ada.get("/you")
        asked = []
        self.door.note = lambda target, *_: asked.append(target)
        self.has(ada.get("/you"), "Petitions 1 wait for you", status=200)
        self.assertLessEqual(len(asked), 1, asked)


class Requests(AskingTest):
    """What ten petitions of every kind ask of moo."""

    KINDS = (
        'set(#8, "name", "Lamp {}")', 'set(#8, "weight", {})', "move(#8, #7)", "create(#6)", "chparent(#8, #7)", "recycle(#8)",
        'add_property(#8, "taste{}", {}, {{#4, "rc"}})', 'delete_property(#6, "weight")', "set_player_flag(#5, 0)", 'delete_verb(#8, "light")',
        'set_property_info(#8, "weight", {{#5, "rw"}})', "set_accept(#8, {{#1}})", "clear_property(#8, \"weight\")", "chparent(#6, #8)",
        'get(#6, "secret")', "valid(#{})", 'set(#8, "owner", #5)',
    )  # fmt: skip

    def counted(self, reader, path):
        """The page at a path, and the requests for it once the world is known."""
        reader.get("/you")
        asked = []
        self.door.note = lambda target, *_: asked.append(target)
        page = reader.get(path)
        return page, list(asked)

    def petition(self, texts, who="bram"):
        """Makes a petition of these calls."""
        asked = ", ".join("{" + ", ".join([f'"{text.partition("(")[0]}"', text.partition("(")[2][:-1]]) + "}" for text in texts)
        return self.write(who, f"petition({{{asked}}})")

    def test_ten_petitions_take_five_requests(self):
        for number, kind in enumerate(self.KINDS[:10]):
            self.petition([kind.format(number, number)])
        page, asked = self.counted(self.somebody("wizard"), "/petitions")
        self.assertEqual(page.text.count("asks for 1 change petition"), 10)
        self.assertLessEqual(len(asked), 5, asked)

    def test_for_an_owner_and_for_who_asked_it_is_the_same(self):
        for number in range(10):
            self.petition([f'set(#8, "name", "Lamp {number}")'])
        for name in ("ada", "bram"):
            page, asked = self.counted(self.somebody(name), "/petitions")
            self.assertEqual(page.text.count("asks for 1 change petition"), 10, name)
            self.assertLessEqual(len(asked), 5, (name, asked))

    def test_the_previews_of_a_page_are_those_of_each_grant_alone(self):
        """Random petitions: what is seen, and so what the button beside it sends, is what `grant(N)` by itself would show."""
        chance = random.Random(SEED)
        for number in range(40):
            texts = [chance.choice(self.KINDS).format(number, number) for _ in range(chance.choice((1, 1, 2, 5)))]
            self.petition(texts, chance.choice(("ada", "bram", "cleo")))
        questions = Questions(self.door)
        previews = Previews(questions, self.writer, Recent(self.writer, History(self.room / "front")))
        world = self.pages.index.world()
        (told,) = questions.read(3, ["petitions()"], world.seq)
        petitions = petitions_in(told)
        found = outcomes_of(lambda calls: questions.read(3, calls, world.seq), 3, told, petitions, world)
        refused = 0
        for petition, outcome in zip(petitions, found):
            alone = previews.of(Person("wizard", 3), [Item(f"grant({petition.number})")])
            self.assertEqual((outcome.grant.changes, outcome.grant.inner, outcome.grant.refusal), (alone.changes, alone.inner, alone.refusal))
            self.assertEqual((outcome.grant.losses, outcome.grant.seen, outcome.grant.sent), (alone.losses, alone.seen, alone.sent), petition)
            end = previews.of(Person("wizard", 3), [Item(f"decline({petition.number})")])
            self.assertEqual((outcome.decline.seen, outcome.decline.sent), (end.seen, end.sent))
            refused += alone.refusal is not None
        self.assertTrue(3 < refused < 37, refused)


class Kept(AskingTest):
    def test_words_are_in_each_copy_of_the_journal(self):
        """A replay onto a new world comes to the same number, over the answers that have no calls; and the copy tells the same."""
        self.ask()
        ada = self.somebody("ada")
        ada.get("/petitions/1")
        ada.send("Decline", words=NOT_NOW)
        seq = Questions(self.door).number()
        whole = self.room / "whole"
        shutil.copytree(self.room / "front", whole)
        talk = talks_of(History(whole), [1])[1]
        self.assertEqual((talk.asked.note.words, [(one.who, one.says, one.words) for one in talk.answers]), (WHY, [("ada", "no", NOT_NOW)]))
        self.moo.stop()
        make_world(self.room / "first.db", self.world)
        status, printed, told = program("moo-replay", whole, self.room / "first.db")
        self.assertEqual((status, printed), (0, f"seq {seq}\n"), told)

    def test_the_file_beside_a_segment_has_the_answers(self):
        self.ask()
        ada = self.somebody("ada")
        for words in ("First.", "Second."):
            ada.get("/petitions/1")
            ada.send("Decline", words=words)
        history = History(self.room / "front", least=0)
        self.assertEqual([one.words for one in talks_of(history, [1])[1].answers], ["Second."])
        history.end()
        self.assertEqual(len(list((self.room / "front").glob("index-*"))), 1)
        again = History(self.room / "front", least=0)
        self.assertEqual(talks_of(again, [1]), talks_of(history, [1]))
        self.assertEqual(again.ledger.replies, history.ledger.replies)

    def test_words_count_as_bytes_of_a_day(self):
        from moo_web.people.growth import Growth

        growth = Growth(self.door, 1000, clock=self.clock)
        self.writer.listeners.append(growth.take)
        self.ask(why="ä" * 700)
        self.assertGreater(growth.of_people.wait("bram"), 0)
        self.assertEqual(growth.of_people.wait("ada"), 0)


if __name__ == "__main__":
    unittest.main()
