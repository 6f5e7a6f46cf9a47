"""Undo on pages: one's own batches and for wizards all, on the world as it is now, with what stays; and who sees what was done."""

from unittest import mock

from tests.support.forms import FormsTest
from tests.support.pages import lacking
from tests.support.with_front import WithFront
from tests.web.test_losses import APPLES

from moo_web.journal import undoing

if not lacking():
    from moo_web.forms.undo import with_known_names


class UndoTest(FormsTest):
    @classmethod
    def setUpClass(cls):
        super().setUpClass()
        cls.world = FormsTest.world + APPLES

    def has(self, page, *words, status=None):
        """The page says all these words; what follows a link comes right after it."""
        page.text = page.text.replace(" .", ".").replace(" ,", ",")
        super().has(page, *words, status=status)

    def dump(self):
        """The world without its number and the greatest one of its objects."""
        return self.door.tried("GET", "/dump").text.splitlines()[2:]

    def undo(self, reader, number):
        """Presses 'Undo this' on the page of a batch, and gives the preview."""
        page = reader.get(f"/history/{number}")
        self.assertIn(f"/undo/{number}", page.links)
        return reader.get(f"/undo/{number}")


class Undo(UndoTest):
    def test_another_parent_by_mistake(self):
        wizard, before = self.somebody("wizard"), self.dump()
        wizard.get("/do/parent?object=%2310")
        wizard.send("Preview", parent="#1")
        page = wizard.send("Do it")
        self.is_done(page)
        self.has(page, "generic apple #10 parent generic lamp #9 Root Class #1", '#11 colour "green" gone')
        self.assertNotEqual(self.dump(), before)
        page = self.undo(wizard, 3)
        self.has(page, "Undo batch 3", "generic apple #10 inherits from generic lamp #9.", status=200)
        page = wizard.send("Do it")
        self.is_done(page)
        self.assertEqual(self.dump(), before)

    def test_it_can_be_undone_and_that_too(self):
        wizard, before = self.somebody("wizard"), self.dump()
        self.write("wizard", 'set(#10, "taste", 6)', 'delete_property(#9, "colour")')
        after = self.dump()
        for number, wanted in ((3, before), (4, after), (5, before)):
            self.undo(wizard, number)
            self.is_done(wizard.send("Do it"))
            self.assertEqual(sorted(self.dump()), sorted(wanted))

    def test_of_others(self):
        self.write("ada", 'set(#8, "name", "Torch")')
        self.write("wizard", 'set(#8, "name", "Lantern")')
        bram, wizard, ada = map(self.somebody, ("bram", "wizard", "ada"))
        self.assertEqual([bram.get(f"/undo/{number}").status for number in (3, 4, 99)], [404] * 3)
        self.assertEqual(ada.get("/undo/4").status, 404)
        self.assertNotIn("/undo/4", ada.get("/history/4").links)
        self.has(self.undo(wizard, 3), 'name now: "Lantern"', status=200)
        self.is_done(wizard.send("Do it"))
        self.has(ada.get("/o/8"), "Lamp")

    def test_the_world_as_it_is_now(self):
        """What others did since is shown, and what can't be any more is said and left out."""
        self.write("ada", 'set(#8, "name", "Torch")', 'set(#8, "weight", 5)')
        self.write("wizard", 'delete_property(#6, "weight")')
        ada = self.somebody("ada")
        page = self.undo(ada, 3)
        self.has(page, "What stays as it is", "clear_property of weight on #8: The object has no property of that name.", "Torch #8 is called “Lamp”")
        self.is_done(ada.send("Do it"))
        self.has(ada.get("/o/8"), "Lamp")

    def test_others_come_in_between(self):
        self.write("ada", 'set(#8, "name", "Torch")')
        ada = self.somebody("ada")
        self.undo(ada, 3)
        self.write("wizard", 'set(#8, "name", "Lantern")')
        self.has(ada.send("Do it"), "Others have changed the world since you looked", 'name now: "Lantern"', status=409)

    def test_a_recycled_object_is_made_again_as_another(self):
        self.write("wizard", "recycle(#10)")
        wizard = self.somebody("wizard")
        page = self.undo(wizard, 3)
        self.has(page, "#10 is gone for good, and its number isn’t given again", "A new object is made under generic lamp #9, for Ada #4")
        self.is_done(wizard.send("Do it"))
        self.has(wizard.get("/o/21"), "generic apple", "unnamed #11 unnamed #12")
        self.has(wizard.get("/o/11/property?name=taste"), "11")

    def test_nothing_to_undo(self):
        self.write("wizard", "players()")
        self.write("ada", 'petition({{"create", #1}})')
        self.write("ada", "decline(1)")
        wizard = self.somebody("wizard")
        self.has(wizard.get("/undo/3"), "It changed nothing, so there is nothing to undo.")
        self.has(wizard.get("/undo/5"), "Nothing of it can be undone.", "the petition isn’t made again")

    def test_values_that_may_not_be_read_are_not_told(self):
        """The lost secrets of #12 and #13 are the wizard's: Ada is told that there are two, and neither name nor value."""
        ada, wizard = self.somebody("ada"), self.somebody("wizard")
        ada.get("/do/parent?object=%2310")
        ada.send("Preview", parent="#1")
        self.is_done(ada.send("Do it"))
        self.write("wizard", 'set_property_info(#9, "secret", {#3, "w"})')
        for path in ("/done/3", "/history/3"):
            page = ada.get(path)
            self.assertNotIn("secret", page.html)
            self.has(page, '#11 colour "green" gone', "#20 taste 20 gone", "2 values of before aren’t shown")
        page = self.undo(ada, 3)
        self.assertNotIn("secret", page.html)
        self.has(page, "2 values that you may not read can’t be put back by you. A wizard can do it.")
        self.is_done(ada.send("Do it"))
        self.assertEqual(self.write("wizard", "parent(#10)", 'get(#11, "colour")', 'get(#12, "taste")'), ["#9", '"green"', "12"])
        self.assertEqual(self.write("wizard", 'get(#12, "secret")'), ["0"])
        self.has(self.undo(wizard, 3), 'set(#12, "secret", 1)')

    def test_a_grant(self):
        """The undo is of the calls that the grant made."""
        self.write("ada", 'petition({{"set", #6, "name", "Ada was here"}, {"move", #5, #-1}})')
        self.write("wizard", "grant(1)")
        wizard, ada = self.somebody("wizard"), self.somebody("ada")
        page = wizard.get("/history/4")
        self.has(page, "Petition 1 is granted.", "ada’s petition:", "Generic Thing #6 is called “Ada was here”.", "Bram #5 goes out of where it is")
        self.has(wizard.get("/history"), "ada’s petition: Generic Thing #6 is called “Ada was here”.")
        page = self.undo(wizard, 4)
        self.has(page, "The petition isn’t made again.", "Bram #5 goes into The First Room #2")
        self.is_done(wizard.send("Do it"))
        self.has(ada.get("/o/6"), "Generic Thing")

    def test_over_a_thousand_calls(self):
        self.write("wizard", *["create(#10)"] * 998)
        for name in ("taste", "colour"):
            self.write("wizard", *[f'set(#{number}, "{name}", 1)' for number in range(21, 1019)])
        self.write("wizard", "chparent(#10, #-1)")
        wizard = self.somebody("wizard")
        page = wizard.get("/undo/6")
        self.has(page, "It takes 3 batches, one after another. This is number 1.")
        for part in (1, 2, 3):
            wizard.get(f"/undo/6?part={part}")
            self.is_done(wizard.send("Do it"))
        self.assertEqual(self.write("wizard", 'get(#1018, "taste")', 'get(#11, "colour")', 'get(#21, "colour")'), ["1", '"green"', "1"])

    def test_an_object_that_is_made_again_by_an_earlier_part(self):
        """Batches of five calls in place of a thousand."""
        self.write("wizard", "recycle(#10)")
        wizard = self.somebody("wizard")
        with mock.patch.object(undoing, "MOST_CALLS", 5):
            pages = [wizard.get(f"/undo/3?part={part}") for part in (1, 2)]
        self.assertEqual([page.status for page in pages], [200, 200])
        self.has(pages[1], "about an object that an earlier one of these batches makes anew")

    def test_a_refused_object_takes_along_what_is_about_it_alone(self):
        lines = ["$again1 = create(#5)", "$again12 = create(#1)", "move($again12, #5)", "move($again1, #5)", "$b = create($again1)", "move($b, #5)"]
        left = ["$again12 = create(#1)", "move($again12, #5)"]
        self.assertEqual((with_known_names(lines), with_known_names(lines[1:])), (lines, left))


class Concerned(UndoTest):
    """Owners see what was done with what is theirs, as far as they could read it."""

    def test_an_owner_learns_who_changed_it(self):
        self.write("wizard", 'set(#8, "weight", 99)', 'set(#6, "name", "Thing")', 'set(#8, "secret", "hush")')
        ada, bram = self.somebody("ada"), self.somebody("bram")
        for path in ("/history", "/history?o=8", "/history?o=Lamp", "/history?who=wizard", "/o/8", "/"):
            with self.subTest(path):
                page = ada.get(path)
                self.has(page, "wizard", "The property “weight” of Lamp #8 becomes 99.")
                self.assertNotIn("hush", page.html)
        page = ada.get("/history/3")
        self.has(page, "Lamp #8 weight what it inherits 99", "And 1 call that you may not read.")
        self.assertNotIn("hush", page.html)
        self.assertEqual(bram.get("/history/3").status, 404)
        self.assertNotIn("weight", bram.get("/history").html)

    def test_what_only_reads_or_can_not_be_read_concerns_nobody(self):
        self.write("wizard", 'get(#8, "name")')
        self.write("wizard", 'set(#8, "secret", "hush")')
        ada = self.somebody("ada")
        self.assertEqual([ada.get(f"/history/{number}").status for number in (3, 4)], [404, 404])
        self.has(ada.get("/history"), "There is nothing.")

    def test_verbs_that_may_not_be_read(self):
        self.write("wizard", 'set_verb_info(#8, 1, {#3, "", "hush"})', 'add_verb(#8, {#3, "r", "ring"}, {"this", "none", "none"})')
        self.write("wizard", 'set_verb_info(#8, 1, {#3, "r", "loud"})', 'set_verb_args(#8, 1, {"any", "none", "none"})')
        ada = self.somebody("ada")
        page = ada.get("/history/3")
        self.has(page, "ring", "And 1 call that you may not read.")
        self.assertNotIn("hush", page.html)
        page = ada.get("/history/4")
        self.has(page, "loud", "any", "1 value of before isn’t shown")
        self.assertNotIn("hush", page.html)

    def test_the_names_of_then(self):
        self.write("wizard", 'set(#8, "name", "Torch")')
        self.write("wizard", "move(#8, #7)")
        self.write("wizard", 'set(#8, "name", "Lantern")')
        self.write("wizard", "recycle(#8)")
        page = self.somebody("wizard").get("/history")
        self.has(page, "Lamp #8 is called “Torch”.", "Torch #8 goes into Generic Room #7.", "Torch #8 is called “Lantern”.", "Lantern #8 is recycled")

    def test_numbers_are_those_of_batches(self):
        for number in range(3, 8):
            self.write("ada", f'set(#8, "name", "name {number}")')
        ada = self.somebody("ada")
        for number in range(3, 8):
            for path in (f"/history/{number}", f"/done/{number}"):
                self.has(ada.get(path), f"Lamp #8 is called “name {number}”." if number == 3 else f"name {number - 1} #8 is called “name {number}”.")
        self.assertEqual([link for link in ada.get("/history").links if link.startswith("/history/")], [f"/history/{number}" for number in range(7, 2, -1)])

    def test_filters(self):
        self.write("wizard", 'set(#8, "name", "Torch")', 'set(#6, "name", "Thing")')
        self.write("bram", 'set(#5, "r", 1)')
        wizard = self.somebody("wizard")
        for query, numbers in (
            ("", [4, 3]), ("?o=Torch", [3]), ("?o=%238", [3]), ("?o=5", [4]), ("?o=bram", [4]), ("?who=bram", [4]), ("?who=bram&o=8", []),
            ("?since=2020-01-01", [4, 3]), ("?until=2020-01-01", []), ("?since=2999-01-01", []), ("?since=2020-01-01T10:00&until=2999-01-01", [4, 3]),
            ("?o=no+such+name", []), ("?since=tomorrow", [4, 3]),
        ):  # fmt: skip
            with self.subTest(query):
                page = wizard.get(f"/history{query}")
                links = dict.fromkeys(link for link in page.links if link.startswith("/history/"))
                self.assertEqual(list(links), [f"/history/{number}" for number in numbers])
        self.has(wizard.get("/history?o=no+such+name"), "No object is named like “no such name”.")
        self.has(wizard.get("/history?o=generic"), "Several objects are named like “generic”", "Generic Room #7")

    def test_the_values_of_a_property_in_time(self):
        self.write("wizard", 'set(#8, "weight", 5)')
        self.write("ada", 'petition({{"set", #8, "weight", 6}})')
        self.write("wizard", "grant(1)")
        self.write("ada", 'clear_property(#8, "weight")')
        page = self.somebody("ada").get("/o/8/property?name=weight")
        self.assertRegex(page.text, r"Its values in time .* ada 6 what it inherits \S+ \S+ \S+ \S+ wizard 5 6 \S+ \S+ \S+ \S+ wizard what it inherits 5")
        self.assertNotIn("Its values in time", self.somebody("bram").get("/o/8/property?name=secret").text)

    def test_differences(self):
        self.write("wizard", 'set(#8, "name", "Torch")', 'set(#6, "name", "Thing")')
        wizard, ada = self.somebody("wizard"), self.somebody("ada")
        self.assertEqual(ada.get("/differences").status, 403)
        self.has(wizard.get("/differences?a=2&b=3"), '2 values.', 'Torch #8 name "Lamp" "Torch"', 'Thing #6 name "Generic Thing" "Thing"')
        page = wizard.get("/differences?a=3&b=2&o=Torch")
        self.has(page, '1 value.', 'Torch #8 name "Torch" "Lamp"')
        self.has(wizard.get("/differences?a=1&b=3"), "Batch 2 isn't in the journal.")
        self.has(wizard.get("/differences?a=2&b=9"), "The world has number 3 yet.")
        self.has(wizard.get("/differences?a=3&b=3"), "Nothing differs.")


class Untouched(UndoTest):
    """Forms that are sent as they are shown."""

    FORMS = (
        "rename?object=%238", "move?object=%238", "move?object=%239", "parent?object=%238", "owner?object=%238", "marks?object=%236",
        "accept?object=%237", "accept?object=%238", "powers?object=%234", "powers?object=%238", "quota?object=%234",
        "set?object=%238&name=weight", "set?object=%2311&name=colour", "property-rights?object=%238&name=weight",
        "property-rights?object=%239&name=secret", "verb-rights?object=%238&verb=1", "verb-rights?object=%238&verb=light", "verb-args?object=%238&verb=1",
    )  # fmt: skip

    def test_they_change_nothing(self):
        self.write("wizard", 'add_property(#4, "ownership_quota", 7, {#3, "r"})')
        wizard, before = self.somebody("wizard"), self.dump()
        for path in self.FORMS:
            with self.subTest(path):
                wizard.get(f"/do/{path}")
                page = wizard.send("Preview")
                self.has(page, "This is what is there now: nothing would change.", status=200)
                self.assertNotIn("Do it", page.text)
        self.assertEqual(self.dump(), before)

    def test_what_is_accepted(self):
        """The list that counts, and whose it is; a list that is typed is one of its own."""
        self.write("ada", "create(#6)")
        self.write("wizard", "chparent(#21, #7)")
        ada = self.somebody("ada")
        self.has(ada.get("/o/21"), "Root Class #1 and what is under it (the list of Generic Room #7 )")
        page = ada.get("/do/accept?object=%2321")
        self.has(page, "Now it accepts Root Class #1 and what is under it (the list of Generic Room #7 )")
        self.assertEqual(ada.typed()["how"], "inherited")
        self.has(ada.send("Preview", accepts="#8"), "unnamed #21 accepts {Lamp #8 }, and what is under that.")
        self.is_done(ada.send("Do it"))
        ada.get("/do/accept?object=%2321")
        self.assertEqual((ada.typed()["how"], ada.typed()["accepts"]), ("own", "#8"))
        self.has(ada.send("Preview", how="inherited"), "unnamed #21 accepts what its parent does.")
        self.has(ada.get("/do/accept?object=%238"), "Now it accepts nothing")

    def test_a_browser_may_keep_a_preview(self):
        ada = self.somebody("ada")
        ada.get("/do/rename?object=%238")
        page = ada.send("Preview", name="Torch")
        self.assertEqual(page.head["Cache-Control"], "private, no-cache")
        self.assertEqual(ada.get("/o/8").head["Cache-Control"], "no-store")


class AfterARestart(WithFront):
    def test_a_batch_is_undone_by_another_process(self):
        ada = self.reader("ada")
        ada.get("/do/rename?object=%238")
        ada.send("Preview", name="Torch")
        ada.send("Do it")
        self.start_again()
        self.has(ada.get("/undo/2"), "Lamp", 'name now: "Torch"', status=200)
        self.has(ada.send("Do it"), "Done", status=200)
        self.has(ada.get("/o/8"), "Lamp", status=200)


del UndoTest, WithFront
