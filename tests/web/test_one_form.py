"""The form of a whole object, and of a new one: what is in it, what is sent, and how many pages it takes (web/moo_web/forms/one_form.py)."""

import unittest

from tests.support.forms import FormsTest

from moo_web.forms.entries import property_key  # noqa: E402

# Ada #4 is a builder, #5 the class of rooms, #6 the Square and #7 Mill Lane, both Ada's, #8 the wizard's Chapel, #9 a class of things and
# #10 Ada's thing.
WORLD = """batch as #3
create(#1, #-1)
create(#1)
create(#5, #4)
create(#5, #4)
create(#5)
create(#1)
create(#9, #4)
set(#4, "name", "Ada")
set_player_flag(#4, 1)
set(#5, "name", "generic room")
set(#5, "f", 1)
add_property(#5, "description", "Nothing special.", {#3, "rc"})
add_property(#5, "exits", {}, {#3, "rc"})
add_property(#5, "rent", 5, {#3, "r"})
set_accept(#5, {#1})
set(#6, "name", "The Square")
set(#7, "name", "Mill Lane")
set(#8, "name", "The Chapel")
set(#6, "exits", {{"north", #7}})
set(#7, "exits", {{"south", #6}})
set(#9, "name", "generic thing")
set(#9, "f", 1)
set(#9, "r", 1)
add_property(#9, "weight", 1, {#3, "rc"})
add_property(#9, "taste", "none", {#3, "rc"})
add_property(#9, "maker", #3, {#3, "rc"})
add_property(#9, "parts", {1, #8}, {#3, "rc"})
add_property(#9, "secret", "hidden", {#3, ""})
set(#10, "name", "apple")
move(#10, #6)
move(#4, #6)
end
"""
EXITS, DESCRIPTION = property_key("p", "exits"), property_key("p", "description")
WEIGHT, TASTE, MAKER, PARTS = (property_key("p", name) for name in ("weight", "taste", "maker", "parts"))
# What a browser sends for an ended line.
END = "\r\n"


def keyed(**typed):
    """The fields of properties, which are named by their words here."""
    keys = {"exits": EXITS, "description": DESCRIPTION, "weight": WEIGHT, "taste": TASTE, "maker": MAKER, "parts": PARTS}
    named = {}
    for name, text in typed.items():
        word, dot, rest = name.partition("__")
        named[keys.get(word, word) + dot + rest] = text
    return named


class OneFormTest(FormsTest):
    world = WORLD
    numbers = {"wizard": 3, "ada": 4}


class Editing(OneFormTest):
    def test_what_is_there_is_in_the_form(self):
        ada = self.somebody("ada")
        ada.get("/edit/10")
        got = ada.typed()
        wanted = keyed(
            name="apple", place="The Square #6", weight="1", weight__kind="number", taste="none", taste__kind="text", maker="#3",
            maker__kind="object", parts="{1, #8}", parts__kind="written", r__was="0",
        )  # fmt: skip
        wanted = {key.replace("__", "."): text for key, text in wanted.items()}
        wanted[MAKER] = got[MAKER]
        self.assertEqual({key: got.get(key) for key in wanted}, wanted)
        self.assertRegex(got[MAKER], r"#3$")
        self.has(ada.page, "As generic thing #9 has it, until you change it.", "Everybody may make objects under it")
        self.assertNotIn("hidden", ada.page.text)

    def test_a_form_that_isnt_touched_changes_nothing(self):
        ada, before = self.somebody("ada"), self.writer.seq
        for path in ("/edit/10", "/edit/6", "/edit/new?parent=5", "/edit/new?parent=9"):
            with self.subTest(path=path):
                ada.get(path)
                self.has(ada.send("Preview"), "This is what is there now: nothing would change.", status=200)
                self.assertNotIn("Do it", ada.page.text)
        self.assertEqual(self.writer.seq, before)

    def test_what_differs_is_one_batch_with_one_undo(self):
        ada = self.somebody("ada")
        ada.get("/edit/10")
        page = ada.send("Preview", **keyed(name="pear", place="nowhere", weight="7", taste='sweet "and" sour', f="on"))
        self.has(page, "This would be done", 'name now: "apple"', "weight now: 1", "where it is now: The Square #6", status=200)
        self.assertEqual(page.html.count('<code class="call">'), 5)
        self.is_done(ada.send("Do it"))
        self.assertEqual(
            [self.answered(f'get(#10, "{name}")') for name in ("name", "location", "weight", "taste", "f", "maker")],
            ['"pear"', "#-1", "7", '"sweet \\"and\\" sour"', "1", "#3"],
        )
        self.assertEqual(self.answered('is_clear_property(#10, "maker")'), "1", "what was left as it is stays inherited")
        ada.get(next(link for link in ada.page.links if link.startswith("/undo/")))
        self.is_done(ada.send("Do it"))
        self.assertEqual([self.answered(f'get(#10, "{name}")') for name in ("name", "location", "weight")], ['"apple"', "#6", "1"])
        self.assertEqual(self.answered('is_clear_property(#10, "taste")'), "1")

    def test_what_others_did_meanwhile_stays(self):
        ada = self.somebody("ada")
        ada.get("/edit/10")
        self.write("wizard", 'set(#10, "taste", "bitter")', 'set(#8, "name", "The Church")')
        self.has(ada.send("Preview", name="pear"), "This would be done", status=200)
        self.assertEqual(ada.typed()[TASTE], "bitter", "the form that is shown again has what is there now")
        self.is_done(ada.send("Do it"))
        self.assertEqual(self.answered('get(#10, "taste")'), '"bitter"')

    def test_what_two_change_is_shown_before_it_is_done(self):
        ada = self.somebody("ada")
        ada.get("/edit/10")
        self.write("wizard", 'set(#10, "taste", "bitter")')
        self.has(ada.send("Preview", **{TASTE: "sweet"}), 'taste now: "bitter"', status=200)
        self.write("wizard", 'set(#10, "taste", "sour")')
        self.has(ada.send("Do it"), "Others have changed the world", 'taste now: "sour"', status=409)
        self.is_done(ada.send("Do it"))

    def test_what_was_typed_for_a_property_that_is_gone_is_told(self):
        ada = self.somebody("ada")
        ada.get("/edit/10")
        self.write("wizard", 'delete_property(#9, "taste")')
        self.has(ada.send("Preview", name="pear", **{TASTE: "sweet"}), "isn’t there any more", "“sweet”", "Nothing was sent.", status=409)
        self.has(ada.send("Preview"), "This would be done", "is called “pear”", status=200)

    def test_a_button_that_is_pressed_twice_acts_once(self):
        ada = self.somebody("ada")
        for path, typed in (("/edit/10", {"name": "pear"}), ("/edit/new?parent=9", {"name": "plum"})):
            with self.subTest(path=path):
                ada.get(path)
                preview = ada.send("Preview", **typed)
                self.is_done(ada.send("Do it"))
                before, ada.page = self.writer.seq, preview
                self.has(ada.send("Do it"), "This was done already")
                self.assertEqual(self.writer.seq, before)

    def test_a_new_name_of_a_place_doesnt_touch_it(self):
        ada = self.somebody("ada")
        ada.get("/edit/10")
        self.write("wizard", 'set(#6, "name", "The Market")')
        self.has(ada.send("Preview"), "nothing would change", status=200)

    def test_who_may_write_what(self):
        ada, wizard = self.somebody("ada"), self.somebody("wizard")
        ada.get("/edit/6")
        self.assertIn(DESCRIPTION, ada.typed(), "it is asked for, though the names of the class may not be listed")
        self.assertNotIn(property_key("p", "rent"), ada.typed())
        wizard.get("/edit/6")
        self.assertIn(property_key("p", "rent"), wizard.typed())
        ada.get("/edit/4")
        self.assertNotIn("name", ada.typed(), "a player has another name from a wizard alone")
        self.has(ada.get("/edit/8"), "Nothing of it is yours to change.", status=200)
        self.assertEqual(ada.get("/edit/99").status, 404)

    def test_many_properties_are_on_several_pages(self):
        self.write("wizard", *[f'add_property(#9, "x{number}", {number}, {{#3, "rc"}})' for number in range(80)])
        ada = self.somebody("ada")
        ada.get("/edit/10")
        self.assertIn("/edit/10?page=2", ada.page.links)
        ada.get("/edit/10?page=2")
        self.assertNotIn("name", ada.typed())
        self.is_done([ada.send("Preview", **{property_key("p", "x79"): "-1"}), ada.send("Do it")][1])
        self.assertEqual(self.answered('get(#10, "x79")'), "-1")

    def test_a_session_that_is_over_loses_nothing(self):
        ada = self.somebody("ada")
        for path in ("/edit/10", "/edit/new?parent=9"):
            with self.subTest(path=path):
                ada.get(path)
                self.people.set_password("ada", "another password")
                self.has(ada.send("Preview", name="pear", **{TASTE: "sweet"}), "What you typed is kept", status=401)
                self.has(ada.send("Sign in", name="ada", password="another password"), "You are signed in again", status=200)
                self.assertEqual((ada.typed()["name"], ada.typed()[TASTE]), ("pear", "sweet"))
                self.has(ada.send("Preview"), "This would be done", status=200)


class Mistakes(OneFormTest):
    def mistaken(self, reader, key, *words):
        """The mistake is beside the field, and all that was typed is there."""
        self.has(reader.page, *words, status=422)
        self.assertRegex(reader.page.html, rf'id="f-{key}-wrong"')
        self.assertIn(f"#f-{key}", reader.page.links)

    def test_a_wrong_value_says_where(self):
        ada = self.somebody("ada")
        for path, typed, key, words in (
            ("/edit/10", {"weight": "heavy"}, WEIGHT, "“heavy” isn’t a number"),
            ("/edit/10", {"maker": "Nobody at all"}, MAKER, "No object is named “Nobody at all”"),
            ("/edit/10", {"parts": "{1, The Chapell}"}, PARTS, "Letter 5: No object is named “The Chapell”"),
            ("/edit/10", {"parts": "{1, Square}"}, PARTS, "Letter 5: No object is named “Square”. Is it one of these?"),
            ("/edit/10", {"taste": "süß"}, TASTE, "“ü”, letter 2 of “süß”"),
            ("/edit/6", {"exits": "north: Mill Lane #7" + END + "down: Cellar"}, EXITS, "Line 2: No object is named “Cellar”"),
            ("/edit/6", {"exits": "north: Mill Lane #7" + END + "to the north"}, EXITS, "Line 2: A direction, a colon and a place"),
            ("/edit/6", {"exits": ": Mill Lane"}, EXITS, "Line 1: The direction before the colon is missing"),
            ("/edit/6", {"exits": "gate: The Chapel"}, EXITS, "Line 1: The way back from The Chapel #8 has no usual name"),
            ("/edit/6", {"exits": "up: apple"}, EXITS, "Line 1: apple #10 has no exits that you may read"),
            ("/edit/6", {"exits": "north: Mill Lane #7" + END + "North: Mill Lane"}, EXITS, "Line 2: there is an exit “North” already."),
            ("/edit/6", {"place": "Mill Street #7"}, "place", "#7 isn’t named “Mill Street”"),
        ):
            with self.subTest(typed=typed):
                ada.get(path)
                ada.send("Preview", **keyed(**typed))
                self.mistaken(ada, key, words)
                self.assertEqual({key: ada.typed()[key].replace("\n", END).replace("\r\r", "\r") for key in keyed(**typed)}, keyed(**typed))

    def test_one_of_several_is_chosen_within_a_value(self):
        ada = self.somebody("ada")
        ada.get("/edit/10")
        ada.send("Preview", **{PARTS: "{1, Square}"})
        page = ada.send("Preview", **{f"{PARTS}.choice": "{1, #6}"})
        self.has(page, "This would be done", "parts now: {1, The Chapel #8 }", status=200)

    def test_the_plain_letters_are_taken_at_a_press(self):
        ada = self.somebody("ada")
        ada.get("/edit/10")
        ada.send("Preview", name="Café")
        self.has(ada.send("Use “Cafe”"), "apple #10 is called “Cafe”.", status=200)

    def test_a_refusal_is_beside_its_field(self):
        self.write("wizard", "set_accept(#8, {})")
        ada = self.somebody("ada")
        ada.get("/edit/10")
        page = ada.send("Preview", name="pear", place="The Chapel")
        self.has(page, "This would be refused.", "The place doesn’t accept it.", "E_NACC", status=409)
        self.assertIn('id="f-place-wrong"', page.html)
        self.assertEqual((ada.typed()["name"], ada.typed()["place"]), ("pear", "The Chapel"))
        self.has(ada.send("Ask for it"), "This would be asked for", status=200)


class Exits(OneFormTest):
    def exits(self, number):
        """The exits of a room."""
        return self.answered(f'get(#{number}, "exits")')

    def test_an_exit_by_its_name_and_the_way_back(self):
        ada = self.somebody("ada")
        self.change(ada, "create", "?parent=%235", names="The Inn")
        ada.get("/edit/6")
        self.assertEqual(ada.typed()[EXITS], "north: Mill Lane #7")
        ada.send("Preview", **{EXITS: "north: Mill Lane #7" + END + "West: the inn"})
        self.is_done(ada.send("Do it"))
        self.assertEqual((self.exits(6), self.exits(11)), ('{{"north", #7}, {"West", #11}}', '{{"east", #6}}'))
        self.assertEqual(self.exits(7), '{{"south", #6}}', "an exit that was there gets no second way back")

    def test_without_the_tick_there_is_no_way_back(self):
        ada = self.somebody("ada")
        ada.get("/edit/7")
        ada.send("Preview", **{EXITS: "south: The Square #6" + END + "east: The Chapel", f"{EXITS}.back": None})
        self.is_done(ada.send("Do it"))
        self.assertEqual((self.exits(7), self.exits(8)), ('{{"south", #6}, {"east", #8}}', "{}"))

    def test_another_way_back_after_a_stroke(self):
        wizard = self.somebody("wizard")
        wizard.get("/edit/8")
        self.has(wizard.send("Preview", **{EXITS: "south: The Square"}), "Line 1: The Square #6 has an exit “north” already, to Mill Lane #7", status=422)
        wizard.send("Preview", **{EXITS: "south/door: The Square"})
        self.is_done(wizard.send("Do it"))
        self.assertEqual((self.exits(8), self.exits(6)), ('{{"south", #6}}', '{{"north", #7}, {"door", #8}}'))

    def test_a_way_back_that_isnt_ones_own_is_refused_at_the_field(self):
        ada = self.somebody("ada")
        ada.get("/edit/7")
        page = ada.send("Preview", **{EXITS: "south: The Square #6" + END + "east: The Chapel"})
        self.has(page, "This would be refused.", "E_PERM", status=409)
        self.assertIn(f'id="f-{EXITS}-wrong"', page.html)

    def test_a_line_that_is_taken_away_is_an_exit_less(self):
        self.write("wizard", 'set(#6, "exits", {{"north", #7}, {"a: b/c", #99}, {"up", #-1}})')
        ada = self.somebody("ada")
        ada.get("/edit/6")
        lines = ada.typed()[EXITS].splitlines()
        self.assertEqual(lines, ["north: Mill Lane #7", "a: b/c: #99", "up: nothing"])
        ada.send("Preview", **{EXITS: END.join(lines[1:])})
        self.is_done(ada.send("Do it"))
        self.assertEqual(self.exits(6), '{{"a: b/c", #99}, {"up", #-1}}')

    def test_a_value_of_another_shape_is_a_value(self):
        self.write("wizard", 'set(#6, "exits", {#7, #8})')
        ada = self.somebody("ada")
        ada.get("/edit/6")
        self.assertEqual((ada.typed()[EXITS], ada.typed()[f"{EXITS}.kind"]), ("{#7, #8}", "written"))


class Making(OneFormTest):
    def test_a_room_described_and_joined_both_ways_in_five_pages(self):
        ada = self.somebody("ada")
        pages = [ada.get("/o/6")]
        link = next(link for link in ada.page.links if link.startswith("/edit/new") and "from=6" in link)
        pages.append(ada.get(link))
        self.assertEqual(ada.typed()[EXITS], "north: The Square #6", "south of it nothing is yet")
        pages.append(ada.send("Preview", name="The Inn", **{DESCRIPTION: "It smells of beer.", EXITS: "east: The Square #6"}))
        self.has(ada.page, "This would be done", "The new object #11 is called “The Inn”.", status=200)
        pages.append(ada.send("Do it"))
        self.is_done(ada.page)
        self.assertLessEqual(len(pages), 5)
        self.assertEqual(
            [self.answered(f'get(#{number}, "{name}")') for number, name in ((11, "name"), (11, "description"), (11, "exits"), (6, "exits"))],
            ['"The Inn"', '"It smells of beer."', '{{"east", #6}}', '{{"north", #7}, {"west", #11}}'],
        )
        self.assertEqual(self.answered("parent(#11)"), "#5")
        self.has(ada.get("/done/2"), "Made: The Inn #11")

    def test_a_room_without_exits_can_be_led_to(self):
        self.write("ada", 'set(#6, "exits", {})')
        ada = self.somebody("ada")
        self.assertIn("/edit/new?parent=5&from=6", ada.get("/o/6").links)
        for number, what in ((5, "the class of rooms, whose parent has no exits"), (9, "a class of things"), (10, "a thing")):
            self.assertFalse([link for link in ada.get(f"/o/{number}").links if link.startswith("/edit/new") and "from=" in link], what)

    def test_without_a_parent_the_classes_are_shown(self):
        ada = self.somebody("ada")
        self.has(ada.get("/edit/new"), "generic room #5", "generic thing #9", status=200)
        self.assertIn("/edit/new?parent=5", ada.page.links)
        self.has(ada.get("/edit/new?parent=generic+thing"), "A new object under generic thing", status=200)
        self.has(ada.get("/edit/new?parent=generic"), "No object is named “generic”", status=422)

    def test_a_parent_that_isnt_fertile_is_refused(self):
        ada = self.somebody("ada")
        ada.get("/edit/new?parent=8")
        page = ada.send("Preview", name="x")
        self.has(page, "This would be refused.", "The parent isn’t fertile and isn’t yours", status=409)

    def test_all_that_a_new_object_is_given(self):
        ada = self.somebody("ada")
        ada.get("/edit/new?parent=9&place=The+Square&weight=3&name=plum")
        self.assertEqual((ada.typed()["name"], ada.typed()[WEIGHT], ada.typed()["place"]), ("plum", "3", "The Square"))
        ada.send("Preview", **keyed(f="on", r="on", maker="Ada", parts="{{The Chapel #8, 2}, apple}"))
        self.is_done(ada.send("Do it"))
        self.assertEqual(
            [self.answered(f'get(#11, "{name}")') for name in ("name", "location", "weight", "maker", "parts", "f", "r", "taste")],
            ['"plum"', "#6", "3", "#4", "{{#8, 2}, #10}", "1", "1", '"none"'],
        )
        self.assertEqual(self.answered('is_clear_property(#11, "taste")'), "1")


if __name__ == "__main__":
    unittest.main()
