"""The pages by which people change a world, read and sent as a browser without scripts does: each form, its mistakes, its preview and its
end, two people at once, and sessions that are over (web/moo_web/forms/handlers.py)."""

import re
import unittest
import urllib.parse

from tests.support.forms import FormsTest
from tests.support.web import PASSWORD

from moolib.calls import NAMES


class Forms(FormsTest):
    def test_each_form_is_shown_and_linked_to(self):
        wizard = self.somebody("wizard")
        page = wizard.get("/do")
        forms = [link for link in page.links if link.startswith("/do/")]
        self.assertEqual(len(set(forms)), 21)
        for link in forms:
            with self.subTest(link=link):
                self.assertEqual(wizard.get(f"{link}?object=%238&name=weight&verb=1").status, 200)
                labels = set(re.findall(r'<label[^>]* for="([^"]+)"', wizard.page.html))
                fields = set(re.findall(r'<(?:input|textarea|select) id="(f-[^"]+)"(?! name="[^"]*" type="checkbox")', wizard.page.html))
                self.assertLessEqual(fields - labels, set(), "each field has a label")
        self.has(page, "‘Its children as a table’, under ‘More’ on the page of the class", status=200)
        self.assertIn("/edit/new", page.links)
        self.assertNotIn("Quotas", self.somebody("ada").get("/do").text)
        self.assertEqual(wizard.get("/do/nothing").status, 404)

    def test_an_object_links_to_what_can_be_done_with_it(self):
        ada = self.somebody("ada")
        links = [link for link in ada.get("/o/8").links if link.startswith("/do/") and link != "/do"]
        self.assertGreater(len(links), 10)
        for link in links:
            with self.subTest(link=link):
                self.assertEqual(ada.get(link).status, 200)
        links = [link for link in ada.get("/o/8/property?name=weight").links if link.startswith("/do/")]
        self.assertEqual([ada.get(link).status for link in links], [200] * 4)

    def test_what_is_there_is_in_the_form_at_first(self):
        ada = self.somebody("ada")
        for path, fields in (
            ("/do/rename?object=%238", {"name": "Lamp"}),
            ("/do/move?object=%238", {"place": "#2"}),
            ("/do/parent?object=Lamp", {"parent": "#6"}),
            ("/do/set?object=8&name=weight", {"value": "1", "value.kind": "number"}),
            ("/do/property-rights?object=%236&name=weight", {"perms.r": "on", "perms.c": "on", "owner": "#3"}),
            ("/do/verb-args?object=%238&verb=1", {"dobj": "this", "prep": "none", "iobj": "none"}),
            ("/do/verb-rights?object=%238&verb=light", {"names": "light", "owner": "#4", "perms.x": "on"}),
            ("/do/marks?object=%238", {"r": "on", "r.was": "1", "w.was": "0", "f.was": "0"}),
            ("/do/accept?object=%237", {"accepts": "#1"}),
            ("/do/add-property?object=%238", {"owner": "me", "perms.r": "on", "perms.c": "on", "value.kind": "text"}),
            ("/do/set?object=%238&name=secret", {"value": "", "value.kind": "text"}),
            ("/do/create?parent=%236&place=%232", {"parent": "#6", "place": "#2"}),
        ):
            with self.subTest(path=path):
                ada.get(path)
                got = ada.typed()
                self.assertEqual({key: got.get(key) for key in fields}, fields)

    def test_the_name_of_an_object_is_beside_its_number(self):
        ada = self.somebody("ada")
        self.has(ada.get("/do/move?object=%238"), "Lamp #8", "The First Room #2")
        for typed, is_named in (("#7", True), (" #7 ", True), ("nowhere", False), ("#99", False), ("Generic Room", False)):
            with self.subTest(typed=typed):
                page = ada.send("Preview", place=typed)
                self.assertEqual('<span class="named" id="f-place-named">Generic Room #7</span>' in page.html, is_named)

    def test_a_change_from_its_preview_to_its_end(self):
        ada = self.somebody("ada")
        ada.get("/do/rename?object=%238")
        page = ada.send("Preview", name='Oil "lamp"')
        self.has(page, "This would be done", "Lamp #8 is called “Oil \"lamp\"”.", 'name now: "Lamp"', "as ada", status=200)
        page = ada.send("Do it")
        self.is_done(page)
        self.has(page, 'set(Oil "lamp" #8 , "name", "Oil \\"lamp\\"")')
        self.assertEqual(ada.get("/o/8").status, 200)
        self.has(ada.page, 'Oil "lamp"')
        ada.get("/do/rename?object=%238")
        self.has(ada.send("Preview", name=""), 'Oil "lamp" #8 has no name any more.', status=200)

    def test_each_kind_of_change(self):
        wizard = self.somebody("wizard")
        for form, typed, call, answer in (
            ("set", {"object": "#8", "name": "weight", "value": "5", "value__kind": "number"}, 'get(#8, "weight")', "5"),
            ("set", {"object": "#8", "name": "weight", "value": "lamp", "value__kind": "object"}, 'get(#8, "weight")', "#8"),
            ("set", {"object": "#8", "name": "weight", "value": '{1,"a"}', "value__kind": "written"}, 'get(#8, "weight")', '{1, "a"}'),
            ("clear", {"object": "#8", "name": "weight"}, 'get(#8, "weight")', "1"),
            ("move", {"object": "#8", "place": "nowhere"}, 'get(#8, "location")', "#-1"),
            ("parent", {"object": "#8", "parent": "#1"}, "parent(#8)", "#1"),
            ("owner", {"object": "#8", "owner": "bram"}, 'get(#8, "owner")', "#5"),
            ("marks", {"object": "#8", "f": "on"}, 'get(#8, "f")', "1"),
            ("accept", {"object": "#8", "accepts": "#1, Generic Thing"}, "accept_list(#8)", "{#1, #6}"),
            ("accept", {"object": "#8", "how": "inherited"}, "accept_list(#8)", "0"),
            ("powers", {"object": "#5", "wizard": "on"}, 'get(#5, "wizard")', "1"),
            ("powers", {"object": "#5", "player": None}, "is_player(#5)", "0"),
            ("add-property", {"object": "#8", "name": "size", "value": "big"}, 'property_info(#8, "size")', '{#3, "rc"}'),
            (
                "property-rights", {"object": "#8", "name": "size", "renamed": "width", "owner": "ada"}, 'property_info(#8, "width")',
                '{#4, "rc"}'
            ),
            ("delete-property", {"object": "#8", "name": "width"}, "properties(#8)", "{}"),
            ("add-verb", {"object": "#8", "names": "get take", "dobj": "this"}, "verb_info(#8, 2)", '{#3, "rx", "get take"}'),
            ("verb-rights", {"object": "#8", "verb": "2", "names": "hold", "owner": "#3"}, "verbs(#8)", '{"light", "hold"}'),
            ("verb-args", {"object": "#8", "verb": "hold", "prep": "in front of"}, "verb_args(#8, 2)", '{"this", "in front of", "none"}'),
            ("delete-verb", {"object": "#8", "verb": "1"}, "verbs(#8)", '{"hold"}'),
            ("recycle", {"object": "#8"}, "valid(#8)", "0"),
        ):
            with self.subTest(form=form, typed=typed):
                about = {key: typed[key] for key in ("object", "name", "verb") if key in typed and form not in ("add-property",)}
                self.change(wizard, form, "?" + urllib.parse.urlencode(about), **typed)
                self.assertEqual(self.answered(call), answer)

    def test_a_room_a_class_and_ten_things_of_it(self):
        ada = self.somebody("ada")
        page = self.change(ada, "create", "?parent=Generic+Room", names="The Attic", accepts="#1")
        self.has(page, "Made: The Attic #9")
        page = self.change(ada, "create", "?parent=%231", parent="Generic Thing", names="Generic Key", fertile="on", listed="on")
        self.has(page, "Made: Generic Key #10")
        ada.get("/do/create?parent=Generic+Key")
        names = "\r\n".join(f"Key {number}" for number in range(1, 11))
        page = ada.send("Preview", names=names, place="the attic")
        self.has(page, "This would be done", "The new object #20 is called “Key 10”.", status=200)
        self.assertNotIn('class="gone"', page.html)
        page = ada.send("Do it")
        self.has(page, "Key 1 #11", "Key 10 #20")
        self.has(ada.get("/o/9"), "Key 1 #11", "Key 10 #20")

    def test_several_objects_at_once(self):
        wizard = self.somebody("wizard")
        self.change(wizard, "create", "?parent=%236", names="One\nTwo\nThree", place="#2")
        wizard.get("/do/many?in=2")
        self.assertIn("Bram #5", wizard.page.text)
        self.assertEqual(len([name for name in wizard.page.form_with("Preview")[0].ticks if name.startswith("objects.")]), 7)
        page = wizard.send("Preview", objects__9="on", objects__10="on", what="move", place="#7")
        self.has(page, "One #9 goes into Generic Room #7", status=200)
        self.assertEqual(wizard.send("Do it").status, 200)
        wizard.get("/do/many?under=6")
        page = wizard.send("Preview", objects__9="on", objects__10="on", objects="#11", what="owner", owner="Ada")
        self.has(page, "One #9 is given to Ada #4", "Three #11 is given to Ada #4")
        self.is_done(wizard.send("Do it"))
        ada = self.somebody("ada")
        ada.get("/do/many?mine=1")
        page = ada.send("Preview", objects__9="on", objects__10="on", objects__11="on", what="recycle")
        self.has(page, "One #9 is recycled: it is gone for good")
        self.is_done(ada.send("Do it"))
        self.assertEqual([ada.get(f"/o/{number}").status for number in (9, 10, 11)], [404] * 3)


class Mistakes(FormsTest):
    def test_a_letter_that_no_world_holds_is_mended(self):
        ada = self.somebody("ada")
        ada.get("/do/rename?object=%238")
        page = ada.send("Preview", name="Café")
        self.has(page, "“é”, letter 4 of “Café”, can’t be kept", status=422)
        self.assertIn("#f-name", page.links)
        self.assertIn("f-name", page.ids)
        self.assertRegex(page.html, r'<input id="f-name"[^>]*autofocus[^>]*aria-describedby="f-name-wrong" aria-invalid="true"')
        page = ada.send("Use “Cafe”")
        self.has(page, "Lamp #8 is called “Cafe”.", status=200)

    def test_what_was_typed_stays_and_what_is_lost_is_said(self):
        """Letters of other alphabets become question marks, and lines can be kept: nothing is dropped unseen."""
        ada = self.somebody("ada")
        ada.get("/do/set?object=%238&name=weight")
        typed = "Café “日本”.\r\n\r\nIt is closed."
        page = ada.send("Preview", value=typed, value__kind="text")
        self.has(
            page, "“é”, letter 4, can’t be kept", "“Cafe \"??\". It is closed.” can. Its lines are joined by blanks there.",
            "No plain letter is like “日”, “本”: “?” is in the place of each.", status=422,
        )  # fmt: skip
        self.assertEqual(ada.typed()["value"].replace("\r\n", "\n"), typed.replace("\r\n", "\n"))
        page = ada.send("Keep the lines, as a list of texts")
        self.has(page, 'set(Lamp #8 , "weight", {"Cafe \\"??\\".", "", "It is closed."})', status=200)
        self.is_done(ada.send("Do it"))

    def test_a_name_of_several_is_chosen(self):
        ada = self.somebody("ada")
        self.change(ada, "create", "?parent=%236", names="Lamp")
        ada.get("/do/rename")
        page = ada.send("Preview", object="lamp", name="Other")
        self.has(page, "2 objects are named “lamp”", "Lamp #8, in The First Room #2", "Lamp #9, nowhere", status=422)
        page = ada.send("Preview", object__choice="#9")
        self.has(page, "Lamp #9 is called “Other”.", status=200)

    def test_a_refusal_is_told_beside_its_field_and_mended(self):
        bram = self.somebody("bram")
        for path, typed, words, field, error in (
            ("/do/rename?object=%238", {"name": "Mine"}, "You may not write this.", "object", "E_PERM"),
            ("/do/set?object=%238", {"name": "wieght", "value": "1"}, "The object has no property of that name.", "name", "E_PROPNF"),
            ("/do/create?parent=%232", {"names": "x"}, "The parent isn’t fertile and isn’t yours", "parent", "E_PERM"),
            ("/do/create?parent=%236", {"names": "x", "place": "#8"}, "The place doesn’t accept it.", "place", "E_NACC"),
            ("/do/delete-verb?object=%238", {"verb": "7"}, "You have no right", "verb", "E_PERM"),
        ):
            with self.subTest(path=path):
                bram.get(path)
                page = bram.send("Preview", **typed)
                self.has(page, "This would be refused.", words, error, status=409)
                self.assertIn(f"#f-{field}", page.links)
                self.assertIn(f"f-{field}", page.ids)
                self.assertRegex(page.html, rf'<abbr class="n" title="[A-Z][a-z ]+">{error}</abbr>')
                got = bram.typed()
                self.assertEqual({name: got[name] for name in typed}, typed)
        bram.get("/do/create?parent=%236")
        bram.send("Preview", names="x", place="#8")
        page = bram.send("Preview", place="#2")
        self.has(page, "This would be done", status=200)

    def test_a_property_that_isnt_there_can_be_added(self):
        ada = self.somebody("ada")
        ada.get("/o/8")
        self.assertIn("/do/add-property?object=%238&name=description", ada.page.links, "it has no description, and none to inherit")
        self.write("wizard", 'add_property(#7, "description", "", {#3, "rc"})')
        self.assertIn("/do/set?object=%237&name=description", ada.get("/o/7").links)
        ada.get("/do/set?object=%238&name=colour")
        self.has(ada.send("Preview", value="a pale green"), "The object has no property of that name.", status=409)
        (way,) = [link for link in ada.page.links if link.startswith("/do/add-property")]
        ada.get(way)
        self.assertEqual({key: ada.typed()[key] for key in ("name", "value", "value.kind")}, {"name": "colour", "value": "a pale green", "value.kind": "text"})
        self.has(ada.send("Preview"), "This would be done", status=200)
        self.is_done(ada.send("Do it"))
        self.assertEqual(self.answered('get(#8, "colour")'), '"a pale green"')

    def test_markup_that_is_typed_stays_text(self):
        ada = self.somebody("ada")
        ada.get("/do/rename?object=%238")
        page = ada.send("Preview", name='<b onclick="x">&amp;</b>')
        self.assertNotIn("<b onclick", page.html)
        self.is_done(ada.send("Do it"))
        self.assertNotIn("<b onclick", ada.page.html + ada.get("/do/rename?object=%238").html)


class Editor(FormsTest):
    def test_names_are_taken_where_numbers_are(self):
        self.write("wizard", 'set(#2, "name", "The Inn")', "create(#7)", 'set(#9, "name", "Attic (old)")')
        ada = self.somebody("ada")
        ada.get("/batch")
        page = ada.send("Preview", text='$inn = the inn\n$new = create(Generic Thing)\nset($new, "name", "move(The Inn)") // für Bram\n'
                                        "move($new, $inn)\nmove(Lamp #8, nowhere)\nvalid(Attic (old))")  # fmt: skip
        for call in ("create(Generic Thing #6 )", 'set(#10, "name", "move(The Inn)")', "move(#10, The Inn #2 )", "valid(Attic (old) #9 )"):
            self.has(page, call, status=200)
        self.is_done(ada.send("Do it"))
        self.assertEqual([self.answered(f'get(#{number}, "location")') for number in (8, 10)], ["#-1", "#2"])

    def test_all_calls_are_listed(self):
        page = self.somebody("ada").get("/batch")
        listed = re.findall(r"<li><code>(\w+)\(", page.html)
        self.assertEqual(set(listed), NAMES)

    def test_a_wrong_name_says_where(self):
        ada = self.somebody("ada")
        for text, words in (
            ("max_object()\n  move(Lmp, #2)", "Line 2: Letter 8: No object is named “Lmp”."),
            ("$x = {1, The Attic}", "Line 1: Letter 10: No object is named “The Attic”."),
            ('set(#8, name, "Inn")', "Line 1: Letter 9: No object is named “name”."),
            ("move(Ada #5, #2)", "Line 1: Letter 6: #5 isn’t named “Ada”."),
            ("sing", "Line 1: A call has its name and its values in brackets, as create(#1)."),
        ):
            with self.subTest(text):
                ada.get("/batch")
                self.has(ada.send("Preview", text=text), words, status=422)

    def test_one_of_several_is_chosen(self):
        self.write("ada", "create(#6)", 'set(#9, "name", "Lamp")')
        ada = self.somebody("ada")
        ada.get("/batch")
        page = ada.send("Preview", text='max_object()\nset(Lamp, "name", "Oil lamp") // the second')
        self.has(page, "Line 2: Letter 5: 2 objects are named “Lamp”.", status=422)
        whole = 'max_object()\nset(#9, "name", "Oil lamp") // the second'
        self.has(ada.send("Preview", **{"text.choice": whole}), "Lamp #9 is called “Oil lamp”.", status=200)
        self.assertEqual(ada.typed()["text"].replace("\r", ""), whole)

    def test_plain_letters_of_one_line(self):
        ada = self.somebody("ada")
        ada.get("/batch")
        page = ada.send("Preview", text='$a = create(#6) // für mich\nset($a, "name", "Café")\nset($a, "weight", 2)')
        self.has(page, "Line 2: “é”", status=422)
        ada.send("Use the plain letters")
        self.assertEqual(ada.typed()["text"].splitlines()[:2], ["$a = create(#6) // für mich", 'set($a, "name", "Cafe")'])


class Together(FormsTest):
    def test_two_people_change_one_object_at_once(self):
        ada, wizard = self.somebody("ada"), self.somebody("wizard")
        ada.get("/do/rename?object=%238")
        ada.send("Preview", name="Ada’s lamp".replace("’", "'"))
        self.change(wizard, "rename", "?object=%238", name="Lantern")
        page = ada.send("Do it")
        self.has(page, "Others have changed the world since you looked", 'name now: "Lantern"', status=409)
        self.is_done(ada.send("Do it"))
        self.has(ada.get("/o/8"), "Ada's lamp")

    def test_what_others_did_elsewhere_is_in_nobodys_way(self):
        ada, wizard = self.somebody("ada"), self.somebody("wizard")
        ada.get("/do/rename?object=%238")
        ada.send("Preview", name="Oil lamp")
        self.change(wizard, "rename", "?object=%236", name="Thing")
        self.is_done(ada.send("Do it"))

    def test_a_button_that_is_pressed_twice_acts_once(self):
        ada = self.somebody("ada")
        ada.get("/do/create?parent=%236")
        preview = ada.send("Preview", names="Key")
        first = ada.send("Do it")
        ada.page = preview
        second = ada.send("Do it")
        self.assertEqual((first.path, second.path), ("/done/2", "/done/2?said=again"))
        self.has(second, "This was done already")
        self.assertEqual(ada.get("/o/10").status, 404)

    def test_a_batch_of_somebody_else_isnt_shown(self):
        self.change(self.somebody("ada"), "rename", "?object=%238", name="Oil lamp")
        bram, wizard = self.somebody("bram"), self.somebody("wizard")
        self.assertEqual([bram.get("/done/2").status, wizard.get("/done/2").status, wizard.get("/done/99").status], [404, 200, 404])


class Kept(FormsTest):
    """Nothing that was typed is lost."""

    def test_over_an_expired_session(self):
        ada = self.somebody("ada")
        ada.get("/do/rename?object=%238")
        self.people.set_password("ada", "another password")
        page = ada.send("Preview", name="Oil lamp")
        self.has(page, "What you typed is kept", status=401)
        page = ada.send("Sign in", name="ada", password="wrong")
        self.has(page, "don’t go together", "What you typed is kept", status=403)
        page = ada.send("Sign in", name="ada", password="another password")
        self.has(page, "You are signed in again. Nothing of this was sent", status=200)
        self.assertEqual(ada.typed()["name"], "Oil lamp")
        self.has(ada.send("Preview"), "Lamp #8 is called “Oil lamp”.")
        self.is_done(ada.send("Do it"))

    def test_over_a_session_that_is_another_one(self):
        ada = self.somebody("ada")
        form = ada.get("/batch")
        ada.get("/in")
        ada.send("Sign in", name="ada", password=PASSWORD)
        ada.page = form
        page = ada.send("Preview", text="max_object()")
        self.has(page, "You are signed in again", status=200)
        self.assertEqual(ada.typed()["text"], "max_object()")

    def test_of_another_site_nothing_is_kept_or_done(self):
        ada = self.somebody("ada")
        ada.get("/do/rename?object=%238")
        fields = {**ada.typed(), "go": "apply", "name": "Stolen"}
        for head in ({"Sec-Fetch-Site": "cross-site"}, {"Sec-Fetch-Site": "", "Origin": "http://elsewhere.example"}):
            page = ada.post("/do/rename", fields, **head)
            self.has(page, "Not from here", status=403)
            self.assertNotIn("Stolen", page.html)


if __name__ == "__main__":
    unittest.main()
