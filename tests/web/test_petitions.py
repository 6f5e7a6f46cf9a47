"""Petitions, quotas and the editor of batches, as pages (`inbox` and `editor` in web/moo_web/forms/)."""

import re
import time
import unittest

from tests.support.forms import FormsTest
from tests.support.operating import SECONDS
from tests.support.web import use_web

use_web()

from moo_web.world.door import batch_body  # noqa: E402


class Petitions(FormsTest):
    def test_a_resident_asks_and_a_wizard_grants_one_and_declines_one(self):
        bram, wizard = self.somebody("bram"), self.somebody("wizard")
        for name in ("Bram's lamp", "No lamp"):
            bram.get("/do/rename?object=%238")
            self.has(bram.send("Preview", name=name), "This would be refused", status=409)
            self.has(bram.send("Ask for it instead"), "This would be asked for", status=200)
            page = bram.send("Send the petition")
            self.has(page, "It is asked for", status=200)
        page = bram.get("/petitions")
        self.has(page, "petition 1", "petition 2", "Take it back")
        self.assertNotIn("Grant", page.text)
        page = wizard.get("/petitions")
        self.has(
            page, "Bram #5 asks for 1 change petition 1", "Lamp #8 is called “Bram's lamp”.", 'name now: "Lamp"', "It can be granted whole."
        )
        page = wizard.send("Grant petition 1")
        self.has(page, "The petition is granted", status=200)
        self.assertNotIn("petition 1", page.text)
        page = wizard.send("Decline petition 2")
        self.has(page, "The petition is gone", "There are none")
        self.has(wizard.get("/o/8"), "Bram's lamp")
        page = bram.get("/petitions")
        self.has(page, "There are none", "Granted petition 1, by wizard", "Declined petition 2, by wizard", "is called “No lamp”.")
        self.assertNotIn("petition", re.sub("Petitions?", "", self.somebody("ada").get("/petitions").text))

    def test_what_granting_would_do_by_now_is_shown_again(self):
        bram, wizard, ada = self.somebody("bram"), self.somebody("wizard"), self.somebody("ada")
        bram.get("/do/rename?object=%238")
        bram.send("Ask for it", name="Bram's lamp")
        bram.send("Send the petition")
        wizard.get("/petitions")
        self.change(ada, "rename", "?object=%238", name="Mine for good")
        page = wizard.send("Grant petition 1")
        self.has(page, "Others have changed the world", 'name now: "Mine for good"', status=409)
        page = wizard.send("Do it")
        self.has(page, "The petition is granted")

    def test_a_petition_that_cant_be_granted_and_rights_that_are_asked_for(self):
        bram, wizard = self.somebody("bram"), self.somebody("wizard")
        bram.get("/batch")
        self.has(bram.send("Ask for it", text="recycle(#8)\nchparent(#6, #8)"), "This would be asked for")
        bram.send("Send the petition")
        bram.get("/batch")
        bram.send("Ask for it", text='set(#5, "wizard", 1)')
        bram.send("Send the petition")
        page = wizard.get("/petitions")
        self.has(
            page, "It can’t be granted as it is: chparent(Generic Thing #6 , Lamp #8 ) of petition 1",
            "Bram #5 becomes a wizard, who has every right."
        )  # fmt: skip
        self.assertEqual(page.text.count("take care"), 3)
        self.assertEqual(
            [button[2].split()[0] for form in page.forms for button in form.buttons if button[0] == "go"], ["Decline", "Grant", "Decline"]
        )

    def test_what_gives_rights_away_is_marked(self):
        bram, wizard = self.somebody("bram"), self.somebody("wizard")
        bram.get("/batch")
        calls = (
            'set(#6, "W", 1)', 'set(#6, "f", 0)', 'set_property_info(#8, "weight", {#5, "rw"})',
            'set_verb_info(#8, 1, {#5, "rw", "light"})', 'delete_verb(#8, 1)',
        )  # fmt: skip
        harmless = ('set(#8, "weight", 2)', 'set(#8, "name", "Lamp, take two")', "move(#8, #7)")
        self.has(bram.send("Ask for it", text="\n".join(calls + harmless)), "This would be asked for")
        bram.send("Send the petition")
        self.assertEqual(wizard.get("/petitions").text.count("take care"), len(calls))

    def test_a_wizard_sees_the_calls_whole(self):
        """However long they are: the last words of a call may be those that give rights away."""
        bram, wizard = self.somebody("bram"), self.somebody("wizard")
        call = f'add_property(#8, "diary", "{"so long " * 5000}", {{#5, "rw"}})'
        bram.get("/batch")
        bram.send("Ask for it", text=call)
        bram.send("Send the petition")
        whole = re.compile(r'Lamp #8 ?, "diary", "(so long ){5000}", {Bram #5 ?, "rw"}')
        for reader, path in ((wizard, "/petitions"), (bram, "/petitions"), (bram, "/history/2")):
            with self.subTest(path=path):
                self.assertTrue(whole.search(reader.get(path).text))

    def test_one_takes_ones_own_back(self):
        bram = self.somebody("bram")
        bram.get("/do/create?parent=%236")
        page = bram.send("Ask for it", names="Key")
        self.has(page, "This would be asked for", "These can’t be asked for", "(the new object)")
        bram.send("Send the petition")
        page = bram.get("/petitions")
        self.has(page, "for Bram #5")
        self.has(bram.send("Take it back petition 1"), "There are none")

    def test_many_petitions_come_in_parts(self):
        bram, wizard = self.somebody("bram"), self.somebody("wizard")
        bram.get("/batch")
        bram.send("Preview", text="\n".join(f'petition({{{{"set", #5, "name", "Name {number}"}}}})' for number in range(12)))
        self.is_done(bram.send("Do it"))
        page = wizard.get("/petitions")
        self.has(page, "petition 10", "2 more")
        self.assertNotIn("petition 11", page.text)
        page = wizard.get(next(link for link in page.links if "after=" in link))
        self.has(page, "petition 11", "petition 12")


class SomebodyNew(FormsTest):
    def made(self):
        """The number of the object that a wizard makes for somebody new, with a quota of two."""
        wizard = self.somebody("wizard")
        self.change(wizard, "player", name="Dora", quota="2")
        return int(self.answered("max_object()")[1:])

    def refused(self, number, call):
        """The error for a call of the new person's."""
        return self.door.asked("POST", "/ask", batch_body(number, [call]), time.monotonic() + SECONDS).error

    def test_the_quota_cant_be_shed(self):
        number = self.made()
        self.assertEqual(self.answered(f'get(#{number}, "ownership_quota")'), "2")
        self.assertEqual(self.answered(f"is_player(#{number})"), "1")
        for call in (
            f"chparent(#{number}, #1)", f"chparent(#{number}, #-1)", f'delete_property(#{number}, "ownership_quota")',
            f'set(#{number}, "ownership_quota", 9)', f'clear_property(#{number}, "ownership_quota")',
            f'set_property_info(#{number}, "ownership_quota", {{#{number}, "rw"}})', f'set(#{number}, "owner", #{number})',
            f"recycle(#{number})", f'set(#{number}, "w", 1)', f'add_property(#{number}, "ownership_quota", 9, {{#{number}, ""}})',
        ):  # fmt: skip
            with self.subTest(call):
                self.assertIn(self.refused(number, call), ("E_PERM", "E_INVARG"))
        for _ in range(2):
            self.assertEqual(self.writer.write("dora", number, ["create(#6)"]).status, 200)
        self.assertEqual(self.refused(number, "create(#6)"), "E_QUOTA")

    def test_a_parent_that_has_the_quota(self):
        wizard = self.somebody("wizard")
        self.assertEqual(self.writer.write("wizard", 3, ['add_property(#1, "ownership_quota", "", {#3, "r"})']).status, 200)
        wizard.get("/do/player")
        self.has(wizard.send("Preview", name="Dora"), "This would be refused", status=409)
        self.has(wizard.send("Preview", how="set"), "This would be done", status=200)


class Quotas(FormsTest):
    def test_a_quota_is_set_shown_and_used_up(self):
        ada, wizard = self.somebody("ada"), self.somebody("wizard")
        self.has(wizard.get("/quotas"), "Ada #4", "as many as they like")
        self.change(wizard, "quota", "?object=%234", quota="1")
        self.has(wizard.get("/quotas"), "1 more")
        self.has(ada.get("/do/create?parent=%236"), "You may make 1 more object.")
        page = ada.send("Preview", names="One\nTwo")
        self.has(page, "The quota is used up", "E_QUOTA", "Ask for a higher quota", status=409)
        ada.get(next(link for link in page.links if link.startswith("/do/quota")))
        self.has(ada.send("Ask for it", quota="20"), "Ada #4 may make 20 more objects: the property “ownership_quota” says so.", status=200)
        ada.get("/do/create?parent=%236")
        page = ada.send("Preview", names="One")
        self.is_done(ada.send("Do it"))
        self.has(ada.get("/do/create?parent=%236"), "You may make no more objects: your quota is used up. Ask for a higher one")
        self.change(wizard, "quota", "?object=%234", quota="20")
        self.has(ada.get("/do/create"), "You may make 20 more objects.")
        self.assertEqual(ada.get("/quotas").status, 403)


class Batches(FormsTest):
    def test_a_batch_with_names_and_remarks(self):
        ada = self.somebody("ada")
        ada.get("/batch")
        page = ada.send(
            "Preview",
            text='batch as #4\n$key = create(#6) // a key\n\n$name = "Small key"\nset($key, "name", $name)\nmove($key, #2)\nend\n',
        )
        self.has(page, "This would be done", 'set(#9, "name", "Small key")', status=200)
        page = ada.send("Do it")
        self.has(page, "Made: Small key #9")

    def test_the_reason_is_under_the_line_that_is_wrong(self):
        ada = self.somebody("ada")
        for text, line, words, status in (
            ('max_object()\n\nset(#6, "name", "x")', 3, "You may not write this. #4 neither owns #6 nor is a wizard E_PERM", 409),
            ("max_object()\ncreat(#6)", 2, "'creat' names no call (did you mean create?)", 409),
            ('set(#8, "name", "Café")', 1, "“é”, letter 21 of", 422),
            ("max_object()\nset(#8, \"name", 2, "A text without its closing", 422),
            ("recycle($nothing)", 1, "$nothing has no value", 422),
            ("batch as #3\nmax_object()", 1, "always your own, as #4", 422),
            ("\\seq", 1, "a word of moo-shell", 422),
            ("", 1, "No call is written here yet.", 422),
            ("\n".join(["max_object()"] * 1001), 1001, "at most 1,000 calls", 422),
        ):
            with self.subTest(text=text[:60]):
                ada.get("/batch")
                page = ada.send("Preview", text=text)
                self.assertEqual(page.status, status, page.text[:300])
                found = re.search(r'<li class="refused" id="line" tabindex="-1">.*?</li>', page.html, re.DOTALL)
                self.assertTrue(found, page.text[:600])
                told = " ".join(re.sub(r"<[^>]+>", "", found[0]).replace("&#39;", "'").replace("&#34;", '"').split())
                self.assertIn(words, told)
                number = len(re.findall(r"<li", page.html[page.html.index('<ol class="listing"') : found.start()]))
                start = int(re.search(r'<ol class="listing"[^>]*start="(\d+)"', page.html)[1])
                self.assertEqual(start + number, line)
                self.assertEqual(ada.typed()["text"].replace("\r\n", "\n").rstrip("\n"), text.rstrip("\n"))

    def test_a_plain_letter_in_the_place_of_another(self):
        ada = self.somebody("ada")
        ada.get("/batch")
        ada.send("Preview", text='set(#8, "name", "Café")\nset(#8, "name", “x”)')
        page = ada.send("Use the plain letters")
        self.has(page, "is called “Cafe”", status=200)


if __name__ == "__main__":
    unittest.main()
