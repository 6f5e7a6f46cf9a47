"""People in the browser: a wizard adds, disables, renumbers and removes them; a link sets a password; everybody sees and ends their own."""

import re
import unittest
import urllib.parse
from unittest import mock

from tests.support.audits import audited
from tests.support.forms import Checked, FormsTest
from tests.support.reader import in_process
from tests.support.web import PASSWORD, use_web, whose_token
from tests.support.with_front import WithFront

use_web()

from moo_web.people.links import LINK_SECONDS  # noqa: E402
from moo_web.people.person import Person  # noqa: E402
from moo_web.people.tokens import Terms  # noqa: E402

LINK = re.compile(r'value="(http://localhost/link\?key=[\w-]+)"')
NEW = "a new password"


class PeopleTest(FormsTest):
    """A wizard, and people who are let in."""

    def nobody(self):
        """Somebody who isn't signed in."""
        return Checked(self, in_process(self.app))

    def link_on(self, page):
        """The link that a page shows, without the name of the host."""
        found = LINK.search(page.html)
        self.assertTrue(found, page.text[:900])
        return found[1].removeprefix("http://localhost")

    def setUp(self):
        super().setUp()
        self.audited = audited(self.people)

    def logged(self):
        """What the log has of people, but for who came in and who left."""
        return [line for line in self.audited if not line.startswith(("signed in: ", "signed out: "))]

    def deed(self, wizard, name, key, **typed):
        """Does something to a person, by its page."""
        page = wizard.get(f"/people/{name}/{key}")
        if typed:
            page = wizard.send("Preview", **typed)
        self.has(page, "This would be done", status=200)
        return wizard.send("Do it")


class SomebodyNew(PeopleTest):
    def test_two_pages_and_no_shell(self):
        """The page with the form, and the one with the link. The new person loads two: that to choose a password, and the world."""
        wizard = self.somebody("wizard")
        loaded = [wizard.get("/people"), wizard.send("Add", account="dora", quota="2")]
        self.assertEqual(len(loaded), 2)
        page = loaded[-1]
        self.has(page, "Give dora this link", "2 more objects", status=200)
        number = int(self.answered("max_object()")[1:])
        self.assertEqual(self.people.one("dora").number, number)
        self.assertEqual(
            [self.answered(call.format(number)) for call in (
                'get(#{}, "name")', "is_player(#{})", 'get(#{}, "ownership_quota")', 'get(#{}, "owner")', 'property_info(#{}, "ownership_quota")'
            )], ['"dora"', "1", "2", "#3", '{#3, "r"}'],
        )  # fmt: skip
        dora = self.nobody()
        self.has(dora.get(self.link_on(page)), "Choose a password", "You are dora here", status=200)
        self.has(dora.send("Keep it, and come in", new=NEW, again=NEW), f"Signed in as dora, dora #{number}", status=200)
        self.assertEqual(self.people.sign_in("dora", NEW, "192.0.2.9").session.person, Person("dora", number))
        self.assertEqual(self.logged(), [
            f'account made: name="dora" number={number} by="wizard"', 'link made: name="dora" by="wizard"', 'link used: name="dora"',
        ])  # fmt: skip
        # By the link, and then with the password.
        self.assertEqual(sum(line.startswith("signed in: ") and 'name="dora"' in line for line in self.audited), 2)

    def test_a_preview_changes_nothing_and_may_be_done(self):
        wizard = self.somebody("wizard")
        wizard.get("/people")
        page = wizard.send("Preview", account="dora", name="Dora the Bold")
        self.has(page, "This would be done", "Dora the Bold", status=200)
        self.assertEqual((self.people.one("dora"), self.answered("max_object()")), (None, "#8"))
        preview = wizard.page
        self.has(wizard.send("Do it"), "Give dora this link", status=200)
        self.assertEqual(self.answered('get(#9, "name")'), '"Dora the Bold"')
        wizard.page = preview
        self.has(wizard.send("Do it"), "This was done already", status=200)
        self.assertEqual(self.answered("max_object()"), "#9")

    def test_somebody_new_begins_where_the_wizard_is_or_elsewhere(self):
        self.write("wizard", "move(#3, #7)")
        wizard = self.somebody("wizard")
        for account, place, where in (("dora", None, "#7"), ("emil", "The First Room", "#2"), ("fay", "", "#-1")):
            wizard.get("/people")
            self.assertEqual(wizard.typed("Add")["place"], "#7")
            wizard.send("Add", account=account, **({} if place is None else {"place": place}))
            self.assertEqual(self.answered(f'get(#{self.people.one(account).number}, "location")'), where, wizard.page.text[:500])

    def test_an_added_one_isnt_added_again(self):
        """As a page that is loaded again, or a button that is pressed twice."""
        wizard = self.somebody("wizard")
        wizard.get("/people")
        form = wizard.page
        wizard.send("Add", account=" dora ")
        wizard.page = form
        self.has(wizard.send("Add", account="Dora"), "There is somebody of the name Dora already.", status=422)
        self.assertEqual(self.answered("max_object()"), "#9")

    def test_a_name_that_was_taken_since_the_preview(self):
        """Nothing is made."""
        wizard = self.somebody("wizard")
        wizard.get("/people")
        wizard.send("Preview", account="dora")
        self.people.add("dora", 5, PASSWORD)
        self.has(wizard.send("Do it"), "There is somebody of the name dora already.", status=422)
        self.assertEqual((self.answered("max_object()"), self.people.one("dora").number), ("#8", 5))

    def test_a_front_that_is_stopped_before_it_makes_the_account(self):
        """The object is listed, and is given an account. It isn't made again."""
        wizard = self.somebody("wizard")
        wizard.get("/people")
        wizard.send("Preview", account="dora")
        preview = wizard.page
        with mock.patch.object(self.people, "add_by_link", side_effect=OSError):
            self.assertEqual(wizard.send("Do it").status, 500)
        self.has(wizard.get("/people"), "Players without an account dora #9")
        wizard.page = preview
        self.has(wizard.send("Do it"), "Give dora this link", "Acts as dora #9", status=200)
        self.assertEqual(self.answered("max_object()"), "#9")

    def test_what_cannot_be(self):
        wizard = self.somebody("wizard")
        for typed, told, status in (
            ({"account": ""}, "A name has 1 to 64 letters", 422), ({"account": "a b"}, "A name has 1 to 64 letters", 422),
            ({"account": "dora", "quota": "x"}, "Quota of a new object", 422), ({"account": "dora", "parent": "No such"}, "Parent of a new object", 422),
            ({"account": "dora", "parent": "nothing", "name": "日本"}, "Name of a new object", 422),
            ({"account": "dora", "what": "there"}, "Object that is there", 422), ({"account": "dora", "what": "there", "object": "Lamp"}, "isn’t a player", 422),
        ):  # fmt: skip
            wizard.get("/people")
            with self.subTest(typed=typed):
                page = wizard.send("Add", **typed)
                self.has(page, told, status=status)
                self.assertEqual(wizard.typed("Add")["account"], typed["account"], "what was typed is still there")
        self.assertEqual((self.people.one("dora"), self.answered("max_object()")), (None, "#8"))
        self.assertEqual(self.logged(), [])

    def test_an_object_that_is_there(self):
        """As after a world was brought from elsewhere, or a front was stopped before it made the account."""
        self.people.remove("bram")
        wizard = self.somebody("wizard")
        page = wizard.get("/people")
        self.has(page, "Players without an account Bram #5")
        wizard.get(next(link for link in page.links if "object=" in link))
        self.assertEqual(wizard.typed("Add")["object"], "#5")
        self.has(wizard.send("Preview", account="bram"), "bram would act as Bram #5. Press ‘Add’ to do it.", status=200)
        self.assertIsNone(self.people.one("bram"))
        self.has(wizard.send("Add", account="bram"), "Give bram this link", status=200)
        self.assertEqual(self.people.one("bram").number, 5)
        self.assertNotIn("without an account", wizard.get("/people").text)

    def test_a_parent_that_has_the_quota(self):
        self.write("wizard", 'add_property(#6, "ownership_quota", "", {#3, "r"})')
        wizard = self.somebody("wizard")
        wizard.get("/people")
        self.has(wizard.send("Add", account="dora", parent="#6", quota="7"), "7 more objects", status=200)
        self.assertEqual(self.answered('get(#9, "ownership_quota")'), "7")

    def test_a_session_that_has_ended_keeps_what_was_typed(self):
        wizard = self.somebody("wizard")
        wizard.get("/people")
        self.people.end_session("wizard", self.people.sessions_of("wizard")[0].mark)
        self.has(wizard.send("Add", account="dora"), "What you typed is kept", status=401)
        wizard.send("Sign in", name="wizard", password=PASSWORD)
        self.assertEqual(wizard.typed("Add")["account"], "dora")
        self.assertIsNone(self.people.one("dora"))


class ALink(PeopleTest):
    def setUp(self):
        super().setUp()
        self.wizard = self.somebody("wizard")
        self.wizard.get("/people/ada")
        self.link = self.link_on(self.wizard.send("A link for a password"))

    def test_it_works_once(self):
        ada, other = self.nobody(), self.nobody()
        for _ in range(3):
            self.has(ada.get(self.link), "You are ada here", status=200)
        other.get(self.link)
        for typed, told in (({"new": "short", "again": "short"}, "at least 8 letters"), ({"new": NEW, "again": "x" * 9}, "aren’t the same")):
            self.has(ada.send("Keep it, and come in", **typed), told, status=400)
        self.has(ada.send("Keep it, and come in", new=NEW, again=NEW), "Signed in as ada", status=200)
        self.has(other.send("Keep it, and come in", new="another one", again="another one"), "This link doesn’t work", status=404)
        self.has(other.get(self.link), "This link doesn’t work", status=404)
        self.assertTrue(self.people.sign_in("ada", NEW, "192.0.2.9"))
        self.assertEqual(self.logged(), ['link made: name="ada" by="wizard"', 'link used: name="ada"'])

    def test_it_ends_after_three_days(self):
        self.has(self.wizard.get("/people/ada"), "waits to be used until")
        self.assertIn("link waits", self.wizard.get("/people").text)
        self.now += LINK_SECONDS
        self.has(self.nobody().get(self.link), "its time is over", status=404)

    def test_another_page_cannot_use_it(self):
        key = urllib.parse.parse_qs(urllib.parse.urlsplit(self.link).query)["key"][0]
        fields = {"key": key, "new": NEW, "again": NEW}
        for lines in ({"Sec-Fetch-Site": "cross-site"}, {"Sec-Fetch-Site": "", "Origin": "https://evil.example"}):
            self.assertEqual(self.nobody().post("/link", fields, **lines).status, 403)
        self.assertEqual(self.people.links.whose(key), "ada")

    def test_it_has_the_address_by_which_the_browser_asked(self):
        form = self.wizard.typed("Sign out")["form"]
        for host, origin, wanted in (
            ("world.example.org", "https://world.example.org", "https://world.example.org/link?key="),
            ("world.example.org", "", "https://world.example.org/link?key="), ("127.0.0.1:8088", "", "http://127.0.0.1:8088/link?key="),
            ("[::1]:8088", "null", "http://[::1]:8088/link?key="), ("world.example.org", "https://evil.example", "https://world.example.org/link?key="),
        ):  # fmt: skip
            with self.subTest(host=host, origin=origin):
                page = self.wizard.post("/people/ada/link", {"form": form}, Host=host, Origin=origin)
                self.assertIn(f'value="{wanted}', page.html)

    def test_no_secret_is_told(self):
        self.nobody().get(self.link)
        self.assertNotIn(self.link.partition("=")[2], "\n".join([*self.told, *self.audited]))
        self.assertNotIn(self.link.partition("=")[2], self.wizard.get("/people/ada").html)


class WhatIsDone(PeopleTest):
    def test_somebody_is_kept_out_and_let_in_again(self):
        wizard, ada = self.somebody("wizard"), self.somebody("ada")
        token = self.people.tokens.make("ada", Terms("the bot"))
        self.has(wizard.get("/people/ada/disable"), "1 session ends.", "1 token ends: “the bot”.")
        self.assertTrue(whose_token(self.people, token), "the page alone does nothing")
        self.has(wizard.send("Do it"), "can’t come in any more", "disabled", status=200)
        self.assertEqual((ada.get("/").status, whose_token(self.people, token), self.people.may_come_in("ada")), (401, None, False))
        self.has(wizard.send("Let in again"), "may come in again", status=200)
        self.assertEqual(self.people.sign_in("ada", PASSWORD, "192.0.2.9").session.person, Person("ada", 4))
        self.assertEqual(self.logged()[1:], ['account disabled: name="ada" by="wizard"', 'account enabled: name="ada" by="wizard"'])

    def test_somebody_is_removed(self):
        wizard = self.somebody("wizard")
        page = wizard.get("/people/ada/remove")
        self.has(page, "The object Ada #4 stays, with 2 objects that it owns.", "The history keeps what ada did")
        self.has(wizard.send("Do it"), "The account is gone.", status=200)
        self.assertIsNone(self.people.one("ada"))
        self.assertEqual(wizard.get("/people/ada").status, 404)
        self.assertEqual(self.logged(), ['account removed: name="ada" number=4 by="wizard"'])

    def test_somebody_gets_another_object(self):
        wizard = self.somebody("wizard")
        for number, told in (("#6", "isn’t a player"), ("#99", "There is no object #99"), ("Adda", "No object is named"), ("#4", "as which they act now")):
            wizard.get("/people/ada/renumber")
            self.has(wizard.send("Preview", number=number), told, status=422)
        wizard.get("/people/ada/renumber")
        self.has(wizard.send("Preview", number="#3"), "Take care", "who may do everything")
        self.has(wizard.send("Preview", number="Bram"), "ada acts as Bram #5 from now on, and no longer as Ada #4", status=200)
        self.has(wizard.send("Do it"), "acts as another object now", "Acts as Bram #5", status=200)
        self.assertEqual(self.people.one("ada").number, 5)
        self.write("wizard", 'set(#5, "name", "Ada")')
        wizard.get("/people/ada/renumber")
        page = wizard.send("Preview", number="Ada")
        self.has(page, "2 objects are named “Ada”. Choose one:", status=422)
        self.assertIn("/people/ada/renumber?number=%234", page.links)
        self.assertEqual(self.logged(), ['account renumbered: name="ada" number=5 before=4 by="wizard"'])

    def test_what_has_changed_since_is_shown_first(self):
        wizard = self.somebody("wizard")
        wizard.get("/people/ada/remove")
        token = self.people.tokens.make("ada", Terms("made meanwhile"))
        self.has(wizard.send("Do it"), "has changed since you looked", "made meanwhile", status=409)
        self.assertTrue(whose_token(self.people, token))
        self.has(wizard.send("Do it"), "The account is gone.")
        self.assertEqual(wizard.post("/people/ada/remove", {"form": wizard.typed("Sign out")["form"]}).status, 404)

    def test_ones_own_account_is_an_operators(self):
        """So that no wizard keeps themselves out."""
        wizard = self.somebody("wizard")
        for key in ("disable", "remove", "renumber"):
            self.has(wizard.get(f"/people/wizard/{key}?number=%235"), "This is your own account", status=409)
            page = wizard.post(f"/people/wizard/{key}", {"form": wizard.typed("Sign out")["form"], "number": "#5", "seen": ""})
            self.assertEqual(page.status, 409)
        self.assertEqual(self.people.one("wizard")[:3], ("wizard", 3, False))
        links = wizard.get("/people/wizard").links
        self.assertEqual([link for link in links if re.search("disable|remove|renumber", link)], [])

    def test_others_than_wizards_can_do_none_of_it(self):
        ada = self.somebody("ada")
        form = ada.typed("Sign out")["form"]
        for path in ("/people", "/people/bram", "/people/nobody", "/people/bram/remove", "/people/bram/renumber?number=%234"):
            self.assertEqual(ada.get(path).status, 403, path)
        for path in ("/people", *(f"/people/bram/{key}" for key in ("disable", "enable", "remove", "renumber", "link", "end"))):
            fields = {"form": form, "account": "dora", "what": "new", "parent": "#1", "quota": "1", "go": "add", "number": "#4", "seen": ""}
            self.assertEqual(ada.post(path, fields).status, 403, path)
        self.assertEqual([one.name for one in self.people.all()], ["ada", "bram", "wizard"])

    def test_forms_of_other_sites_do_nothing(self):
        wizard = self.somebody("wizard")
        fields = {"form": wizard.typed("Sign out")["form"], "account": "dora", "go": "add"}
        for path in ("/people", "/people/ada/disable", "/people/ada/link", "/people/ada/end", "/you/token", "/you/end"):
            for lines, given in (({"Sec-Fetch-Site": "cross-site"}, fields), ({}, fields | {"form": "x"})):
                page = wizard.post(path, given, **lines)
                self.assertTrue(page.status == 403 or "Nothing of this was sent" in page.text, (path, page.status))
        self.assertEqual((self.people.one("dora"), self.people.one("ada").link), (None, None))

    def test_everything_is_on_one_page(self):
        wizard = self.somebody("wizard")
        self.somebody("ada")
        self.people.disable("bram")
        self.people.add("zed", 99, PASSWORD)
        page = wizard.get("/people")
        self.has(page, "ada Ada #4", "bram disabled", "zed #99 isn’t there", "not signed in")
        self.has(wizard.get("/people/zed"), "#99 isn’t there")
        self.has(wizard.get("/people/ADA"), "192.0.2.1", "as many objects as they like", "Change the quota")


class OnesOwn(PeopleTest):
    def make(self, reader, **typed):
        """A token that is made on the person's own page."""
        reader.get("/you")
        page = reader.send("Make a token", **typed)
        found = re.search(r'value="(moo_[\w-]+)"', page.html)
        return found[1] if found else page

    def test_a_token_is_made_shown_once_and_ended(self):
        ada = self.somebody("ada")
        self.people.tokens.make("bram", Terms("brams"))
        token = self.make(ada, label="the bot", reads="on")
        bearer = self.people.tokens.bearer(token)
        self.assertEqual((bearer.person, bearer.is_read_only), (Person("ada", 4), True))
        page = ada.get("/you")
        self.assertNotIn(token, page.html)
        self.has(page, "the bot read-only")
        self.assertNotIn("brams", page.text)
        self.assertEqual(round((self.people.tokens.of("ada")[0].until - self.now) / 86400), 90)
        self.has(ada.send("End the token the bot"), "It has ended.")
        self.assertIsNone(whose_token(self.people, token))
        of_ada = [line for line in self.logged() if 'name="ada"' in line]
        self.assertEqual(of_ada, [
            'token made: name="ada" label="the bot" days=90 read_only="yes"', 'token ended: name="ada" label="the bot"',
        ])  # fmt: skip
        self.assertEqual(self.people.one("bram").tokens, 1)

    def test_one_that_never_ends_and_one_that_has(self):
        ada = self.somebody("ada")
        self.make(ada, label="short", days="30")
        self.make(ada, label="long", days="0")
        self.now += 31 * 86400
        ada = self.somebody("ada")
        self.has(ada.get("/you"), "short has ended", "long")
        self.assertEqual({one.label: one.has_ended(self.now) for one in self.people.tokens.of("ada")}, {"short": True, "long": False})

    def test_what_cannot_be(self):
        ada = self.somebody("ada")
        self.make(ada, label="a")
        for typed, told in (
            ({"label": "a"}, "There is a token 'a' already"), ({"label": " "}, "A label is missing"), ({"label": "x" * 65}, "at most 64 letters"),
            ({"label": "a\tb"}, "without tabs"),
        ):  # fmt: skip
            with self.subTest(typed=typed):
                self.has(self.make(ada, **typed), told, status=400)
        self.assertEqual(self.make(ada, label="b", days="7").status, 400)
        self.assertEqual(len(self.people.tokens.of("ada")), 1)

    def test_others_cant_be_ended(self):
        ada = self.somebody("ada")
        self.somebody("bram")
        self.people.tokens.make("bram", Terms("b"))
        form = ada.typed("Sign out")["form"]
        ada.post("/you/end", {"form": form, "token": self.people.tokens.of("bram")[0].mark, "session": self.people.sessions_of("bram")[0].mark})
        self.assertEqual(self.people.one("bram")[3:5], (1, 1))

    def test_sessions_are_seen_and_ended(self):
        ada, other, wizard = self.somebody("ada"), Checked(self, in_process(self.app, "198.51.100.7"), "ada"), self.somebody("wizard")
        self.has(ada.get("/you"), "192.0.2.1 this one", "198.51.100.7")
        ada.send("End the session from 198.51.100.7")
        self.assertEqual((ada.get("/").status, other.get("/").status), (200, 401))
        wizard.get("/people/ada")
        self.has(wizard.send("End the session from 192.0.2.1"), "It has ended.", status=200)
        self.assertEqual(ada.get("/").status, 401)
        self.assertEqual(self.logged(), ['session ended: name="ada"', 'session ended: name="ada" by="wizard"'])


class InTheLog(WithFront):
    """What `moo-web` says on standard error."""

    def test_each_time_is_a_line(self):
        """The teller leaves out a line that it has told within a minute; here it may not."""
        wizard = self.reader("wizard")
        for _ in range(2):
            wizard.get("/people/ada/disable")
            wizard.send("Do it")
            self.has(wizard.send("Let in again"), "may come in again", status=200)
        self.has(wizard.send("A link for a password"), "Give ada this link", status=200)
        secret = re.search(r"key=([\w-]+)", wizard.page.html)[1]
        done = [line for line in self.front.said().splitlines() if line.endswith(' name="ada" by="wizard"')]
        twice = ['moo-web: account disabled: name="ada" by="wizard"', 'moo-web: account enabled: name="ada" by="wizard"'] * 2
        self.assertEqual(done, [*twice, 'moo-web: link made: name="ada" by="wizard"'])
        self.assertNotIn(secret, self.front.said())


if __name__ == "__main__":
    unittest.main()
