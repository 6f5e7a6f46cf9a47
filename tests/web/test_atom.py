"""The feeds: as RFC 4287 has them, for whom they are, and that they tell nothing that their reader may not read."""

import base64
import json
import random
import re
import time
import unittest
import xml.etree.ElementTree as ElementTree

from tests.support.pages import Reader
from tests.support.web import use_web
from tests.web.test_asking import NOT_NOW, WHY, AskingTest

use_web()

from moo_web.journal.history import History  # noqa: E402
from moo_web.pages.atom import AtomEntry, AtomFeed, atom_mark  # noqa: E402
from moo_web.people.tokens import Terms  # noqa: E402
from moo_web.world.door import batch_body  # noqa: E402

SEED = 4287
ATOM = "{http://www.w3.org/2005/Atom}"
# RFC 4287, 3.3: a date and time of RFC 3339 with a capital T, and here always in UTC.
MOMENT = re.compile(r"\d{4}-\d\d-\d\dT\d\d:\d\d:\d\dZ")
FEEDS = ("/feed", "/feed/people/bram", "/feed/people/ada", "/feed/o/8", "/feed/o/6")
# A feed by 4.1.1 and 4.1.2 of the RFC: an id, a title and a date each, an author, links, and a text.
SMALL = b"""\
<?xml version="1.0" encoding="utf-8"?>
<feed xmlns="http://www.w3.org/2005/Atom">
<id>urn:uuid:60a76c80-d399-11d9-b93c-0003939e0af6</id>
<title>Petitions &amp; more</title>
<updated>2003-12-13T18:30:02Z</updated>
<author><name>moo</name></author>
<link rel="self" type="application/atom+xml" href="/feed"/>
<link rel="alternate" type="text/html" href="/petitions?a=1&amp;b=2"/>
<entry>
<id>urn:uuid:1225c695-cfb8-4ebb-aaaa-80da344efa6a</id>
<title>&lt;b&gt;\xef\xbf\xbd</title>
<updated>2003-12-13T18:30:02Z</updated>
<author><name>Ada</name></author>
<link rel="alternate" type="text/html" href="/petitions/1"/>
<content type="text">one
]]&gt; two</content>
</entry>
</feed>
"""


def only(of, name):
    """The text of the one child of this name. `AssertionError`: there isn't just one."""
    found = of.findall(ATOM + name)
    assert len(found) == 1, f"{len(found)} of {name} in {of.tag}"
    assert len(found[0]) == 0, f"{name} has elements in it"
    return found[0].text or ""


def entries_of(text):
    """The entries of a feed that is as the RFC has it: each one's id, title, date, author and text."""
    root = ElementTree.fromstring(text)
    assert root.tag == ATOM + "feed"
    assert {child.tag for child in root} <= {ATOM + name for name in ("id", "title", "updated", "author", "link", "entry")}
    marks = [only(root, "id")]
    assert only(root, "title") and MOMENT.fullmatch(only(root, "updated"))
    assert [link.get("rel") for link in root.findall(ATOM + "link")] == ["self", "alternate"]
    found = []
    for entry in root.findall(ATOM + "entry"):
        assert [child.tag.removeprefix(ATOM) for child in entry] == ["id", "title", "updated", "author", "link", "content"]
        moment = only(entry, "updated")
        assert MOMENT.fullmatch(moment) and moment <= only(root, "updated")
        assert entry.find(ATOM + "content").get("type") == "text"
        marks.append(only(entry, "id"))
        found.append((marks[-1], only(entry, "title"), moment, only(entry.find(ATOM + "author"), "name"), only(entry, "content")))
    assert len(set(marks)) == len(marks) and all(re.fullmatch(r"urn:uuid:[0-9a-f-]{36}", mark) for mark in marks)
    return found


class Bytes(unittest.TestCase):
    def test_a_small_feed(self):
        entry = AtomEntry("urn:uuid:1225c695-cfb8-4ebb-aaaa-80da344efa6a", "<b>\x01", 1071340202.4, "Ada", "/petitions/1", "one\n]]> two")
        feed = AtomFeed("Petitions & more", "urn:uuid:60a76c80-d399-11d9-b93c-0003939e0af6", 0.0, "/feed", "/petitions?a=1&b=2", [entry])
        self.assertEqual(feed.text, SMALL)
        self.assertEqual([each[1] for each in entries_of(feed.text)], ["<b>\ufffd"])

    def test_a_feed_of_nothing_and_one_of_what_no_title_has(self):
        self.assertEqual(entries_of(AtomFeed("t", atom_mark("x"), 0.0, "/feed", "/", []).text), [])
        entries_of(AtomFeed("t", atom_mark("x"), 0.0, "/feed", "/", [AtomEntry(atom_mark("y", "\ud800é"), "", 1e30, "", "/", "")]).text)

    def test_a_mark_is_always_the_same(self):
        self.assertEqual(atom_mark("petition", 7, 1.5, "ada"), atom_mark("petition", 7, 1.5, "ada"))
        self.assertNotEqual(atom_mark("petition", 7, 1.5, "ada"), atom_mark("petition", 71, 0.5, "ada"))


class FeedsTest(AskingTest):
    """Readers of feeds."""

    def of(self, who, path="/feed", **lines):
        """The answer to somebody with a token."""
        token = self.people.tokens.make(who, Terms(days=1, is_read_only=True))
        return Reader(self.app).asked("GET", path, HTTP_AUTHORIZATION=f"Bearer {token}", **lines)

    def entries(self, who, path="/feed"):
        """The entries that somebody reads."""
        answer = self.of(who, path)
        self.assertEqual((answer.status, answer.head["Content-Type"]), (200, "application/atom+xml; charset=utf-8"), answer.source)
        return entries_of(answer.bytes)


class Feeds(FeedsTest):
    def test_the_inbox_has_what_waits_and_what_came_of_it(self):
        self.ask()
        for who in ("wizard", "ada", "bram"):
            ((mark, title, moment, author, text),) = self.entries(who)
            self.assertEqual((title, author), ("bram: Lamp #8 is called “Reading lamp”.", "bram"))
            self.assertEqual(text, f"{WHY}\nLamp #8 is called “Reading lamp”.")
        self.assertEqual(self.entries("cleo"), [])
        ada = self.somebody("ada")
        ada.get("/petitions/1")
        ada.send("Decline", words=NOT_NOW)
        ((again, *_, text),) = self.entries("bram")
        self.assertEqual((again, text.splitlines()[2:]), (mark, ["ada says no.", NOT_NOW]))
        wizard = self.somebody("wizard")
        wizard.get("/petitions")
        wizard.send("Decline petition 1", words="As she says.")
        ((again, title, *_, text),) = self.entries("bram")
        self.assertEqual((again, title[:7], text.splitlines()[-2:]), (mark, "Ended: ", ["Ended: by wizard.", "As she says."]))
        self.assertEqual(self.entries("wizard"), [])

    def test_by_person_and_by_object(self):
        self.write("ada", 'set(#8, "name", "Old lamp")')
        self.ask()
        for path in ("/feed/people/ada", "/feed/o/8"):
            titles = [title for _, title, *_ in self.entries("wizard", path)]
            self.assertIn("ada: Lamp #8 is called “Old lamp”.", titles, path)
        self.assertEqual([author for *_, author, _ in self.entries("bram", "/feed/people/bram")], ["bram"])
        self.assertEqual(self.entries("cleo", "/feed/people/ada"), [])
        self.assertEqual(self.entries("cleo", "/feed/o/8"), [])

    def test_who_may_read(self):
        self.ask()
        token = self.people.tokens.make("ada")
        basic = base64.b64encode(f"ada:{token}".encode()).decode()
        password = base64.b64encode(b"ada:a password").decode()
        for path in FEEDS:
            stranger = Reader(self.app).asked("GET", path)
            self.assertEqual((stranger.status, stranger.source), (401, '{"error":"unauthorized"}'), path)
            self.assertTrue(stranger.head["WWW-Authenticate"].startswith("Basic "))
            browser = Reader(self.app).asked("GET", path, HTTP_SEC_FETCH_MODE="navigate")
            self.assertEqual(browser.status, 401)
            self.assertIn("Sign in", browser.text)
            for line in ("Bearer moo_wrong", f"Basic {password}", "Basic x", "Basic", "Digest x", f"Bearer {token}x"):
                self.assertEqual(Reader(self.app).asked("GET", path, HTTP_AUTHORIZATION=line).status, 401, line)
            texts = {Reader(self.app).asked("GET", path, HTTP_AUTHORIZATION=line).bytes for line in (f"Bearer {token}", f"Basic {basic}")}
            self.assertEqual(texts, {self.reader("ada").get(path).bytes})
        self.people.tokens.end_all("ada")
        self.assertEqual(Reader(self.app).asked("GET", "/feed", HTTP_AUTHORIZATION=f"Bearer {token}").status, 401)

    def test_a_feed_that_is_as_it_was_isnt_sent_again(self):
        self.ask()
        mark = self.of("ada").head["ETag"]
        answer = self.of("ada", HTTP_IF_NONE_MATCH=mark)
        self.assertEqual((answer.status, answer.bytes), (304, b""))
        self.assertEqual(self.of("bram", HTTP_IF_NONE_MATCH=mark).status, 200, "another's feed is another one")
        self.ask("bram", text='set(#8, "name", "Good lamp")')
        self.assertEqual(self.of("ada", HTTP_IF_NONE_MATCH=mark).status, 200)


class NothingElse(FeedsTest):
    """Random batches and petitions of values that are each there once: whoever finds one may read it, or wrote it, or decides about it."""

    PAGES = ("/petitions", "/history", "/", "/o/8", "/history?o=8")

    def answers(self, who, call):
        """Whether a call of somebody's would be accepted."""
        return self.door.asked("POST", "/ask", batch_body(self.numbers[who], [call]), time.monotonic() + 60).status == 200

    def may_read(self, who, author, call, is_asked, reason_of=None):
        """Whether somebody may read a word of this call; of a reason, if they may read any of its calls that is about what is theirs."""
        if who == author:
            return True
        if reason_of is not None:
            return any(self.is_of(who, each) and self.may_read(who, author, each, True) for each in reason_of)
        number, name = call
        # What something was called everybody could read; what it is to be called only its owner is asked.
        if name == "name":
            return not is_asked or self.is_of(who, call)
        return self.answers(who, f'property_info(#{number}, "{name}")')

    def is_of(self, who, call):
        """Whether the object of a call is somebody's."""
        return self.answered(f'get(#{call[0]}, "owner")') == f"#{self.numbers[who]}"

    def test_random_batches_and_petitions(self):
        chance = random.Random(SEED)
        self.write("wizard", 'add_property(#6, "diary", "", {#3, "c"})', "create(#6, #5)", "create(#6, #9)", 'set(#6, "r", 1)')
        told = {}
        objects, names = (8, 10, 11), ("name", "weight", "secret", "diary")
        for turn in range(30):
            who = chance.choice(("ada", "bram", "cleo"))
            calls = [(chance.choice(objects), chance.choice(names), f"w{turn}x{place}q") for place in range(chance.choice((1, 2, 3)))]
            texts = [f'"set", #{number}, "{name}", "{word}"' for number, name, word in calls]
            is_asked = chance.random() < 0.6
            by = who if is_asked else "wizard"
            batch = ["petition({" + ", ".join(f"{{{text}}}" for text in texts) + "})"] if is_asked else [f"set({text[7:]})" for text in texts]
            reason = f"r{turn}q"
            token = self.people.tokens.make(by, Terms(days=1))
            body = json.dumps({"calls": batch, "words": reason}).encode()
            self.assertEqual(Reader(self.app).asked("POST", "/api/batch", body, HTTP_AUTHORIZATION=f"Bearer {token}").status, 200)
            told |= {word: (by, (number, name), is_asked) for number, name, word in calls}
            told[reason] = (by, None, is_asked, [(number, name) for number, name, _ in calls] if is_asked else [])
        seen = 0
        for who in ("ada", "bram", "cleo"):
            reader = self.somebody(who)
            texts = {path: self.of(who, path).source for path in FEEDS} | {path: reader.get(path).text for path in self.PAGES}
            for path, text in texts.items():
                for word in set(re.findall(r"\bw\d+x\d+q\b|\br\d+q\b", text)) & told.keys():
                    self.assertTrue(self.may_read(who, *told[word]), f"{who} reads {word} at {path}: {told[word]}")
                    seen += told[word][0] != who
        self.assertGreater(seen, 10)


class Anew(FeedsTest):
    """A front that is started again gives the same feeds."""

    def test_the_same_marks(self):
        from moo_web.app import App
        from moo_web.pages.site import make_pages

        self.ask()
        before = {path: self.of("ada", path).bytes for path in FEEDS}
        self.app = App(self.told.append)
        pages = make_pages(self.app, self.people, self.writer, History(self.room / "front"), self.rate)
        pages.rate.clock = self.clock
        pages.warm()
        self.assertEqual({path: self.of("ada", path).bytes for path in FEEDS}, before)


if __name__ == "__main__":
    unittest.main()
