"""Tokens with a label, an end, a last use and rights (web/moo_web/people/tokens.py), files of before they had any, and links for passwords."""

import contextlib
import pathlib
import shutil
import sqlite3
import tempfile
import unittest
from unittest import mock

from tests.support.pages import PagesTest, Reader
from tests.support.web import PASSWORD, use_web, whose_token
from tests.web.test_people import AWAY, DAY, HOME, HOUR, WithPeople

use_web()

from moo_web.people import passwords  # noqa: E402
from moo_web.people.file import Wrong  # noqa: E402
from moo_web.people.links import LINK_SECONDS  # noqa: E402
from moo_web.people.people import People, WrongPassword  # noqa: E402
from moo_web.people.person import Person  # noqa: E402
from moo_web.people.secret import hash_of, mark_of  # noqa: E402
from moo_web.people.tokens import LISTED_SECONDS, MOST_TOKENS, Bearer, Terms, Token  # noqa: E402

# The tables of version 1, as the program of then made them.
OLD_TABLES = """
CREATE TABLE person (name TEXT PRIMARY KEY COLLATE NOCASE, number INTEGER NOT NULL, password TEXT NOT NULL,
    is_disabled INTEGER NOT NULL, made REAL NOT NULL) WITHOUT ROWID;
CREATE TABLE session (hash BLOB PRIMARY KEY, name TEXT NOT NULL COLLATE NOCASE, form TEXT NOT NULL,
    made REAL NOT NULL, seen REAL NOT NULL) WITHOUT ROWID;
CREATE TABLE token (hash BLOB PRIMARY KEY, name TEXT NOT NULL COLLATE NOCASE, made REAL NOT NULL) WITHOUT ROWID;
CREATE TABLE place (name TEXT NOT NULL COLLATE NOCASE, address TEXT NOT NULL, seen REAL NOT NULL,
    PRIMARY KEY (name, address)) WITHOUT ROWID;
PRAGMA user_version = 1;
"""


class OfAPerson(WithPeople):
    def make(self, label="", days=None, is_read_only=False, name="ada"):
        return self.people.tokens.make(name, Terms(label, days, is_read_only))

    def listed(self, name="ada"):
        return [(one.label, one.made, one.until, one.used, one.is_read_only) for one in self.people.tokens.of(name)]

    def test_label_end_and_rights_are_listed(self):
        now = self.clock.now
        self.make()
        self.clock.now += 1
        self.make("a bot, für Ben", 30, True)
        self.assertEqual(self.listed(), [("", now, None, None, False), ("a bot, für Ben", now + 1, now + 1 + 30 * DAY, None, True)])

    def test_it_ends_after_its_days(self):
        token = self.make("bot", 2)
        self.clock.now += 2 * DAY - 1
        self.assertEqual(self.people.tokens.bearer(token), Bearer(Person("ada", 4), False))
        self.clock.now += 1
        self.assertIsNone(self.people.tokens.bearer(token))
        self.assertEqual([one[0] for one in self.listed()], ["bot"], "it is still listed")
        self.assertEqual(self.people.all()[0].tokens, 0)
        self.clock.now += LISTED_SECONDS + 1
        self.make("another")
        self.assertEqual([one[0] for one in self.listed()], ["another"])

    def test_its_last_use_is_noted_once_a_minute(self):
        token, began = self.make(), self.clock.now
        for later, wanted in ((0, began), (59, began), (61, began + 61), (62, began + 61)):
            self.clock.now = began + later
            self.assertTrue(whose_token(self.people, token))
            self.assertEqual(self.listed()[0][3], wanted)

    def test_a_use_that_cannot_be_noted_is_one(self):
        """As on a full disk."""
        token = self.make(is_read_only=True)
        self.people.base.execute("PRAGMA query_only = ON")
        self.assertEqual(self.people.tokens.bearer(token), Bearer(Person("ada", 4), True))

    def test_one_is_ended_by_its_mark_or_its_label(self):
        self.people.add("ben", 5, PASSWORD)
        first, second, third, bens = self.make("a"), self.make("b"), self.make("b"), self.make("a", name="ben")
        tokens = self.people.tokens
        self.assertIsNone(tokens.end_one("ada", mark_of(bens)), "another's")
        self.assertEqual(tokens.end_one("ADA", mark_of(first)).label, "a")
        self.assertIsNone(tokens.end_one("ada", mark_of(first)))
        self.assertEqual([bool(tokens.bearer(each)) for each in (first, second, third, bens)], [False, True, True, True])
        tokens.end("ada", "b")
        self.assertEqual([bool(tokens.bearer(each)) for each in (second, third, bens)], [False, False, True])
        for label in ("b", "", "A"):
            with self.subTest(label), self.assertRaises(Wrong):
                tokens.end("ada", label)

    def test_what_cannot_be(self):
        for terms in (Terms("x" * 65), Terms("a\tb"), Terms("a\nb"), Terms("\x1b[1m"), Terms(days=0), Terms(days=-1), Terms(days=3651)):
            with self.subTest(terms), self.assertRaises(Wrong):
                self.people.tokens.make("ada", terms)
        self.make("x" * 64, 3650)
        with self.assertRaises(Wrong):
            self.people.tokens.make("ada", Terms("x" * 64), is_only=True)
        for _ in range(MOST_TOKENS - 1):
            self.make()
        with self.assertRaises(Wrong):
            self.make()

    def test_a_person_who_is_removed_leaves_nothing(self):
        """Who gets the name has none of it."""
        signed, token = self.sign_in(), self.make("bot")
        link = self.people.links.make("ada")
        self.people.remove("Ada")
        self.assertEqual(self.people.all(), [])
        for table in ("person", "session", "token", "place", "link"):
            self.assertEqual(self.people.rows(f"SELECT * FROM {table}"), [], table)
        self.people.add("ada", 9, "another password")
        self.assertEqual((self.people.session(signed.secret), whose_token(self.people, token), self.people.links.whose(link)), (None,) * 3)
        self.assertEqual(self.sign_in("another password").session.person, Person("ada", 9))
        with self.assertRaises(Wrong):
            self.people.remove("ben")

    def test_another_number_is_that_of_sessions_and_tokens(self):
        signed, token = self.sign_in(), self.make()
        self.people.renumber("ada", 7)
        self.assertEqual((self.people.session(signed.secret).person, whose_token(self.people, token)), (Person("ada", 7),) * 2)
        for name, number in (("ben", 7), ("ada", -1), ("ada", 2**31)):
            with self.subTest(name=name, number=number), self.assertRaises(Wrong):
                self.people.renumber(name, number)

    def test_sessions_are_listed_and_ended(self):
        first, began = self.sign_in().secret, self.clock.now
        self.clock.now += HOUR
        second = self.sign_in(address=AWAY).secret
        self.assertEqual(
            self.people.sessions_of("ada"), [(mark_of(second), began + HOUR, began + HOUR, AWAY), (mark_of(first), began, began, HOME)]
        )
        self.assertEqual((self.people.one("ADA").sessions, self.people.one("ADA").seen), (2, began + HOUR))
        self.assertFalse(self.people.end_session("ben", mark_of(second)))
        self.assertTrue(self.people.end_session("ada", mark_of(second)))
        self.assertEqual((self.people.session(second), bool(self.people.session(first))), (None, True))
        self.clock.now += 12 * HOUR
        self.assertEqual((self.people.sessions_of("ada"), self.people.one("ada").sessions), ([], 0))


class ByLink(WithPeople):
    def test_it_sets_a_password_once(self):
        secret = self.people.add_by_link("ben", 5)
        for password in ("", PASSWORD, passwords.NONE):
            with self.assertRaises(WrongPassword):
                self.sign_in(password, name="ben")
        self.assertEqual(self.people.links.whose(secret), "ben")
        with self.assertRaises(Wrong):
            self.people.links.use(secret, "")
        self.assertEqual(self.people.links.use(secret, "a new password"), "ben")
        self.assertEqual(self.sign_in("a new password", name="ben").session.person, Person("ben", 5))
        self.assertEqual((self.people.links.whose(secret), self.people.links.use(secret, "another one")), (None, None))
        self.assertTrue(self.sign_in("a new password", name="ben"))

    def test_it_ends(self):
        """After a time, at a newer one, at a new password, and when its person is disabled."""
        links = self.people.links
        secret = links.make("ada")
        self.assertEqual(self.people.one("ada").link, self.clock.now + LINK_SECONDS)
        self.clock.now += LINK_SECONDS - 1
        self.assertEqual(links.whose(secret), "ada")
        self.clock.now += 1
        self.assertEqual((links.whose(secret), links.use(secret, "x" * 9), self.people.one("ada").link), (None, None, None))
        old, new = links.make("ada"), links.make("ada")
        self.assertEqual((links.whose(old), links.whose(new)), (None, "ada"))
        self.people.set_password("ada", PASSWORD)
        self.assertIsNone(links.whose(new))
        new = links.make("ada")
        self.people.disable("ada")
        self.people.enable("ada")
        self.assertIsNone(links.whose(new))
        self.people.disable("ada")
        with self.assertRaises(Wrong):
            links.make("ada")
        for wrong in ("", "x", "é\x00"):
            self.assertIsNone(links.whose(wrong))

    def test_it_ends_the_sessions_and_isnt_in_the_file(self):
        session, secret = self.sign_in().secret, self.people.links.make("ada")
        self.assertNotIn(secret.encode(), self.file.read_bytes())
        self.people.links.use(secret, "a new password")
        self.assertIsNone(self.people.session(session))


class Stopped(Exception):
    """The program was stopped here."""


NOW = 1_800_000_000.0
OLD_TOKEN = Token(mark_of("moo_token"), "", NOW - 400 * DAY, None, None, False)


class OldFiles(unittest.TestCase):
    """A file of version 1, with all that such a file may hold."""

    def setUp(self):
        room = tempfile.TemporaryDirectory()
        self.addCleanup(room.cleanup)
        self.addCleanup(setattr, passwords, "COST", passwords.COST)
        passwords.COST = 2
        self.room = pathlib.Path(room.name)
        self.file = self.room / "people.db"
        self.now = NOW
        with contextlib.closing(sqlite3.connect(self.file, isolation_level=None)) as base:
            base.executescript(OLD_TABLES)
            for name, number, is_disabled in (("ada", 4, 0), ("Ben", 5, 1)):
                base.execute("INSERT INTO person VALUES (?, ?, ?, ?, ?)", (name, number, passwords.hashed(PASSWORD), is_disabled, self.now))
            base.execute("INSERT INTO session VALUES (?, 'ada', 'a form', ?, ?)", (hash_of("a session"), self.now, self.now))
            base.execute("INSERT INTO token VALUES (?, 'ada', ?)", (hash_of("moo_token"), self.now - 400 * DAY))
            base.execute("INSERT INTO place VALUES ('ada', ?, ?)", (HOME, self.now))

    def is_whole(self, file):
        """Nothing of the file is lost."""
        with contextlib.closing(People(file, lambda: self.now, lambda: self.now)) as found:
            self.assertEqual([one[:6] for one in found.all()], [("ada", 4, False, 1, 1, self.now), ("Ben", 5, True, 0, 0, self.now)])
            self.assertEqual([one._replace(used=None) for one in found.tokens.of("ada")], [OLD_TOKEN])
            self.assertEqual(found.sessions_of("ada"), [(mark_of("a session"), self.now, self.now, "")])
            self.assertEqual(found.tokens.bearer("moo_token"), Bearer(Person("ada", 4), False))
            self.assertEqual(found.session("a session"), (Person("ada", 4), "a form"))
            self.assertTrue(found.is_place_of("ada", HOME))
            signed = found.sign_in("ada", PASSWORD, HOME)
            self.assertEqual(signed.session.person, Person("ada", 4))
            found.sign_out(signed.secret)

    def test_nothing_is_lost(self):
        self.is_whole(self.file)
        self.is_whole(self.file)

    def test_a_stop_at_any_statement_loses_nothing(self):
        """What the disk has then is a file that is whole, of before or of after."""
        connect, stops = sqlite3.connect, 0
        for count in range(100):
            file = self.room / f"try-{count}" / "people.db"
            file.parent.mkdir()
            shutil.copy(self.file, file)
            made = []

            class Stopping(sqlite3.Connection):
                """A connection that is left after so many statements, with the files as they are then."""

                def execute(self, *given):
                    made.append(given)
                    if len(made) == count + 1:
                        shutil.copytree(file.parent, file.parent / "left")
                        raise Stopped
                    return super().execute(*given)

            try:
                with mock.patch.object(sqlite3, "connect", lambda *given, **how: connect(*given, **how, factory=Stopping)):
                    People(file).close()
            except Stopped:
                stops += 1
                self.is_whole(file.parent / "left" / "people.db")
                self.is_whole(file)
                continue
            break
        self.assertGreater(stops, 8)
        self.is_whole(file)


class AtTheApi(PagesTest):
    """A token that is for reading alone."""

    def asked(self, token, method, path, body=b""):
        answer = Reader(self.app).asked(method, path, body, HTTP_AUTHORIZATION=f"Bearer {token}")
        return answer.status, answer.bytes

    def test_it_writes_nothing(self):
        tokens = self.people.tokens
        reading, writing = tokens.make("wizard", Terms("r", is_read_only=True)), tokens.make("wizard")
        batch = b'{"calls":["create(#1)"]}'
        for path in ("/api/batch", "/api/batch?json", "/api/batch?why"):
            for body in (batch, b'{"calls":[]}', b"", b"nonsense", b'{"as":"#4","calls":[]}'):
                with self.subTest(path=path, body=body):
                    self.assertEqual(self.asked(reading, "POST", path, body), (403, b'{"error":"forbidden"}'))
        self.assertEqual(self.asked(reading, "GET", "/api/seq"), (200, b'{"seq":0}'))
        for method, path, body in (
            ("POST", "/api/ask", batch), ("POST", "/api/ask?losses", batch), ("POST", "/api/each", batch), ("GET", "/api/object/3", b""),
            ("GET", "/api/objects/0", b""), ("GET", "/api/since/0", b""), ("GET", "/api/openapi.json", b""),
        ):  # fmt: skip
            with self.subTest(path=path):
                self.assertEqual(self.asked(reading, method, path, body)[0], 200)
        self.assertEqual(self.asked(writing, "POST", "/api/batch", batch), (200, b'{"answers":["#4"],"seq":1}'))

    def test_one_that_has_ended_is_not_known(self):
        token = self.people.tokens.make("wizard", Terms(days=1))
        self.assertEqual(self.asked(token, "GET", "/api/seq")[0], 200)
        self.now += DAY
        for path in ("/api/seq", "/api/batch"):
            self.assertEqual(self.asked(token, "GET", path), (401, b'{"error":"unauthorized"}'))


if __name__ == "__main__":
    unittest.main()
