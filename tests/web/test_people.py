"""The people of a front: accounts, passwords, sessions, tokens and their ends, and the waits after failures (web/moo_web/people/people.py)."""

import contextlib
import os
import pathlib
import sqlite3
import stat
import tempfile
import unittest
from unittest import mock

from tests.support.operating import KeptService, make_world
from tests.support.web import PASSWORD, program, use_web, whose_token

use_web()

from moo_web.people import passwords, people  # noqa: E402
from moo_web.people.limits import BackOff, Rate, network_of  # noqa: E402
from moo_web.people.file import VERSION, Wrong  # noqa: E402
from moo_web.people.people import People, TooManyTries, WrongPassword  # noqa: E402
from moo_web.people.person import Person  # noqa: E402

HOME, AWAY = "192.0.2.1", "198.51.100.7"
HOUR, DAY = 3600.0, 86400.0


class Clock:
    """A clock that is set by hand."""

    def __init__(self):
        self.now = 1_800_000_000.0

    def __call__(self):
        return self.now


class WithPeople(unittest.TestCase):
    """A file with ada, #4. scrypt is made cheap, since what is tested here is all else."""

    def setUp(self):
        room = tempfile.TemporaryDirectory()
        self.addCleanup(room.cleanup)
        self.file = pathlib.Path(room.name) / "people.db"
        self.clock = Clock()
        for name, value in (("COST", 2), ("HASH_BYTES", 32)):
            self.addCleanup(setattr, passwords, name, getattr(passwords, name))
            setattr(passwords, name, value)
        self.people = People(self.file, self.clock, self.clock)
        self.addCleanup(lambda: self.people.close())
        self.people.add("ada", 4, PASSWORD)

    def sign_in(self, password=PASSWORD, address=HOME, name="ada"):
        return self.people.sign_in(name, password, address)

    def fail(self, *given, **how):
        """A try that fails because of its password, and not of a wait."""
        with self.assertRaises(WrongPassword):
            self.sign_in("wrong", *given, **how)

    def fail_with(self, password, name):
        """A try that fails because of this password."""
        with self.assertRaises(WrongPassword):
            self.sign_in(password, name=name)

    def wait_of(self, *given, **how):
        """How long a try has to wait."""
        with self.assertRaises(TooManyTries) as raised:
            self.sign_in(*given, **how)
        return raised.exception.seconds


class Accounts(WithPeople):
    def test_a_person_signs_in(self):
        signed = self.sign_in()
        self.assertEqual(signed.session.person, Person("ada", 4))
        self.assertEqual(self.people.session(signed.secret), signed.session)
        self.assertGreaterEqual(len(signed.session.form), 16)
        self.assertEqual(self.sign_in(name="ADA").session.person, Person("ada", 4))

    def test_what_is_wrong(self):
        for name, password in (("ada", "wrong"), ("ada", ""), ("nobody", PASSWORD), ("", ""), ("ada", "x" * 10_000)):
            with self.subTest(name=name, password=password[:10]), self.assertRaises(WrongPassword):
                self.sign_in(password, name=name)

    def test_whether_there_is_somebody_isnt_told_by_the_time(self):
        """scrypt is what takes time: it runs once, over as much, whether there is such a person or not."""
        self.people.add("ben", 5, PASSWORD)
        self.people.disable("ben")
        for password in ("wrong", "x" * passwords.LONGEST, "x" * 100_000):
            spent = []
            for name in ("ada", "nobody", "ben", "no name at all"):
                with mock.patch.object(passwords.hashlib, "scrypt", wraps=passwords.hashlib.scrypt) as scrypt:
                    self.fail_with(password, name)
                spent.append([(len(call.args[0]), call.kwargs["n"]) for call in scrypt.call_args_list])
            self.assertEqual(spent, [[(min(len(password), passwords.LONGEST), passwords.COST)]] * 4)

    def test_accounts_that_cannot_be(self):
        for name, number, password in (
            ("ada", 5, "x"), ("Ada", 5, "x"), ("", 5, "x"), ("a b", 5, "x"), ("-a", 5, "x"), ("a" * 65, 5, "x"), ("é", 5, "x"),
            ("ben", -1, "x"), ("ben", 2**31, "x"), ("ben", 5, ""), ("ben", 5, "x" * 1025),
        ):  # fmt: skip
            with self.subTest(name=name, number=number), self.assertRaises(Wrong):
                self.people.add(name, number, password)
        self.assertEqual([one.name for one in self.people.all()], ["ada"])

    def test_a_change_that_fails_at_its_end_leaves_nothing(self):
        """Another program reads the file for long. The next change is done."""
        self.people.base.execute("PRAGMA busy_timeout = 1")
        with contextlib.closing(sqlite3.connect(self.file, isolation_level=None)) as reader:
            reader.execute("BEGIN")
            reader.execute("SELECT * FROM person").fetchall()
            with self.assertRaises(sqlite3.OperationalError):
                self.people.disable("ada")
            self.assertFalse(self.people.all()[0].is_disabled)
        self.people.disable("ada")
        self.assertTrue(self.people.all()[0].is_disabled)

    def test_nobody_of_that_name(self):
        for change in (
            self.people.disable, self.people.enable, self.people.tokens.make, self.people.tokens.end_all, self.people.remove, self.people.tokens.of,
            self.people.sessions_of, self.people.links.make,
        ):  # fmt: skip
            with self.subTest(change.__name__), self.assertRaises(Wrong):
                change("ben")
        with self.assertRaises(Wrong):
            self.people.set_password("ben", "x")

    def test_the_file_is_for_its_owner_and_holds_no_secret(self):
        signed, token = self.sign_in(), self.people.tokens.make("ada")
        self.assertEqual(stat.S_IMODE(os.stat(self.file).st_mode), 0o600)
        held = self.file.read_bytes()
        for secret in (PASSWORD, signed.secret, token, token[4:]):
            self.assertNotIn(secret.encode(), held)

    def test_a_later_version_is_refused(self):
        with sqlite3.connect(self.file) as base:
            base.execute(f"PRAGMA user_version = {VERSION + 1}")
        with self.assertRaises(Wrong):
            People(self.file)

    def test_old_parameters_are_replaced_at_a_sign_in(self):
        passwords.COST = 4
        self.sign_in()
        kept = self.people.row("SELECT password FROM person")[0]
        self.assertTrue(kept.startswith("scrypt:4:8:1:"), kept)
        self.sign_in()


class Ends(WithPeople):
    def test_a_session_ends_twelve_hours_after_its_last_use(self):
        secret = self.sign_in().secret
        for _ in range(5):
            self.clock.now += 11 * HOUR
            self.assertTrue(self.people.session(secret))
        self.clock.now += 12 * HOUR + 61
        self.assertIsNone(self.people.session(secret))

    def test_a_session_ends_after_seven_days(self):
        secret = self.sign_in().secret
        for _ in range(7 * 24 - 1):
            self.clock.now += HOUR
            self.assertTrue(self.people.session(secret))
        self.clock.now += HOUR + 1
        self.assertIsNone(self.people.session(secret))

    def test_a_use_that_cannot_be_noted_is_one(self):
        """As on a full disk."""
        signed = self.sign_in()
        self.people.base.execute("PRAGMA query_only = ON")
        self.clock.now += HOUR
        self.assertEqual(self.people.session(signed.secret), signed.session)
        self.people.base.execute("PRAGMA query_only = OFF")
        self.clock.now += 11 * HOUR
        self.assertEqual(self.people.session(signed.secret), signed.session)
        self.people.base.execute("PRAGMA query_only = ON")
        self.clock.now += 12 * HOUR + 1
        self.assertIsNone(self.people.session(signed.secret))

    def test_what_is_over_is_forgotten(self):
        self.sign_in()
        self.clock.now += 100 * DAY
        self.sign_in(address=AWAY)
        self.assertEqual(self.people.row("SELECT count(*) FROM session")[0], 1)
        self.assertEqual(self.people.row("SELECT group_concat(address) FROM place")[0], AWAY)

    def test_signing_out_ends_one_session(self):
        first, second = self.sign_in().secret, self.sign_in().secret
        self.people.sign_out(first)
        self.assertIsNone(self.people.session(first))
        self.assertTrue(self.people.session(second))

    def test_a_new_password_ends_sessions_and_not_tokens(self):
        secret, token = self.sign_in().secret, self.people.tokens.make("ada")
        self.people.set_password("ada", "another one")
        self.assertIsNone(self.people.session(secret))
        self.assertEqual(whose_token(self.people, token), Person("ada", 4))
        self.fail()
        self.assertTrue(self.sign_in("another one"))

    def test_disabling_ends_sessions_and_tokens(self):
        secret, token = self.sign_in().secret, self.people.tokens.make("ada")
        self.people.disable("ada")
        self.assertIsNone(self.people.session(secret))
        self.assertIsNone(whose_token(self.people, token))
        with self.assertRaises(WrongPassword):
            self.sign_in()
        with self.assertRaises(Wrong):
            self.people.tokens.make("ada")
        self.people.enable("ada")
        self.assertIsNone(self.people.session(secret))
        self.assertIsNone(whose_token(self.people, token))
        self.assertTrue(self.sign_in())

    def test_tokens(self):
        self.people.add("ben", 5, PASSWORD)
        first, second, other = (self.people.tokens.make(name) for name in ("ada", "ada", "ben"))
        self.assertEqual({whose_token(self.people, token) for token in (first, second)}, {Person("ada", 4)})
        self.people.tokens.end_all("ada")
        self.assertEqual([whose_token(self.people, token) for token in (first, second, other)], [None, None, Person("ben", 5)])
        for wrong in ("", "moo_", first[:-1], first + "x", "é\x00"):
            self.assertIsNone(whose_token(self.people, wrong))

    def test_a_password_that_changes_while_it_is_checked(self):
        is_right = passwords.is_right

        def changing(password, kept):
            with sqlite3.connect(self.file) as base:
                base.execute("UPDATE person SET password = ?", (passwords.hashed("another one"),))
            return is_right(password, kept)

        self.addCleanup(setattr, passwords, "is_right", is_right)
        passwords.is_right = changing
        with self.assertRaises(WrongPassword):
            self.sign_in()


class Waits(WithPeople):
    def test_five_failures_are_free_and_then_waits_double(self):
        for _ in range(5):
            self.fail()
        waits = []
        for _ in range(12):
            waits.append(self.wait_of())
            self.clock.now += waits[-1]
            self.fail()
        self.assertEqual(waits, [1, 2, 4, 8, 16, 32, 64, 128, 256, 300, 300, 300])

    def test_a_success_ends_the_waits(self):
        for _ in range(6 - 1):
            self.fail()
        self.clock.now += 1
        self.sign_in()
        for _ in range(5):
            self.fail()
        self.assertEqual(self.wait_of(), 1)

    def test_others_failures_elsewhere_keep_nobody_out(self):
        for _ in range(50):
            try:
                self.sign_in("wrong", AWAY)
            except (TooManyTries, WrongPassword):
                self.clock.now += 1
        self.assertTrue(self.sign_in())

    def test_strangers_everywhere_do_not_keep_a_person_out_of_a_place_of_theirs(self):
        self.sign_in()
        tried = 0
        for number in range(200):
            try:
                self.sign_in("wrong", f"203.0.113.{number}")
            except WrongPassword:
                tried += 1
            except TooManyTries:
                pass
        self.assertEqual(tried, people.STRANGERS_AT_ONCE, "so many passwords could be tried")
        self.assertTrue(self.sign_in(), "the person's own place")
        self.assertEqual(self.wait_of(address=AWAY), 20)
        self.clock.now += 20
        self.assertTrue(self.sign_in(address=AWAY), "a new place, once the strangers stop")

    def test_an_address_that_tries_many_names_waits(self):
        for number in range(20):
            self.fail(name=f"name{number}")
        self.assertEqual(self.wait_of(name="ada"), 1)
        self.assertTrue(self.sign_in(address=AWAY))

    def test_what_is_no_name_takes_no_room(self):
        """A form may have a megabyte of it, and many addresses may send such forms."""
        for number in range(100):
            try:
                self.sign_in(address=f"203.0.113.{number}", name="x" * 10_000 + str(number))
            except (WrongPassword, TooManyTries):
                self.clock.now += 10
        remembered = [*self.people.pair_waits.failures, *self.people.place_waits.failures, *self.people.strangers.left]
        self.assertGreater(len(remembered), 100)
        self.assertLess(max(map(len, remembered)), 100)

    def test_a_wait_is_not_a_try(self):
        for _ in range(5):
            self.fail()
        for _ in range(100):
            self.wait_of()
        self.clock.now += 1
        self.assertTrue(self.sign_in())


class Limits(unittest.TestCase):
    def test_a_rate(self):
        clock = Clock()
        rate = Rate(2, 10, clock)
        self.assertEqual([rate.take("a") for _ in range(12)], [True] * 10 + [False] * 2)
        self.assertTrue(rate.take("b"))
        clock.now += 1
        self.assertEqual([rate.take("a") for _ in range(3)], [True, True, False])
        clock.now += 1000
        self.assertEqual([rate.take("a") for _ in range(11)], [True] * 10 + [False])

    def test_many_names_take_no_more_room(self):
        clock = Clock()
        rate, back_off = Rate(1, 1, clock), BackOff(clock=clock)
        for number in range(30_000):
            rate.take(str(number))
            back_off.fail(str(number))
            clock.now += 1
        self.assertLess(len(rate.left), 11_000)
        self.assertLess(len(back_off.failures), 11_000)

    def test_networks(self):
        for address, network in (
            ("192.0.2.1", "192.0.2.1"), ("::ffff:192.0.2.1", "192.0.2.1"), ("2001:db8:1:2:3:4:5:6", "2001:db8:1:2::/64"),
            ("fe80::1%eth0", "fe80::/64"), ("", ""), ("unix", "unix"),
        ):  # fmt: skip
            self.assertEqual(network_of(address), network)


class Program(unittest.TestCase):
    """moo-people, with the real scrypt."""

    def setUp(self):
        room = tempfile.TemporaryDirectory()
        self.addCleanup(room.cleanup)
        self.folder = pathlib.Path(room.name) / "front"

    def people(self, *words, text=""):
        return program("moo-people", self.folder, *words, text=text)

    def test_its_words(self):
        self.assertEqual(self.people("add", "ada", "4", text=f"{PASSWORD}\nmore\n"), (0, "", ""))
        self.assertEqual(self.people("add", "wizard", "#3", text="pw\n")[0], 0)
        status, token, told = self.people("token", "ada")
        self.assertEqual((status, told, token[-1], len(token) > 32), (0, "", "\n", True))
        self.assertEqual(self.people("list"), (0, "ada #4 0 sessions, 1 tokens\nwizard #3 0 sessions, 0 tokens\n", ""))
        people_ = People(self.folder / "people.db")
        self.addCleanup(people_.close)
        self.assertEqual(whose_token(people_, token.strip()), Person("ada", 4))
        self.assertEqual(people_.sign_in("ada", PASSWORD, HOME).session.person, Person("ada", 4))
        self.assertEqual(self.people("passwd", "ada", text="another one\r\n")[0], 0)
        self.assertEqual(people_.sign_in("ada", "another one", HOME).session.person, Person("ada", 4))
        self.assertEqual(self.people("untoken", "ada"), (0, "", ""))
        self.assertIsNone(whose_token(people_, token.strip()))
        self.assertEqual(self.people("disable", "ada"), (0, "", ""))
        self.assertEqual(self.people("list")[1].splitlines()[0], "ada #4 disabled")
        self.assertEqual(self.people("enable", "ada"), (0, "", ""))
        modes = {stat.S_IMODE(path.stat().st_mode) for path in (self.folder, *self.folder.iterdir())}
        self.assertEqual(modes, {0o600, 0o700})

    def test_tokens_have_labels_and_ends(self):
        self.people("add", "ada", "4", text="pw\n")
        first = self.people("token", "ada")[1].strip()
        second = self.people("token", "ada", "--label", "the bot", "--days", "30", "--read-only")[1].strip()
        third = self.people("token", "ada", "--label", "old")[1].strip()
        with contextlib.closing(People(self.folder / "people.db")) as kept:
            bearers = [kept.tokens.bearer(each) for each in (first, second)]
            self.assertEqual([bearer.is_read_only for bearer in bearers], [False, True])
            kept.base.execute("UPDATE token SET made = 0, used = 61 WHERE label = ''")
        status, printed, told = self.people("tokens", "ada")
        self.assertEqual((status, told), (0, ""))
        moment = r"\d{4}-\d\d-\d\dT\d\d:\d\d:\d\dZ"
        lines = printed.splitlines()
        self.assertEqual(lines[0], "\t1970-01-01T00:00:00Z\t-\t1970-01-01T00:01:01Z")
        self.assertRegex(lines[1], rf"^the bot\t{moment}\t{moment}\t{moment}$")
        self.assertRegex(lines[2], rf"^old\t{moment}\t-\t-$")
        self.assertEqual(self.people("untoken", "ada", "--label", "old"), (0, "", ""))
        with contextlib.closing(People(self.folder / "people.db")) as kept:
            self.assertEqual([whose_token(kept, each) is not None for each in (first, second, third)], [True, True, False])
        status, printed, told = self.people("untoken", "ada", "--label", "old")
        self.assertEqual((status, printed), (1, ""))
        self.assertIn("'old'", told)
        self.assertEqual(self.people("untoken", "ada"), (0, "", ""))
        self.assertEqual(self.people("tokens", "ada"), (0, "", ""))

    def test_a_person_gets_another_number_and_is_removed(self):
        self.people("add", "ada", "4", text="pw\n")
        self.people("token", "ada")
        self.assertEqual(self.people("renumber", "Ada", "#7"), (0, "", ""))
        self.assertEqual(self.people("list"), (0, "ada #7 0 sessions, 1 tokens\n", ""))
        self.assertEqual(self.people("remove", "ada"), (0, "", ""))
        self.assertEqual(self.people("list"), (0, "", ""))
        self.assertEqual(self.people("add", "ada", "8", text="pw\n"), (0, "", self.SHORT))
        self.assertEqual(self.people("list"), (0, "ada #8 0 sessions, 0 tokens\n", ""))

    SHORT = "moo-people: a password of fewer than 8 letters is easily guessed\n"

    def test_a_number_is_held_against_the_world(self):
        """With the port of a world a number has to be a player's. Nothing is asked for before that."""
        file = self.folder.with_name("world.db")
        make_world(file, 'batch as #3\ncreate(#1)\nset(#4, "name", "Ada")\nset_player_flag(#4, 1)\ncreate(#1)\nend\n')
        service = KeptService(file)
        self.addCleanup(service.stop)
        port = ("--moo-port", service.port)
        self.assertEqual(self.people("add", "ada", "4", *port, text="pw\n")[0], 0)
        for name, number, wanted in (("ben", "5", "ben #5  is not a player"), ("cas", "99", "cas #99 isn't there")):
            status, printed, told = self.people("add", name, number, *port, text="pw\n")
            self.assertEqual((status, printed), (1, ""))
            self.assertIn(wanted, told)
        self.assertEqual(self.people("list")[1], "ada #4 0 sessions, 0 tokens\n")
        self.assertEqual(self.people("add", "cas", "99", *port, "--any", text="pw\n")[0], 0)
        self.assertEqual(self.people("add", "dee", "98", text="pw\n")[0], 0)
        service.stop()
        self.assertEqual(self.people("add", "eve", "4", *port, text="pw\n")[:2], (1, ""))
        self.assertEqual(len(self.people("list")[1].splitlines()), 3)

    def test_what_cannot_be_done(self):
        for words, text, wanted in (
            (("remove", "ada"), "", 1), (("renumber", "ada", "4"), "", 1), (("tokens", "ada"), "", 1), (("renumber", "ada"), "", 2),
            (("renumber", "ada", "x"), "", 2), (("token", "ada", "--days", "0"), "", 2), (("token", "ada", "--days", "x"), "", 2),
            (("token", "ada"), "", 1), (("disable", "ada"), "", 1), (("list",), "", 1), (("sing",), "", 2), ((), "", 2),
            (("add", "ada"), "", 2),
            (("add", "ada", "x"), "", 2), (("add", "ada", "4"), "", 1), (("add", "ada", "4"), "\n", 1), (("add", "a b", "4"), "x\n", 1),
        ):  # fmt: skip
            status, printed, told = self.people(*words, text=text)
            with self.subTest(words=words):
                self.assertEqual((status, printed), (wanted, ""))
                self.assertTrue(words[:1] == ("add",) or not self.folder.exists(), "a mistyped folder isn't made")
                self.assertNotIn("Traceback", told)
                self.assertIn("moo-people", told)

    def test_accounts_are_held_against_the_world(self):
        """As after an older copy was restored, when numbers are given again. A disabled account is left out."""
        file = self.folder.with_name("world.db")
        make_world(file, 'batch as #3\ncreate(#1)\nset(#4, "name", "Ada")\nset_player_flag(#4, 1)\ncreate(#1)\nend\n')
        service = KeptService(file)
        self.addCleanup(service.stop)
        for name, number in (("ada", 4), ("wizard", 3)):
            self.people("add", name, number, text="pw\n")
        good = (0, "ada #4 Ada player\nwizard #3 Wizard wizard\n", "")
        self.assertEqual(self.people("check", service.port), good)
        for name, number in (("ben", 5), ("cas", 99)):
            self.people("add", name, number, text="pw\n")
        status, printed, told = self.people("check", service.port)
        self.assertEqual(
            (status, printed), (1, "ada #4 Ada player\nben #5  is not a player\ncas #99 isn't there\nwizard #3 Wizard wizard\n")
        )
        self.assertIn("2 of 4 accounts have no player", told)
        for name in ("ben", "cas"):
            self.people("disable", name)
        self.assertEqual(self.people("check", service.port), good)
        service.stop()
        self.assertEqual(self.people("check", service.port)[:2], (1, ""))


if __name__ == "__main__":
    unittest.main()
