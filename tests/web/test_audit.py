"""Lines about accounts in the log of a front: what they say, that nobody forges one, and the filter of fail2ban over lines that were printed."""

import configparser
import pathlib
import re
import shutil
import subprocess
import tempfile
import unittest
import urllib.parse
from unittest import mock

from tests.support.audits import audited
from tests.support.operating import SECONDS
from tests.support.program import TOP
from tests.support.web import PASSWORD, ask, use_web
from tests.web.test_people import WithPeople
from tests.web.test_serving import ServingTest

use_web()

from moo_web.people import accounts, audit  # noqa: E402
from moo_web.people.audit import audit_line  # noqa: E402
from moo_web.people.tokens import Terms  # noqa: E402
from moo_web.traffic.visitors import Visitor, visiting  # noqa: E402

HOSTILE = 'ada" address=203.0.113.1\nmoo-web: sign-in failed: address=203.0.113.2 name="x\x1b[31m\u202e\x7f\u2028'
NEW = "a password of Ben's own"
FILTER = TOP / "packaging/web/examples/fail2ban/filter.conf"


class Lines(unittest.TestCase):
    def test_what_a_line_is(self):
        self.assertEqual(audit_line("account made", name="ada", number=4, by="wizard"), 'account made: name="ada" number=4 by="wizard"')
        self.assertEqual(audit_line("sign-in failed", address="192.0.2.1", name=""), "sign-in failed: address=192.0.2.1")
        self.assertEqual(audit_line("sign-in failed", address="2001:db8::1"), "sign-in failed: address=2001:db8::1")

    def test_what_others_typed_makes_no_line(self):
        line = audit_line("sign-in failed", address="1.2.3.4 x\n", name=HOSTILE)
        self.assertTrue(line.isascii() and line.isprintable(), line)
        self.assertTrue(line.startswith(r'sign-in failed: address="1.2.3.4 x\n" name="ada\" address=203.0.113.1\nmoo-web: '), line)
        self.assertLess(len(audit_line("sign-in failed", name="\u202e" * 1_000_000)), 500)
        # The name of an account may look like an address.
        self.assertEqual(audit_line("signed in", name="192.0.2.1"), 'signed in: name="192.0.2.1"')


class Done(WithPeople):
    """What is done to accounts, each with its line."""

    def setUp(self):
        super().setUp()
        self.counts = []
        self.lines = audited(self.people, self.counts.append)

    def said(self):
        """The lines since this was asked last."""
        lines, self.lines[:] = list(self.lines), []
        return lines

    def test_each_has_its_line(self):
        token = ""
        with visiting(Visitor("192.0.2.9", "wizard")):
            self.people.add("ben", 5, "a password of Ben's")
            token = self.people.tokens.make("ben")
            self.people.tokens.end_all("ben")
            self.people.set_password("ben", "another password")
            self.people.disable("ben")
            self.people.enable("ben")
        by = 'name="ben" by="wizard"'
        lines = self.said()
        self.assertEqual(lines, [
            'account made: name="ben" number=5 by="wizard"', f"token made: {by}", f"tokens ended: {by}", f"password changed: {by}",
            f"account disabled: {by}", f"account enabled: {by}",
        ])  # fmt: skip
        self.assertNotIn(token, "\n".join(lines))
        self.assertEqual(self.counts[:2], ["account made", "token made"])

    def test_what_is_done_to_one_of_several(self):
        by = 'name="ben" by="wizard"'
        with visiting(Visitor("192.0.2.9", "wizard")):
            secrets = [self.people.add_by_link("ben", 5)]
            secrets.append(self.people.links.make("ben"))
            for terms in (Terms("bot", 90, True), Terms("old"), Terms()):
                secrets.append(self.people.tokens.make("ben", terms))
            self.people.tokens.end("ben", "old")
            for one in self.people.tokens.of("ben"):
                self.people.tokens.end_one("ben", one.mark)
            self.people.renumber("ben", 6)
        done = self.said()
        self.assertEqual(done, [
            'account made: name="ben" number=5 by="wizard"', f"link made: {by}", f"link made: {by}",
            'token made: name="ben" label="bot" days=90 read_only="yes" by="wizard"', 'token made: name="ben" label="old" by="wizard"',
            f"token made: {by}", 'tokens ended: name="ben" label="old" by="wizard"', f"token ended: {by}", 'token ended: name="ben" label="bot" by="wizard"',
            'account renumbered: name="ben" number=6 before=5 by="wizard"',
        ])  # fmt: skip
        self.people.links.use(secrets[1], NEW)
        secrets.append(self.people.enter("ben", "192.0.2.7").secret)
        self.people.end_session("ben", self.people.sessions_of("ben")[0].mark)
        self.people.remove("ben")
        lines = self.said()
        self.assertEqual(lines, [
            'link used: name="ben"', 'signed in: address=192.0.2.7 name="ben"', 'session ended: name="ben"',
            'account removed: name="ben" number=6',
        ])  # fmt: skip
        for secret in (*secrets, NEW):
            self.assertNotIn(secret, "\n".join(done + lines))

    def test_what_cannot_be_done_has_none(self):
        for act in (
            lambda: self.people.disable("nobody"), lambda: self.people.add("ada", 4, "x"), lambda: self.people.remove("nobody"),
            lambda: self.people.renumber("nobody", 5), lambda: self.people.links.make("nobody"), lambda: self.people.tokens.end("ada", "none"),
        ):  # fmt: skip
            with self.assertRaises(Exception):
                act()
        self.assertIsNone(self.people.links.use("no link", NEW))
        self.assertIsNone(self.people.tokens.end_one("ada", "no mark"))
        self.assertFalse(self.people.end_session("ada", "no mark"))
        self.assertEqual(self.said(), [])

    def test_who_comes_in(self):
        secret = self.sign_in().secret
        self.assertEqual(self.said(), ['signed in: address=192.0.2.1 name="ada"'])
        self.people.sign_out(secret)
        self.people.sign_out(secret)
        self.assertEqual(self.said(), ['signed out: name="ada"'])
        self.fail()
        self.fail_with(PASSWORD, HOSTILE)
        lines = self.said()
        self.assertEqual(lines[0], 'sign-in failed: address=192.0.2.1 name="ada"')
        self.assertEqual((len(lines), lines[1].isprintable()), (2, True))
        for _ in range(4):
            self.fail()
        self.said()
        self.wait_of()
        self.assertEqual(self.said(), ["sign-in refused: address=192.0.2.1"])


class Program(unittest.TestCase):
    """moo-people, whose lines go to the log of the system."""

    def test_what_the_system_is_told(self):
        with tempfile.TemporaryDirectory() as room, mock.patch.object(audit.syslog, "syslog") as log:
            with mock.patch("sys.argv", ["moo-people", room, "add", "ada", "4"]), mock.patch.object(accounts, "read_password", lambda: PASSWORD):
                accounts.main()
        (priority, line), _ = log.call_args
        self.assertEqual(priority, audit.syslog.LOG_NOTICE)
        self.assertRegex(line, r'^moo-people: account made: name="ada" number=4 by="the user \w+"$')


class Printed(ServingTest):
    """Lines that a front really printed."""

    def sign_in(self, front, name, password, address):
        body = urllib.parse.urlencode({"name": name, "password": password})
        head = {"Content-Type": "application/x-www-form-urlencoded", "X-Forwarded-For": address}
        return ask(front.port, "POST", "/in", body, head=head)[0]

    def test_the_filter_of_fail2ban(self):
        front = self.front("--proxy", "127.0.0.1")
        self.assertEqual(self.sign_in(front, "wizard", PASSWORD, "198.51.100.1"), 303)
        self.assertEqual(self.sign_in(front, "wizard", "wrong", "198.51.100.2"), 403)
        self.assertEqual(self.sign_in(front, HOSTILE, "wrong", "2001:db8::7"), 403)
        self.assertEqual(self.sign_in(front, "nobody", "wrong", "198.51.100.3 name"), 403)
        self.assertEqual(ask(front.port, "GET", "/api/seq", token="moo_wrong")[0], 401)
        lines = front.said().splitlines()
        self.assertIn('moo-web: signed in: address=198.51.100.1 name="wizard"', lines)
        self.assertIn('moo-web: sign-in failed: address=198.51.100.2 name="wizard"', lines)
        self.assertIn("moo-web: token refused: address=127.0.0.1", lines)
        self.assertNotIn(PASSWORD, front.said())
        self.assertNotIn("moo_wrong", front.said())
        found = [match[1] for line in lines if (match := expression().search(line))]
        self.assertEqual(found, ["198.51.100.2", "2001:db8::7"])
        self.by_fail2ban(lines, found)

    def by_fail2ban(self, lines, found):
        """The same by fail2ban itself, if it is there, with what it puts before the lines of journald."""
        if not shutil.which("fail2ban-regex"):
            return
        log = self.room / "log"
        # The filter is in the folder of those that come with fail2ban.
        for file in (FILTER, pathlib.Path("/etc/fail2ban/filter.d/common.conf")):
            shutil.copy(file, self.room / file.name)
        log.write_text("".join(f"Nov 29 12:00:{number:02d} host moo-web[7]: {line}\n" for number, line in enumerate(lines)))
        words = ["fail2ban-regex", "--out=ip", str(log), str(self.room / FILTER.name)]
        ran = subprocess.run(words, stdout=subprocess.PIPE, stderr=subprocess.STDOUT, text=True, timeout=SECONDS, check=False)
        self.assertEqual(ran.stdout.split(), found)


def expression():
    """The regular expression of the filter, with what fail2ban puts into it."""
    read = configparser.RawConfigParser()
    read.read_string(FILTER.read_text())
    text = read["Definition"]["failregex"]
    return re.compile(text.replace("%(__prefix_line)s", "").replace("<ADDR>", r"((?:\d{1,3}\.){3}\d{1,3}|[0-9a-f:]*:[0-9a-f:.]*)"))


if __name__ == "__main__":
    unittest.main()
