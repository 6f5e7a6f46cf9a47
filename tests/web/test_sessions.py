"""Sessions in cookies, and forms: what a browser is given and for how long, and what a page of a stranger can't do."""

import itertools
import unittest

from tests.support.pages import HOST, PagesTest, Reader
from tests.support.web import PASSWORD

HOUR, DAY = 3600.0, 86400.0
NEW = "another password"


class SessionsTest(PagesTest):
    numbers = {"wizard": 3}

    def is_in(self, reader):
        """Whether somebody sees the world."""
        status = reader.get("/").status
        self.assertIn(status, (200, 401))
        return status == 200


class Cookies(SessionsTest):
    def test_the_cookie(self):
        reader = self.reader()
        answer = reader.sign_in("wizard", to="/o/3")
        self.assertEqual((answer.status, answer.head["Location"]), (303, "/o/3"))
        name, _, rest = answer.head["Set-Cookie"].partition("=")
        secret, *flags = rest.split("; ")
        self.assertEqual(name, "__Host-moo")
        self.assertGreaterEqual(len(secret), 43)
        self.assertEqual(set(flags), {"Path=/", "Secure", "HttpOnly", "SameSite=Lax", "Max-Age=604800"})
        self.assertTrue(self.is_in(reader))

    def test_other_cookies_are_nothing(self):
        reader, signed = self.reader(), self.reader("wizard")
        secret = signed.cookies["__Host-moo"]
        for name, value in (
            ("__Host-moo", "x"), ("__Host-moo", ""), ("__Host-moo", secret + "x"), ("moo", secret), ("__host-moo", secret), ("", secret),
        ):  # fmt: skip
            reader.cookies = {name: value}
            with self.subTest(name=name):
                self.assertFalse(self.is_in(reader))
        reader.cookies = {"a": "b", "__Host-moo": secret, "c": "d=e"}
        self.assertTrue(self.is_in(reader))

    def test_one_that_a_stranger_chose_is_not_kept(self):
        reader = self.reader()
        reader.cookies["__Host-moo"] = chosen = "x" * 43
        self.assertEqual(reader.sign_in("wizard").status, 303)
        self.assertNotEqual(reader.cookies["__Host-moo"], chosen)
        stranger = self.reader()
        stranger.cookies["__Host-moo"] = chosen
        self.assertEqual([self.is_in(one) for one in (reader, stranger)], [True, False])

    def test_it_ends_twelve_hours_after_its_last_use_and_after_seven_days(self):
        reader = self.reader("wizard")
        self.now += 11.9 * HOUR
        self.assertTrue(self.is_in(reader))
        self.now += 12.1 * HOUR
        self.assertFalse(self.is_in(reader))
        reader = self.reader("wizard")
        for _ in range(15):
            self.now += 11 * HOUR
            self.assertTrue(self.is_in(reader))
        self.now += 11 * HOUR
        self.assertFalse(self.is_in(reader))

    def test_it_ends_at_sign_out(self):
        reader, other = self.reader("wizard"), self.reader("wizard")
        old = dict(reader.cookies)
        answer = reader.post("/out", {"form": reader.token()})
        self.assertEqual((answer.status, answer.head["Location"]), (303, "/in?said=out"))
        self.assertEqual(reader.cookies, {})
        reader.cookies = old
        self.assertFalse(self.is_in(reader))
        self.assertTrue(self.is_in(other))
        self.assertIn("You are signed out.", reader.get("/in?said=out").text)

    def test_signing_in_again_ends_the_older_session_of_the_browser(self):
        reader = self.reader("wizard")
        old = dict(reader.cookies)
        reader.sign_in("wizard")
        self.assertTrue(self.is_in(reader))
        reader.cookies = old
        self.assertFalse(self.is_in(reader))

    def test_it_ends_if_the_account_is_disabled(self):
        reader = self.reader("wizard")
        self.people.disable("wizard")
        self.assertFalse(self.is_in(reader))
        self.assertEqual(reader.sign_in("wizard").status, 403)

    def test_the_api_takes_no_cookie(self):
        reader = self.reader("wizard")
        for method, path in (("GET", "/api/seq"), ("POST", "/api/batch"), ("GET", "/api/dump"), ("GET", "/api/nothing")):
            answer = reader.asked(method, path, b'{"calls":["max_object()"]}')
            self.assertEqual((answer.status, answer.bytes), (401, b'{"error":"unauthorized"}'))


class Passwords(SessionsTest):
    def change(self, reader, old=PASSWORD, new=NEW, again=None):
        return reader.post("/you/password", {"form": reader.token(), "old": old, "new": new, "again": new if again is None else again})

    def test_ones_own_password(self):
        reader, other = self.reader("wizard"), self.reader("wizard")
        answer = self.change(reader)
        self.assertEqual((answer.status, answer.head["Location"]), (303, "/in?said=password"))
        self.assertEqual([self.is_in(one) for one in (reader, other)], [False, False])
        self.assertEqual(self.reader().sign_in("wizard").status, 403)
        self.assertEqual(self.reader().sign_in("wizard", NEW).status, 303)

    def test_what_cannot_be_a_new_one(self):
        reader = self.reader("wizard")
        for how, status, told in (
            ({"old": "wrong"}, 403, "That isn’t your present password."), ({"new": "short"}, 400, "at least 8 letters"),
            ({"again": "something else"}, 400, "aren’t the same"), ({"new": "x" * 1025}, 400, "1 to 1024 letters"),
        ):  # fmt: skip
            answer = self.change(reader, **how)
            with self.subTest(how=str(how)[:40]):
                self.assertEqual(answer.status, status)
                self.assertIn(told, answer.text)
        self.assertTrue(self.is_in(reader))
        self.assertEqual(self.reader().sign_in("wizard").status, 303)

    def test_guessing_it_has_to_wait(self):
        reader = self.reader("wizard")
        statuses = [self.change(reader, old=f"guess {number}").status for number in range(7)]
        self.assertEqual(statuses, [403] * 5 + [429] * 2)

    def test_blanks_around_a_name_are_left_out(self):
        """Telephones put one after a word."""
        self.assertEqual(self.reader().sign_in(" Wizard\t").status, 303)

    def test_wrong_sign_ins_wait(self):
        reader = self.reader()
        answers = [reader.sign_in("wizard", "wrong") for _ in range(6)]
        self.assertEqual([answer.status for answer in answers], [403] * 5 + [429])
        self.assertIn("Too many tries. Wait", answers[-1].text)
        self.assertGreaterEqual(int(answers[-1].head["Retry-After"]), 1)
        self.assertIn("don’t go together", answers[0].text)
        self.assertEqual(reader.sign_in("nobody").status, 403)
        self.assertEqual(Reader(self.app, "198.51.100.7").sign_in("wizard").status, 303, "from elsewhere")


class Strangers(SessionsTest):
    """A page of another site makes the person's browser send forms."""

    def test_a_form_of_another_site(self):
        reader = self.reader("wizard")
        token = reader.token()
        for lines in (
            {"HTTP_SEC_FETCH_SITE": "cross-site", "HTTP_ORIGIN": "https://evil.example"}, {"HTTP_SEC_FETCH_SITE": "same-site"},
            {"HTTP_SEC_FETCH_SITE": "none"},
            {"HTTP_SEC_FETCH_SITE": "", "HTTP_ORIGIN": "https://evil.example"}, {"HTTP_SEC_FETCH_SITE": "", "HTTP_ORIGIN": "null"},
            {"HTTP_SEC_FETCH_SITE": "", "HTTP_ORIGIN": f"https://{HOST}.evil.example"},
        ):  # fmt: skip
            for path, fields in (("/out", {"form": token}), ("/you/password", {"form": token, "old": PASSWORD, "new": NEW, "again": NEW})):
                answer = reader.post(path, fields, **lines)
                with self.subTest(lines=lines, path=path):
                    self.assertEqual((answer.status, answer.read.title), (403, "Not from here · moo"))
        self.assertTrue(self.is_in(reader))
        self.assertEqual(self.reader().sign_in("wizard").status, 303)

    def test_each_site_with_each_token(self):
        """A form acts if it has the session's own token, and the browser says that it is of this site, or says nothing of another one."""
        reader = self.reader("wizard")
        token = reader.token()
        origins = {
            "": True, f"http://{HOST}": True, f"https://{HOST}": True, "https://evil.example": False, "null": False, f"https://evil@{HOST}": False,
            f"https://{HOST}.evil.example": False, f"https://{HOST}:1": False, "http://localhost": False,
        }  # fmt: skip
        sites = {"": None, "same-origin": True, "same-site": False, "cross-site": False, "none": False, "bogus": False}
        tokens = {token: True, "": False, "x" * 22: False, token[:-1]: False}
        for origin, site, given in itertools.product(origins, sites, tokens):
            is_ours = origins[origin] if sites[site] is None else sites[site]
            answer = reader.post("/you/zone", {"form": given, "zone": "UTC"}, HTTP_ORIGIN=origin, HTTP_SEC_FETCH_SITE=site)
            with self.subTest(origin=origin, site=site, token=tokens[given]):
                self.assertEqual(answer.status, 303 if is_ours and tokens[given] else 403)

    def test_a_form_without_the_sessions_own_token(self):
        reader, other = self.reader("wizard"), self.reader("wizard")
        for fields in ({}, {"form": ""}, {"form": "x"}, {"form": other.token()}, {"form": reader.cookies["__Host-moo"]}):
            for lines in ({}, {"HTTP_SEC_FETCH_SITE": "", "HTTP_ORIGIN": ""}):
                answer = reader.post("/out", fields, **lines)
                with self.subTest(fields=list(fields.values()), lines=lines):
                    self.assertEqual(answer.status, 403)
        self.assertTrue(self.is_in(reader))

    def test_an_older_browser_that_says_less(self):
        reader = self.reader("wizard")
        token = reader.token()
        self.assertEqual(reader.post("/out", {"form": token}, HTTP_SEC_FETCH_SITE="", HTTP_ORIGIN="").status, 303)

    def test_a_stranger_cannot_sign_a_browser_in(self):
        reader = self.reader()
        for lines in ({"HTTP_SEC_FETCH_SITE": "cross-site"}, {"HTTP_SEC_FETCH_SITE": "", "HTTP_ORIGIN": "https://evil.example"}):
            answer = reader.post("/in", {"name": "wizard", "password": PASSWORD, "to": "/"}, **lines)
            self.assertEqual(answer.status, 403)
        self.assertEqual(reader.cookies, {})

    def test_a_form_of_an_old_session_leads_to_signing_in(self):
        reader = self.reader("wizard")
        token = reader.token()
        self.now += 8 * DAY
        answer = reader.post("/you/zone", {"form": token, "zone": "UTC"}, HTTP_REFERER=f"https://{HOST}/you?x=1")
        self.assertEqual((answer.status, answer.read.form("/in")["fields"]["to"]), (401, "/you?x=1"))
        answer = reader.post("/you/zone", {"form": token, "zone": "UTC"}, HTTP_REFERER="https://evil.example/you")
        self.assertEqual((answer.status, answer.read.form("/in")["fields"]["to"]), (401, "/"))

    def test_where_a_sign_in_leads_is_of_this_front(self):
        for to in (
            "//evil.example", "https://evil.example", "/\\evil.example", "\\\\evil.example", "javascript:alert(1)", "", "o/3",
            "/\t/evil.example", "/é", "///evil.example", " //evil.example", "/in\r\nX: y", "javascript:alert(1)//",
        ):  # fmt: skip
            with self.subTest(to=to):
                self.assertEqual(self.reader().sign_in("wizard", to=to).head["Location"], "/")
                self.assertEqual(self.reader().get("/in", QUERY_STRING=f"to={to}").read.form("/in")["fields"]["to"], "/")

    def test_a_name_that_would_be_a_line_of_the_head(self):
        for name in ("ada\r\nSet-Cookie: a=b", "a" * 65, "\x00", "ada\u2028"):
            answer = self.reader().post("/in", {"name": name, "password": PASSWORD, "to": "/"})
            with self.subTest(name=name):
                self.assertIn(answer.status, (403, 429))
                self.assertNotIn("a=b", str(answer.head))

    def test_pages_that_change_something_answer_no_get(self):
        reader = self.reader("wizard")
        for path in ("/out", "/you/password", "/you/zone"):
            answer = reader.get(path)
            self.assertEqual((answer.status, answer.head["Allow"]), (405, "POST"))
        for path, status in (("/", 200), ("/out", 405), ("/o/99", 404), ("/api/seq", 401)):
            answer = reader.asked("HEAD", path)
            self.assertEqual((answer.status, answer.bytes), (status, b""))
        self.assertTrue(self.is_in(reader))


class Floods(SessionsTest):
    rate = 1.0

    def test_an_address_that_asks_for_very_much(self):
        reader = self.reader()
        answers = [reader.get("/in") for _ in range(25)]
        self.assertEqual(answers[0].status, 200)
        last = answers[-1]
        self.assertEqual((last.status, last.read.title, last.head["Retry-After"]), (429, "Too many at once · moo", "1"))
        self.assertEqual(Reader(self.app, "198.51.100.7").get("/in").status, 200)

    def test_many_fields(self):
        """They count as none."""
        reader = self.reader()
        self.assertEqual(reader.get("/in?" + "&".join(f"a{number}=1" for number in range(200))).status, 200)
        self.assertEqual(reader.asked("POST", "/in", b"&".join(b"a%d=1" % number for number in range(10_001))).status, 403)
        self.assertEqual(reader.get("/in?" + "%ff=%00&" * 50 + "to=%2f%2fevil.example").status, 200)
        self.assertEqual(self.told[1:], [])

    def test_long_forms(self):
        answer = self.reader().asked("POST", "/in", b"x" * 1_048_577)
        self.assertEqual((answer.status, answer.read.title), (413, "Too large · moo"))


class Failures(SessionsTest):
    """What is told in plain words if moo, or its journal, isn't as it should be."""

    def test_moo_that_does_not_answer(self):
        from moo_web.world import index

        self.addCleanup(setattr, index, "QUESTION_SECONDS", index.QUESTION_SECONDS)
        index.QUESTION_SECONDS = 0.2
        reader = self.reader("wizard")
        self.moo.rest = SECONDS_AWAY
        self.moo.kill()
        answer = reader.get("/")
        self.assertEqual((answer.status, answer.read.title), (503, "Busy · moo"))
        self.assertEqual(reader.get("/you").status, 200)

    def test_a_file_of_accounts_that_cannot_be_read(self):
        import sqlite3

        def failing(secret):
            raise sqlite3.OperationalError("disk I/O error")

        reader = self.reader("wizard")
        self.people.session = failing
        answer = reader.get("/")
        self.assertEqual((answer.status, answer.read.title), (500, "Something is wrong · moo"))

    def test_what_the_front_itself_does_wrong(self):
        def wrong(visit):
            raise RuntimeError("a secret of the front")

        self.pages.get("/wrong", wrong)
        answer = self.reader("wizard").get("/wrong")
        self.assertEqual((answer.status, answer.read.title), (500, "Something is wrong · moo"))
        self.assertNotIn("secret", answer.source)
        self.assertIn("a secret of the front", self.told[-1])

    def test_unknown_and_gap(self):
        from moo_web.journal.jobs import Stopped, Unknown

        for path, failure, title, told in (
            ("/unknown", Unknown(41), "Not decided yet · moo", "on its way for number 41"),
            ("/gap", Stopped("x"), "Closed for writing · moo", "An operator has to look at it."),
        ):

            def fails(visit, failure=failure):
                raise failure

            self.pages.get(path, fails)
            answer = self.reader("wizard").get(path)
            self.assertEqual((answer.status, answer.read.title), (503, title))
            self.assertIn(told, answer.text)


SECONDS_AWAY = 30

if __name__ == "__main__":
    unittest.main()
