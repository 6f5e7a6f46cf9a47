"""The addresses of the front (web/moo_web/paths.py): what is made is read again, and no page names one that isn't there."""

import re
import unittest

from tests.support.web import WEB, use_web

use_web()

from moo_web.paths import PATHS, Path, form_for, url_for, whole_number  # noqa: E402

GIVEN = {"number": 5, "links": "owned", "tree": "places", "batch": 9, "key": "add-verb", "name": "Ada.2"}
NAMED = re.compile(r'url_for\("([a-z]+)"')


class Addresses(unittest.TestCase):
    def test_what_is_made_is_read(self):
        for name, path in PATHS.items():
            with self.subTest(name):
                parts = {kind: GIVEN[kind] for kind in path.kinds}
                self.assertEqual(path.read(url_for(name, **parts)), tuple(parts.values()))
                others = [other for other in PATHS if other != name and PATHS[other].read(url_for(name, **parts)) is not None]
                self.assertEqual(others, [])

    def test_queries(self):
        for made, wanted in (
            (url_for("object", number=5, page=2), "/o/5?page=2"), (url_for("history", o=None, who="ada b&c"), "/history?who=ada%20b%26c"),
            (url_for("property", number=0, name="a/é#"), "/o/0/property?name=a/%C3%A9%23"), (form_for("create", 7, "place"), "/do/create?place=%237"),
        ):  # fmt: skip
            self.assertEqual(made, wanted)

    def test_what_cant_be(self):
        for name, given, kind in (
            ("object", {}, KeyError), ("nothing", {}, KeyError), ("object", {"number": -1}, ValueError), ("object", {"number": 10**10}, ValueError),
            ("list", {"number": 5, "links": "../x"}, ValueError), ("form", {"key": "a/b"}, ValueError),
        ):  # fmt: skip
            with self.subTest(name, given=given), self.assertRaises(kind):
                url_for(name, **given)
        for text in ("/o/", "/o/x", "/o/5/", "/o/12345678901", "/o/5?", "/O/5", "/o/٣"):
            self.assertIsNone(PATHS["object"].read(text), text)
        self.assertIsNone(Path("/a.b").read("/aXb"))

    def test_a_number_in_a_field(self):
        for text, number in (("0", 0), ("007", 7), ("9" * 19, 10**19 - 1), ("", None), ("-1", None), ("²", None), (" 5", None), ("1" * 20, None)):
            with self.subTest(text=text):
                self.assertEqual(whole_number(text), number)

    def test_pages_name_what_is_there(self):
        named = set()
        for file in [*WEB.glob("moo_web/templates/**/*.html"), *WEB.glob("moo_web/**/*.py")]:
            text = file.read_text()
            named |= set(NAMED.findall(text))
            if file.suffix == ".html":
                self.assertEqual(re.findall(r'(?:href|action)="/[^"]*"', text), [], file)
        self.assertLessEqual(named, set(PATHS))
        self.assertGreater(len(named), 15)


if __name__ == "__main__":
    unittest.main()
