"""The words of pages: those that a newcomer doesn't know are explained where they first come; and the page that says what this place is."""

import html.parser
import re
import unittest

from tests.support.forms import FormsTest
from tests.support.pages import Reader, lacking
from tests.support.web import use_web

use_web()

if not lacking():
    from moo_web.pages.about import DEFAULT, LONGEST_TEXT, BadText, text_in
    from moo_web.pages.glossary import GLOSSARY, anchor_of, title_of

# The twenty words that stopped a newcomer, each with the words of a line that explains it.
WORDS = {
    "batch": (r"\bbatch(es)?\b", r"all of them|or none|together|whole or not at all"),
    "World number": (r"\bWorld number\b", "how often"),
    "with contents": (r"\bwith contents\b", "in it"),
    "with children": (r"\bwith children\b", "under it"),
    "fertile": (r"\bfertile\b", "[Ee]verybody may make"),
    "marks": (r"\b[Mm]arks\b", "[Ee]verybody may|[Ww]hether everybody"),
    "r": (r"(?<![\w(])r(?=[:,)])|\(r\)", "list|see what it has|read it|read"),
    "w": (r"(?<![\w(])w(?=[:,)])|\(w\)", "add to|change what|change that|write it|write"),
    "f": (r"(?<![\w(])f(?=[:,)])|\(f\)", "make objects"),
    "rc": (r"\brc\b", "read it"),
    "rwc": (r"\brwc\b", "may read it"),
    "E_PERM": (r"\bE_PERM\b", "[Yy]ou may not|error|isn’t yours|[Pp]ermission|no right"),
    "#-1": (r"#-1\b", "nothing"),
    "it answers": (r"\bit answers\b", "says"),
    "Kept": (r"\bKept\b", "quota"),
    "ownership_quota": (r"\bownership_quota\b", "[Hh]ow many|[Ww]ithout a quota|no quota|may make"),
    "in a new property of theirs": (r"in a new property of theirs", "quota"),
    "generic": (r"\bgeneric\b", "model"),
    "Where it is from": (r"\bWhere it is from\b", "value"),
    "verbs": (r"\b[Vv]erbs?\b", "type"),
}  # fmt: skip
# A line that explains a word is within so many letters of it.
NEAR = 300
PATHS = (
    "/", "/do", "/batch", "/petitions", "/petitions/1", "/history", "/history/2", "/history/3", "/o/8", "/o/6", "/o/4", "/o/3", "/o/9",
    "/o/8/property?name=weight", "/edit/8", "/edit/new", "/edit/new?parent=6", "/class/6", "/do/many", "/do/create", "/do/marks?object=8",
    "/do/accept?object=8", "/do/set?object=8&name=weight", "/do/property-rights?object=8&name=weight", "/do/add-property?object=8",
    "/do/add-verb?object=8", "/do/verb-rights?object=8&verb=1", "/do/delete-verb?object=8&verb=1", "/do/quota?object=4", "/do/player",
    "/do/parent?object=8", "/do/owner?object=8", "/you", "/people", "/quotas", "/find?q=weight", "/map/parents", "/undo/3", "/api", "/roots",
)  # fmt: skip


class Texts(html.parser.HTMLParser):
    """The texts of a page in their order, each with the titles of the elements around it. Calls as they are written, and what was typed, are left out."""

    VOID = ("meta", "link", "input", "br", "img", "wbr")

    def __init__(self, source):
        super().__init__()
        self.open, self.texts = [], []
        self.feed(source)

    def handle_starttag(self, tag, attrs):
        if tag not in self.VOID:
            self.open.append((tag, dict(attrs)))

    def handle_endtag(self, tag):
        while self.open and self.open.pop()[0] != tag:
            pass

    def handle_data(self, data):
        is_code = any(tag in ("textarea", "pre", "title", "option") or tag == "code" and "call" in (at.get("class") or "") for tag, at in self.open)
        is_of_the_world = any(tag == "a" and (at.get("href") or "").startswith("/o/") and "title" not in at for tag, at in self.open)
        if not is_code and not is_of_the_world:
            self.texts.append((" ".join(data.split()), " ".join(at["title"] for _, at in self.open if at.get("title"))))


def unexplained(source):
    """The words on a page without a line that explains them."""
    texts = Texts(source).texts
    whole, titles = "", []
    for text, title in texts:
        titles += [title] * (len(text) + 1)
        whole += text + " "
    # What is between quotes is a value of the world's.
    whole = re.sub("“[^”]*”|\"[^\"]*\"", lambda found: "_" * len(found[0]), whole)
    found = []
    for word, (pattern, means) in WORDS.items():
        first = re.search(pattern, whole)
        if first:
            near = whole[max(0, first.start() - NEAR) : first.end() + NEAR]
            if not re.search(means, titles[first.start()]) and not re.search(means, near.replace(first[0], "")):
                found.append((word, near))
    return found


class Explained(FormsTest):
    def setUp(self):
        super().setUp()
        self.write("bram", 'petition({{"set", #8, "name", "Lamp"}, {"set_property_info", #8, "weight", {#5, "rc"}}})')
        self.write("wizard", "create(#6)", 'set(#9, "name", "generic lamp")', 'add_property(#4, "ownership_quota", 7, {#3, "r"})', 'set(#9, "f", 1)')
        self.write("ada", 'set(#8, "weight", #-1)', 'add_verb(#8, {#4, "rx", "lift"}, {"this", "none", "none"})', "move(#8, #-1)")

    def test_no_word_stands_without_a_line(self):
        count = 0
        for name in ("wizard", "ada"):
            reader = self.somebody(name)
            for path in PATHS:
                page = reader.get(path)
                with self.subTest(path=path, name=name):
                    self.assertEqual(unexplained(page.html), [])
                    count += page.status == 200
        self.assertGreater(count, 50)

    def test_previews_and_refusals(self):
        ada = self.somebody("ada")
        for form, typed in (
            ("/do/create", {"parent": "#6", "names": "Key"}), ("/do/create", {"parent": "#2", "names": "Key"}),
            ("/do/property-rights?object=8&name=weight", {}), ("/do/quota?object=4", {"quota": "20"}), ("/do/move?object=8", {"place": "nowhere"}),
            ("/do/verb-rights?object=8&verb=1", {"names": "lift up"}),
        ):  # fmt: skip
            ada.get(form)
            page = ada.send("Preview", **typed)
            with self.subTest(form=form, **typed):
                self.assertEqual(unexplained(page.html), [])

    def test_the_test_finds_words(self):
        found = {word for word, _ in unexplained("<p>This batch is fertile, by its rwc and verbs, Where it is from: generic, E_PERM, #-1</p>")}
        self.assertEqual(found, {"batch", "fertile", "rwc", "verbs", "Where it is from", "generic", "E_PERM", "#-1"})
        self.assertEqual(unexplained('<p>A <abbr title="all of them, or none">batch</abbr></p>'), [])


class AboutThisPlace(FormsTest):
    def test_strangers_read_it_and_are_told_how_to_come_in(self):
        page = Reader(self.app).get("/in")
        self.assertIn("/about", page.read.links)
        page = Reader(self.app).get("/about")
        self.assertEqual(page.status, 200)
        for paragraph in DEFAULT.split("\n\n"):
            self.assertIn(" ".join(paragraph.split()), page.text)
        self.assertIn("/in", page.read.links)
        for secret in ("Lamp", "Ada", "wizard #3"):
            self.assertNotIn(secret, page.text)

    def test_each_word_has_its_line(self):
        page = self.somebody("ada").get("/about")
        for word, one in GLOSSARY.items():
            self.assertIn(anchor_of(word), page.ids)
            self.assertIn(one.means, page.text)
            self.assertIn(one.means, title_of(word))
        self.assertEqual(len({anchor_of(word) for word in GLOSSARY}), len(GLOSSARY))

    def test_the_operators_text(self):
        from moo_web.pages.site import make_pages
        from moo_web.app import App
        from moo_web.journal.history import History

        file = self.room / "about.txt"
        file.write_bytes("Ein Dorf.\r\nAm Fluss.\r\n\r\n<script>alert(1)</script> & \x07more\n".encode())
        self.app = App(self.told.append)
        make_pages(self.app, self.people, self.writer, History(self.room / "front"), self.rate, about=file).rate.clock = self.clock
        page = Reader(self.app).get("/about")
        self.assertIn("Ein Dorf. Am Fluss. <script>alert(1)</script> & more", page.text)
        self.assertNotIn("<script", page.source)
        self.assertNotIn(DEFAULT[:40], page.text)
        file.write_text("Another village.")
        self.assertIn("Another village.", Reader(self.app).get("/about").text)
        for wrong in (b"\xff", b"x" * (LONGEST_TEXT + 1)):
            file.write_bytes(wrong)
            self.assertRaises(BadText, text_in, file)
            self.assertIn("Another village.", Reader(self.app).get("/about").text)
        file.unlink()
        self.assertIn("Another village.", Reader(self.app).get("/about").text)
        self.assertEqual(len([line for line in self.told if "about.txt" in line]), 3, self.told)


if __name__ == "__main__":
    unittest.main()
