"""Lists that are sorted and filtered by their addresses; and the pages of scripts, of which one is put into the editor of another person."""

import re
import unittest
from unittest import mock

from tests.support.pages import PagesTest, lacking, tidied

if not lacking():
    from moo_web.pages import scripts

NUMBERS = re.compile(r'<tr role="row"><td role="cell"><a href="/o/(\d+)"')
# #4 is a class with the classes #5 and #6 under it; the players Ada #7 and Ben #8; then things of theirs, #9 to #14.
WORLD = """batch as #3
create(#1)
set(#4, "name", "generic fruit")
create(#4)
set(#5, "name", "generic pear")
create(#5)
set(#6, "name", "generic Williams")
create(#1, #-1)
set(#7, "name", "Ada")
set_player_flag(#7, 1)
create(#1, #-1)
set(#8, "name", "ben")
set_player_flag(#8, 1)
create(#4, #8)
set(#9, "name", "plum")
create(#4, #7)
set(#10, "name", "Apple")
create(#4, #7)
create(#4)
set(#12, "name", "apple pie")
move(#12, #2)
create(#6, #8)
set(#13, "name", "bottle")
create(#5, #7)
set(#14, "name", "old apple")
set(#4, "f", 1)
set(#4, "r", 1)
add_property(#4, "taste", "sour", {#7, "rc"})
set(#10, "taste", "sweet, says #9")
end
"""


class ListTest(PagesTest):
    world = WORLD
    numbers = {"wizard": 3, "ada": 7, "ben": 8}

    def listed(self, path, reader=None):
        """The numbers of the objects on a page, in their order."""
        answer = (reader or self.reader("ben")).get(path)
        self.assertEqual(answer.status, 200, answer.text)
        return [int(number) for number in NUMBERS.findall(answer.source)]


class Orders(ListTest):
    def test_each(self):
        """Names in any case of letters, and the unnamed first; the same by their numbers."""
        ben = self.reader("ben")
        for query, wanted in (
            ("", [5, 9, 10, 11, 12]), ("?sort=number", [5, 9, 10, 11, 12]), ("?down=on", [12, 11, 10, 9, 5]),
            ("?sort=name", [11, 10, 12, 5, 9]), ("?sort=name&down=on", [9, 5, 12, 10, 11]),
            ("?sort=owner", [10, 11, 9, 5, 12]), ("?sort=where", [5, 9, 10, 11, 12]), ("?sort=where&down=on", [12, 11, 10, 9, 5]),
            ("?sort=nonsense&down=1", [5, 9, 10, 11, 12]),
        ):
            with self.subTest(query):
                self.assertEqual(self.listed(f"/o/4/children{query}", ben), wanted)
        self.assertEqual(self.listed("/o/7/owned?sort=kind", ben), [10, 11, 14, 7])
        self.assertEqual(self.listed("/roots?sort=name", ben), [1])

    def test_filters(self):
        ben = self.reader("ben")
        for query, wanted in (
            ("?name=APPLE", [10, 12]), ("?owner=Ada", [10, 11]), ("?owner=%237&name=apple", [10]), ("?owner=8&sort=name&down=on", [9]),
            ("?kind=generic+fruit", [5, 9, 10, 11, 12]), ("?kind=%236", []), ("?name=%20", [5, 9, 10, 11, 12]), ("?owner=99", []),
        ):
            with self.subTest(query):
                self.assertEqual(self.listed(f"/o/4/children{query}", ben), wanted)
        self.assertEqual(self.listed("/nowhere?kind=generic+pear", ben), [6, 13, 14])
        self.assertEqual(self.listed("/nowhere?kind=%234&owner=ben&sort=name", ben), [13, 9])
        page = ben.get("/o/4/children?owner=nobody+of+this+name")
        self.assertIn("No object is named like “nobody of this name”.", page.text)
        self.assertIn("0 of 5.", page.text)

    def test_the_address_is_kept_from_part_to_part(self):
        self.write("wizard", *(f"create(#4, #{7 + number % 2})" for number in range(250)))
        ben = self.reader("ben")
        path, found = "/o/4/children?owner=ben&sort=number&down=on", []
        while path:
            page = ben.get(path)
            found += [int(number) for number in NUMBERS.findall(page.source)]
            path = next((f"/o/4/children{link}" for link in page.read.links if f"page={len(found) // 100 + 1}" in link and len(found) % 100 == 0), None)
        mine = [number for number, thing in self.pages.index.world().things.items() if thing.parent == 4 and thing.owner == 8]
        self.assertEqual(found, mine[::-1])

    def test_heads_turn_the_order_round(self):
        ben = self.reader("ben")
        page = ben.get("/o/4/children?name=apple&sort=name")
        self.assertIn("?name=apple&sort=name&down=on", page.read.links)
        self.assertIn("?name=apple&sort=owner", page.read.links)
        self.assertIn('aria-sort="ascending"', page.source)
        self.assertEqual(tidied(page), "")
        hostile = ben.get("/o/4/children?name=%22%3E%3Cscript%3E&owner=%22%3E%3Cscript%3E&sort=%22%3E")
        self.assertNotIn("<script", hostile.source)
        self.assertEqual(tidied(hostile), "")


class Scripts(ListTest):
    def test_the_page_and_the_file(self):
        ada = self.reader("ada")
        page = ada.get("/o/10/script")
        self.assertEqual(tidied(page), "")
        self.assertIn("1 object, ", page.text)
        saved = ada.get("/o/10/script.moo?with=children")
        self.assertEqual(saved.head["Content-Type"], "text/plain; charset=us-ascii")
        self.assertEqual(saved.head["Content-Disposition"], 'attachment; filename="apple.moo"')
        self.assertIn(saved.source.splitlines()[-2], page.text)
        self.assertIn('set($apple, "taste", "sweet, says #9")\n', saved.source)
        self.assertEqual(ada.get("/o/99/script").status, 404)
        self.assertEqual(ada.get("/o/99/script.moo").status, 404)
        self.assertIn("/o/10/script", ada.get("/o/10").read.links)

    def test_what_it_is_exported_with(self):
        wizard = self.reader("wizard")
        self.assertIn("With what inherits from it", re.sub("<[^>]*>", "", str(re.search("<b>.*?</b>", wizard.get("/o/4/script").source))))
        self.assertIn("With what is in it", str(re.search("<b>.*?</b>", wizard.get("/o/2/script").source)))
        self.assertIn("Wizard #3 is a player, and isn’t made anew".replace("’", "'"), wizard.get("/o/2/script").text)
        self.assertIn("9 objects", wizard.get("/o/4/script?with=children").text)
        self.assertIn("1 object, ", wizard.get("/o/4/script?with=contents").text)

    def test_into_the_editor_of_somebody_else(self):
        """What was Ada's is Ben's then."""
        text = self.reader("ada").get("/o/10/script.moo").source
        ben = self.reader("ben")
        fields = {"text": text, "form": ben.token(), "go": "preview"}
        page = ben.post("/batch", fields)
        self.assertEqual(page.status, 200, page.text)
        form = page.read.form("/batch")["fields"]
        done = ben.post("/batch", {**form, "text": text, "go": "apply"})
        self.assertEqual(done.status, 303, done.text)
        world = self.pages.index.world()
        made = world.things[world.top]
        self.assertEqual((made.name, made.owner, made.parent), ("Apple", 8, 4))
        self.assertEqual(self.write("ben", f'get(#{made.number}, "taste")'), ['"sweet, says #9"'])

    def test_too_much_for_a_page(self):
        patch = mock.patch.object(scripts, "MOST_READ", 20)
        patch.start()
        self.addCleanup(patch.stop)
        page = self.reader("wizard").get("/o/4/script")
        self.assertIn("That is too much for a page. In moo-shell \\export #4 children FILE writes it to a file.", page.text)
        self.assertEqual(self.reader("wizard").get("/o/4/script.moo").status, 200)


if __name__ == "__main__":
    unittest.main()
