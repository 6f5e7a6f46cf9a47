"""A class with its children as a table: cells, new rows, columns, and how many pages they take (web/moo_web/forms/table.py)."""

import unittest

from tests.web.test_one_form import TASTE, OneFormTest

from moo_web.forms.entries import property_key  # noqa: E402


def cell(number, name):
    """The key of a cell of a child."""
    return property_key(f"c{number}-", name)


def new(row, name):
    """The key of a cell of a new row."""
    return property_key(f"n{row}-", name)


class Tables(OneFormTest):
    def test_ten_things_with_ten_values_in_three_pages(self):
        ada = self.somebody("ada")
        pages = [ada.get("/class/9")]
        names = {f"n{row}-name": f"apple {row}" for row in range(1, 11)}
        pages.append(ada.send("Preview", **names, **{new(row, "weight"): str(row * 10) for row in range(1, 11)}, place="The Square"))
        self.has(ada.page, "This would be done", "The new object #20 is called “apple 10”.", status=200)
        pages.append(ada.send("Do it"))
        self.is_done(ada.page)
        self.assertLessEqual(len(pages), 3)
        self.assertEqual(self.writer.seq, 2, "it is one batch")
        self.assertEqual([self.answered(f'get(#{10 + row}, "weight")') for row in range(1, 11)], [str(row * 10) for row in range(1, 11)])
        self.assertEqual([self.answered(f'get(#{10 + row}, "{what}")') for row, what in ((1, "name"), (10, "location"))], ['"apple 1"', "#6"])
        self.assertEqual(self.answered('is_clear_property(#11, "taste")'), "1")

    def test_a_table_that_isnt_touched_changes_nothing(self):
        ada = self.somebody("ada")
        ada.get("/class/9")
        self.has(ada.send("Preview"), "nothing would change", status=200)
        self.assertEqual(self.writer.seq, 1)

    def test_what_is_there_and_what_differs(self):
        self.write("wizard", 'set(#10, "taste", "sour")', 'set(#10, "maker", #8)')
        ada = self.somebody("ada")
        page = ada.get("/class/9")
        got = ada.typed()
        self.assertEqual(
            [got[key] for key in ("c10-name", cell(10, "weight"), cell(10, "taste"), cell(10, "maker"))], ["apple", "", "sour", "The Chapel #8"]
        )
        self.assertIn('placeholder="1"', page.html, "what is inherited is in grey")
        self.assertNotIn("hidden", page.text)
        typed = {"c10-name": "pear", cell(10, "weight"): "3", cell(10, "taste"): "", cell(10, "maker"): "Ada", cell(10, "parts"): "{2, Mill Lane}"}
        self.has(ada.send("Preview", **typed), "This would be done", 'name now: "apple"', status=200)
        self.is_done(ada.send("Do it"))
        self.assertEqual(
            [self.answered(f'get(#10, "{name}")') for name in ("name", "weight", "taste", "maker", "parts")],
            ['"pear"', "3", '"none"', "#4", "{2, #7}"],
        )
        self.assertEqual(self.answered('is_clear_property(#10, "taste")'), "1", "an empty cell has what its class has")

    def test_an_empty_text_and_another_kind_in_quotes(self):
        ada = self.somebody("ada")
        ada.get("/class/9")
        self.is_done([ada.send("Preview", **{cell(10, "taste"): '""', cell(10, "weight"): '"much"'}), ada.send("Do it")][1])
        self.assertEqual([self.answered(f'get(#10, "{name}")') for name in ("taste", "weight")], ['""', '"much"'])
        ada.get("/class/9")
        self.assertEqual((ada.typed()[cell(10, "taste")], ada.typed()[cell(10, "weight")]), ('""', "much"))

    def test_mistakes_stand_in_their_cells(self):
        ada = self.somebody("ada")
        for typed, key, words in (
            ({cell(10, "weight"): "heavy"}, cell(10, "weight"), "weight of apple: “heavy” isn’t a number"),
            ({cell(10, "maker"): "Chapel"}, cell(10, "maker"), "maker of apple: No object is named “Chapel”"),
            ({new(2, "weight"): "3"}, "n2-name", "Name of new object 2: A name is missing."),
            ({"n1-name": "plum", new(1, "parts"): "{1, 2"}, new(1, "parts"), "A list has as many { as }"),
            ({"n1-name": "plum", "place": "Chapel"}, "place", "No object is named “Chapel”. Is it one of these?"),
        ):
            with self.subTest(typed=typed):
                ada.get("/class/9")
                self.has(ada.send("Preview", **typed), words, status=422)
                self.assertIn(f'id="f-{key}-wrong"', ada.page.html)
                self.assertEqual({name: ada.typed()[name] for name in typed}, typed)

    def test_a_refusal_is_in_its_row(self):
        ada = self.somebody("ada")
        self.write("wizard", 'add_property(#4, "ownership_quota", 1, {#3, "r"})')
        ada.get("/class/9")
        page = ada.send("Preview", **{"n1-name": "plum", "n2-name": "fig"})
        self.has(page, "This would be refused.", "E_QUOTA", "Name of new object 2", status=409)

    def test_more_rows_and_other_columns(self):
        ada = self.somebody("ada")
        ada.get("/class/9")
        ada.send("More rows", **{"n1-name": "plum"})
        self.assertEqual(ada.typed()["n1-name"], "plum")
        ada.send("Preview", **{"n20-name": "fig"})
        self.has(ada.page, "is called “plum”", "is called “fig”", status=200)
        ada.get("/class/9?p.weight=on")
        self.assertNotIn(cell(10, "taste"), ada.typed())
        ada.send("Preview", **{cell(10, "weight"): "9"})
        self.assertNotIn(cell(10, "taste"), ada.typed(), "the columns stay over a preview")
        self.has(ada.page, "weight now: 1", status=200)

    def test_what_one_may_not_write_is_shown(self):
        self.write("wizard", "create(#9)", 'set(#11, "name", "statue")', 'set(#11, "taste", "dust")')
        ada = self.somebody("ada")
        self.has(ada.get("/class/9"), "statue #11", '"dust"')
        self.assertNotIn("c11-name", ada.typed())
        self.assertNotIn(cell(11, "taste"), ada.typed())
        self.assertEqual(ada.get("/class/99").status, 404)

    def test_many_children_are_on_several_pages(self):
        self.write("wizard", *["create(#9, #4)" for _ in range(50)])
        ada = self.somebody("ada")
        self.has(ada.get("/class/9?p.weight=on"), "page 1 of 2")
        ada.get(next(link for link in ada.page.links if "page=2" in link))
        self.assertNotIn(cell(60, "taste"), ada.typed())
        self.is_done([ada.send("Preview", **{cell(60, "weight"): "9"}), ada.send("Do it")][1])
        self.assertEqual(self.answered('get(#60, "weight")'), "9")

    def test_a_session_that_is_over_loses_nothing(self):
        ada = self.somebody("ada")
        ada.get("/class/9?p.taste=on")
        self.people.set_password("ada", "another password")
        ada.send("Preview", **{"n1-name": "plum", new(1, "taste"): "sweet"})
        self.has(ada.send("Sign in", name="ada", password="another password"), "You are signed in again", status=200)
        self.assertEqual((ada.typed()["n1-name"], ada.typed()[new(1, "taste")]), ("plum", "sweet"))
        self.assertNotIn(cell(10, "weight"), ada.typed())


del OneFormTest, TASTE

if __name__ == "__main__":
    unittest.main()
