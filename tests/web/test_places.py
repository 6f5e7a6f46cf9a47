"""What is seen at a place: its description, its exits in each shape that they have, who is there; the first page; the map of exits."""

import time
import unittest

from tests.support.operating import SECONDS
from tests.support.pages import PagesTest, lacking, tidied
from tests.support.web import use_web

use_web()

from moolib.values import read  # noqa: E402

if not lacking():
    from moo_web.pages.joined import STEPS, between, laid_out
    from moo_web.pages.sight import LONGEST_DESCRIPTION, Exit, described, exits_in

# #4 is the class of the rooms #5 to #9. Ada #10 is in The Inn #6, with a mug #11. #12 is an exit as an object of its own, to #9.
WORLD = """batch as #3
create(#1)
set(#4, "name", "generic room")
set(#4, "f", 1)
set(#4, "r", 1)
set_accept(#4, {#1})
add_property(#4, "description", "There is nothing special here.", {#3, "rc"})
add_property(#4, "exits", {}, {#3, "rc"})
create(#4)
create(#4)
create(#4)
create(#4)
create(#4)
set(#5, "name", "The Square")
set(#6, "name", "The Inn")
set(#7, "name", "The Cellar")
set(#8, "name", "The Loft")
set(#9, "name", "The Well")
set(#5, "description", {"Lime trees stand round a fountain.", "It is dry."})
set(#5, "exits", {{"east", #6}, {"south", #7}})
set(#6, "exits", {{"west", "w", #5}, {"down", #7}, {"up", #8}})
set(#7, "exits", {{"up", #6}, {"north", #5}})
create(#1, #-1)
set(#10, "name", "Ada")
set_player_flag(#10, 1)
move(#10, #6)
create(#1, #10)
set(#11, "name", "mug")
move(#11, #6)
create(#1)
set(#12, "name", "hatch")
add_property(#12, "dest", #9, {#3, "r"})
set(#8, "exits", {#12})
create(#1, #-1)
set(#13, "name", "Ben")
set_player_flag(#13, 1)
end
"""


class PlaceTest(PagesTest):
    world = WORLD
    numbers = {"wizard": 3, "ada": 10, "ben": 13}


class Home(PlaceTest):
    def test_where_one_is(self):
        answer = self.reader("ada").get("/")
        self.assertEqual((answer.read.title, tidied(answer)), ("You are in The Inn · moo", ""))
        for words in (
            "You are in The Inn #6", "There is nothing special here.", "Exits west, w The Square down The Cellar up The Loft",
            "Who is here Ada #10 (you)", "What is here mug #11", "Waiting for you Nothing.",
        ):  # fmt: skip
            with self.subTest(words=words):
                self.assertIn(words, answer.text)
        self.assertLess(answer.source.index("/o/5"), answer.source.index("<details"))
        self.assertNotIn("<details class=\"browse\" open", answer.source)

    def test_who_is_nowhere_browses(self):
        answer = self.reader("ben").get("/")
        self.assertEqual((answer.read.title, tidied(answer)), ("The world · moo", ""))
        self.assertIn("You are nowhere.", answer.text)
        self.assertIn("<details class=\"browse\" open", answer.source)
        self.assertIn("Choose a place from which to walk", self.reader("ben").get("/map/exits").text)

    def test_what_waits(self):
        self.write("ada", 'petition({{"move", #11, #5}})')
        self.write("ben", "max_object()")
        self.assertIn("Waiting for you 1 petition to decide", self.reader("wizard").get("/").text)
        self.assertIn("Waiting for you 1 petition of yours, not decided yet", self.reader("ada").get("/").text)
        self.assertIn("Waiting for you Nothing.", self.reader("ben").get("/").text)
        self.write("wizard", 'set(#11, "name", "tankard")')
        self.assertIn("1 change of your things by others", self.reader("ada").get("/").text)

    def test_what_is_asked(self):
        """One request, if the world is as it was known last; after a batch it isn't asked of the world of before."""
        reader, sent = self.reader("ada"), []
        reader.get("/")
        inner = self.door.sent
        self.door.sent = lambda method, path, *rest: sent.append(path) or inner(method, path, *rest)
        self.assertEqual(reader.get("/").status, 200)
        self.assertEqual(sent, ["/each?why"])
        self.write("ada", 'set(#11, "name", "tankard")')
        sent.clear()
        self.assertIn("tankard", reader.get("/").text)
        self.assertEqual([path for path in sent if path == "/each?why"], ["/each?why"])

    def test_who_goes_elsewhere_is_there(self):
        self.write("wizard", "move(#10, #5)")
        text = self.reader("ada").get("/").text
        self.assertIn("You are in The Square #5 Lime trees stand round a fountain. It is dry. Exits east The Inn south The Cellar", text)


class Objects(PlaceTest):
    def test_a_room(self):
        answer = self.reader("ada").get("/o/5")
        self.assertEqual(tidied(answer), "")
        for words in (
            "a kind of generic room #4", "The Square #5 Lime trees stand round a fountain. It is dry.", "Exits east The Inn south The Cellar",
            "Go there Edit Describe Rename Move Make something in it More", "Owner Wizard #3", "Accepts Root Class #1",
        ):  # fmt: skip
            with self.subTest(words=words):
                self.assertIn(words, answer.text)
        self.assertIn("/do/move?object=%2310&place=%235&go=preview", answer.read.links)
        self.assertNotIn("Go there", self.reader("ada").get("/o/6").text, "she is there")
        self.assertNotIn("Go there", self.reader("ada").get("/o/13").text, "it is a player")
        self.assertNotIn("Go there", self.reader("ada").get("/o/11").text, "it accepts nothing")

    def test_a_walk_is_three_pages(self):
        """The place, the preview to which 'Go there' leads, and what was done, from which one goes on in the place."""
        ada = self.reader("ada")
        shown = ada.get(next(link for link in ada.get("/o/5").read.links if link.startswith("/do/move") and "go=" in link))
        self.assertIn("This would be done Ada #10 goes into The Square #5.", shown.text)
        self.assertNotIn("The Square", ada.get("/").read.title, "the address does nothing by itself")
        fields = next(form["fields"] for form in shown.read.forms if "seen.at" in form["fields"])
        done = ada.get(ada.post("/do/move", {**fields, "go": "apply"}).head["Location"])
        self.assertIn("You are in The Square Change something else", done.text)
        self.assertIn("You are in The Square", ada.get("/").read.title)
        self.write("ada", "move(#11, #5)")
        self.assertIn("Back to mug", ada.get("/done/3").text)

    def test_no_address_does_what_it_says(self):
        for go in ("apply", "petition", "ask"):
            self.reader("ada").get(f"/do/move?object=%2310&place=%235&go={go}")
            self.assertEqual(self.door.asked("GET", "/seq", None, time.monotonic() + SECONDS).said["seq"], 1)

    def test_an_exit_that_is_an_object(self):
        """As LambdaCore has them: its name, and the place in its property `dest`; without that, or rights to it, the object itself."""
        answer = self.reader("ada").get("/o/8")
        self.assertIn("Exits hatch The Well", answer.text)
        self.assertIn('<a href="/o/9"><b>hatch</b> The Well</a>', answer.source)
        self.write("wizard", 'set_property_info(#12, "dest", {#3, ""})')
        self.assertIn('<a href="/o/12"><b>exit</b> hatch</a>', self.reader("ada").get("/o/8").source)
        self.write("wizard", "recycle(#9)", "recycle(#12)")
        answer = self.reader("ada").get("/o/8")
        self.assertIn('<b>exit</b> <span class="gone">#12</span>', answer.source)

    def test_an_edit_is_offered_once_there_is_such_a_page(self):
        self.assertEqual("Edit" in self.reader("ada").get("/o/11").text, self.pages.has("edit"))
        self.pages.get("edit", lambda visit: visit.page("message.html"))
        self.assertIn("/edit/11", self.reader("ada").get("/o/11").read.links)

    def test_a_long_chain_is_folded_in_its_middle(self):
        calls = ["create(#1)", *(f"create(#{number})" for number in range(14, 33))]
        self.write("wizard", *calls)
        text = self.reader("wizard").get("/o/33").text
        self.assertIn("#29 ← unnamed #28 ← 13 others ← unnamed #14 ← Root Class #1 Where", text)

    def test_a_description_that_may_not_be_read(self):
        self.write("wizard", 'set_property_info(#5, "description", {#3, ""})', 'set_property_info(#5, "exits", {#3, ""})')
        self.assertNotIn("Lime trees", self.reader("ada").get("/o/5").text)
        self.assertIn("You may not read description, exits.", self.reader("ada").get("/o/5").text)
        self.assertIn("Lime trees", self.reader("wizard").get("/o/5").text)


class OtherNames(PlaceTest):
    def test_the_operator_names_the_properties(self):
        from moo_web.journal.history import History
        from moo_web.world.properties import SightNames
        from moo_web.pages.site import make_pages

        self.app.routes.clear()
        make_pages(self.app, self.people, self.writer, History(self.room / "front"), self.rate, SightNames("look", 'way"s'))
        self.write("wizard", 'add_property(#5, "look", "A park.", {#3, "r"})', 'add_property(#5, "way\\"s", {{"in", #6}}, {#3, "r"})')
        text = self.reader("ada").get("/o/5").text
        self.assertIn("The Square #5 A park. Exits in The Inn", text)
        self.assertIn("/do/set?object=%235&name=look", self.reader("ada").get("/o/5").read.links)


class Map(PlaceTest):
    def test_the_map_of_exits(self):
        answer = self.reader("ada").get("/map/exits")
        self.assertEqual((answer.status, tidied(answer)), (200, ""))
        for words in (
            "What can be reached from The Inn #6", "The Inn #6 you are here west, w: The Square #5, down: The Cellar #7, up: The Loft #8",
            "The Loft #8 hatch: The Well #9", "A broken line leads one way alone.", "The Well #9 no exits that you may read",
        ):  # fmt: skip
            with self.subTest(words=words):
                self.assertIn(words, answer.text)
        boxes = [said for tag, said in answer.read.elements if tag == "rect"]
        self.assertEqual(len(boxes), 5)
        ways = [said["class"] for tag, said in answer.read.elements if tag == "path"]
        self.assertEqual(sorted(ways), ["way"] * 3 + ["way one-way"] * 2)
        self.assertIn("/o/9", answer.read.links)

    def test_the_map_from_another_place(self):
        text = self.reader("ada").get("/map/exits?from=9").text
        self.assertIn("What can be reached from The Well #9", text)
        self.assertIn("From where you are", text)
        self.assertEqual(self.reader("ada").get("/map/exits?from=99").status, 200)

    def test_a_large_world_is_walked_in_part(self):
        first = 14
        calls = [call for number in range(first, first + 200) for call in ("create(#4)", f'set(#{number}, "exits", {{{{"east", #{number + 1}}}}})')]
        self.write("wizard", *calls)
        sent = []
        inner = self.door.sent
        self.door.sent = lambda method, path, *rest: sent.append(path) or inner(method, path, *rest)
        answer = self.reader("ada").get(f"/map/exits?from={first}")
        self.assertIn("There is more: each place has a map of its own.", answer.text)
        self.assertEqual(sum(tag == "rect" for tag, _ in answer.read.elements), 60)
        self.assertLess(len(sent), 130)


class Shapes(unittest.TestCase):
    def setUp(self):
        if why := lacking():
            self.skipTest(why)

    def test_descriptions(self):
        for value, lines in (
            ("A room.", ["A room."]), (["One.", "", "Two."], ["One.", "Two."]), (7, []), (None, []), ("", []), ([1, "a"], ["a"]), ("  ", []),
        ):  # fmt: skip
            with self.subTest(value=value):
                self.assertEqual(described(value), (lines, False))
        lines, is_cut = described(["x" * (LONGEST_DESCRIPTION - 1), "yyy", "zzz"])
        self.assertEqual((len(lines[0]), lines[1:], is_cut), (LONGEST_DESCRIPTION - 1, ["y…"], True))

    def test_exits(self):
        for text, exits in (
            ('{{"north", #7}, {"in", "inn", #8}}', [("north", 7), ("in, inn", 8)]), ('{"north", #7, "east", #8}', [("north", 7), ("east", 8)]),
            ("{#7, #8}", [("", 7), ("", 8)]), ("{}", []), ('"north"', []), ("0", []), ('{{"nowhere"}, {"up", #-1}}', [("up", -1)]),
        ):  # fmt: skip
            with self.subTest(text=text):
                self.assertEqual(exits_in(read(text)), exits)

    def test_directions_are_kept(self):
        """Each place to which a direction leads is there, if nothing was; no two are in one cell."""
        ring = {1: [Exit("north", 2), Exit("down", 5)], 2: [Exit("east", 3)], 3: [Exit("s", 4)], 4: [Exit("west", 1)], 5: [Exit("south", 6)], 6: []}
        cells = laid_out(ring)
        self.assertEqual([cells[number] for number in (1, 2, 3, 4)], [(0, 0), (0, -1), (1, -1), (1, 0)])
        self.assertEqual((cells[6][0] - cells[5][0], cells[6][1] - cells[5][1]), STEPS["south"])
        self.assertEqual(len(set(cells.values())), 6)

    def test_two_in_one_direction(self):
        cells = laid_out({1: [Exit("north", 2), Exit("n", 3)], 2: [], 3: []})
        self.assertEqual(cells[2], (0, -1))
        self.assertNotEqual(cells[3][0], 0, "it isn't drawn as if it were beyond the other one")

    def test_what_is_between(self):
        self.assertEqual(between((0, 0), (0, 3)), [(0, 1), (0, 2)])
        self.assertEqual(between((2, 2), (0, 0)), [(1, 1)])
        self.assertEqual([between((0, 0), end) for end in ((1, 1), (1, 0), (2, 1))], [[], [], []])


if __name__ == "__main__":
    unittest.main()
