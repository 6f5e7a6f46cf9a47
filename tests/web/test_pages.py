"""What each kind of person sees on the pages of a front, and what they don't; names that look like HTML; lists in parts."""

import re
import unittest

from tests.support.pages import PagesTest, tidied

# #4 Ada owns #8 and #9; #5 Ben owns nothing; #6 is the class of #8. The Hall #7 holds Ada, and #8 holds #9.
WORLD = """batch as #3
create(#1, #-1)
set(#4, "name", "Ada")
set_player_flag(#4, 1)
create(#1, #-1)
set(#5, "name", "Ben")
set_player_flag(#5, 1)
create(#1)
set(#6, "name", "generic box")
set(#6, "r", 1)
set(#6, "f", 1)
add_property(#6, "size", 3, {#3, "rc"})
add_property(#6, "opener", "a key under the mat", {#3, ""})
add_property(#6, "colour", "brown", {#3, "rc"})
add_verb(#6, {#3, "r", "open unlock"}, {"this", "none", "none"})
add_verb(#6, {#3, "", "shake"}, {"this", "none", "none"})
create(#1)
set(#7, "name", "The Hall")
set_accept(#7, {#1})
move(#4, #7)
end
batch as #4
create(#6)
set(#8, "name", "Ada's chest")
set(#8, "colour", "red")
add_property(#8, "diary", "Burn this.", {#4, ""})
create(#6)
set(#9, "name", "small box")
add_property(#9, "contents_list", {#8, "a \\"b\\"", -5, E_PERM}, {#4, "r"})
end
batch as #3
set_accept(#8, {#1})
move(#8, #7)
move(#9, #8)
end
"""
PATHS = (
    "/", "/find", "/find?q=box", "/find?q=.size", "/find?q=%239999", "/find?q=nothing+like+it", "/o/1", "/o/3", "/o/7", "/o/8", "/o/9",
    "/o/99",
    "/o/8/property?name=colour", "/o/8/property?name=size", "/o/8/property?name=opener", "/o/8/property?name=none", "/o/1/children",
    "/o/7/contents", "/o/3/owned",
    "/o/99/owned", "/nowhere", "/roots", "/map/parents", "/map/places", "/map/exits", "/map/exits?from=7", "/map/places?from=7", "/map/parents?from=6", "/history",
    "/history?o=8",
    "/history?who=ada", "/history?o=99", "/people", "/you", "/in", "/nothing/here", "/style.css", "/icon.svg",
)  # fmt: skip


class SiteTest(PagesTest):
    world = WORLD
    numbers = {"wizard": 3, "ada": 4, "ben": 5}


class Everybody(SiteTest):
    def test_each_page_as_each_kind_of_person(self):
        """It is there or isn't, tidy finds nothing wrong with it, and nothing on it needs a script or a style of its own."""
        for who in (None, "ben", "ada", "wizard"):
            reader = self.reader(who)
            for path in PATHS:
                answer = reader.get(path)
                with self.subTest(who=who, path=path):
                    self.assertEqual(answer.status, self.wanted(who, path))
                    if answer.read:
                        self.assertEqual(tidied(answer), "")
                        # The page of people is a form, which the browser may keep for itself.
                        is_form = path == "/people" and who == "wizard"
                        self.check(answer, "private, no-cache" if is_form else "no-store")
        self.assertEqual(self.told[1:], [])

    def wanted(self, who, path):
        """The status of a page for somebody."""
        if path in ("/in", "/style.css", "/icon.svg"):
            return 200
        if path == "/nothing/here":
            return 404
        if who is None:
            return 401
        if "99" in path and path.startswith("/o/") or path.endswith("name=none"):
            return 404
        if path == "/o/8/property?name=opener" and who != "wizard":
            return 200
        return 403 if path == "/people" and who != "wizard" else 200

    def check(self, answer, kept):
        """What holds on every page; `kept` is what a browser may keep of this one."""
        policy = answer.head["Content-Security-Policy"]
        self.assertIn("default-src 'none'", policy)
        self.assertNotIn("unsafe", policy)
        self.assertEqual(answer.head["Cache-Control"], kept)
        tags = [tag for tag, _ in answer.read.elements]
        self.assertNotIn("script", tags)
        self.assertNotIn("style", tags)
        for tag, said in answer.read.elements:
            self.assertFalse([name for name in said if name == "style" or name.startswith("on")], (tag, said))
        self.assertEqual((tags.count("main"), tags.count("header"), tags.count("footer"), tags.count("h1")), (1, 1, 1, 1))
        self.assertIn("#main", answer.read.links)
        labels = {said.get("for") for tag, said in answer.read.elements if tag == "label"}
        for tag, said in answer.read.elements:
            if tag in ("input", "select", "textarea") and said.get("type") != "hidden":
                self.assertTrue(said.get("id") in labels or said.get("aria-label"), said)

    def test_a_reader_without_a_session_is_led_back(self):
        reader = self.reader()
        answer = reader.get("/o/8/property?name=size")
        self.assertEqual((answer.status, answer.read.title), (401, "Sign in · moo"))
        self.assertNotIn("chest", answer.source)
        fields = answer.read.form("/in")["fields"]
        self.assertEqual(fields["to"], "/o/8/property?name=size")
        answer = reader.sign_in("ada", to=fields["to"])
        self.assertEqual((answer.status, answer.head["Location"]), (303, "/o/8/property?name=size"))


class Rights(SiteTest):
    def test_the_values_that_a_person_may_read(self):
        for who, is_shown, is_not in (
            ("wizard", ("a key under the mat", "Burn this.", "diary", "opener"), ("You may not",)),
            ("ada", ("Burn this.", "diary", "You may not read opener."), ("a key under the mat",)),
            ("ben", ("You may not read opener.", "You may not list what Ada's chest #8, Root Class #1 define."), ("Burn this.", "diary", "under the mat")),
        ):
            answer = self.reader(who).get("/o/8")
            for text in is_shown:
                with self.subTest(who=who, text=text):
                    self.assertIn(text, answer.text)
            for text in is_not:
                with self.subTest(who=who, text=text):
                    self.assertNotIn(text, answer.source)

    def test_a_property_that_may_not_be_listed_has_no_page(self):
        self.assertEqual(self.reader("ada").get("/o/8/property?name=diary").status, 200)
        answer = self.reader("ben").get("/o/8/property?name=diary")
        self.assertEqual(answer.status, 404)
        self.assertNotIn("Burn", answer.source)
        answer = self.reader("ben").get("/o/8/property?name=opener")
        self.assertIn("You may not read it.", answer.text)
        self.assertNotIn("mat", answer.source)

    def test_a_property_that_may_be_read_and_not_listed(self):
        """It is on no list, and who knows its name sees it, as `get` answers."""
        self.write("wizard", 'add_property(#7, "motto", "Mind the step.", {#3, "r"})')
        reader = self.reader("ben")
        answer = reader.get("/o/7")
        self.assertNotIn("motto", answer.source)
        self.assertEqual(answer.read.form("/o/7/property")["fields"], {"name": ""})
        answer = reader.get("/o/7/property?name=Motto")
        self.assertEqual(answer.status, 200)
        self.assertIn('The Hall #7 "Mind the step." Wizard #3 r', answer.text)
        self.assertEqual(tidied(answer), "")
        for name in ("secret", "", "%C3%A9", "x" * 300, "%22", "a%0Ab", "name"):
            self.assertEqual(reader.get(f"/o/7/property?name={name}").status, 404)

    def test_verbs(self):
        answer = self.reader("wizard").get("/o/6")
        self.assertIn("open unlock this none none", answer.text)
        answer = self.reader("ada").get("/o/6")
        self.assertIn("open unlock this none none Wizard #3 r", answer.text)
        self.assertIn("shake You may not read it.", answer.text)
        self.assertIn("open unlock, shake", self.reader("ada").get("/o/8").text)
        self.assertIn("You may not list its verbs.", self.reader("ben").get("/o/8").text)

    def test_search_for_a_property(self):
        for who, query, found in (
            ("wizard", "diary", True), ("ada", "diary", True), ("ben", "diary", False), ("ada", "DIAR", True), ("ben", ".size", True),
            ("ben", "nothing", False),
        ):  # fmt: skip
            answer = self.reader(who).get(f"/find?q={query}")
            with self.subTest(who=who, query=query):
                self.assertEqual(any("/property?name=" in link for link in answer.read.links), found)

    def test_what_was_done_is_seen_by_who_did_it_and_by_wizards(self):
        self.write("ada", 'set(#8, "diary", "Dear diary")')
        self.write("wizard", 'set(#6, "opener", "under the stone")')
        self.write("ben", "max_object()")
        for who, is_shown, is_not in (
            ("wizard", ("Dear diary", "under the stone", "max_object()"), ()),
            ("ada", ("Dear diary",), ("under the stone", "max_object()")),
            ("ben", ("max_object()",), ("Dear diary", "under the stone")),
        ):
            for path in ("/history", "/", "/history?who=wizard", "/history?who=ada", "/history?who=WIZARD&o=6"):
                source = self.reader(who).get(path).source
                with self.subTest(who=who, path=path):
                    self.assertFalse([text for text in is_not if text in source])
                    if path in ("/history", "/"):
                        self.assertEqual([text for text in is_shown if text not in source], [])

    def test_people_are_for_wizards(self):
        self.assertIn("/people", self.reader("wizard").get("/").read.links)
        self.assertNotIn("/people", self.reader("ada").get("/").read.links)
        text = self.reader("wizard").get("/people").text
        self.assertEqual([name for name in self.numbers if f"What {name} did" not in text], [])
        self.assertNotIn("wizard", self.reader("ada").get("/people").source)

    def test_who_becomes_a_wizard_sees_more_at_once(self):
        reader = self.reader("ben")
        self.assertEqual(reader.get("/people").status, 403)
        self.write("wizard", 'set(#5, "wizard", 1)')
        self.assertEqual(reader.get("/people").status, 200)
        self.write("wizard", 'set(#5, "wizard", 0)')
        self.assertEqual(reader.get("/people").status, 403)

    def test_whose_object_is_gone_sees_nothing(self):
        reader = self.reader("ben")
        self.write("wizard", "recycle(#5)")
        for path in ("/", "/o/8", "/find?q=box", "/history", "/map/places", "/people"):
            answer = reader.get(path)
            with self.subTest(path=path):
                self.assertEqual((answer.status, answer.read.title), (403, "Your object is gone · moo"))
                self.assertNotIn("chest", answer.source)
        self.assertEqual(reader.get("/you").status, 200)
        self.assertEqual(reader.post("/out", {"form": reader.token()}).status, 303)


class Looks(SiteTest):
    def test_where_a_value_is_from(self):
        text = self.reader("ada").get("/o/8").text
        self.assertIn("size 3 generic box #6 Ada #4 rc", text)
        self.assertIn('colour red its own Ada #4 rc', text)
        text = self.reader("ada").get("/o/8/property?name=colour").text
        self.assertIn('Ada\'s chest #8 "red" Ada #4 rc', text)
        self.assertIn('generic box #6 "brown" Wizard #3 rc', text)
        self.assertIn("clear: its parent’s value counts", self.reader("ada").get("/o/8/property?name=SIZE").text)

    def test_a_value_from_an_object_that_may_not_be_read(self):
        """The value may be read on the child, and not on the object from which it is."""
        self.write("wizard", 'set_property_info(#6, "size", {#3, "c"})', 'set_property_info(#8, "size", {#4, "c"})')
        self.assertIn("size 3 further up, not shown to you Ada #4 c", self.reader("ada").get("/o/8").text)
        self.assertIn("size 3 generic box #6 Ada #4 c", self.reader("wizard").get("/o/8").text)

    def test_a_value_from_further_up(self):
        """Over an object on which it is clear; and from one that may not be read, though one above it may be."""
        self.write("wizard", 'set(#1, "r", 1)', 'add_property(#1, "tone", "high", {#3, "rc"})')
        self.assertIn('tone high Root Class #1 Ada #4 rc', self.reader("ada").get("/o/8").text)
        self.write("wizard", 'set(#6, "tone", "low")', 'set_property_info(#6, "tone", {#3, ""})')
        self.assertIn('tone low further up, not shown to you Ada #4 rc', self.reader("ada").get("/o/8").text)
        self.assertIn('tone low generic box #6 Ada #4 rc', self.reader("wizard").get("/o/8").text)

    def test_an_object(self):
        answer = self.reader("ada").get("/o/8")
        self.assertEqual(answer.read.title, "Ada's chest #8 · moo")
        for text in (
            "a kind of generic box #6, in The Hall #7 Ada's chest #8", "Owner Ada #4", "Ancestors generic box #6 ← Root Class #1",
            "Where The Hall #7", "What is in it small box #9", "Accepts Root Class #1 and what is under it (a list of its own)",
        ):  # fmt: skip
            with self.subTest(text=text):
                self.assertIn(text, answer.text)
        self.assertIn("What inherits from it Ada's chest #8 small box #9", self.reader("ada").get("/o/6").text)
        self.assertIn("Marks readable everybody may list what it has fertile", self.reader("ada").get("/o/6").text)
        self.assertIn("Where Ada's chest #8 in The Hall #7", self.reader("ada").get("/o/9").text)

    def test_what_is_asked_for_an_object(self):
        """Two requests if the world is as it was known last, and then the page is that of the world as it is."""
        reader, sent = self.reader("ada"), []
        reader.get("/o/8")
        inner = self.door.sent
        self.door.sent = lambda method, path, *rest: sent.append(path) or inner(method, path, *rest)
        for path in ("/o/8", "/o/6", "/o/9", "/o/1"):
            sent.clear()
            self.assertEqual(reader.get(path).status, 200)
            self.assertEqual(sent, ["/each?why"] * (1 if path == "/o/1" else 2), path)
        self.write("ada", 'set(#8, "colour", "blue")', 'set(#8, "name", "blue chest")')
        self.assertIn("blue chest", reader.get("/o/8").source)
        self.assertIn("colour blue its own", reader.get("/o/8").text)
        (new,) = self.write("ada", "create(#6)")
        self.assertEqual(reader.get(f"/o/{new[1:]}").status, 200)
        self.write("ada", f"recycle({new})")
        self.assertEqual(reader.get(f"/o/{new[1:]}").status, 404)

    def test_a_long_name(self):
        self.write("ada", f'set(#9, "name", "{"long name " * 500}")')
        reader = self.reader("ada")
        for path in ("/", "/o/9", "/o/8", "/find?q=long", "/map/places", "/o/9/contents", "/o/9/property?name=size"):
            answer = reader.get(path)
            with self.subTest(path=path):
                self.assertEqual(answer.source.count("long name " * 499), int(path == "/o/9"))
                self.assertIn("long name long name", answer.source)

    def test_one_batch(self):
        """It has all its calls with their answers; somebody else's isn't there, but for wizards."""
        self.write("ada", "max_object()", *(f'set(#9, "size", {number})' for number in range(30)), 'get(#9, "size")')
        self.write("wizard", 'get(#8, "diary")')
        reader = self.reader("ada")
        self.assertNotIn('"size", 29', reader.get("/history").text)
        for who, statuses in (("ada", (200, 404)), ("ben", (404, 404)), ("wizard", (200, 200))):
            got = tuple(self.reader(who).get(f"/history/{number}").status for number in (4, 5))
            with self.subTest(who=who):
                self.assertEqual(got, statuses)
        answer = reader.get("/history/4")
        self.assertRegex(answer.text, 'set\\(small box #9, "size", 29\\) +get\\(small box #9, "size"\\) +it answered 29')
        self.assertIn("small box #9 size 28 29", answer.text)
        self.assertIn("small box #9 size 28 29", reader.get("/done/4").text)
        self.assertEqual(tidied(answer), "")
        self.assertEqual([reader.get(f"/history/{number}").status for number in (0, 3, 6, 10**14)], [404] * 4)
        self.assertIn("There is nothing of this number that you may see.", reader.get("/history/3").text)

    def test_the_word_of_the_menu_that_a_page_is_under(self):
        self.write("wizard", 'set(#9, "size", 29)')
        for path, said in (
            ("/", "This page: </span>World"), ("/do", "This page: </span>Change"), ("/do/rename", "This page is under: </span>Change"),
            ("/edit/9", "This page is under: </span>Change"), ("/edit/new", "This page is under: </span>Change"),
            ("/class/6", "This page is under: </span>Change"), ("/batch", "This page is under: </span>Change"),
            ("/undo/4", "This page is under: </span>Change"), ("/history/4", "This page is under: </span>History"),
            ("/done/4", "This page is under: </span>History"), ("/differences", "This page is under: </span>History"),
            ("/quotas", "This page is under: </span>People"), ("/o/9", ""),
        ):  # fmt: skip
            with self.subTest(path):
                found = re.findall(r'class="here"><span class="hidden">([^<]*</span>\w+)', self.reader("wizard").get(path).source)
                self.assertEqual(found, [said] if said else [])

    def test_links_to_forms_are_for_those_who_may_change_it(self):
        for who, wanted in (("ada", ["diary", "size", "colour"]), ("ben", []), ("wizard", ["diary", "size", "opener", "colour"])):
            answer = self.reader(who).get("/o/8")
            links = [link for link in answer.read.links if link.startswith("/do/set?object=8")]
            self.assertEqual(links, [f"/do/set?object=8&name={name}" for name in wanted])
            self.assertEqual(tidied(answer), "")
        links = self.reader("wizard").get("/o/6").read.links
        self.assertEqual([link for link in links if "verb=" in link], ["/do/verb-rights?object=6&verb=1", "/do/verb-rights?object=6&verb=2"])

    def test_values_have_links_and_are_spelled_as_in_a_call(self):
        answer = self.reader("ada").get("/o/9")
        self.assertIn('{Ada\'s chest #8, "a \\"b\\"", -5, E_PERM}', answer.text)
        self.write("ada", f'set(#9, "contents_list", "{"x" * 5000}")')
        self.assertIn("5,000 letters in all", self.reader("ada").get("/o/9").text)
        self.assertIn('"' + "x" * 5000 + '"', self.reader("ada").get("/o/9/property?name=contents_list").text)

    def test_the_world(self):
        text = self.reader("ada").get("/").text
        for wanted in (
            "You are in The Hall #7", "Who is here Ada #4 (you)", "What is here Ada's chest #8", "Waiting for you Nothing.", "Yours 3 objects",
            "10 objects, 3 players, 3 batches", "Newest small box #9 Ada's chest #8", "You have done nothing here yet.",
        ):  # fmt: skip
            with self.subTest(wanted=wanted):
                self.assertIn(wanted, text)
        self.assertIn("Make something", text)
        self.write("wizard", 'add_property(#4, "ownership_quota", 0, {#4, "r"})')
        text = self.reader("ada").get("/").text
        self.assertIn("You may make no more objects: your quota is used up. Ask for a higher one", text)
        self.assertNotIn("Make something", text)
        self.write("wizard", 'set(#4, "ownership_quota", 7)')
        self.write("ada", 'set(#9, "size", 4)', "max_object()")
        text = self.reader("ada").get("/").text
        for wanted in ("You may make 7 more objects.", "ada The property “size” of small box #9 becomes 4. And 1 more."):
            with self.subTest(wanted=wanted):
                self.assertIn(wanted, text)

    def test_search(self):
        reader = self.reader("ben")
        for query, location in (("8", "/o/8"), ("%238", "/o/8"), ("%23+08", "/o/8")):
            answer = reader.get(f"/find?q={query}")
            self.assertEqual((answer.status, answer.head.get("Location")), (303, location))
        text = reader.get("/find?q=BOX").text
        self.assertIn("2 named like “BOX”", text)
        self.assertLess(text.index("generic box"), text.index("small box"))
        self.assertIn("There is no object of the number 77.", reader.get("/find?q=77").text)
        self.assertIn("0 named like “no such word” No object.", reader.get("/find?q=no+such+word").text)

    def test_a_property_is_found_as_soon_as_it_is_there(self):
        reader = self.reader("wizard")
        for query, calls, count in (
            ("weight", (), 0), ("weight", ('add_property(#7, "weight", 1, {#3, "r"})',), 1),
            ("weight", ('add_property(#9, "Weightless", 1, {#3, "r"})',), 2),
            ("weight", ('delete_property(#7, "weight")',), 1), ("weight", ("recycle(#9)",), 0),
            ("diary", ('set_property_info(#8, "diary", {#4, "", "secrets"})',), 0),
            ("secrets", (), 1),
        ):  # fmt: skip
            if calls:
                self.write("wizard", *calls)
            links = reader.get(f"/find?q={query}").read.links
            with self.subTest(query=query, calls=calls):
                self.assertEqual(sum("/property?name=" in link for link in links), count)

    def test_maps(self):
        answer = self.reader("ben").get("/map/places")
        self.assertIn("The Hall #7 Ada's chest #8 small box #9 Ada #4", answer.text)
        self.assertIn("svg", [tag for tag, _ in answer.read.elements])
        answer = self.reader("ben").get("/map/parents?from=6")
        self.assertIn("All Root Class #1 generic box #6", answer.text)
        self.assertEqual(self.reader("ben").get("/map").head["Location"], "/map/exits")

    def test_a_zone_of_time(self):
        self.write("ada", "max_object()")
        reader = self.reader("ada")
        for zone in ("UTC", "Asia/Kolkata"):
            answer = reader.post("/you/zone", {"form": reader.token(), "zone": zone})
            self.assertEqual((answer.status, answer.head["Location"]), (303, "/you?said=zone"))
            answer = reader.get("/history")
            self.assertIn(f"Times are in {zone}", answer.text)
        offsets = [said["datetime"][19:] for tag, said in answer.read.elements if tag == "time"]
        self.assertEqual(offsets, ["+05:30"])
        self.assertEqual(reader.post("/you/zone", {"form": reader.token(), "zone": "Nowhere/At_all"}).status, 400)
        reader.cookies["__Host-zone"] = "../../etc/passwd"
        self.assertIn("Times are in UTC", reader.get("/history").text)


class Hostile(PagesTest):
    """Names and values that look like HTML or like templates."""

    NAME = "<script>alert(1)</script>\\\"'&amp;{{ 7*7 }}<!--"
    world = f"""batch as #3
set(#2, "name", "{NAME}")
set_accept(#2, {{#1}})
create(#1)
set(#4, "name", "{NAME}")
set(#4, "r", 1)
move(#4, #2)
add_property(#4, "{NAME}", "{NAME}", {{#3, "r"}})
add_verb(#4, {{#3, "r", "{NAME}"}}, {{"this", "none", "none"}})
end
"""
    SHOWN = "<script>alert(1)</script>\"'&amp;{{ 7*7 }}<!--"

    def test_names(self):
        self.write("wizard", 'get(#4, "name")', f'set(#4, "name", "{self.NAME}")')
        reader = self.reader("wizard")
        name = "%3Cscript%3Ealert%281%29%3C%2Fscript%3E%22%27%26amp%3B%7B%7B%207%2A7%20%7D%7D%3C%21--"
        for path in (
            "/", "/o/4", "/o/2", f"/o/4/property?name={name}", f"/find?q={name}", "/find?q=script", "/map/places", "/map/parents",
            "/history", "/o/2/contents",
            f"/history?who={name}", f"/in?to=/{name}", f"/nothing/{name}", "/map/places?from=2", "/find?q=.script",
        ):  # fmt: skip
            answer = reader.get(path)
            with self.subTest(path=path):
                self.assertNotIn("<script", answer.source.lower())
                self.assertNotIn("<!--", answer.source)
                self.assertEqual(tidied(answer), "")
        self.assertIn(self.SHOWN, reader.get("/o/4").text)
        self.assertIn(self.SHOWN, reader.get("/find?q=script").text)


class Large(PagesTest):
    """Lists in parts, and trees that say what they leave out."""

    things = [f'create(#4)\nset(#{number}, "name", "thing {number:04}")\n' for number in range(5, 255)]
    world = f"batch as #3\ncreate(#1)\nset_accept(#4, {{#1}})\n{''.join(things)}end\n"

    def test_parts_of_a_list(self):
        reader = self.reader("wizard")
        seen = []
        for part in (1, 2, 3):
            answer = reader.get(f"/o/4/children?page={part}")
            self.assertIn(f"Part {part} of 3", answer.text)
            self.assertEqual(tidied(answer), "")
            seen += [int(link[3:]) for link in answer.read.links if link.startswith("/o/") and link[3:].isdigit() and int(link[3:]) > 4]
        self.assertEqual(seen, list(range(5, 255)))
        for part in ("0", "99", "-1", "x", "", "9" * 30):
            self.assertEqual(reader.get(f"/o/4/children?page={part}").status, 200)
        self.assertIn("250 named like “thing”", reader.get("/find?q=thing").text)

    def test_what_a_tree_leaves_out(self):
        reader = self.reader("wizard")
        self.assertIn("238 more", reader.get("/").text)
        answer = reader.get("/map/parents")
        self.assertIn("238 more", answer.text)
        self.assertIn("/map/parents?from=4", answer.read.links)
        self.assertIn("and 226 more", reader.get("/o/4").text)


if __name__ == "__main__":
    unittest.main()
