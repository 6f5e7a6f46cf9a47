"""Searches in values, and what names an object: in random worlds each person finds and counts just what moo says to that person's own number.

`VALUE_WORLDS=200 .ci/test web.test_values` tries so many worlds, and `SEED=7` begins with another one.
"""

import os
import random
import re
import unittest
import urllib.parse

from tests.support.pages import PagesTest, lacking
from tests.support.undoing import WORDS as UNDOING_WORDS, Generator, asked_for

from moolib.calls import objects_in  # noqa: E402
from moolib.values import written  # noqa: E402
from moo_web.world import literals, touching  # noqa: E402
from moo_web.world.dumped import Dumped, DumpLines  # noqa: E402
from moo_web.world.holdings import Holdings  # noqa: E402

SEED, WORLDS = int(os.environ.get("SEED", 20261130)), int(os.environ.get("VALUE_WORLDS", 4))
PLACE = re.compile(r'href="/o/(\d+)/property\?name=([^"]*)">[^<]*</a>( <span class="dim">inherited)?')
COUNT = re.compile(r"(Over )?([\d,]+) (?:value|place)s? ")
WORDS = ("a", "ab", '"', "\\", 'b"', ",", "{", "E_P", "$(", "-7", "A b", '\\"', "#", "zzz")
PEOPLE = {"wizard": 3, "ada": 4, "ben": 5, "cleo": 6}


def holds(value, word):
    """Whether a value has a word in it: in its literal, or in that as it is read."""
    text = written(value).lower()
    return word.lower() in text or re.sub(r'(["\\])', r"\\\1", word.lower()) in text


class ValuesTest(PagesTest):
    numbers = PEOPLE

    def setUp(self):
        super().setUp()
        self.dumps = 0
        whole = self.door.copied

        def copied(*given):
            self.dumps += 1
            return whole(*given)

        self.door.copied = copied

    def said(self, who, calls):
        """What moo says to a person's number to each call: a value, or None."""
        found = []
        for first in range(0, len(calls), 1000):
            found += [said.value for said in self.door.alone(PEOPLE[who], calls[first : first + 1000])]
        return found

    def places(self):
        """All properties on all objects, as a wizard knows them."""
        things = self.pages.index.world().things
        defined = dict(zip(things, self.said("wizard", [f"properties(#{number})" for number in things])))
        world = self.pages.index.world()
        return [(number, name) for number in things for one in world.chain(number) for name in defined[one.number]]

    def readable(self, who, places):
        """Whether each of these is the object's own value, and the value; as far as the person may read it."""
        calls = [f"{call}(#{number}, {written(name)})" for number, name in places for call in ("is_clear_property", "get")]
        told = self.said(who, calls)
        return {place: (told[2 * at] == 0, told[2 * at + 1]) for at, place in enumerate(places) if told[2 * at] is not None}

    def found(self, reader, path):
        """The places on all parts of a page, those that are inherited, and how many it counts."""
        own, inherited, page = [], [], 1
        while True:
            answer = reader.get(f"{path}{'&' if '?' in path else '?'}page={page}")
            self.assertEqual(answer.status, 200, answer.text)
            for number, name, is_inherited in PLACE.findall(answer.source.replace("&amp;", "&")):
                (inherited if is_inherited else own).append((int(number), urllib.parse.unquote(name).lower()))
            page += 1
            if f"page={page}" not in answer.source:
                return own, inherited, int(COUNT.search(answer.text)[2].replace(",", ""))

    def check(self, reader, who, places, path, is_meant, accepting=()):
        """A page has just the values that moo says to the person's number and that are meant."""
        mine = self.readable(who, places)
        own, inherited, count = self.found(reader, path)
        wanted = sorted((number, name.lower()) for (number, name), (is_own, value) in mine.items() if is_own and is_meant(value))
        self.assertEqual(sorted(own), wanted, (who, path))
        self.assertEqual(count, len(own) + len(inherited) + len(accepting), (who, path))
        lower = {(number, name.lower()): told for (number, name), told in mine.items()}
        for place in inherited:
            self.assertFalse(lower[place][0])
            self.assertTrue(is_meant(lower[place][1]))
        self.assertLessEqual(self.only_below(who, places, mine, is_meant), set(inherited), (who, path))

    def only_below(self, who, places, mine, is_meant):
        """What the person may read on objects of their own alone, which inherit it."""
        world = self.pages.index.world()
        sources = self.readable("wizard", places)
        found = set()
        for (number, name), (is_own, value) in mine.items():
            if not is_own and is_meant(value) and world.things[number].owner == PEOPLE[who] and who != "wizard":
                source = next(one.number for one in world.chain(number) if sources[(one.number, name)][0])
                if (source, name) not in mine:
                    found.add((number, name.lower()))
        return found


class Random(ValuesTest):
    def setUp(self):
        """Each world has its own."""
        if why := lacking():
            self.skipTest(why)

    def test_random_worlds(self):
        self.own = self.inherited = self.left_out = 0
        for seed in range(SEED, SEED + WORLDS):
            with self.subTest(seed=seed):
                super().setUp()
                try:
                    self.one_world(random.Random(seed))
                finally:
                    self.doCleanups()
        self.assertGreater(self.own, 10 * WORLDS)
        self.assertGreater(self.left_out, 5 * WORLDS)
        self.assertGreater(self.inherited, 0)

    def check(self, reader, who, places, path, is_meant, accepting=()):
        """It also counts what is found, and what others would find."""
        super().check(reader, who, places, path, is_meant, accepting)
        own, inherited, _ = self.found(reader, path)
        self.own, self.inherited = self.own + len(own), self.inherited + len(inherited)
        every = self.readable("wizard", places)
        self.left_out += sum(is_own and is_meant(value) for is_own, value in every.values()) - len(own)

    def one_world(self, rng):
        """Many batches by chance, by several people and by petitions, and searches between them."""
        self.write("wizard", *(f"create({rng.choice(('#1', '#-1'))}, #-1)" for _ in range(3)), *(f"set_player_flag(#{one}, 1)" for one in (4, 5, 6)))
        # Classes under each other, then things of several people under these.
        self.write("wizard", *(f"create(#{rng.choice((1, *range(7, number)))}, #{rng.randrange(3, 7)})" for number in range(7, 12)))
        self.write("wizard", *(f"create(#{rng.randrange(7, 12)}, #{rng.randrange(3, 7)})" for _ in range(12)))
        for name in UNDOING_WORDS:
            of = Generator(rng, list(range(3, 7)))
            self.writer.write("wizard", 3, [f'add_property(#{rng.randrange(7, 12)}, "{name}", {of.value()}, {{{of.object()}, {of.letters()}}})'])
        readers = {who: self.reader(who) for who in PEOPLE}
        for part in range(4):
            places = self.places()
            for _ in range(rng.randrange(6, 40)):
                self.some_batch(rng, places)
            for who in rng.sample(sorted(PEOPLE), 2 if part else 4):
                self.searches(rng, readers[who], who)
            self.same_as_a_dump()
        self.assertEqual(self.dumps, 1, "all else was learned of batches")

    def same_as_a_dump(self):
        """What is kept is what a dump of the present world says."""
        holdings = next(take.__self__ for take in self.writer.listeners if isinstance(getattr(take, "__self__", None), Holdings))
        kept, dump = holdings.literals(self.pages.index.world()), DumpLines()
        holdings.asker.door.__class__.copied(self.door, "/dump", dump)
        rows = [sorted((row.number, row.name.lower(), *row[2:]) for row in some) for some in (kept.rows(), Dumped.of(dump).rows)]
        self.assertEqual(*rows)


    def some_batch(self, rng, places):
        """A batch by anybody, which may be refused; or a petition, and what becomes of it."""
        numbers = [number for number in self.pages.index.world().things if number != 3]
        of = Generator(rng, numbers)
        who = rng.choice(("wizard", "wizard", "wizard", "ada", "ben"))
        calls = [self.fitting(rng, of, places) if places and rng.random() < 0.8 else of.call() for _ in range(rng.choice((1, 1, 2, 4)))]
        if rng.random() < 0.08:
            calls = [f"recycle(#{rng.choice(numbers[4:])})"]
        if rng.random() < 0.2:
            answer = self.writer.write(who, PEOPLE[who], [asked_for(calls)])
            if answer.status == 200:
                number = answer.said["answers"][0]
                self.writer.write("wizard", 3, [rng.choice((f"grant({number})", f"grant({number})", f"decline({number})"))])
        elif PEOPLE[who] in numbers or who == "wizard":
            self.writer.write(who, PEOPLE[who], calls)

    def fitting(self, rng, of, places):
        """A call about a property that was there a while ago."""
        number, name = rng.choice(places)
        kind = rng.choice(("set", "set", "set", "set", "set", "clear", "info", "info", "name", "delete", "parent"))
        if kind == "parent":
            return f"chparent(#{number}, {of.object()})"
        if kind in ("info", "name"):
            renamed = f", {of.word()}" if kind == "name" else ""
            return f"set_property_info(#{number}, {written(name)}, {{{of.object()}, {of.letters()}{renamed}}})"
        return {
            "set": f"set(#{number}, {written(name)}, {of.value()})", "clear": f"clear_property(#{number}, {written(name)})",
            "delete": f"delete_property(#{number}, {written(name)})",
        }[kind]  # fmt: skip

    def searches(self, rng, reader, who):
        """What a person finds, by some words and numbers."""
        world = self.pages.index.world()
        if PEOPLE[who] not in world.things:
            return
        places = self.places()
        for word in rng.sample(WORDS, 3):
            path = f"/find?in=values&q={urllib.parse.quote(word.strip())}"
            self.check(reader, who, places, path, lambda value, word=word.strip(): holds(value, word))
        for number in rng.sample(sorted({*world.things, 99}), 2):
            lists = zip(world.things, self.said(who, [f"accept_list(#{one})" for one in world.things]))
            accepting = [one for one, value in lists if isinstance(value, list) and number in objects_in(value)]
            self.check(reader, who, places, f"/o/{number}/named", lambda value, number=number: number in objects_in([value]), accepting)


class KeptUp(ValuesTest):
    def setUp(self):
        super().setUp()
        self.write("wizard", "create(#1)", 'add_property(#4, "note", "a Stump of wax", {#3, "r"})', *("create(#4)" for _ in range(30)))
        self.reader_ = self.reader("wizard")

    def count(self, word="stump"):
        """How many values with a word there are."""
        return self.found(self.reader_, f"/find?in=values&q={word}")[2]

    def test_what_changes_is_asked_for_alone(self):
        self.assertEqual(self.count(), 1)
        self.write("wizard", 'set(#9, "note", {"x", {"another stump", #5}})', 'set(#10, "note", "STUMP")')
        self.assertEqual(self.count(), 3)
        self.write("wizard", 'clear_property(#9, "note")', "recycle(#10)")
        self.assertEqual(self.count(), 1)
        self.write("wizard", 'set(#11, "note", "stump")', 'set_property_info(#4, "note", {#3, "r", "remark"})', 'set(#12, "remark", "stump")')
        own, _, count = self.found(self.reader_, "/find?in=values&q=stump")
        self.assertEqual((own, count), ([(4, "remark"), (11, "remark"), (12, "remark")], 3))
        self.write("wizard", 'delete_property(#4, "remark")')
        self.assertEqual(self.count(), 0)
        self.assertEqual(self.dumps, 1)

    def test_a_quota_that_goes_down_is_a_value(self):
        self.write("wizard", 'add_property(#3, "ownership_quota", 777, {#3, ""})')
        self.assertEqual(self.count("777"), 1)
        self.write("wizard", "create(#1)")
        self.assertEqual((self.count("777"), self.count("776")), (0, 1))

    def test_many_changes_are_read_by_a_dump(self):
        self.assertEqual(self.count(), 1)
        self.write("wizard", *(f'set(#{number}, "note", "stump {number}")' for number in range(5, 35)))
        most, touching.MOST_TOUCHED = touching.MOST_TOUCHED, 20
        self.addCleanup(setattr, touching, "MOST_TOUCHED", most)
        self.assertEqual((self.count(), self.dumps), (31, 2))

    def test_more_than_are_found_at_once(self):
        for first in range(0, 1020, 340):
            self.write("wizard", *(call for number in range(first, first + 340) for call in (f'add_property(#4, "n{number}", "wick", {{#3, ""}})',)))
        page = self.reader_.get("/find?q=wick")
        self.assertIn("Over 100 values with “wick” in them", page.text)
        page = self.reader_.get("/find?q=wick&in=values&page=20")
        self.assertIn("Over 1,000 values that you may read. The first 1,000 are here.", page.text)
        self.assertEqual((len(PLACE.findall(page.source)), "Part 20 of 20" in page.text), (50, True))

    def test_a_batch_of_somebody_else(self):
        """It isn't told, so all is read again."""
        self.assertEqual(self.count(), 1)
        self.door.sent("POST", "/batch", b'{"as":"#3","calls":["set(#5, \\"note\\", \\"stump\\")"]}')
        self.writer.stopped = "somebody else wrote"
        self.assertEqual((self.count(), self.dumps), (2, 2))

    def test_a_text_that_is_made_anew(self):
        most, literals.MOST_CHANGES = literals.MOST_CHANGES, 3
        self.addCleanup(setattr, literals, "MOST_CHANGES", most)
        for number in range(5, 25):
            self.write("wizard", f'set(#{number}, "note", "stump")')
            self.assertEqual(self.count(), number - 3)
        self.assertEqual(self.dumps, 1)

    def test_moo_that_gives_no_dump(self):
        """The page says so, and finds what it can. A dump isn't asked for again at once."""
        asked = []
        self.door.copied = lambda *given: asked.append(given) or self.door.sent("GET", "/nothing")
        page = self.reader_.get("/find?q=oo")
        self.assertIn("moo gives no dump", page.text)
        self.assertIn("Root Class", page.text)
        self.assertIn("gives no dump", self.reader_.get("/o/4/named").text)
        self.assertEqual(len(asked), 1)


if __name__ == "__main__":
    unittest.main()
