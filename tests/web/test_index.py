"""The front's index of public facts: after each batch it is what `/objects` says of the whole world, and little is read for it."""

import random
import time
import unittest

from tests.support.pages import PagesTest

from moo_web.journal.segments import Accepted  # noqa: E402
from moo_web.world.door import Unreachable  # noqa: E402
from moolib.slots import BITS  # noqa: E402

SEED = 20261127


class IndexTest(PagesTest):
    numbers = {"wizard": 3}

    def setUp(self):
        super().setUp()
        self.index = self.pages.index
        self.asked = []
        whole = self.door.asked

        def counted(method, path, *given):
            self.asked.append(path)
            return whole(method, path, *given)

        self.door.asked = counted
        self.whole = whole

    def said(self):
        """The world's number, and all objects, as moo says now."""
        objects, first = {}, 0
        while first is not None:
            said = self.whole("GET", f"/objects/{first}", None, time.monotonic() + 60).said
            objects.update((int(one["number"][1:]), one) for one in said["objects"])
            first = int(said["next"][1:]) if said["next"] else None
        return said["seq"], objects

    def check(self):
        """The index has what moo says: each object, and who is under and in whom. Why it doesn't is told."""
        world = self.index.world()
        seq, objects = self.said()
        self.assertEqual(world.seq, seq)
        self.assertEqual(list(world.things), sorted(objects))
        for number, said in objects.items():
            thing = world.things[number]
            shown = (thing.name, f"#{thing.owner}", f"#{thing.parent}", f"#{thing.location}", *(int(thing.has(bit)) for bit in BITS))
            self.assertEqual(shown, (said["name"], said["owner"], said["parent"], said["location"], *(said[bit] for bit in BITS)))
        for bit in ("player", "wizard", "f"):
            self.assertEqual(list(world.with_bit(bit)), [number for number in sorted(objects) if objects[number][bit]])
        named = sorted((said["name"].lower(), number) for number, said in objects.items())
        self.assertEqual([(name, number) for _, name, number in world.names.hits("")], named)
        for links, key in ((world.children, "parent"), (world.contents, "location"), (world.owned, "owner")):
            wanted = {}
            for number in sorted(objects):
                wanted.setdefault(int(objects[number][key][1:]), []).append(number)
            self.assertEqual({of: list(numbers) for of, numbers in links.items()}, wanted)
        return world

    def whole_reads(self):
        return self.asked.count("/objects/0")


class Random(IndexTest):
    def test_random_batches(self):
        """Made, recycled, moved, renamed, given away, by petitions too: 150 batches of some calls each."""
        rng, made = random.Random(SEED), 0
        self.write("wizard", *(call for _ in range(30) for call in ("create(#1)",)), *(f"set_accept(#{n}, {{#1}})" for n in range(4, 34)))
        self.check()
        for _ in range(150):
            numbers = [number for number in self.index.kept.things if number > 3]
            calls = [self.call(rng, numbers) for _ in range(rng.randrange(1, 5))]
            answer = self.writer.write("wizard", 3, calls)
            if answer.status == 200:
                made += 1
                if rng.random() < 0.6:
                    self.check()
        self.check()
        self.assertGreater(made, 60)
        self.assertEqual(self.whole_reads(), 1, "all else was read in parts")

    def call(self, rng, numbers):
        """A call that changes something, if it isn't refused."""
        one, other, third = (rng.choice(numbers) for _ in range(3))
        name = rng.choice("create create recycle chparent chparent move move name owner bit player petition grant decline text".split())
        if name in ("grant", "decline"):
            petitions = list(self.index.petitions) or [1]
            return f"{name}({rng.choice(petitions)})"
        return {
            "create": f"create(#{one}, #{other})", "recycle": f"recycle(#{one})", "chparent": f"chparent(#{one}, #{other})",
            "move": f"move(#{one}, #{other})",
            "name": f'set(#{one}, "name", "name {rng.random()}")', "owner": f'set(#{one}, "owner", #{other})',
            "bit": f'set(#{one}, "{rng.choice("rwf")}", {rng.randrange(2)})',
            "player": f"set_player_flag(#{one}, {rng.randrange(2)})", "text": f'set(#{one}, "name", "#{other} is not named here")',
            "petition": f'petition({{{{"recycle", #{one}}}, {{"move", #{other}, #{third}}}, {{"create", #{third}}}}})',
        }[name]  # fmt: skip


class Parts(IndexTest):
    def test_few_questions_after_a_batch(self):
        self.write("wizard", *("create(#1)" for _ in range(100)))
        self.check()
        self.asked.clear()
        self.write("wizard", 'set(#50, "name", "fifty")', "move(#51, #-1)")
        self.asked.clear()
        self.check()
        self.assertEqual(self.asked, ["/seq", "/each"])
        self.asked.clear()
        self.index.world()
        self.assertEqual(self.asked, ["/seq"])

    def test_a_parent_of_many_is_not_read_with_a_page_of_others(self):
        (first, *_) = self.write("wizard", *["create(#1)"] * 300)
        self.check()
        self.asked.clear()
        self.write("wizard", 'set(#1, "name", "root")', 'set(#1, "f", 1)', "create(#1)")
        world = self.check()
        self.assertEqual((world.things[1].name, world.things[1].has("f")), ("root", True))
        self.assertEqual([path for path in self.asked if path.startswith(("/object/", "/objects/0", "/objects/1"))], [])
        self.write("wizard", f"chparent({first}, #-1)", *[f"chparent(#{number}, {first})" for number in range(300, 5, -3)])
        self.check()
        self.write("wizard", f"recycle({first})", "recycle(#0)")
        self.check()

    def test_many_that_are_near_and_some_that_are_not(self):
        for _ in range(2):
            self.write("wizard", *["create(#1)"] * 1000)
        self.check()
        self.write("wizard", *(f'set(#{number}, "name", "named {number}")' for number in (*range(10, 60), 1500, 1900)), "create(#1)")
        self.asked.clear()
        self.index.world()
        self.assertEqual(self.asked, ["/seq", "/objects/10", "/each"])
        self.assertEqual(self.check().things[1900].name, "named 1900")

    def test_calls_of_which_one_is_not_answered(self):
        """That isn't taken for an object that is gone: each is read by itself."""
        self.write("wizard", "create(#1)", "create(#1)")
        self.check()
        self.write("wizard", 'set(#4, "name", "four")', "recycle(#5)", "create(#1)")
        counted = self.door.asked

        def bounded(method, path, *given):
            answer = counted(method, path, *given)
            if path == "/each":
                answer.said["each"][3] = {"error": "nomemory"}
            return answer

        self.door.asked = bounded
        self.asked.clear()
        self.index.world()
        self.door.asked = counted
        self.assertEqual(self.asked, ["/seq", "/each", "/object/4", "/object/5", "/object/6"])
        self.assertEqual(self.check().things[4].name, "four")

    def test_children_and_contents_of_what_is_recycled(self):
        self.write("wizard", "create(#1)", "create(#4)", "create(#5)", "create(#1)", "set_accept(#5, {#1})", "move(#7, #5)")
        self.check()
        self.write("wizard", "recycle(#5)")
        world = self.check()
        self.assertEqual((world.things[6].parent, world.things[7].location), (4, -1))
        self.write("wizard", "chparent(#7, #4)", "recycle(#4)")
        self.check()
        self.assertEqual(self.whole_reads(), 1)

    def test_petitions_of_before_the_start_and_of_after_it(self):
        self.write("wizard", "create(#1)", "create(#4)")
        self.write("wizard", 'petition({{"recycle", #4}})', 'petition({{"set", #5, "name", "five"}, {"create", #5}})')
        self.check()
        self.write("wizard", 'petition({{"set", #5, "name", "once more"}})', "grant(2)")
        self.check()
        self.write("wizard", "grant(3)")
        self.assertEqual(self.check().things[5].name, "once more")
        self.write("wizard", "grant(1)")
        self.assertEqual(self.check().things[5].parent, 1)
        self.assertEqual(self.whole_reads(), 1)

    def test_a_grant_of_what_nobody_has_told(self):
        self.write("wizard", "create(#1)", 'petition({{"set", #4, "name", "four"}})')
        self.check()
        self.index.petitions.clear()
        self.write("wizard", "grant(1)")
        self.assertEqual(self.check().things[4].name, "four")
        self.assertEqual(self.whole_reads(), 2)

    def test_other_spellings_of_numbers(self):
        self.write("wizard", "create(#1)", "create(#1)")
        self.check()
        for spelling in ("#4", "# 4", "#+4", "#004", "#\t4"):
            answer = self.writer.write("wizard", 3, [f'SET({spelling}, "name", "{spelling[1:].strip()}")'.replace("SET", "set")])
            with self.subTest(spelling=spelling, status=answer.status):
                self.check()
        self.assertEqual(self.whole_reads(), 1)

    def test_answers_that_are_too_long_to_be_kept(self):
        """The journal and the listeners then have no answers; what is new is found all the same."""
        self.write("wizard", "create(#1)", 'add_property(#1, "long", "", {#3, "r"})', f'set(#4, "long", "{"x" * 60000}")')
        self.check()
        self.write("wizard", *(['get(#4, "long")'] * 20), "create(#1)")
        self.check()
        self.assertEqual(self.whole_reads(), 1)


class Elsewhere(IndexTest):
    def test_a_stranger_who_writes(self):
        self.check()
        self.door.sent("POST", "/batch", b'{"as":"#3","calls":["create(#1)"]}')
        began = time.monotonic()
        self.assertIn(4, self.check().things)
        self.assertLess(time.monotonic() - began, 30)

    def test_a_page_that_asks_nothing_of_the_world(self):
        """It takes the world that was known last, and then sees whether it is the present one."""
        reader = self.reader("wizard")
        self.write("wizard", 'create(#-1)', 'set(#4, "name", "fourth")')
        self.assertIn("fourth", reader.get("/roots").text)
        self.asked.clear()
        self.assertIn("fourth", reader.get("/roots").text)
        self.assertEqual(self.asked, ["/seq"])
        self.door.sent("POST", "/batch", b'{"as":"#3","calls":["set(#4, \\"name\\", \\"renamed\\")"]}')
        self.assertIn("renamed", reader.get("/roots").text)

    def test_a_page_after_a_batch(self):
        """It asks for what has changed, and then what it shows; the batch told the number."""
        reader = self.reader("wizard")
        self.write("wizard", "create(#1)", "create(#1)")
        reader.get("/")
        self.asked.clear()
        self.write("wizard", 'set(#4, "name", "fourth")', "create(#4)", "recycle(#5)")
        self.asked.clear()
        self.assertIn("fourth", reader.get("/").text)
        self.assertEqual(self.asked, ["/each"])
        self.check()

    def test_a_number_between_two_that_were_told(self):
        """All is read again, since nobody told what it changed."""
        self.check()
        for call in (b'set(#2, \\"name\\", \\"renamed\\")', b"create(#1)"):
            self.door.sent("POST", "/batch", b'{"as":"#3","calls":["' + call + b'"]}')
        self.index.take(Accepted(1, 0.0, "wizard", 3, ["create(#1)"], {"answers": ["#4"]}))
        self.assertEqual(self.check().things[2].name, "renamed")

    def test_an_older_copy_that_is_served(self):
        self.write("wizard", "create(#1)")
        self.check()
        kept = self.index.kept
        self.index.kept = type(kept)(kept.seq + 5, kept.things, kept.children, kept.contents, kept.owned, kept.marked)
        self.index.told_seq = kept.seq + 5
        self.check()

    def test_moo_that_does_not_answer_for_a_while(self):
        self.write("wizard", "create(#1)")
        self.check()
        self.write("wizard", 'set(#4, "name", "four")', "create(#1)")
        whole = self.door.asked

        def silent(method, path, *given):
            if path.startswith(("/object", "/each")):
                raise Unreachable
            return whole(method, path, *given)

        self.door.asked = silent
        with self.assertRaises(Unreachable):
            self.index.world()
        self.door.asked = whole
        self.assertEqual(self.check().things[4].name, "four")

    def test_writes_while_it_reads(self):
        """A batch comes between two answers of moo's, and then again."""
        self.write("wizard", *("create(#1)" for _ in range(997)))
        self.write("wizard", *("create(#1)" for _ in range(500)))
        whole, waiting = self.door.asked, ['set(#4, "name", "four")', "recycle(#1400)", "create(#6)", "chparent(#5, #1200)"]

        def between(method, path, *given):
            answer = whole(method, path, *given)
            if path.startswith(("/objects/", "/each")) and waiting:
                self.writer.write("wizard", 3, [waiting.pop()])
            return answer

        self.door.asked = between
        self.index.world()
        self.index.world()
        self.index.world()
        self.door.asked = whole
        self.assertEqual(waiting, [])
        self.check()

    def test_pages_at_once(self):
        import threading

        self.write("wizard", *("create(#1)" for _ in range(900)))
        seen = []
        threads = [threading.Thread(target=lambda: seen.append(self.index.world().seq)) for _ in range(12)]
        for thread in threads:
            thread.start()
        for thread in threads:
            thread.join(60)
        self.assertEqual(seen, [1] * 12)
        self.assertEqual(self.whole_reads(), 1)


if __name__ == "__main__":
    unittest.main()
