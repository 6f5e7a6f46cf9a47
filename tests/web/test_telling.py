"""Calls as pages show them: in plain words, and as they are written with their objects as links (`sentences` and `links` in web/moo_web/pages/)."""

import random
import re
import unittest

from tests.support.pages import lacking
from tests.support.web import use_web

use_web()

from moo_client import ErrorValue, Obj  # noqa: E402
from moolib.handles import written_call  # noqa: E402

SEED, COUNT = 11, 5000
NAMES = {1: "Root Class", 5: "Lamp", 7: "Hall"}
TEXTS = ("", "name", "wizard", "W", 'a "b" \\', "<script>", "{0}", "{0.__class__}", "%s", "x" * 70, "#5", "\t")
CALLS = (
    "create", "chparent", "recycle", "move", "set_player_flag", "set_accept", "set", "add_property", "delete_property", "clear_property",
    "set_property_info", "add_verb", "delete_verb", "set_verb_info", "set_verb_args", "petition", "grant", "decline", "SET", "get", "none",
)  # fmt: skip


class Telling(unittest.TestCase):
    def setUp(self):
        if why := lacking():
            self.skipTest(why)
        from moo_web.pages import links, sentences
        from moo_web.world.things import Thing, World

        self.links, self.sentences = links, sentences
        self.world = World.made(1, {number: Thing(number, name, 3, -1, -1, 0) for number, name in NAMES.items()})

    def told(self, call):
        """A call in words, without markup."""
        link = self.sentences.preview_link(lambda number: self.links.link(self.world, number), [])
        return self.sentences.told(call, link).striptags().replace("\xa0", " ")

    def test_in_words(self):
        for call, words in (
            ("move(#5, #7)", "Lamp #5 goes into Hall #7."), ("move(#5, #-1)", "Lamp #5 goes out of where it is, to nowhere."),
            ('set(#5, "NAME", "x")', "Lamp #5 is called “x”."), ("move(#5)", ""), ("get(#5, \"name\")", ""), ("move", ""),
            ('set(#5, "text", "It is.")', "The property “text” of Lamp #5 becomes “It is.”"), ('set(#5, "name", "x.")', "Lamp #5 is called “x.”"),
            ('petition({{"move", #5, #7}})', "A wizard is asked for this: Lamp #5 goes into Hall #7."),
            ('petition({{"recycle", #5}, {"decline", 3}})',
             "A wizard is asked for this: Lamp #5 is recycled: it is gone for good. Petition 3 is gone."),
            ('petition({{"recycle", #5}, {"get", #5}})', "A wizard is asked for 2 calls."),
            ('petition({{"petition", {{"recycle", #5}}}})', "A wizard is asked for 1 call."),
            ("petition({" + ", ".join(['{"recycle", #5}'] * 4) + "})", "A wizard is asked for 4 calls."),
        ):  # fmt: skip
            with self.subTest(call=call):
                self.assertEqual(self.told(call), words)

    def test_links(self):
        """By the name that the object has in this world: blank ones are unnamed, and long ones cut."""
        blank, shown = '<i class="dim">unnamed</i>', "x" * 80 + "…"
        for name, wanted in (("Lamp", "Lamp"), ("", blank), (" " * 100, blank), ("x" * 81, shown), ("<b>&", "&lt;b&gt;&amp;"), ("Lamp", "Lamp")):
            world = self.world.changed(2, {5: self.world.things[5]._replace(name=name)})
            self.assertEqual(self.links.link(world, 5), f'<a href="/o/5">{wanted}</a>&nbsp;<span class="n">#5</span>')
        self.assertEqual(self.links.link(self.world, 6), '<span class="gone">#6</span>')

    def test_of_many_the_long_ones_are_not_told(self):
        long = f'set(#5, "text", "{"x" * 1000}")'
        self.assertNotEqual(self.told(long), "")
        self.assertEqual(self.sentences.in_words(long, str), "")

    def value(self, chance, depth=0):
        """Any value that a call may have."""
        kind = chance.randrange(6)
        if kind == 0:
            return Obj(chance.choice((-1, 1, 5, 7, 99, 2**31 - 1)))
        if kind == 1:
            return chance.choice((0, 1, -1, 2**31 - 1, -(2**31)))
        if kind == 2:
            return chance.choice(TEXTS)
        if kind == 3:
            return ErrorValue("E_PERM")
        return [self.value(chance, depth + 1) for _ in range(chance.randrange(5))] if depth < 4 else 0

    def test_any_call_is_shown(self):
        """What one person sends is on the pages of others: no call may break them. Every seventh isn't one."""
        chance = random.Random(SEED)
        nobody = self.world.made(1, {})
        for number in range(COUNT):
            call = written_call([chance.choice(CALLS), *(self.value(chance) for _ in range(chance.randrange(5)))])
            if number % 7 == 0:
                place = chance.randrange(len(call) + 1)
                call = call[:place] + chance.choice(('"', "{", ")", "#", "#5", "#5#", "9" * 20)) + call[place + chance.randrange(3) :]
            self.sentences.is_grave(call)
            self.assertNotIn("<script>", self.sentences.told(call, lambda one: self.links.link(self.world, one)))
            shown = self.links.call(nobody, call, 10**6)
            self.assertEqual(type(shown)(re.sub('<abbr title="nothing[^"]*">(#-1)</abbr>', r"\1", shown)).unescape(), call)
            self.assertNotIn("<script>", self.links.call(self.world, call, 10**6))


if __name__ == "__main__":
    unittest.main()
