"""The forms of the front as data: what is typed becomes exact values, and the calls that are made of them (web/moo_web/forms/forms.py)."""

import re
import unittest

from tests.support.web import use_web

use_web()

from moo_web.forms.catalogue import FORMS, PREPOSITIONS  # noqa: E402
from moo_web.forms.forms import Field, Filled, Form, Me, Step, items_of_form, read_form  # noqa: E402
from moo_web.forms.petitions import asked_of  # noqa: E402
from moo_web.forms.unread import hidden_by_rights, is_of_value  # noqa: E402
from moo_web.forms.input import Mistyped, number_value, text_value, typed_as, written_value  # noqa: E402
from moolib.batches import Item  # noqa: E402
from moo_client import ErrorValue, Obj  # noqa: E402

ADA = Me(17)
# Every call of docs/CALLS.md that changes something, but for `petition`, which is made of the calls of any form.
CHANGING = {
    "create", "chparent", "recycle", "move", "set_player_flag", "set_accept", "set", "add_property", "delete_property", "set_property_info",
    "clear_property", "add_verb", "delete_verb", "set_verb_info", "set_verb_args", "grant", "decline",
}  # fmt: skip


class World:
    """Objects by their numbers, for forms to ask about."""

    def __init__(self, names):
        self.names = names

    def is_object(self, number):
        return number in self.names

    def named(self, word):
        return [(number, f"{name} #{number}") for number, name in self.names.items() if name.lower() == word.lower()]

    def like(self, word):
        return [(number, f"{name} #{number}") for number, name in self.names.items() if word.lower() in name.lower()]


WORLD = World({1: "Root Class", 2: "The First Room", 5: "Lamp", 6: "Lamp", 7: "Oil lamp", 17: "Ada"})


def calls(form, typed, me=ADA):
    """The calls of a form, without a mistake."""
    filled = read_form(FORMS[form], typed, WORLD, me)
    if filled.mistakes:
        raise AssertionError(filled.mistakes)
    return [item.text for item in items_of_form(FORMS[form], filled)]


def mistakes(form, typed, me=ADA):
    """The sentence about each field that is wrong."""
    return {key: mistake.reason for key, mistake in read_form(FORMS[form], typed, WORLD, me).mistakes.items()}


class Values(unittest.TestCase):
    def mistyped(self, reader, text):
        with self.assertRaises(Mistyped) as raised:
            reader(text)
        return raised.exception

    def test_texts_keep_every_byte_that_a_world_holds(self):
        for text, value in (
            ("", '""'),
            ("Lamp", '"Lamp"'),
            ('a "b" c', r'"a \"b\" c"'),
            ("back\\slash", r'"back\\slash"'),
            ("\t tab ", '"\t tab "'),
            ("{1, #2}", '"{1, #2}"'),
            ("".join(map(chr, range(32, 127))), '"' + "".join({'"': r"\"", "\\": r"\\"}.get(chr(n), chr(n)) for n in range(32, 127)) + '"'),
        ):
            with self.subTest(text=text):
                self.assertEqual(text_value(text), value)

    def test_a_letter_that_no_world_holds_is_named_with_its_place(self):
        for text, told, better in (
            ("Café", "“é”, letter 4 of “Café”, can’t be kept", "Cafe"),
            ("“quoted”", "““”, letter 1 of ““quoted””, can’t be kept", '"quoted"'),
            ("Straße", "“ß”, letter 5 of “Straße”, can’t be kept", "Strasse"),
            ("a\u00a0b", "letter 2", "a b"),
            ("bell\x07", "U+0007", "bell?"),
            ("日本", "“日”, letter 1 of “日本”, can’t be kept", ""),
            ("Café 日本, 日", "No plain letter is like “日”, “本”: “?” is in the place of each.", "Cafe ??, ?"),
            ("one  é\ntwo", "Its lines are joined by blanks there.", "one  e two"),
            ("one\r\ntwo", "there is one after letter 3", "one two"),
        ):
            with self.subTest(text=text):
                mistyped = self.mistyped(text_value, text)
                self.assertIn(told, mistyped.reason)
                self.assertEqual(mistyped.better, better)

    def test_lines_can_be_kept_as_a_list(self):
        for text, lines in (
            ("one\r\ntwo", '{"one", "two"}'), ("one\n\ntwo\n", '{"one", "", "two"}'), ("é\n日", '{"e", "?"}'), ("é", ""),
            ("a\rb", '{"a", "b"}'),
        ):  # fmt: skip
            with self.subTest(text=text):
                self.assertEqual(self.mistyped(text_value, text).lines, lines)

    def test_a_text_is_as_long_as_a_world_holds(self):
        self.assertEqual(len(text_value("x" * 65_535)), 65_537)
        self.assertIn("65,535 can be kept", self.mistyped(text_value, "x" * 65_536).reason)

    def test_numbers(self):
        for text, value in (("12", "12"), (" -5 ", "-5"), ("+7", "7"), ("007", "7"), ("1,000", "1000"), ("−3", "-3")):
            with self.subTest(text=text):
                self.assertEqual(number_value(text), value)
        for least in ("9223372036854775807", "-9223372036854775808"):
            self.assertEqual(number_value(least), least)
        for text, told in (("1.5", "whole number"), ("ten", "isn’t a number"), ("", "isn’t a number"), ("9223372036854775808", "64 bits")):
            with self.subTest(text=text):
                self.assertIn(told, self.mistyped(number_value, text).reason)

    def test_values_as_they_are_written(self):
        for text, value in (
            ("12", "12"), ("#4", "#4"), ("#-1", "#-1"), ("E_PERM", "E_PERM"), ('"a \\"b\\""', r'"a \"b\""'), ("{}", "{}"),
            ('{1,{#2,  "a"}}', '{1, {#2, "a"}}'), ("{" * 32 + "}" * 32, "{" * 32 + "}" * 32),
        ):  # fmt: skip
            with self.subTest(text=text):
                self.assertEqual(written_value(text), value)

    def test_what_is_no_value_is_told(self):
        for text, told in (
            ("hello", "put quotes round it"), ('"open', "this one has none at its end"), ("{1, 2", "as many { as }"),
            ("E_NOT", "isn’t an error"), ("", "is missing"), ("#2147483648", "32 bits"), ("9223372036854775808", "64 bits"),
            ("{" * 33 + "}" * 33, "32 deep"), ("{" * 5000 + "}" * 5000, "isn’t a value"), ('"é"', "can’t be kept"),
            ("1), recycle(#3", "isn’t a value"),
        ):  # fmt: skip
            with self.subTest(text=text[:40]):
                self.assertIn(told, self.mistyped(written_value, text).reason)

    def test_a_value_is_typed_again_as_it_was(self):
        for value, typed in (
            ("a\tb", ("text", "a\tb")), (5, ("number", "5")), (Obj(4), ("object", "#4")), ([1, "x"], ("written", '{1, "x"}')),
            (ErrorValue("E_PERM"), ("written", "E_PERM")),
        ):  # fmt: skip
            with self.subTest(value=value):
                self.assertEqual(typed_as(value), typed)


class Lists(unittest.TestCase):
    """The list of forms."""

    def test_each_call_that_changes_something_has_a_form(self):
        named = {re.match(r"\w+", step.call)[0] for form in FORMS.values() for step in form.steps}
        self.assertEqual(named, CHANGING)

    def test_steps_and_blame_name_fields(self):
        for form in FORMS.values():
            keys = {field.key for field in form.fields}
            with self.subTest(form=form.key):
                used = {key for step in form.steps for key in re.findall(r"<(\w+)>", step.call)}
                self.assertLessEqual(used, keys | {"one", "new", "me"})
                self.assertLessEqual(set(form.blame.values()), keys)

    def test_mistakes_in_a_form_are_told_when_it_is_made(self):
        """No such call, field, option or error: it isn't found by a press of somebody's, but at the start."""
        place, how = Field("place", "To", "place"), Field("how", "How", "choice", options=(("a", "A"), ("b", "B")))
        good = Step("move(<place>, #1)", given="how=a", unless="place")
        self.assertEqual(Form("f", "F", "", (place, how), (good,), each="place", blame={"move E_PERM": "place", "": "how"}).keys, {"place", "how"})
        for fields, steps, more in (
            ((place,), (Step("moved(<place>)"),), {}), ((place,), (Step("move(<plaice>)"),), {}), ((place,), (Step("move(<place>"),), {}),
            ((place,), (Step("move(<place>)", given="hwo"),), {}), ((place, how), (Step("move(<place>)", given="how=c"),), {}),
            ((place,), (good,), {}), ((place, how), (good,), {"blame": {"move E_NOT": "place"}}),
            ((place, how), (good,), {"blame": {"set E_PERM": "place"}}), ((place, how), (good,), {"blame": {"move": "plaice"}}),
            ((place, how), (good,), {"each": "plaice"}), ((Field("a", "A", "text", now="get(<b>)"),), (), {}),
            ((Field("a", "A", "text", section="b=c"),), (), {}), ((Field("a", "A", "txet"),), (), {}),
        ):  # fmt: skip
            with self.subTest(fields=fields, steps=steps, more=more), self.assertRaises(ValueError):
                Form("f", "F", "", fields, steps, **more)

    def test_the_phrases_of_prepositions_are_those_of_the_manual(self):
        self.assertEqual(len(PREPOSITIONS), 17)
        self.assertIn(("in front of", "in front of"), PREPOSITIONS)


class Calls(unittest.TestCase):
    """The calls that forms are."""

    def test_one_call(self):
        for form, typed, call in (
            ("rename", {"object": "#5", "name": 'a "b"'}, r'set(#5, "name", "a \"b\"")'),
            ("rename", {"object": "oil LAMP", "name": "x"}, 'set(#7, "name", "x")'),
            ("recycle", {"object": "5"}, "recycle(#5)"),
            ("move", {"object": "#5", "place": "The First Room"}, "move(#5, #2)"),
            ("move", {"object": "#5", "place": "Nothing"}, "move(#5, #-1)"),
            ("move", {"object": "#5 Lamp", "place": "nowhere"}, "move(#5, #-1)"),
            ("parent", {"object": "#5", "parent": "#1"}, "chparent(#5, #1)"),
            ("owner", {"object": "#5", "owner": "Ada"}, 'set(#5, "owner", #17)'),
            ("accept", {"object": "#2", "how": "own", "accepts": "#5, Oil lamp"}, "set_accept(#2, {#5, #7})"),
            ("accept", {"object": "#2", "how": "own", "accepts": ""}, "set_accept(#2, {})"),
            ("accept", {"object": "#2", "how": "inherited", "accepts": "nonsense"}, "set_accept(#2, 0)"),
            ("set", {"object": "#5", "name": "weight", "value": "3", "value.kind": "number"}, 'set(#5, "weight", 3)'),
            ("set", {"object": "#5", "name": "weight", "value": "3"}, 'set(#5, "weight", "3")'),
            ("set", {"object": "#5", "name": "home", "value": "the first room", "value.kind": "object"}, 'set(#5, "home", #2)'),
            ("set", {"object": "#5", "name": "l", "value": '{1, "x"}', "value.kind": "written"}, 'set(#5, "l", {1, "x"})'),
            ("clear", {"object": "#5", "name": "weight"}, 'clear_property(#5, "weight")'),
            ("delete-property", {"object": "#5", "name": "weight"}, 'delete_property(#5, "weight")'),
            (
                "add-property",
                {"object": "#5", "name": "w", "value": "0", "value.kind": "number", "perms.r": "on", "perms.c": "on", "owner": "me"},
                'add_property(#5, "w", 0, {#17, "rc"})',
            ),
            (
                "property-rights",
                {"object": "#5", "name": "w", "perms.w": "on", "owner": "#1", "renamed": ""},
                'set_property_info(#5, "w", {#1, "w"})',
            ),
            (
                "property-rights",
                {"object": "#5", "name": "w", "owner": "#1", "renamed": "v"},
                'set_property_info(#5, "w", {#1, "", "v"})',
            ),
            (
                "add-verb",
                {"object": "#5", "names": "get take", "perms.r": "on", "perms.d": "on", "owner": "me", "dobj": "this",
                 "prep": "in front of", "iobj": "none"},
                'add_verb(#5, {#17, "rd", "get take"}, {"this", "in front of", "none"})',
            ),
            ("delete-verb", {"object": "#5", "verb": "2"}, "delete_verb(#5, 2)"),
            ("delete-verb", {"object": "#5", "verb": "take"}, 'delete_verb(#5, "take")'),
            ("verb-rights", {"object": "#5", "verb": "1", "names": "x", "owner": "#1"}, 'set_verb_info(#5, 1, {#1, "", "x"})'),
            (
                "verb-args",
                {"object": "#5", "verb": "1", "dobj": "any", "prep": "any", "iobj": "this"},
                'set_verb_args(#5, 1, {"any", "any", "this"})',
            ),
            ("quota", {"object": "Ada", "quota": "20", "how": "set"}, 'set(#17, "ownership_quota", 20)'),
            ("quota", {"object": "#5", "quota": "20", "how": "add"}, 'add_property(#5, "ownership_quota", 20, {#17, "r"})'),
            ("grant", {"number": "7"}, "grant(7)"),
            ("decline", {"number": "7"}, "decline(7)"),
        ):  # fmt: skip
            with self.subTest(form=form, typed=typed):
                self.assertEqual(calls(form, typed), [call])

    def test_marks_that_stay_as_they_are_are_left_out(self):
        typed = {"object": "#5", "r.was": "1", "w.was": "0", "w": "on", "f.was": "1", "f": "on"}
        self.assertEqual(calls("marks", typed), ['set(#5, "r", 0)', 'set(#5, "w", 1)'])
        self.assertEqual(calls("powers", {"object": "#5", "player.was": "0", "player": "on", "wizard.was": "0", "programmer.was": "1"}),
                         ["set_player_flag(#5, 1)", 'set(#5, "programmer", 0)'])
        self.assertEqual(mistakes("marks", {"object": "#5", "r.was": "0", "w.was": "0", "f.was": "0"}), {"f": "Nothing is changed yet."})

    def test_making_several_at_once(self):
        filled = read_form(FORMS["create"], {"parent": "#1", "names": "Lamp\r\n\r\n Key \r\n", "place": "#2"}, WORLD, ADA)
        self.assertEqual(
            [(item.name, item.text) for item in items_of_form(FORMS["create"], filled)],
            [("$new1", "create(#1)"), (None, 'set($new1, "name", "Lamp")'), (None, "move($new1, #2)"),
             ("$new2", "create(#1)"), (None, 'set($new2, "name", "Key")'), (None, "move($new2, #2)")],
        )  # fmt: skip

    def test_making_with_all_that_can_be_said(self):
        typed = {"parent": "nothing", "names": "Room", "fertile": "on", "listed": "on", "accepts": "#1", "owner": "Ada"}
        self.assertEqual(
            calls("create", typed),
            ["create(#-1, #17)", 'set($new1, "name", "Room")', 'set($new1, "f", 1)', 'set($new1, "r", 1)', "set_accept($new1, {#1})"],
        )
        self.assertEqual(calls("create", {"parent": "#1"}), ["create(#1)"])
        self.assertEqual(calls("create", {"parent": "#1", "owner": "nothing"}), ["create(#1, #-1)"])

    def test_several_objects(self):
        typed = {"objects": "Oil lamp\r\n#2", "objects.5": "on", "what": "move", "place": "#1", "owner": "nonsense"}
        self.assertEqual(calls("many", typed), ["move(#5, #1)", "move(#7, #1)", "move(#2, #1)"])
        self.assertEqual(calls("many", {**typed, "what": "recycle"}), ["recycle(#5)", "recycle(#7)", "recycle(#2)"])
        self.assertEqual(calls("many", {**typed, "what": "owner", "owner": "Ada"})[0], 'set(#5, "owner", #17)')
        self.assertEqual(mistakes("many", {"what": "recycle"}), {"objects": "No object is chosen."})


class Mistakes(unittest.TestCase):
    """What is told beside a field."""

    def test_objects(self):
        for typed, told in (("", "is missing"), ("#99", "There is no object #99"), ("Sword", "No object is named “Sword”")):
            with self.subTest(typed=typed):
                self.assertIn(told, mistakes("recycle", {"object": typed})["object"])

    def test_nothing_is_only_what_is_typed_so(self):
        self.assertIn("or: nothing", mistakes("move", {"object": "#5", "place": " "})["place"])
        self.assertIn("or: nothing", mistakes("create", {"names": "x"})["parent"])

    def test_a_name_of_several_objects_gives_a_choice(self):
        mistake = read_form(FORMS["recycle"], {"object": "lamp"}, WORLD, ADA).mistakes["object"]
        self.assertEqual(
            (mistake.reason, mistake.choices), ("2 objects are named “lamp”. Choose one:", (("#5", "Lamp #5"), ("#6", "Lamp #6")))
        )
        mistake = read_form(FORMS["recycle"], {"object": "oil"}, WORLD, ADA).mistakes["object"]
        self.assertEqual(mistake.choices, (("#7", "Oil lamp #7"),))

    def test_all_mistakes_are_told_at_once(self):
        found = mistakes("add-property", {"object": "", "name": " ", "value": "é", "owner": "#99"})
        self.assertEqual(set(found), {"object", "name", "value", "owner"})

    def test_the_line_of_a_name_is_told(self):
        mistake = read_form(FORMS["create"], {"parent": "#1", "names": "Lamp\r\nCafé\r\nKey"}, WORLD, ADA).mistakes["names"]
        self.assertIn("Line 2: “é”, letter 4", mistake.reason)
        self.assertEqual(mistake.better, "Lamp\nCafe\nKey")

    def test_an_option_that_isnt_there(self):
        self.assertIn("prep", mistakes("verb-args", {"object": "#5", "verb": "1", "dobj": "this", "prep": "upside", "iobj": "none"}))
        self.assertEqual(mistakes("many", {"objects": "#5", "what": "burn"}), {"what": "Choose one of these."})

    def test_a_form_without_a_mistake_has_none(self):
        self.assertIsInstance(read_form(FORMS["recycle"], {"object": "#5"}, WORLD, ADA), Filled)
        self.assertEqual(mistakes("recycle", {"object": "#5"}), {})


class Named(unittest.TestCase):
    """Calls with a name in the place of an object that an earlier call makes."""

    def test_what_cant_be_asked_for_is_shown_without_names(self):
        made = [Item("create(#1)", "$lamp"), Item('set($lamp, "price", "$lamp")')]
        self.assertEqual(asked_of(made, ADA).left_out, ['set((the new object), "price", "$lamp")'])

    def test_rights_of_an_object_that_is_made_again_hide_a_value(self):
        for owner, perms, hidden in (("$again5", "", {1, 2}), ("$again5", "r", set()), (f"#{ADA.number}", "", set())):
            lines = ["$again5 = create(#1)", 'set(#9, "code", "1234")', f'set_property_info(#9, "code", {{{owner}, "{perms}"}})']
            self.assertEqual(hidden_by_rights(lines, ADA.number), hidden, lines)

    def test_a_line_that_gives_a_value(self):
        self.assertTrue(is_of_value('set($again5, "friend", {$again6})'))
        self.assertFalse(is_of_value('set($again5, "owner", $again6)'))


if __name__ == "__main__":
    unittest.main()
