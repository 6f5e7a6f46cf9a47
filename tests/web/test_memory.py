"""What an intent keeps to undo its batch: what each call replaces, the names of then, what is too much; and moo-replay --undo."""

import json
import hashlib
import shutil
import unittest

from tests.support.journals import accepted_in
from tests.support.operating import checked, make_world, said
from tests.support.web import program, use_web
from tests.web.test_undoing import World

use_web()

from moo_web.journal.segments import Accepted  # noqa: E402
from moo_web.journal.undoing import Undo, undone  # noqa: E402
from moolib import facts  # noqa: E402

WIZARD, ADA = 3, 4
# A player #4 of her own; a class #5 of the wizard's with two properties and a verb; under it #6, and under that #7, both Ada's.
VILLAGE = "\n".join([
    "batch as #3", "create(#1, #-1)", "create(#1)", "create(#5, #4)", "create(#6, #4)", "set_player_flag(#4, 1)", 'set(#4, "name", "Ada")',
    'set(#5, "name", "apple")', 'set(#5, "f", 1)', 'add_property(#5, "colour", "green", {#3, "rwc"})',
    'add_property(#5, "taste", 5, {#3, "rw"})', 'add_verb(#5, {#3, "rx", "eat bite"}, {"this", "none", "none"})',
    'add_verb(#5, {#4, "", "throw"}, {"this", "at", "any"})', 'set(#6, "taste", 6)', 'set(#7, "colour", "red")', "set_accept(#6, {#1})",
    "move(#7, #6)", 'add_property(#4, "ownership_quota", 9, {#3, "r"})', 'set_property_info(#7, "taste", {#4, ""})', "end", "",
])  # fmt: skip
# A call of the wizard's, and what undoes it.
BEFORE = (
    ("create(#5)", ["recycle(#8)"]),
    ("create(#5, #4)", ["recycle(#8)"]),
    ('set(#6, "name", "core")', ['set(#6, "name", "")']),
    ('set(#5, "Name", "pear")', ['set(#5, "name", "apple")']),
    ('set(#6, "owner", #3)', ['set(#6, "owner", #4)']),
    ('set(#5, "f", 0)', ['set(#5, "f", 1)']),
    ('set(#5, "colour", "blue")', ['set(#5, "colour", "green")']),
    ('set(#6, "colour", "blue")', ['clear_property(#6, "colour")']),
    ('set(#7, "COLOUR", {1})', ['set(#7, "COLOUR", "red")']),
    ('clear_property(#7, "colour")', ['set(#7, "colour", "red")']),
    ('clear_property(#6, "colour")', []),
    ("move(#7, #-1)", ["move(#7, #6)"]),
    ("move(#6, #2)", ["move(#6, #-1)"]),
    ("set_player_flag(#4, 0)", ["set_player_flag(#4, 1)"]),
    ("set_accept(#6, 0)", ["set_accept(#6, {#1})"]),
    ("set_accept(#7, {})", ["set_accept(#7, 0)"]),
    ('add_property(#6, "core", 1, {#3, "r"})', ['delete_property(#6, "core")']),
    (
        'delete_property(#5, "TASTE")',
        ['add_property(#5, "taste", 5, {#3, "rw"})', 'set(#6, "taste", 6)', 'set_property_info(#7, "taste", {#4, ""})'],
    ),
    ('set_property_info(#5, "colour", {#4, "r"})', ['set_property_info(#5, "colour", {#3, "rwc"})']),
    ('set_property_info(#5, "colour", {#4, "r", "hue"})', ['set_property_info(#5, "hue", {#3, "rwc", "colour"})']),
    (
        "chparent(#6, #1)",
        ["chparent(#6, #5)", 'set(#6, "taste", 6)', 'set(#7, "colour", "red")', 'set_property_info(#7, "taste", {#4, ""})'],
    ),
    ("chparent(#6, #-1)",
        ["chparent(#6, #5)", 'set(#6, "taste", 6)', 'set(#7, "colour", "red")', 'set_property_info(#7, "taste", {#4, ""})']),
    ("chparent(#7, #5)", ["chparent(#7, #6)"]),
    ('add_verb(#5, {#3, "", "drop"}, {"this", "none", "none"})', ["delete_verb(#5, 3)"]),
    ("delete_verb(#5, 1)", ['add_verb(#5, {#3, "rx", "eat bite"}, {"this", "none", "none"})']),
    ('set_verb_info(#5, "bite", {#4, "r", "gnaw"})', ['set_verb_info(#5, 1, {#3, "rx", "eat bite"})']),
    ('set_verb_args(#5, 2, {"any", "any", "any"})', ['set_verb_args(#5, 2, {"this", "at/to", "any"})']),
    ('petition({{"recycle", #7}})', ["decline(1)"]),
    ("recycle(#7)", None),
    ('get(#5, "name")', []),
    ("players()", []),
)  # fmt: skip


class Parts(unittest.TestCase):
    def test_each_is_no_more_than_a_service_takes(self):
        """A quote is two bytes in a body, which has at most 1,048,576."""
        for lines, wanted in (
            ([], []), (["valid(#1)"] * 1001, [1000, 1]), (["x" * 600_000] * 3, [1, 1, 1]), (["x" * 600_000, "y" * 400_000], [2]),
            (['"' * 300_000] * 2, [1, 1]),
        ):  # fmt: skip
            parts = Undo(lines, []).parts
            self.assertEqual(([len(part) for part in parts], [line for part in parts for line in part]), (wanted, lines))


class Keeps(World):
    def setUp(self):
        super().setUp()
        self.begin(text=VILLAGE)

    def intents(self):
        """The intents of the journal, as they are written."""
        lines = [line for path in self.folder.glob("journal-*") for line in path.read_bytes().splitlines()]
        found = [json.loads(line[65:]) for line in lines]
        return sorted((one for one in found if one["k"] == "intent"), key=lambda one: one["at"])

    def test_what_each_call_replaces(self):
        for call, wanted in BEFORE:
            with self.subTest(call):
                batch = self.write(WIZARD, [call])
                self.assertEqual(self.intents()[-1]["before"], [wanted])
                for line in wanted or ():
                    answer = self.writer.write("somebody", WIZARD, [line])
                    self.assertEqual(answer.status, 200, (line, answer.said))
                self.assertEqual(batch.memory.before, [wanted])
            if call != 'set(#7, "COLOUR", {1})':
                self.close()
                self.end()
                shutil.rmtree(self.folder)
                (self.room / "world.db").unlink()
                for end in ("-wal", "-shm"):
                    (self.room / f"world.db{end}").unlink(missing_ok=True)
                self.begin(text=VILLAGE)

    def test_each_call_of_a_batch_is_on_what_was_done_before_it(self):
        self.write(WIZARD, [
            'set(#6, "taste", 7)', 'set(#6, "taste", 8)', "create(#6)", 'set(#8, "taste", 1)', "delete_verb(#5, 1)",
            'set_verb_info(#5, 1, {#3, "", "hurl"})', "chparent(#7, #8)", "move(#7, #8)",
        ])  # fmt: skip
        self.assertEqual(self.intents()[-1]["before"], [
            ['set(#6, "taste", 6)'], ['set(#6, "taste", 7)'], ["recycle(#8)"], ['clear_property(#8, "taste")'],
            ['add_verb(#5, {#3, "rx", "eat bite"}, {"this", "none", "none"})'], ['set_verb_info(#5, 1, {#4, "", "throw"})'],
            ["chparent(#7, #6)"], ["move(#7, #6)"],
        ])  # fmt: skip

    def test_the_names_of_then(self):
        self.write(WIZARD, ['set(#5, "name", "pear")', "move(#7, #6)", 'set(#6, "taste", {#4, "#3"})', "valid(#99)"])
        self.write(WIZARD, ['set(#5, "name", "plum")', "create(#4)"])
        names = [one["names"] for one in self.intents()]
        self.assertEqual(names, [{"#4": "Ada", "#5": "apple", "#6": "", "#7": ""}, {"#4": "Ada", "#5": "pear"}])

    def test_a_grant_keeps_what_undoes_its_calls(self):
        asked = 'petition({{"set", #5, "colour", "blue"}, {"move", #7, #-1}, {"create", #1}, {"recycle", #7}})'
        self.write(ADA, [asked])
        self.write(WIZARD, ["grant(1)"])
        intent = self.intents()[-1]
        self.assertEqual(intent["before"], [["recycle(#8)", "move(#7, #6)", 'set(#5, "colour", "green")']])
        self.assertEqual(intent["names"], {"#1": "Root Class", "#5": "apple", "#7": ""})

    def test_a_quota_that_was_inherited(self):
        self.write(WIZARD, ["create(#4)", "set_player_flag(#8, 1)"])
        self.write(WIZARD, ["create(#1, #8)", "create(#1, #8)"])
        wanted = [["recycle(#9)", 'clear_property(#8, "ownership_quota")'], ["recycle(#10)"]]
        self.assertEqual(self.intents()[-1]["before"], wanted)

    def test_an_owner_that_is_gone(self):
        """What a recycled player owned comes back with another owner, and the undo says so."""
        none = '{"none", "none", "none"}'
        self.write(WIZARD, ["create(#1, #-1)", 'add_property(#5, "old", 1, {#8, "r"})', f'add_verb(#5, {{#8, "", "old"}}, {none})'])
        self.assertNotIn("gone", self.intents()[-1])
        self.write(WIZARD, ["recycle(#8)"])
        batch = self.write(WIZARD, ['delete_property(#5, "old")', 'delete_verb(#5, "old")'])
        self.assertEqual(self.intents()[-1]["gone"], [8])
        undo = undone(batch)
        self.assertEqual(undo.lines, [f'add_verb(#5, {{#3, "", "old"}}, {none})', 'add_property(#5, "old", 1, {#3, "r"})'])
        self.assertIn("#8 is gone and can own nothing: what it owned gets another owner.", undo.lasting)
        self.assertEqual(self.ask(WIZARD, undo.lines).status, 200)

    def test_what_others_may_not_read_is_kept_too(self):
        self.write(WIZARD, ['add_property(#5, "secret", 1, {#3, ""})', 'set(#7, "secret", 2)'])
        self.write(ADA, ["chparent(#6, #1)"] if self.ask(ADA, ["chparent(#6, #1)"]).is_good else ["chparent(#6, #-1)"])
        self.assertIn('set(#7, "secret", 2)', self.intents()[-1]["before"][0])

    def test_another_wizard_reads_once_the_first_is_none(self):
        self.write(WIZARD, ['set(#4, "wizard", 1)', 'set(#6, "wizard", 1)'])
        self.write(ADA, ['set(#3, "wizard", 0)', 'add_property(#5, "secret", 1, {#6, ""})'])
        self.write(ADA, ['set(#4, "wizard", 0)'])
        self.write(WIZARD, ['set(#5, "colour", 2)'])
        self.assertEqual(self.intents()[-1]["before"], [['set(#5, "colour", "green")']])

    def test_what_is_too_much(self):
        most, facts.Facts.__init__.__defaults__ = facts.Facts.__init__.__defaults__, (12,)
        self.addCleanup(setattr, facts.Facts.__init__, "__defaults__", most)
        batch = self.write(WIZARD, ["chparent(#6, #-1)"])
        self.assertEqual(batch.memory.before, [None])
        self.assertRegex(undone(batch).lasting[0], r"chparent\(#6, #-1\): what it replaced can’t be put back, or was too much to be kept")
        self.assertEqual(undone(batch).lines, [])


class Undoes(World):
    """moo-replay --undo, and what can't be undone."""

    def setUp(self):
        super().setUp()
        self.begin(text=VILLAGE)

    def replay(self, *words):
        return program("moo-replay", *words)

    def test_a_text(self):
        before = self.dump()
        self.write(WIZARD, ['set(#5, "colour", "blue")', "chparent(#6, #1)"])
        text = "\n".join([
            "batch as #3", "chparent(#6, #5)", 'set(#6, "taste", 6)', 'set(#7, "colour", "red")',
            'set_property_info(#7, "taste", {#4, ""})', 'set(#5, "colour", "green")', "end", "",
        ])  # fmt: skip
        self.assertEqual(self.replay(self.folder, "--undo", 2), (0, text, ""))
        self.service.stop()
        self.service = None
        self.assertEqual(said("apply", self.room / "world.db", "-", text=text)[0], 0)
        self.assertEqual(said("dump", self.room / "world.db")[1].replace("seq 3", "seq 1"), before)

    def test_it_is_by_who_made_the_batch(self):
        self.write(ADA, ['set(#6, "taste", 7)'])
        self.assertEqual(self.replay(self.folder, "--undo", 2), (0, 'batch as #4\nset(#6, "taste", 6)\nend\n', ""))

    def test_over_a_thousand_calls_are_several_batches(self):
        self.write(WIZARD, ["create(#5)"] * 600)
        self.write(WIZARD, [call for number in range(8, 608) for call in (f'set(#{number}, "taste", {number})',)])
        self.write(WIZARD, [f'set(#{number}, "colour", "red")' for number in range(8, 608)])
        self.write(WIZARD, ["chparent(#5, #-1)", 'delete_property(#5, "taste")', 'delete_property(#5, "colour")'])
        status, text, told = self.replay(self.folder, "--undo", 5)
        self.assertEqual((status, text.count("batch as #3\n"), text.count("\nend\n")), (0, 2, 2), told)
        self.assertEqual(told.count("\n"), 1, "that the order of properties isn't put back")

    def test_nothing_can(self):
        self.write(WIZARD, ["recycle(#7)"])
        self.write(WIZARD, ["players()"])
        for number, why in ((2, r"recycle\(#7\): the object is gone for good"), (3, "changes nothing"), (1, "has no batch 1"), (9, "has no batch 9")):
            status, text, told = self.replay(self.folder, "--undo", number)
            self.assertEqual((status, text), (1, ""))
            self.assertRegex(told, f"^moo-replay: .*{why}.*\n$")

    def test_what_stays_is_said_beside_the_text(self):
        self.write(WIZARD, ['set(#7, "taste", 9)', 'set(#6, "taste", 9)', "recycle(#7)", "delete_verb(#5, 1)"])
        status, text, told = self.replay(self.folder, "--undo", 2)
        self.assertEqual(status, 0)
        self.assertEqual(
            text, 'batch as #3\nadd_verb(#5, {#3, "rx", "eat bite"}, {"this", "none", "none"})\nset(#6, "taste", 6)\nend\n'
        )
        self.assertEqual(len(told.splitlines()), 3, told)
        for words in ("recycle(#7): the object is gone for good", "A verb comes back as the last", 'clear_property(#7, "taste"): an object that it names'):
            self.assertIn(words, told)

    def test_words(self):
        for words in ((self.folder,), (self.folder, "file.db", "--undo", 1), (self.folder, "--undo", "x")):
            with self.subTest(words):
                self.assertEqual(self.replay(*words)[0], 2)

    def test_an_object_is_made_again_without_its_number(self):
        before = self.dump()
        batch = self.write(WIZARD, ["recycle(#6)"])
        undo = undone(batch)
        self.assertEqual(undo.lines, [
            "$again6 = create(#5, #4)", "set_accept($again6, {#1})", 'set($again6, "taste", 6)', "chparent(#7, $again6)", "move(#7, $again6)",
        ])  # fmt: skip
        self.assertRegex(" ".join(undo.lasting), "#6 is gone for good, and its number isn’t given again: another object is made")
        self.undo(WIZARD, batch)
        self.assertNotIn("object {#6", self.dump())
        self.assertEqual(self.dump().count("\n"), before.count("\n"))

    def test_what_came_and_went_in_the_batch_needs_nothing(self):
        before = self.dump().splitlines()[2:]
        batch = self.write(WIZARD, ["create(#5)", 'set(#8, "taste", 1)', "move(#7, #8)", "recycle(#8)", 'set(#6, "taste", 1)'])
        self.assertEqual(undone(batch).lines, ['set(#6, "taste", 6)', "move(#7, #6)"])
        self.undo(WIZARD, batch)
        self.assertEqual(self.dump().splitlines()[2:], before)


    def test_what_the_batch_made_is_recycled_and_not_put_back_first(self):
        before = self.dump().splitlines()[2:]
        batch = self.write(WIZARD, [
            "create(#5)", 'set(#8, "name", "box")', 'set(#8, "taste", 1)', "set_accept(#8, {#1})", "move(#7, #8)", "move(#8, #6)",
            'set(#6, "taste", 1)', 'set(#8, "owner", #4)',
        ])  # fmt: skip
        self.assertEqual(undone(batch).lines, ['set(#8, "owner", #3)', 'set(#6, "taste", 6)', "move(#7, #6)", "recycle(#8)"])
        self.undo(WIZARD, batch)
        self.assertEqual(self.dump().splitlines()[2:], before)


class Versions(World):
    """A journal of the first version goes on in segments of the second, and both replay."""

    def test_a_folder_with_both(self):
        self.begin(text="")
        self.write(WIZARD, ["create(#1)"])
        self.write(WIZARD, ['set(#4, "name", "four")'])
        self.close()
        (path,) = self.folder.glob("journal-*")
        old = as_of_the_first_version(path.read_bytes())
        path.write_bytes(old)
        self.open()
        self.write(WIZARD, ['set(#4, "name", "five")'])
        self.write(WIZARD, ["create(#4)"])
        self.close()
        self.assertEqual(path.read_bytes(), old, "a segment of the first version is written no more")
        bases = [json.loads(file.read_bytes().split(b"\n")[0][65:]) for file in self.folder.glob("journal-*")]
        self.assertEqual(sorted((base["segment"], base["version"], base["seq"], base["why"]) for base in bases), [(1, 1, 0, "new"), (2, 2, 2, "full")])
        batches = [one for one in accepted_in(self.folder) if isinstance(one, Accepted)]
        self.assertEqual([one.memory is None for one in batches], [True, True, False, False])
        make_world(self.room / "new.db", "")
        self.assertEqual(program("moo-replay", self.folder, self.room / "new.db"), (0, "seq 4\n", ""))
        dump = self.dump()
        self.assertEqual(said("dump", self.room / "new.db")[1], dump)
        self.assertEqual(checked(self.room / "new.db"), 4)
        status, text, told = program("moo-replay", self.folder, "--undo", 2)
        self.assertEqual((status, text), (1, ""))
        self.assertIn("Batch 2 is of a journal from before batches could be undone", told)
        self.assertEqual(program("moo-replay", self.folder, "--undo", 3)[1], 'batch as #3\nset(#4, "name", "four")\nend\n')

    def test_branches(self):
        """A branch is of zeros, or the last sum before the journal was begun anew, and goes on through full segments."""
        self.begin(text="")
        self.write(WIZARD, ["create(#1)"])
        self.close()
        self.open()
        self.journal.begin(1, 1000.0, "full")
        former = self.journal.sum
        self.journal.begin(1, 1000.0, "rebase")
        self.journal.begin(1, 1000.0, "full")
        self.close()
        self.open()
        self.journal.begin(1, 1000.0, "full")
        bases = sorted((json.loads(file.read_bytes().split(b"\n")[0][65:]) for file in self.folder.glob("journal-*")), key=lambda base: base["segment"])
        self.assertEqual([base["branch"] for base in bases], ["0" * 64, "0" * 64, former, former, former])


def as_of_the_first_version(text):
    """The lines of a segment as version 1 has them."""
    former, found = "0" * 64, b""
    for line in text.splitlines():
        said_ = {key: value for key, value in json.loads(line[65:]).items() if key not in ("before", "names", "branch")}
        if said_["k"] == "base":
            said_["version"] = 1
        packed = json.dumps(said_, separators=(",", ":")).encode()
        former = hashlib.sha256(former.encode() + packed).hexdigest()
        found += former.encode() + b" " + packed + b"\n"
    return found


class Differs(World):
    """moo-replay --diff: what differs between two numbers."""

    def setUp(self):
        super().setUp()
        self.begin(text=VILLAGE)
        self.write(WIZARD, ['set(#5, "colour", "blue")', 'set(#6, "colour", "red")', "move(#7, #-1)", "create(#5)"])
        self.write(WIZARD, ['set(#5, "colour", "white")', 'set(#5, "name", "pear")', 'clear_property(#7, "colour")'])
        self.write(WIZARD, ["chparent(#6, #1)", 'add_property(#4, "size", 2, {#3, ""})', "recycle(#8)", 'set(#5, "f", 0)'])
        self.write(WIZARD, ['petition({{"set", #5, "f", 1}, {"set_accept", #6, 0}, {"create", #1}})'])
        self.write(WIZARD, ["grant(1)", 'set(#5, "colour", "blue")'])

    def diff(self, first, last, *words):
        status, text, told = program("moo-replay", self.folder, "--diff", first, last, *words)
        self.assertEqual((status, told), (0, ""))
        return text.splitlines()

    def test_between_numbers(self):
        self.assertEqual(self.diff(1, 2), ['#5 colour: "green" -> "blue"', '#6 colour: clear -> "red"', "#7 location: #6 -> #-1", "#8: gone -> there"])
        self.assertEqual(self.diff(2, 3), ['#5 colour: "blue" -> "white"', '#5 name: "apple" -> "pear"', '#7 colour: "red" -> clear'])
        self.assertEqual(self.diff(1, 3, "--object", "#5"), ['#5 colour: "green" -> "white"', '#5 name: "apple" -> "pear"'])
        self.assertEqual(self.diff(3, 1, "--object", "5"), ['#5 colour: "white" -> "green"', '#5 name: "pear" -> "apple"'])
        self.assertEqual(self.diff(3, 4), [
            "#4 size: gone -> 2", "#5 f: 1 -> 0", '#6 colour: "red" -> gone', "#6 parent: #5 -> #1", "#6 taste: 6 -> gone",
            '#7 owner and rights of taste: {#4, ""} -> gone', "#8: there -> gone",
        ])  # fmt: skip
        self.assertEqual(self.diff(3, 5, "--object", "#6"), ['#6 colour: "red" -> gone', "#6 parent: #5 -> #1", "#6 taste: 6 -> gone"])
        self.assertEqual(self.diff(5, 6), ['#5 colour: "white" -> "blue"', "#5 f: 0 -> 1", "#6 accepts: {#1} -> 0", "#9: gone -> there"])
        self.assertEqual(self.diff(2, 6, "--object", "#5"), ['#5 name: "apple" -> "pear"'])
        self.assertEqual(self.diff(4, 4), [])

    def test_what_isnt_in_the_journal(self):
        for words in ((0, 2), (2, 9)):
            status, text, told = program("moo-replay", self.folder, "--diff", *words)
            self.assertEqual((status, text), (1, ""), told)
        for words in (("--diff", 1), ("--diff", 1, "x"), ("--object", "#4"), ("--diff", 1, 2, "--undo", 1)):
            self.assertEqual(program("moo-replay", self.folder, *words)[0], 2)
