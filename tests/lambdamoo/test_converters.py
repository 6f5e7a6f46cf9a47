"""The converters from and to database files of LambdaMOO.

What they write is compared with texts that tests/support/lambdamoo_worlds.py writes and reads by itself. Dumps go through moo: it loads
them, and what it dumps then goes back. The variable MOO names the program. LAMBDAMOO_OBJECTS is how many objects the large world has, and
LAMBDAMOO_WORLDS how many random worlds are tried: 100000 and 1000 are the full sizes.
"""

import contextlib
import io
import os
import pathlib
import random
import re
import shlex
import subprocess
import sys
import tempfile
import time
import unittest
from unittest import mock

from tests.support import TOOLS
from tests.support.lambdamoo_worlds import (
    CLEAR,
    ERRORS,
    PLACES,
    SETS,
    ObjectValue,
    Slot,
    Thing,
    Verb,
    World,
    database_text,
    dump_text,
    literal,
    random_value,
    random_world,
    read_database,
    read_dump,
)
from tests.support.program import MOO, TOP

import from_lambdamoo
import to_lambdamoo

EXAMPLE = (TOP / "examples/minimal.db").read_text()
EXAMPLE_DUMP = (TOP / "examples/minimal.dump").read_text()
LARGE = int(os.environ.get("LAMBDAMOO_OBJECTS", "2000"))
WORLDS = int(os.environ.get("LAMBDAMOO_WORLDS", "100"))
SECONDS = 120


def ran(tool, *words, text=""):
    """The status of a tool that runs in this process, its output, and what it says. A fault that it doesn't catch is raised."""
    out = io.TextIOWrapper(io.BytesIO(), encoding="latin-1", newline="")
    said = io.StringIO()
    given = io.TextIOWrapper(io.BytesIO(text.encode("latin-1")))
    with contextlib.redirect_stdout(out), contextlib.redirect_stderr(said), mock.patch.object(sys, "stdin", given):
        try:
            status = tool.main(list(words))
        except SystemExit as ended:
            status = ended.code
    out.flush()
    return status, out.buffer.getvalue().decode("latin-1"), said.getvalue()


def from_database(text, *words):
    """What from_lambdamoo.py makes of a database."""
    return ran(from_lambdamoo, "-", *words, text=text)


def to_database(text, *words):
    """What to_lambdamoo.py makes of a dump."""
    return ran(to_lambdamoo, "-", *words, text=text)


def run_script(name, *words, text=""):
    """The status of a script that runs by itself, its output, and what it says."""
    words = [sys.executable, str(TOOLS / name), *words]
    ended = subprocess.run(words, input=text.encode("latin-1"), stdout=subprocess.PIPE, stderr=subprocess.PIPE, timeout=SECONDS)
    return ended.returncode, ended.stdout.decode("latin-1"), ended.stderr.decode()


def run_moo(*words, text=""):
    """What moo writes. It has to end well."""
    streams = {"stdout": subprocess.PIPE, "stderr": subprocess.DEVNULL}
    ended = subprocess.run([MOO, *words], input=text.encode(), timeout=SECONDS, check=True, **streams)
    return ended.stdout.decode()


def moo_load(text, file=":memory:"):
    """The status of moo when it loads a text, and what it writes."""
    ended = subprocess.run(
        [MOO, "load", file, "-"], input=text.encode("latin-1"), timeout=SECONDS, stdout=subprocess.PIPE, stderr=subprocess.DEVNULL
    )
    return ended.returncode, ended.stdout.decode()


def piped(first, second, folder):
    """The statuses of two commands with a pipe between them, run in a folder."""
    with subprocess.Popen(first, cwd=folder, stdout=subprocess.PIPE, stderr=subprocess.DEVNULL) as giving:
        taken = subprocess.run(second, cwd=folder, stdin=giving.stdout, stderr=subprocess.DEVNULL, timeout=SECONDS)
        giving.stdout.close()
        return giving.wait(timeout=SECONDS), taken.returncode


def edited(text, line, *lines):
    """A text with other lines in place of the one of this number."""
    found = text.split("\n")
    return "\n".join([*found[: line - 1], *lines, *found[line:]])


def inserted(text, before, *lines):
    """A text with lines before the one of this number."""
    found = text.split("\n")
    return "\n".join([*found[: before - 1], *lines, *found[before - 1 :]])


def of_value(*lines):
    """A database of one object with one property, whose value has these lines. The first is line 23."""
    header = ["** LambdaMOO Database, Format Version 4 **", "1", "0", "0", "0"]
    thing = ["#0", "", "", "0", "0", "-1", "-1", "-1", "-1", "-1", "-1", "0", "1", "p", "1", *lines, "0", "1"]
    tail = ["0 clocks", "0 queued tasks", "0 suspended tasks", "0 active connections with listeners"]
    return "".join(f"{line}\n" for line in header + thing + tail)


def value_dump(text):
    """The dump of that object, given the literal of its value."""
    return f"""seq 0
top #0
object {{#0, "", #0, #-1, #-1, 0, 0, 0, 0, 0, 0, 0}}
property {{#0, "p"}}
slot {{#0, #0, "p", #0, "r", 1, {text}}}
end
"""


def nested(depth):
    """The lines of a list in lists, so deep, and its literal."""
    return ["4", "1"] * (depth - 1) + ["4", "0"], "{" * depth + "}" * depth


class Temporary(unittest.TestCase):
    """A test with an empty folder of its own."""

    def setUp(self):
        folder = tempfile.TemporaryDirectory()
        self.addCleanup(folder.cleanup)
        self.folder = pathlib.Path(folder.name)

    def file(self, name, text=""):
        """The path of a file with this text."""
        path = self.folder / name
        path.write_bytes(text.encode("latin-1"))
        return str(path)

    def through_moo(self, dump):
        """What moo dumps of the world that it loads from a dump: the same text. It says that it loaded a whole world."""
        file = self.folder / "through.db"
        counts = f"{dump[: dump.index(chr(10))]} objects {dump.count(chr(10) + 'object {')}\n"
        self.assertEqual(moo_load(dump, str(file)), (0, f"loaded {counts}"))
        self.assertEqual(run_moo("check", str(file)), f"ok {counts}")
        dumped = run_moo("dump", str(file))
        self.assertEqual(dumped, dump)
        for part in self.folder.glob("through.db*"):
            part.unlink()
        return dumped


class Values(Temporary):
    """Each type of value, in both directions and through moo."""

    CASES = [
        (["0", "0"], "0"),
        (["0", "-2147483648"], "-2147483648"),
        (["1", "7"], "#7"),
        (["1", "-1"], "#-1"),
        (["2", ""], '""'),
        (["2", 'a "b" \\c'], '"a \\"b\\" \\\\c"'),
        (["2", "\ttab "], '"\ttab "'),
        (["2", "5"], '"5"'),
        (["2", "~41"], '"~41"'),
        (["4", "0"], "{}"),
        (["4", "2", "0", "1", "4", "1", "2", "x, {"], '{1, {"x, {"}}'),
        (["4", "3", "4", "0", "4", "0", "1", "5"], "{{}, {}, #5}"),
        nested(32),
    ]

    def test_each_type(self):
        cases = self.CASES + [(["3", str(number)], name) for number, name in enumerate(ERRORS)]
        for lines, text in cases:
            with self.subTest(text):
                self.assertEqual(from_database(of_value(*lines)), (0, value_dump(text), ""))
                self.assertEqual(to_database(self.through_moo(value_dump(text))), (0, of_value(*lines), ""))

    def test_integers_of_64_bits(self):
        for number in ("9223372036854775807", "-9223372036854775808", "2147483648"):
            with self.subTest(number):
                self.assertEqual(from_database(of_value("0", number)), (0, value_dump(number), ""))
                status, text, said = to_database(self.through_moo(value_dump(number)))
                self.assertEqual((status, text), (0, of_value("0", number)))
                self.assertIn("integers over 32 bits", said)
        status, text, said = from_database(of_value("0", "9223372036854775808"))
        self.assertEqual((status, text), (1, ""))
        self.assertIn("line 22:", said)

    def test_floats(self):
        status, text, said = from_database(of_value("9", "2.5"))
        self.assertEqual((status, text), (1, ""))
        self.assertIn("--floats text", said)
        self.assertIn(": 1, first at #0, line 22", said)
        status, text, said = from_database(of_value("4", "2", "9", "2.5", "9", "1e+50"), "--floats", "text")
        self.assertEqual((status, self.through_moo(text)), (0, value_dump('{"2.5", "1e+50"}')))
        self.assertIn("floats, written as strings: 2, first at #0, line 24", said)

    def test_bytes(self):
        status, text, said = from_database(of_value("2", "caf\xe9"))
        self.assertEqual((status, text), (1, ""))
        self.assertIn("--bytes escape", said)
        status, text, said = from_database(of_value("2", "caf\xe9 ~\x00\r"), "--bytes", "escape")
        self.assertEqual((status, self.through_moo(text)), (0, value_dump('"caf~E9 ~7E~00~0D"')))
        self.assertIn("written as ~XX: 1, first at #0, line 22", said)

    def test_strings_over_the_limit(self):
        self.assertEqual(from_database(of_value("2", "x" * 65535))[1], value_dump('"' + "x" * 65535 + '"'))
        status, text, said = from_database(of_value("2", "x" * 65536))
        self.assertEqual((status, self.through_moo(text)), (0, value_dump('"' + "x" * 65535 + '"')))
        self.assertIn("strings over 65,535 bytes, cut there: 1,", said)

    def test_lists_over_the_limit(self):
        for depth in (33, 34, 50000):
            status, text, said = from_database(of_value(*nested(depth)[0]))
            self.assertEqual((status, text), (0, value_dump("{" * 32 + "E_MAXREC" + "}" * 32)))
            self.assertRegex(said, r"lists over 32 deep, replaced by E_MAXREC: 1, first at #0, line \d+\n")
            self.through_moo(text)
        self.assertEqual(to_database(value_dump(nested(33)[1]))[0], 1)

    def test_types_that_are_none(self):
        for kind in ("6", "7", "8", "10", "12", "-1", "", " 0", "x"):
            with self.subTest(kind):
                status, text, said = from_database(of_value(kind, "1"))
                self.assertEqual((status, text), (1, ""))
                self.assertIn("line 21: the type of a value is wanted", said)

    def test_literals_that_are_none(self):
        texts = ["", "x", "-0", "01", "#", "#01", '"', '"\\a"', "e_perm", "E_NO", "1 ", "1, 1"]
        for text in texts + ["{1,2}", "{1, }", "{, 1}", "{1 2}", "{", "{}}"]:
            with self.subTest(text):
                status, output, said = to_database(value_dump(text))
                self.assertEqual((status, output), (1, ""))
                self.assertIn("line 5:", said)
        for text in ("9223372036854775808", "#2147483648"):
            self.assertIn("line 5:", to_database(value_dump(text))[2])


class Restored(Temporary):
    """What a dump can't hold comes back from the database that the world came from, if what stands for it is still there."""

    def both_ways(self, text, edit=lambda dump: dump):
        """The database that comes back from a database, whose dump is edited in between."""
        dump = from_database(text, "--floats", "text", "--bytes", "escape")[1]
        status, back, said = to_database(self.through_moo(edit(dump)), "--programs", self.file("core.db", text))
        self.assertEqual(status, 0)
        return back

    def test_values(self):
        for lines in (
            ["9", "2.5"], ["9", "1e+50"], ["2", "caf\xe9 ~"], ["4", "3", "9", "-0.1", "2", "\x01", "4", "1", "9", "0.0"], ["2", "x" * 65536]
        ):
            with self.subTest(lines[-1][:9]):
                self.assertEqual(self.both_ways(of_value(*lines)), of_value(*lines))
        deep = of_value(*nested(40)[0])
        self.assertEqual(self.both_ways(deep), deep)

    def test_values_that_were_changed(self):
        text = of_value("4", "2", "9", "2.5", "2", "caf\xe9")
        back = self.both_ways(text, lambda dump: dump.replace('"2.5"', '"3.5"'))
        self.assertEqual(back, of_value("4", "2", "2", "3.5", "2", "caf~E9"))

    def test_names(self):
        """Of an object, a property and a verb."""
        verb = "caf\xe9 c\n0\n1\n-1"
        text = of_value("9", "1.0").replace("#0\n\n\n0", "#0\nCaf\xe9\n\n0", 1).replace("-1\n0\n1\np\n", f"-1\n1\n{verb}\n1\np\xe9\n", 1)
        self.assertIn(f"\n1\n{verb}\n1\np\xe9\n1\n9\n1.0\n", text)
        self.assertEqual(self.both_ways(text), text)
        back = self.both_ways(text, lambda dump: dump.replace("Caf~E9", "Cafe"))
        self.assertEqual(back, text.replace("Caf\xe9", "Cafe"))

    def test_it_is_asked_for(self):
        """Without the database nothing can be restored."""
        dump = from_database(of_value("9", "2.5"), "--floats", "text")[1]
        self.assertEqual(to_database(dump)[1], of_value("2", "2.5"))


class Objects(Temporary):
    """What an object has beside its values, through moo."""

    def both_ways(self, world):
        """The world's database is read as its dump, which moo loads, and what moo dumps then is written as the database."""
        status, text, _ = from_database(database_text(world, random.Random(1)))
        self.assertEqual((status, text), (0, dump_text(world)))
        status, text, _ = to_database(self.through_moo(text))
        self.assertEqual(status, 0)
        self.assertEqual(read_database(text), world.without_programs())

    def test_clear_marks_along_a_chain(self):
        # #1 is under #2, and #2 under #0: a chain that doesn't go by numbers.
        world = World(
            2,
            {
                0: Thing("root", defines=["a", "b"], slots=[Slot(1, 0, "r"), Slot([], 0, "")]),
                1: Thing("leaf", parent=2, defines=["d"]),
                2: Thing("middle", parent=0, defines=["c"], slots=[Slot(2, 2, "c"), Slot(CLEAR, 0, "r"), Slot("x", 2, "w")]),
            },
        )
        world.things[1].slots = [Slot("d", 1, "c"), Slot(CLEAR, 1, "c"), Slot(3, 0, "r"), Slot(CLEAR, 2, "")]
        text = from_database(database_text(world, random.Random(1)))[1]
        lines = [line for line in text.splitlines() if line.startswith("slot {#1,")]
        wanted = [
            'slot {#1, #1, "d", #1, "c", 1, "d"}',
            'slot {#1, #2, "c", #1, "c", 0}',
            'slot {#1, #0, "a", #0, "r", 1, 3}',
            'slot {#1, #0, "b", #2, "", 0}',
        ]
        self.assertEqual(lines, wanted)
        self.both_ways(world)

    def test_names(self):
        for name in ("", " ", "two words", "tab\ttab", 'quo"te', "back\\slash", "#0", "end", "~E9", "0 clocks"):
            with self.subTest(name):
                things = {0: Thing(name, defines=[name or "x"], slots=[Slot(name, 0, "")], verbs=[Verb(f"{name} v", 0, "", ("none",) * 3)])}
                self.both_ways(World(0, things))

    def test_recycled_numbers(self):
        self.both_ways(World(5, {1: Thing("one"), 4: Thing("four", parent=1, location=1)}))
        self.both_ways(World(2, {}))
        self.both_ways(World(-1, {}))

    def test_prepositions_and_places(self):
        verbs = []
        for place, preposition in enumerate(["none", "any", *SETS]):
            verbs.append(Verb(f"v{place}", 0, "rd", (PLACES[place % 3], preposition, PLACES[place // 3 % 3])))
        self.both_ways(World(0, {0: Thing("", verbs=verbs)}))
        text = to_database(dump_text(World(0, {0: Thing("", verbs=[Verb("v", 0, "rwxd", ("this", "off/off of", "any"))])})))[1]
        # All rights are 15, the direct object this is 32, and the indirect object any is 64.
        self.assertIn("\nv\n0\n111\n14\n", text)

    def test_rights_and_flags(self):
        letters = ["".join(letter for place, letter in enumerate("rwxd") if number >> place & 1) for number in range(16)]
        verbs = [Verb("v", 0, some, ("none", "none", "none")) for some in letters]
        names = [f"p{number}" for number in range(8)]
        slots = [Slot(0, 0, "".join(letter for place, letter in enumerate("rwc") if number >> place & 1)) for number in range(8)]
        for flag in ("player", "programmer", "wizard", "r", "w", "f"):
            self.both_ways(World(0, {0: Thing("", flags=[flag], verbs=verbs, defines=names, slots=slots)}))

    def test_lists_are_linked_in_ascending_order(self):
        things = {0: Thing("0"), **{number: Thing(str(number), parent=0, location=0) for number in (1, 2, 5)}}
        text = to_database(dump_text(World(5, things)))[1]
        lines = text.split("\n")
        ends = {number: lines[lines.index(f"#{number}") + 6 : lines.index(f"#{number}") + 11] for number in (0, 1, 2, 5)}
        # The first of the contents and the next, the parent, the first child and the next.
        self.assertEqual(ends[0], ["1", "-1", "-1", "1", "-1"])
        self.assertEqual(ends[1], ["-1", "2", "0", "-1", "2"])
        self.assertEqual(ends[2], ["-1", "5", "0", "-1", "5"])
        self.assertEqual(ends[5], ["-1", "-1", "0", "-1", "-1"])


class Programs(Temporary):
    """The programs of verbs, which wait in the database."""

    def world(self, names, programs):
        """A world of one object with verbs of these names and programs."""
        verbs = [Verb(name, 0, "rd", ("none", "none", "none"), program) for name, program in zip(names, programs)]
        return World(0, {0: Thing("", verbs=verbs)})

    def given(self, names, database):
        """The programs that verbs of these names get from a database, and what is told."""
        file = self.file("programs.db", database_text(database, random.Random(1)))
        dump = dump_text(self.world(names, [None] * len(names)))
        status, text, said = to_database(self.through_moo(dump), "--programs", file)
        self.assertEqual(status, 0)
        return [verb.program for verb in read_database(text).things[0].verbs], said

    def test_verbs_of_one_name(self):
        database = self.world(["put", "get", "put", "put"], [["1"], ["2"], None, ["4"]])
        self.assertEqual(self.given(["put", "put", "put", "get"], database)[0], [["1"], None, ["4"], ["2"]])
        found, said = self.given(["get", "put"], database)
        self.assertEqual(found, [["2"], ["1"]])
        self.assertIn("programs without a verb in the dump, left out: 1,", said)
        found, said = self.given(["Get", "put", "drop"], database)
        self.assertEqual(found, [None, ["1"], None])
        self.assertIn("verbs without a program: 2, first at #0:0, line 4", said)

    def test_a_renamed_verb(self):
        """Its program is that of its place, if nothing else has taken that, and this is reported."""
        database = self.world(["put", "get", "drop"], [["1"], ["2"], ["3"]])
        found, said = self.given(["put", "fetch", "drop"], database)
        self.assertEqual(found, [["1"], ["2"], ["3"]])
        self.assertIn("programs given by their place to a verb of other names: 1, first at #0:1, line 5, which was 'get'\n", said)
        found, said = self.given(["get", "put", "new"], database)
        self.assertEqual(found, [["2"], ["1"], ["3"]])
        found, said = self.given(["put", "drop", "new"], database)
        self.assertEqual(found, [["1"], ["3"], None])
        # `drop` may be `get`, and the last one `drop`: two changes, as many as one deleted and one added. `put` may be `get` by three.
        may_be = "#0:'get', unless #0:0, line 4, or #0:1, line 5, is that verb\n"
        self.assertIn(f"programs without a verb in the dump, left out: 1, first at {may_be}", said)

    def test_texts_of_programs(self):
        code = ["", " .", "..", "#0:0", "0 clocks", "caf\xe9 \x01", "  return 1;", "** LambdaMOO Database, Format Version 4 **"]
        database = self.world(["a", "b", "c"], [code, [], ["x"]])
        self.assertEqual(self.given(["c", "a", "b"], database)[0], [["x"], code, []])

    def test_names_that_were_escaped(self):
        database = self.world(["caf\xe9"], [["1"]])
        self.assertEqual(self.given(["caf~E9"], database)[0], [["1"]])

    def test_older_programs(self):
        file = self.file("old.db", database_text(self.world(["a"], [["1"]]), random.Random(1), version=2))
        said = to_database(dump_text(self.world(["a"], [None])), "--programs", file)[2]
        self.assertIn("programs from an older format version, written unchanged: 1,", said)

    def test_they_are_counted(self):
        said = from_database(EXAMPLE)[2]
        self.assertEqual(said, "from_lambdamoo: verb programs, which moo doesn't keep: 5, first at #0:0, line 280\n")


class Losses(Temporary):
    """Whatever is left out or changed is reported."""

    def told(self, text, kind, place, count=1):
        """The dump of a text, of which this is reported."""
        status, dump, said = from_database(text)
        self.assertEqual(status, 0)
        self.assertIn(f"from_lambdamoo: {kind}: {count}, first at {place}\n", said)
        strict = from_database(text, "--strict")
        self.assertEqual(strict[:2], (1, ""))
        self.assertIn("no dump was written", strict[2])
        return self.through_moo(dump)

    def test_old_handles(self):
        self.assertEqual(self.told(edited(EXAMPLE, 10, "handle"), "old handles, left out", "#0, line 10"), EXAMPLE_DUMP)

    def test_obsolete_flags(self):
        text = edited(EXAMPLE, 11, str(16 + 8 + 64))
        self.assertEqual(self.told(text, "objects with the obsolete flags 8 or 64, left out", "#0, line 11"), EXAMPLE_DUMP)

    def test_parents_and_locations_that_are_no_objects(self):
        lines = EXAMPLE.split("\n")
        garden = lines.index("#6") + 1
        dump = self.told(edited(EXAMPLE, garden + 5, "7"), "locations that aren't objects, replaced by #-1", f"#6, line {garden}")
        self.assertEqual(dump, EXAMPLE_DUMP)
        text = of_value("0", "1").replace("\n0\n0\n-1\n-1\n-1\n-1\n", "\n0\n0\n-1\n-1\n-1\n9\n")
        self.assertEqual(self.told(text, "parents that aren't objects, replaced by #-1", "#0, line 6"), value_dump("1"))

    def test_lists_that_differ(self):
        lines = EXAMPLE.split("\n")
        library = lines.index("#5") + 1
        kind = "lists of contents that differ from the locations (the locations count)"
        for first in ("-1", "8", "6", "7", "99"):
            self.assertEqual(self.told(edited(EXAMPLE, library + 6, first), kind, f"#5, line {library}"), EXAMPLE_DUMP)
        kind = "lists of children that differ from the parents (the parents count)"
        for following in ("-1", "5", "3", "7"):
            dump = self.told(edited(EXAMPLE, library + 10, following), kind, f"#2, line {lines.index('#2') + 1}")
            self.assertEqual(dump, EXAMPLE_DUMP)

    def test_players_by_the_list_or_the_flag_alone(self):
        kind = "players in the list or by their flag, but not both (the flag counts)"
        self.assertEqual(self.told(edited(EXAMPLE, 6, "8"), kind, "#3", 2), EXAMPLE_DUMP)

    def test_clear_on_the_definer(self):
        kind = "clear values on the object that defines the property, replaced by 0"
        text = of_value("5")
        self.assertEqual(self.told(text, kind, "#0, line 21"), value_dump("0"))

    def test_names_of_properties(self):
        kind = "properties whose name is empty, built in or over 255 bytes, left out"
        for name in ("", "Name", "OWNER", "f", "x" * 256):
            text = of_value("0", "1").replace("\np\n", f"\n{name}\n")
            dump = self.told(text, kind, "#0, line 19")
            self.assertEqual(dump, 'seq 0\ntop #0\nobject {#0, "", #0, #-1, #-1, 0, 0, 0, 0, 0, 0, 0}\nend\n')

    def test_a_property_that_is_left_out_is_gone_below(self):
        world = World(1, {0: Thing("", defines=["a", "name"], slots=[Slot(1, 0, ""), Slot(2, 0, "")]), 1: Thing("", parent=0)})
        world.things[1].slots = [Slot(3, 0, ""), Slot(4, 0, "")]
        status, dump, _ = from_database(database_text(world, random.Random(1)))
        self.assertEqual(status, 0)
        self.assertEqual([line for line in dump.splitlines() if line.startswith("slot {#1,")], ['slot {#1, #0, "a", #0, "", 1, 3}'])

    def test_verbs_without_a_name(self):
        verbs = [Verb(name, 0, "", ("none",) * 3) for name in ("", "  ", "a")]
        text = database_text(World(0, {0: Thing("", verbs=verbs)}), random.Random(1))
        dump = self.told(text, "verbs without a name, left out", "#0, line 18", 2)
        self.assertEqual(dump, dump_text(World(0, {0: Thing("", verbs=verbs[2:])})))

    def test_tasks_and_connections(self):
        text = EXAMPLE[: EXAMPLE.index("0 clocks")]
        tail = ["2 clocks", "1 2 3", "4 5 6", "1 queued tasks", "0 1 99 5", "language version 4", ".", "2 suspended tasks", "x", "y"]
        tail += ["2 active connections with listeners", "3 0", "9 0"]
        text += "".join(f"{line}\n" for line in tail)
        line = text.count("\n")
        self.told(text, "queued and suspended tasks, left out", f"the tasks, line {line - 9}", 3)
        dump = self.told(text, "connections, left out", f"the connections, line {line - 2}", 2)
        self.assertEqual(dump, EXAMPLE_DUMP)
        said = to_database(dump, "--programs", self.file("tasks.db", text))[2]
        self.assertIn("queued and suspended tasks, left out: 3,", said)

    def test_connections_of_older_files(self):
        text = EXAMPLE[: EXAMPLE.index("0 active")]
        self.assertEqual(from_database(f"{text}1 active connections\n3\n")[1], EXAMPLE_DUMP)
        line = text.count("\n") + 1
        kind = "missing lists of connections, as in an older server's file or one that was cut short"
        self.assertEqual(self.told(text, kind, f"the connections, line {line}"), EXAMPLE_DUMP)
        kind = "lines after the list of connections, left out"
        self.assertEqual(self.told(f"{EXAMPLE}more\nand more\n", kind, f"the connections, line {line + 1}", 2), EXAMPLE_DUMP)

    def test_what_a_dump_has_and_no_database(self):
        dump = EXAMPLE_DUMP.replace("seq 0", "seq 12").replace("1, 0, 0, 0}", "1, 0, 0, {#1, #4}}", 2).replace(
            "\nend\n", '\npetition {1, #9, {{"create", #4}}}\npetition {3, #9, {{"valid", 9223372036854775807}}}\nend\n'
        )
        lines = dump.split("\n")
        file = self.file("programs.db", EXAMPLE)
        status, text, said = to_database(dump, "--programs", file)
        self.assertEqual((status, text), (0, EXAMPLE))
        for kind, count, place in (
            ("counts of accepted batches, left out", 1, "line 1"),
            ("accept lists, left out", 2, "#0, line 3"),
            ("petitions, left out", 2, f"line {lines.index(next(line for line in lines if line.startswith('petition'))) + 1}"),
        ):
            self.assertIn(f"to_lambdamoo: {kind}: {count}, first at {place}\n", said)
        strict = to_database(dump, "--programs", file, "--strict")
        self.assertEqual(strict[:2], (1, ""))
        self.assertIn("no database was written", strict[2])

    def test_strict_where_everything_has_a_place(self):
        self.assertEqual(from_database(of_value("0", "1"), "--strict"), (0, value_dump("1"), ""))
        self.assertEqual(to_database(value_dump("1"), "--strict"), (0, of_value("0", "1"), ""))


class Broken(Temporary):
    """A broken file is refused with its line, and nothing is written."""

    def broken(self, done, line):
        """Asserts that a tool refused this line."""
        status, output, said = done
        self.assertEqual((status, output), (1, ""))
        self.assertRegex(said, rf"\A\w+_lambdamoo: standard input, line {line}: .*\n\Z")

    def test_databases_that_are_cut(self):
        lines = EXAMPLE.split("\n")[:-1]
        for count in range(len(lines) - 1):
            with self.subTest(count):
                self.broken(from_database("".join(f"{line}\n" for line in lines[:count])), count + 1)
        # The last line alone may be missing, since older files have none. This is reported.
        status, _, said = from_database("".join(f"{line}\n" for line in lines[:-1]))
        self.assertEqual(status, 0)
        self.assertIn("or one that was cut short", said)

    def test_pipes_of_files_that_are_cut(self):
        """Of a database that is cut nothing goes to moo, which makes no file. Nor does a fault of moo's become a database."""
        for words in (["from_lambdamoo.py", self.file("cut.db", EXAMPLE[:500])], ["from_lambdamoo.py", self.file("empty.db")]):
            first = [sys.executable, str(TOOLS / words[0]), words[1]]
            self.assertEqual(piped(first, [MOO, "load", "world.db", "-"], self.folder), (1, 3))
            self.assertFalse((self.folder / "world.db").exists())
        self.assertEqual(moo_load(""), (3, "moo: not a dump, line 1\n"))
        self.broken(to_database("moo: store fault\n"), 1)

    def test_databases_that_are_cut_within_a_line(self):
        ends = [place for place, letter in enumerate(EXAMPLE) if letter == "\n"]
        for line, end in enumerate(ends, 1):
            with self.subTest(line):
                if end and EXAMPLE[end - 1] != "\n":
                    self.broken(from_database(EXAMPLE[:end]), line)

    def test_dumps_that_are_cut(self):
        ends = [place for place, letter in enumerate(EXAMPLE_DUMP) if letter == "\n"]
        for end in [0, 1, *ends, *(end - 3 for end in ends), *(end + 1 for end in ends[:-1])]:
            front = EXAMPLE_DUMP[:end]
            line = front.count("\n") + 1
            self.broken(to_database(front), line)
            self.assertEqual(moo_load(front), (3, f"moo: not a dump, line {line}\n"))

    def test_programs_that_are_cut(self):
        status, output, said = to_database(EXAMPLE_DUMP, "--programs", self.file("cut.db", EXAMPLE[:500]))
        self.assertEqual((status, output), (1, ""))
        self.assertIn(f"cut.db, line {EXAMPLE[:500].count(chr(10)) + 1}: ", said)

    def test_lines_of_databases(self):
        lines = EXAMPLE.split("\n")
        lamp, ada = lines.index("#8") + 1, lines.index("#9") + 1
        program, clocks = lines.index("#0:0") + 1, lines.index("0 clocks") + 1
        for line, others in (
            (1, ["something else"]),
            (1, ["** LambdaMOO Database, Format Version 4 **\r"]),
            (2, ["-1"]),
            (2, [""]),
            (3, ["x"]),
            (5, ["2147483649"]),
            (6, ["Wizard"]),
            (8, ["#1"]),
            (8, ["#0 Recycled"]),
            (8, ["# 0"]),
            (11, ["256"]),
            (11, ["-1"]),
            (12, ["2147483648"]),
            (13, ["3 "]),
            (22, ["256"]),
            (22, ["205"]),
            (22, ["61"]),
            (23, ["15"]),
            (23, ["-3"]),
            (program, ["#0:1"]),
            (program, ["#7:0"]),
            (program, ["#99:0"]),
            (program, ["#0:-1"]),
            (program, ["0:0"]),
            (clocks, ["clocks"]),
            (clocks + 1, ["0 tasks"]),
            (clocks + 2, ["0 queued tasks"]),
            (clocks + 3, ["0 connections"]),
            (lamp, ["#8", "one line more"]),
            (ada, ["#7"]),
        ):
            with self.subTest(line=line, others=others):
                told = line + (others == ["#8", "one line more"]) * 3
                self.broken(from_database(edited(EXAMPLE, line, *others)), told)

    def test_versions(self):
        for version in (1, 2, 3, 4):
            world = random_world(random.Random(version), 20)
            status, dump, _ = from_database(database_text(world, random.Random(1), version))
            self.assertEqual((status, dump), (0, dump_text(world)))
        for version in (0, 5, 17, 123456789):
            status, output, said = from_database(edited(EXAMPLE, 1, f"** LambdaMOO Database, Format Version {version} **"))
            self.assertEqual((status, output), (1, ""))
            self.assertIn(f"from_lambdamoo: standard input, line 1: format version {version} can't be read", said)
            advice = "write it as format 4: LAMBDAMOO, 'Databases of Stunt and ToastStunt', says how\n"
            self.assertEqual((said.endswith(advice), "waifs" in said, "is unknown here" in said), (version > 4, version > 13, version > 17))

    def test_a_second_program(self):
        line = EXAMPLE.split("\n").index("#1:0") + 1
        self.broken(from_database(edited(EXAMPLE, line, "#0:0")), line)

    def test_loops(self):
        lines = EXAMPLE.split("\n")
        root, library = lines.index("#1") + 1, lines.index("#5") + 1
        for line, other, thing in ((root + 8, "1", root), (library + 5, "8", library)):
            done = from_database(edited(EXAMPLE, line, other))
            self.assertEqual(done[:2], (1, ""))
            self.assertRegex(done[2], r"line \d+: the (parent|location)s of #\d lead back to it\n")
        for old, new in (("#1, \"Root Class\", #3, #-1", "#1, \"Root Class\", #3, #4"), ("#3, #2, #-1, 0", "#3, #2, #8, 0")):
            done = to_database(EXAMPLE_DUMP.replace(old, new, 1))
            self.assertEqual(done[:2], (1, ""))
            self.assertRegex(done[2], r"line \d+: the (parent|location)s of #\d lead back to it\n")

    def test_values_that_are_not_as_many_as_properties(self):
        lines = EXAMPLE.split("\n")
        ada = lines.index("#9") + 1
        for count in ("1", "3"):
            done = from_database(edited(EXAMPLE, ada + 13, count))
            self.assertEqual(done[:2], (1, ""))
        fewer = [*lines[: ada + 12], "0", *lines[lines.index("#0:0") :]]
        self.broken(from_database("\n".join(fewer)), ada + 13)

    def test_names_that_are_defined_twice(self):
        two = database_text(World(0, {0: Thing("", defines=["a", "A"], slots=[Slot(1, 0, ""), Slot(2, 0, "")])}), random.Random(1))
        self.broken(from_database(two), 20)
        under = World(1, {0: Thing("", parent=1, defines=["b", "a"]), 1: Thing("", defines=["A"], slots=[Slot(1, 0, "")])})
        under.things[0].slots = [Slot(value, 0, "") for value in (1, 2, 3)]
        self.broken(from_database(database_text(under, random.Random(1))), 20)
        self.broken(to_database(dump_text(under)), 5)

    def test_lines_of_dumps(self):
        lines = EXAMPLE_DUMP.split("\n")
        for line, others in (
            (1, ["seq -1"]),
            (1, ["seq  0"]),
            (2, ["top 9"]),
            (2, ["top #-2"]),
            (2, ["top #2147483648"]),
            (3, []),
            (3, [lines[2] + " "]),
            (3, [lines[2].replace("#0", "#-1", 1)]),
            (3, [lines[2].replace("1, 0, 0, 0}", "2, 0, 0, 0}")]),
            (3, [lines[2].replace("0}", "{1}}")]),
            (3, [lines[2].replace("System Object", "caf\xe9")]),
            (4, ['property {#1, "welcome_message"}']),
            (4, ['property {#0, "Owner"}']),
            (4, ['property {#0, ""}']),
            (5, [lines[4].replace('"r"', '"cr"')]),
            (5, [lines[4].replace("#0, #0", "#1, #0")]),
            (5, [lines[4].replace("#0, #0", "#0, #1")]),
            (5, ['slot {#0, #0, "welcome_message", #3, "r", 0}']),
            (6, [lines[6], lines[5]]),
            (8, [lines[7].replace("none", "in")]),
            (8, [lines[7].replace('"this"', '"that"', 1)]),
            (8, [lines[7].replace("do_login_command", " ")]),
            (6, [lines[6]]),
            (7, []),
            (7, [lines[6], lines[6]]),
            (9, [lines[2]]),
            (9, [lines[8].replace("#3, #-1", "#3, #7")]),
            (9, [lines[8].replace("#-1, 0", "#77, 0")]),
            (len(lines) - 1, ["petition {1, #3}"]),
            (len(lines) - 1, ['petition {1, #3, {{"valid", #3}}} ']),
        ):
            with self.subTest(line=line, others=others):
                done = to_database(edited(EXAMPLE_DUMP, line, *others))
                self.broken(done, line + (others == [lines[6], lines[6]]))
        self.broken(to_database(edited(EXAMPLE_DUMP, 8, lines[7], lines[6])), 9)
        self.broken(to_database(EXAMPLE_DUMP + "end\n"), len(lines))
        petition = 'petition {1, #3, {{"valid", #3}}}'
        self.broken(to_database(inserted(EXAMPLE_DUMP, 3, petition)), 4)

    def test_any_line_changed(self):
        """Whatever is changed, the text is converted or refused with a line.

        What is written loads and goes back, and moo judges a dump alike.
        """
        for seed in range(4 * WORLDS):
            chance = random.Random(seed)
            world = random_world(chance, chance.choice([1, 3, 6]))
            for text, convert in ((database_text(world, chance), from_database), (dump_text(world), to_database)):
                lines = text.split("\n")
                place = chance.randrange(len(lines))
                other = chance.choice(["-1", "0", "5", "99", "", "x", "#1", "2147483648", "\x00\xff", "\xb2", chance.choice(lines)])
                lines[place : place + chance.choice([0, 1, 1, 2])] = [other] * chance.choice([0, 1, 1])
                status, output, said = convert("\n".join(lines))
                if status:
                    self.assertEqual((status, output), (1, ""))
                    self.assertRegex(said, r"(line \d+: |refused)")
                elif convert is from_database:
                    self.assertEqual(to_database(self.through_moo(output))[0], 0)
                if convert is to_database:
                    self.assertEqual(moo_load("\n".join(lines))[0] == 0, status == 0, seed)


class RoundTrips(Temporary):
    """Worlds that go from one text to the other and back."""

    def test_random_worlds(self):
        """The dump of a database is loaded, moo dumps it byte for byte, and it goes back with the same programs."""
        for seed in range(WORLDS):
            chance = random.Random(seed)
            world = random_world(chance, chance.choice([0, 1, 2, 5, 20, 40, 80]))
            database = database_text(world, chance)
            status, dump, _ = from_database(database)
            self.assertEqual((status, dump), (0, dump_text(world)), seed)
            self.assertEqual(read_dump(dump), world.without_programs(), seed)
            dumped = self.through_moo(dump)
            status, back, _ = to_database(dumped, "--programs", self.file("programs.db", database))
            self.assertEqual((status, read_database(back)), (0, world), seed)

    def test_worlds_of_moo(self):
        """What moo dumps comes back byte for byte, but for its seq, accept lists and petitions."""
        for seed in range(max(3, WORLDS // 50)):
            file = str(self.folder / f"{seed}.db")
            run_moo("init", file)
            replies = run_moo("apply", file, "-", text=random_batches(random.Random(seed)))
            self.assertGreater(replies.count("accepted"), 40)
            dump = run_moo("dump", file)
            status, database, _ = to_database(dump)
            self.assertEqual((status, read_database(database)), (0, read_dump(dump)))
            self.assertEqual(from_database(database)[:2], (0, without_own_parts(dump)), seed)
            self.through_moo(dump)
            self.through_moo(without_own_parts(dump))

    def test_a_large_world(self):
        """The commands of docs/LAMBDAMOO.md, in pipes. The world goes round within the limit of time."""
        started = time.monotonic()
        chance = random.Random(1)
        world = random_world(chance, LARGE)
        self.file("core.db", database_text(world, chance))
        made = time.monotonic()
        reader = [sys.executable, str(TOOLS / "from_lambdamoo.py"), "core.db"]
        self.assertEqual(piped(reader, [MOO, "load", "world.db", "-"], self.folder), (0, 0))
        loaded = time.monotonic()
        with open(self.folder / "new.db", "wb") as written:
            writer = f"{shlex.quote(MOO)} dump world.db | {shlex.quote(sys.executable)} {TOOLS}/to_lambdamoo.py - --programs core.db"
            words = {"shell": True, "cwd": self.folder, "stdout": written, "stderr": subprocess.DEVNULL}
            subprocess.run(writer, timeout=2 * SECONDS, check=True, **words)
        ended = time.monotonic()
        if LARGE >= 100000:
            print(f"{len(world.things)} objects: in {loaded - made:.1f} s, back {ended - loaded:.1f} s", flush=True)
        self.assertLess(ended - made, SECONDS, f"after {made - started:.0f} s to make the world")
        self.assertEqual(run_moo("dump", str(self.folder / "world.db")), dump_text(world))
        self.assertEqual(read_database((self.folder / "new.db").read_text(encoding="latin-1")), world)


def random_batches(chance):
    """Batches of one call each on a new world, of which many are accepted."""

    def thing():
        return literal(ObjectValue(chance.randrange(0, 14)))

    def some():
        return literal(random_value(chance, 28))

    def name():
        return literal(chance.choice(["a", "b", "Two Words", 'quo"te', "tab\tname"]))

    def verb():
        return literal(chance.choice(["look", "get take", 'say "', "put"]))

    def arguments():
        return literal([chance.choice(PLACES), chance.choice(["none", "any", *SETS]), chance.choice(PLACES)])

    calls = (
        lambda: f"create({thing()}, {thing()})",
        lambda: f"create({thing()}, {thing()})",
        lambda: f"chparent({thing()}, {thing()})",
        lambda: f"move({thing()}, {thing()})",
        lambda: f"set({thing()}, {name()}, {some()})",
        lambda: f'set({thing()}, "{chance.choice("rwf")}", {chance.randrange(2)})',
        lambda: f'set({thing()}, "name", {name()})',
        lambda: f"clear_property({thing()}, {name()})",
        lambda: f"add_property({thing()}, {name()}, {some()}, {{#3, {literal(chance.choice(['', 'r', 'rc', 'wc']))}}})",
        lambda: f"add_property({thing()}, {name()}, {some()}, {{#3, \"rw\"}})",
        lambda: f"set_property_info({thing()}, {name()}, {{{thing()}, \"c\"}})",
        lambda: f"delete_property({thing()}, {name()})",
        lambda: f"add_verb({thing()}, {{#3, \"rd\", {verb()}}}, {arguments()})",
        lambda: f"set_accept({thing()}, {{{thing()}, {thing()}}})",
        lambda: f"set_player_flag({thing()}, {chance.randrange(2)})",
        lambda: f"petition({{{{\"set\", {thing()}, {name()}, {some()}}}}})",
        lambda: f"recycle(#{chance.randrange(4, 14)})" if chance.random() < 0.2 else "max_object()",
    )
    opening = [f"create(#1)\nset(#{number}, \"f\", 1)" for number in range(4, 10)]
    opening += ["add_property(#1, \"a\", {1, 9223372036854775807}, {#3, \"rc\"})", "set_player_flag(#4, 1)"]
    return "".join(f"batch as #3\n{call}\nend\n" for call in [*opening, *(chance.choice(calls)() for _ in range(160))])


def without_own_parts(dump):
    """A dump without what no database has: its seq is 0, it has no accept lists and no petitions."""
    dump = re.sub(r"\Aseq \d+", "seq 0", dump)
    dump = re.sub(r'(?m)^(object .*, [01]), \{[#0-9, -]*\}\}$', r"\1, 0}", dump)
    return re.sub(r"(?m)^petition .*\n", "", dump)


class Scripts(Temporary):
    """The scripts as they are run."""

    def test_the_example(self):
        database = self.file("minimal.db", EXAMPLE)
        status, dump, said = run_script("from_lambdamoo.py", database)
        self.assertEqual((status, dump), (0, EXAMPLE_DUMP))
        self.assertIn("verb programs", said)
        status, back, said = run_script("to_lambdamoo.py", "-", "--programs", database, text=dump)
        self.assertEqual((status, read_database(back)), (0, read_database(EXAMPLE)))
        self.assertIn("verbs without a program: 2,", said)

    def test_the_session(self):
        """The commands of docs/LAMBDAMOO.md print what is written there, and examples/minimal.sh prints the same."""
        document = (TOP / "docs/LAMBDAMOO.md").read_text()
        session = document[document.index("## A session") : document.index("## Bringing a MOO in")]
        lines = [line[4:] for line in session.splitlines() if line.startswith("    ")]
        for name, target in (("tools", TOP / "tools"), ("examples", TOP / "examples"), ("moo", MOO)):
            (self.folder / name).symlink_to(target)
        path = {**os.environ, "PATH": f"{self.folder}:{os.environ['PATH']}"}
        printed = []
        for command in (line[2:] for line in lines if line.startswith("$ ")):
            words = {"shell": True, "cwd": self.folder, "env": path, "stdout": subprocess.PIPE, "stderr": subprocess.STDOUT}
            printed += [f"$ {command}", *subprocess.run(command, timeout=SECONDS, **words).stdout.decode().splitlines()]
        self.assertEqual(printed, lines)
        for part in self.folder.glob("world.db*"):
            part.unlink()
        words = {"env": {**path, "MOO": MOO}, "cwd": self.folder, "stdout": subprocess.PIPE, "stderr": subprocess.STDOUT}
        ended = subprocess.run(["sh", str(TOP / "examples/minimal.sh")], timeout=SECONDS, **words)
        self.assertEqual((ended.returncode, ended.stdout.decode().splitlines()), (0, lines))

    def test_help(self):
        for script, word in (("from_lambdamoo.py", "--floats"), ("to_lambdamoo.py", "--programs")):
            status, text, said = run_script(script, "--help")
            self.assertEqual((status, said), (0, ""))
            for part in (word, "--strict", "status"):
                self.assertIn(part, text)

    def test_words_that_are_wrong(self):
        for script, *words in (
            ("from_lambdamoo.py",),
            ("from_lambdamoo.py", "-", "--floats", "keep"),
            ("from_lambdamoo.py", "-", "--programs", "x"),
            ("to_lambdamoo.py", "-", "--programs", "-"),
            ("to_lambdamoo.py", "a", "b"),
        ):
            status, text, said = run_script(script, *words)
            self.assertEqual((status, text), (2, ""))
            self.assertIn("usage:", said)

    def test_files_that_are_not_there(self):
        for done in (
            run_script("from_lambdamoo.py", str(self.folder / "none.db")),
            run_script("from_lambdamoo.py", str(self.folder)),
            run_script("to_lambdamoo.py", self.file("x.dump", EXAMPLE_DUMP), "--programs", str(self.folder / "none.db")),
        ):
            self.assertEqual(done[:2], (1, ""))
            self.assertNotIn("Traceback", done[2])
            self.assertEqual(done[2].count("\n"), 1)

    def test_output_that_nobody_reads(self):
        """The reader of the output may go away: this is reported, without a traceback."""
        lines = ["4", "20000", *["2", "x" * 60] * 20000]
        database = self.file("long.db", of_value(*lines))
        words = [sys.executable, str(TOOLS / "from_lambdamoo.py"), database]
        with subprocess.Popen(words, stdout=subprocess.PIPE, stderr=subprocess.PIPE) as running:
            running.stdout.close()
            said = running.stderr.read().decode()
            status = running.wait(timeout=SECONDS)
        self.assertEqual((status, said), (1, "from_lambdamoo: the reader of the output went away\n"))


    def test_streams_that_fail(self):
        """A full device and closed streams are reported, without a traceback."""
        self.file("long.db", of_value("4", "20000", *["2", "x" * 60] * 20000))
        self.file("short.dump", value_dump("1"))
        for words, reason in (
            ("from_lambdamoo.py long.db >/dev/full", "No space left on device"),
            ("to_lambdamoo.py short.dump >/dev/full", "No space left on device"),
            ("from_lambdamoo.py long.db >&-", "standard output is closed"),
            ("to_lambdamoo.py - <&-", "standard input is closed"),
        ):
            command = f"{shlex.quote(sys.executable)} {shlex.quote(str(TOOLS))}/{words}"
            streams = {"stdout": subprocess.DEVNULL, "stderr": subprocess.PIPE}
            ended = subprocess.run(command, shell=True, cwd=self.folder, timeout=SECONDS, **streams)
            self.assertEqual(ended.returncode, 1)
            self.assertRegex(ended.stderr.decode(), rf"\A\w+_lambdamoo: .*{reason}\n\Z")


if __name__ == "__main__":
    unittest.main()
