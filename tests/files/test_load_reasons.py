"""What standard error says of a text that isn't a dump: its line, and what is wrong with it.

The sentences are those of `docs/CALLS.md`, and the lines those at which the text was edited.
"""
from pathlib import Path

from tests.support.cases import ProgramTest
from tests.support.program import ended
from tests.support.worlds import PETITIONS, VERBS, make, run

# An edit of the dump of VERBS: its name, what is replaced (all of it), by what, the line, and what is said of it.
EDITS = [
    ("no space after a comma", '{#4, #4, "a"', '{#4,#4, "a"', 9, "a value is followed by ', '"),
    ("carriage returns", "\n", "\r\n", 1, "the line ends in a carriage return"),
    ("one carriage return", 'property {#5, "b"}\n', 'property {#5, "b"}\r\n', 13, "the line ends in a carriage return"),
    ("a byte order mark", "seq ", "\ufeffseq ", 1, "a byte order mark is before it"),
    ("a blank line", "object {#4,", "\nobject {#4,", 7, "a blank line"),
    ("another word", "object {#4,", "objekt {#4,", 7, "'objekt' begins no line: object, property, slot, verb, petition or end"),
    ("no list", "object {#4,", "object #4,", 7, "a list in braces is wanted after the word"),
    ("no first line", "seq ", "sequence ", 1, "the first line is 'seq ' and how many batches were accepted, as 'seq 0'"),
    ("a number below 0", "seq 2", "seq -2", 1, "the first line is 'seq ' and how many batches were accepted, as 'seq 0'"),
    ("no second line", "top #7", "top 7", 2, "the second line is 'top ' and the greatest number of an object, as 'top #3'"),
    ("no value", "top #7", "top none", 2, "'none' isn't a value: 12, #4, \"a text\", E_PERM or {1, #2}"),
    ("no value in a list", "1, 20}", "1, E_NOWT}", 14, "'E_NOWT' isn't a value: 12, #4, \"a text\", E_PERM or {1, #2}"),
    ("nothing in place of a value", 'property {#4, "a"}', 'property {#4, ', 8, "the line ends where a value is wanted"),
    ("a list that isn't one", "1, 20}", "1, {20, x}}", 14, "a list with something in it that isn't a value, or without its '}'"),
    ("no closing quote", 'property {#4, "a"}', 'property {#4, "a}', 8, "a text without its closing quote"),
    ("a letter that isn't ASCII", "First Room", "F\u00e9te", 5, "a byte in a text that is neither a tab nor printing ASCII"),
    ("a number out of range", "1, 20}", "1, 9223372036854775808}", 14, "a number out of range: an integer has 64 bits, an object 32"),
    ("33 lists", "1, 20}", f"1, {'{' * 33}{'}' * 33}}}", 14, "lists are over 32 deep"),
    ("no closing brace", 'property {#4, "a"}', 'property {#4, "a"', 8, "the list isn't closed by a '}'"),
    ("two closing braces", 'property {#4, "a"}', 'property {#4, "a"}}', 8, "something follows the '}' that closes the list"),
    ("a value more", 'property {#4, "a"}', 'property {#4, "a", 1}', 8, "the list of a property has 2 values"),
    ("a value less", "#1, #-1, 0, 0, 0, 0, 0, 0, 0}", "#1, #-1, 0, 0, 0, 0, 0, 0}", 3, "the list of an object has 12 values"),
    ("no owner", '{#5, "", #3,', '{#5, "", 3,', 12, "the owner isn't an object, as #4 is"),
    ("no name", '{#4, "", #3,', "{#4, 0, #3,", 7, "the name isn't a text, as \"x\" is"),
    ("a bit 2", "#2, 1, 1, 1,", "#2, 1, 2, 1,", 6, "the programmer isn't 0 or 1"),
    ("a state 2", '"r", 1, 10}', '"r", 2, 10}', 9, "the letters of a slot are followed by 0, or by 1 and a value"),
    ("no accept list", "{#1}}", "#1}", 5, "the accept list isn't 0 or a list of at most 1000 objects"),
    ("an accept list of others", "{#1}}", "{1}}", 5, "the accepted object isn't an object, as #4 is"),
    (
        "a built-in name", 'property {#4, "a"}', 'property {#4, "Owner"}', 8,
        '"Owner" can\'t name a property: it is built in, or hasn\'t 1 to 255 bytes'
    ),
    ("a verb without a name", '"put"', '"  "', 16, "a verb needs a name"),
    ("letters in another order", '"rwx"', '"xrw"', 11, 'a dump writes "rwx" for "xrw"'),
    ("letters in capitals", '"r", 1, 10', '"R", 1, 10', 9, 'a dump writes "r" for "R"'),
    ("other letters", '"rwx"', '"rwc"', 11, '"rwc" has other letters than r, w, x and d'),
    ("other letters of a slot", '"r", 1, 10', '"rx", 1, 10', 9, '"rx" has other letters than r, w and c'),
    ("one phrase", '"in/inside/into"', '"in"', 10, 'a dump writes "in/inside/into" for "in"'),
    ("no preposition", '"in/inside/into"', '"inn"', 10, '"inn" isn\'t a preposition'),
    ("no direct object", '"this", "none", "none"', '"that", "none", "none"', 11, 'the direct object isn\'t "this", "any" or "none"'),
    ("a slot's line gone", 'slot {#5, #5, "b", #3, "r", 1, 20}\n', "", 14, 'the slot of #5\'s property "b" is wanted here'),
    ("that of what an ancestor defines", 'slot {#5, #4, "a", #3, "r", 0}\n', "", 15, 'the slot of #4\'s property "a" is wanted here'),
    ("the last one of an object", 'slot {#7, #7, "c", #3, "r", 1, 30}\n', "", 22, 'the slot of #7\'s property "c" is wanted here'),
    ("a slot of another name", '{#4, #4, "a"', '{#4, #4, "z"', 9, 'the slot of #4\'s property "a" is wanted here'),
    (
        "a slot twice", 'slot {#4, #4, "a", #3, "r", 1, 10}\n', 'slot {#4, #4, "a", #3, "r", 1, 10}\n' * 2, 10,
        '#4 has no property "a" whose slot isn\'t written yet'
    ),
    ("a slot of no definer", '{#4, #4, "a"', '{#4, #9, "a"', 9, "#9 isn't an object of the dump"),
    ("a slot too many", 'object {#7,', 'slot {#1, #4, "a", #3, "r", 0}\nobject {#7,', 20, '#1 has no property "a" of #4'),
    ("a clear slot of a definer", '"r", 1, 10}', '"r", 0}', 9, "#4 defines this property, so its slot can't be clear"),
    ("an object's line gone", 'object {#6, "", #3, #5, #-1, 0, 0, 0, 0, 0, 0, 0}\n', "", 18, "#6 isn't an object of the dump"),
    (
        "that of a parent", 'object {#5, "", #3, #4, #-1, 0, 0, 0, 0, 0, 0, 0}\n', "", 16,
        "the parent of #6, #5, isn't an object of the dump"
    ),
    ("that of a definer", 'object {#7, "", #3, #1, #-1, 0, 0, 0, 0, 0, 0, 0}\n', "", 20, "#7 isn't an object of the dump"),
    ("no location", '"Wizard", #3, #1, #2,', '"Wizard", #3, #1, #99,', 6, "the location of #3, #99, isn't an object of the dump"),
    ("parents in a circle", '{#4, "", #3, #1,', '{#4, "", #3, #6,', 7, "the parents of #4 go in a circle"),
    ("locations in a circle", 'Room", #3, #1, #-1,', 'Room", #3, #1, #3,', 5, "the locations of #2 go in a circle"),
    ("a verb of no object", 'verb {#5,', 'verb {#99,', 16, "#99 isn't an object of the dump"),
    ("a number above the greatest", "top #7", "top #6", 20, "#7 is below #0, or above the greatest number, which line 2 gives"),
    ("a name that an ancestor has", '#5, "b"', '#5, "a"', 13, '#5 or an object above or under it defines another property "a"'),
    ("two blanks", 'property {#4, "a"}', 'property {#4,  "a"}', 8, "a dump writes the line in another way after its first 14 bytes"),
    ("a zero before a number", "1, 20}", "1, 020}", 14, "a dump writes the line in another way after its first 31 bytes"),
    (
        "slots in another order", 'slot {#5, #5, "b", #3, "r", 1, 20}\nslot {#5, #4, "a", #3, "r", 0}\n',
        'slot {#5, #4, "a", #3, "r", 0}\nslot {#5, #5, "b", #3, "r", 1, 20}\n', 14, "line 15 is wanted here"
    ),
    ("an object twice", 'object {#1, ', 'object {#1, "Root", #3, #-1, #-1, 0, 0, 0, 0, 0, 1, 0}\nobject {#1, ', 4, "line 5 is wanted here"),
    ("a line after the end", "end\n", "end\nend\n", 24, "the dump has ended before it"),
    ("no end", "end\n", "", 23, "the text ends before the line 'end'"),
    ("no line end", "end\n", "end", 23, "the text ends inside the line"),
]
# The same of the dump of PETITIONS.
PETITION_EDITS = [
    ("number 0", "petition {1,", "petition {0,", 20, "the number of a petition isn't 1 to 4294967294"),
    ("calls of another form", '"create", #1', '#1, "create"', 20, "a petition can't ask for these calls"),
    ("no asker", "petition {2, #4,", "petition {2, 4,", 21, "the asker isn't an object, as #4 is"),
    ("a value less", "petition {1, #4,", "petition {1,", 20, "the list of a petition has 3 values"),
]
DAMAGES = [
    ('slot {#5, #5, "b", #3, "r", 1, 20}\n', "moo: damaged missing-slot #5 p2\n"),
    ('object {#6, "", #3, #5, #-1, 0, 0, 0, 0, 0, 0, 0}\n', "moo: damaged strange-slot #6 p1\n"),
]


class LoadReasons(ProgramTest):
    def refuses(self, name, dump, edit):
        """An edited dump is refused, and standard error says so of its line."""
        old, new, line, reason = edit
        self.assertIn(old, dump, name)
        refused = ended("load", ":memory:", "-", text=dump.replace(old, new))
        self.case(f"{name}: refused", refused.status, 3)
        self.case(name, refused.complaint, f"moo: line {line}: not a dump: {reason}\n")
        if refused.written.startswith("moo: not a dump"):
            self.case(f"{name}: its line", refused.written, f"moo: not a dump, line {line}\n")

    def test_each_reason(self):
        make("world.db", VERBS)
        dump = run("dump", "world.db")[1]
        for name, *edit in EDITS:
            self.refuses(name, dump, edit)

    def test_petitions(self):
        make("world.db", PETITIONS)
        dump = run("dump", "world.db")[1]
        for name, *edit in PETITION_EDITS:
            self.refuses(name, dump, edit)

    def test_standard_output_stays(self):
        make("world.db", VERBS)
        dump = run("dump", "world.db")[1]
        for line, written in DAMAGES:
            self.case(f"without {line[:12]}", run("load", ":memory:", "-", text=dump.replace(line, "")), (3, written))

    def test_the_path_is_named(self):
        make("world.db", VERBS)
        Path("world.txt").write_text(run("dump", "world.db")[1].replace('"in/inside/into"', '"in"'))
        refused = ended("load", "new.db", "world.txt")
        self.case("the path", refused.complaint, 'moo: world.txt: line 10: not a dump: a dump writes "in/inside/into" for "in"\n')
        self.case("the line", refused.written, "moo: not a dump, line 10\n")
        self.case("no other words", run("load", "new.db", "no.txt"), (1, "moo: read fault\n"))

    def test_nothing_is_said_of_a_dump(self):
        make("world.db", PETITIONS)
        loaded = ended("load", ":memory:", "-", text=run("dump", "world.db")[1])
        self.case("loaded", tuple(loaded), (0, "loaded seq 2 objects 8\n", ""))
