"""Worlds that are loaded from their dumps: the same world comes back, and a text that isn't a dump changes nothing."""
import itertools
import os
import random
import re
from pathlib import Path

from tests.support.cases import ProgramTest
from tests.support.program import TOP, edit, ended
from tests.support.worlds import PETITIONS, VERBS, accepted, make, remove, run, tables_of, text_of
from tests.texts.test_scenes import scenes

TAKEN = "moo: store fault: it has tables already"
READ = (1, "moo: read fault\n")
# What is said of a text that gives no world.
REFUSALS = re.compile(r"moo: (not a dump, line [1-9][0-9]*|damaged [a-z_ ]+.*)\n")
# What standard error says of it: a line and a cause.
CAUSES = re.compile(r"moo: line ([1-9][0-9]*): not a dump: .+\n")
SET = ['{1, {#2, "x"}, E_PERM}', '"a \\\\ \\" \t b"', "-9223372036854775808", "E_INVARG"]
VALUES = "; ".join(['add_property(#1, "v", {}, {#3, "r"})', *(f'set(#{n}, "v", {value})' for n, value in enumerate(SET))])
OTHER_LETTERS = {
    "seq": "sep", "top": "tip", "object": "objekt", "slot": "slit", "verb": "herb", "property": "Property", "petition": "partition",
    "end": "and"
}


def objects_in(dump):
    return sum(line.startswith("object ") for line in dump.splitlines())


def seq_of(dump):
    return int(dump.split("\n", 1)[0].removeprefix("seq "))


def loaded(dump):
    """What a load of this dump says."""
    return 0, f"loaded seq {seq_of(dump)} objects {objects_in(dump)}\n"


def dump_of(file):
    status, text = run("dump", file)
    if status:
        raise AssertionError(f"{file} has no dump: {status} {text}")
    return text


def texts_of_examples():
    for text in sorted(TOP.glob("examples/*.txt")):
        yield f"example {text.stem}", [(text.read_text(), None)]


def texts_of_scenes():
    for name, scene in scenes():
        yield name, [("".join(batch.text().decode() for batch in batches), change) for batches, change in scene.stretches()]


def changed_lines(dump):
    """Each edit of a dump by one line: gone, doubled, or swapped with the next."""
    lines = dump.splitlines(keepends=True)
    for n, line in enumerate(lines):
        before, after = lines[:n], lines[n + 1:]
        yield f"line {n + 1} gone", "".join(before + after)
        yield f"line {n + 1} doubled", "".join([*before, line, line, *after])
        if after and after[0] != line:
            yield f"line {n + 1} swapped", "".join([*before, after[0], line, *after[1:]])


def changed_words(dump):
    """A number, a word, a letter of a name, a value, blanks and line ends: each line of each kind with one of them changed."""
    lines = dump.splitlines(keepends=True)
    for n, line in enumerate(lines):
        edits = [
            ("number", re.sub(r"\d+", lambda number: str(int(number[0]) + 1), line, count=1)),
            ("last number", re.sub(r"\d+(?=\D*$)", lambda number: str(int(number[0]) + 1), line)),
            ("word", re.sub(r"^[a-z]+", lambda word: OTHER_LETTERS[word[0]], line)),
            ("letter", line.replace('"', '"q', 1)),
            ("value", re.sub(r', ([^,]+)\}\n$', ', "other"}\n', line)),
            ("blank", line.replace(" ", "  ", 1)),
            ("blank at the end", line.replace("\n", " \n")),
            ("zero before a number", re.sub(r"\d", r"0\g<0>", line, count=1)),
            ("carriage return", line.replace("\n", "\r\n")),
            ("no line end", line.rstrip("\n")),
            ("byte 0", line[:1] + "\0" + line[1:]),
        ]
        for name, other in edits:
            if other != line:
                yield f"line {n + 1}: {name}", "".join([*lines[:n], other, *lines[n + 1:]])


def random_edits(dump, seed):
    """A dump with one to three bytes, words or lines changed at random."""
    chance = random.Random(seed)
    text = dump
    for _ in range(chance.randint(1, 3)):
        at, end = chance.randrange(len(text)), chance.randrange(len(text))
        letter = chance.choice('0123456789#"{}, \\\nabr-')
        text = chance.choice([
            text[:at] + text[at + 1:],
            text[:at] + letter + text[at:],
            text[:at] + letter + text[at + 1:],
            text[:at] + text[min(at, end):max(at, end)][:40] + text[at:],
            text[:min(at, end)] + text[max(at, end):],
            text[:at],
        ])
    return text


def dump_of_chain(numbers):
    """The dump of a chain of objects, from the root down. The root and the middle one define a property each."""
    first, middle = numbers[0], numbers[len(numbers) // 2]
    parents = dict(zip(numbers, [-1, *numbers]))
    under = set(numbers[len(numbers) // 2:])
    lines = ["seq 0", f"top #{max(numbers)}"]
    for number in sorted(numbers):
        lines.append(f'object {{#{number}, "", #0, #{parents[number]}, #-1, 0, 0, 0, 0, 0, 0, 0}}')
        lines += [f'property {{#{number}, "{name}"}}' for definer, name in ((middle, "b"), (first, "a")) if definer == number]
        lines += [f'slot {{#{number}, #{middle}, "b", #0, "", {"1, 2" if number == middle else "0"}}}'] * (number in under)
        lines.append(f'slot {{#{number}, #{first}, "a", #0, "r", {"1, 1" if number == first else "0"}}}')
    return "\n".join([*lines, "end", ""])


class Load(ProgramTest):
    limit = 3600

    def test_each_world_comes_back(self):
        """Each world of the scenes and the examples, dumped, loaded and dumped again."""
        for n, (name, stretches) in enumerate(itertools.chain(texts_of_examples(), texts_of_scenes())):
            file, copy = f"world{n}.db", f"loaded{n}.db"
            run("init", file)
            for text, change in stretches:
                run("apply", file, "-", text=text)
                if change:
                    edit(file, change)
            status, dump = run("dump", file)
            if status == 0:
                self.comes_back(name, dump, copy)
            remove(file)
            remove(copy)

    def comes_back(self, name, dump, copy):
        self.case(f"{name}: loaded", run("load", copy, "-", text=dump), loaded(dump))
        self.case(f"{name}: checked", run("check", copy), (0, f"ok seq {seq_of(dump)} objects {objects_in(dump)}\n"))
        self.case(f"{name}: dumped", run("dump", copy), (0, dump))

    def test_long_chains(self):
        """Numbers that go up, down, and neither."""
        for name, numbers in [("up", range(3000)), ("down", range(2999, -1, -1)), ("mixed", random.Random(1).sample(range(3000), 3000))]:
            self.comes_back(f"a chain of 3,000, {name}", dump_of_chain(list(numbers)), f"{name}.db")

    def test_the_dump_of_the_repository(self):
        dump = (TOP / "examples/minimal.dump").read_text()
        self.comes_back("examples/minimal.dump", dump, "minimal.db")

    def test_batches_after_a_load(self):
        make("world.db", VERBS)
        dump = dump_of("world.db")
        run("load", "copy.db", "-", text=dump)
        batch = text_of(["create(#4)", "max_object()", 'verb_info(#4, "get")', "chparent(#5, #7)"])
        self.case("the same reply", run("apply", "copy.db", "-", text=batch), run("apply", "world.db", "-", text=batch))
        self.case("the same world", dump_of("copy.db"), dump_of("world.db"))

    def test_where_the_dump_is(self):
        make("world.db", PETITIONS)
        dump = dump_of("world.db")
        Path("world.dump").write_text(dump)
        self.case("a file", run("load", "a.db", "world.dump"), loaded(dump))
        self.case("the input", run("load", "b.db", "-", text=dump), loaded(dump))
        self.case("in memory", run("load", ":memory:", "world.dump"), loaded(dump))
        self.case("a file of no byte is a place for a world", [Path("c.db").touch(), run("load", "c.db", "world.dump")][1], loaded(dump))
        for file in ("a.db", "b.db", "c.db"):
            self.case(f"{file} is dumped as the text", run("dump", file), (0, dump))

    def test_a_file_with_tables(self):
        make("world.db", VERBS)
        dump, before = dump_of("world.db"), tables_of("world.db")
        refused = ended("load", "world.db", "-", text=dump)
        self.case("a world", refused[:2], (1, "moo: store fault\n"))
        self.case("the cause is said", refused.complaint.strip(), TAKEN)
        self.case("it stays", tables_of("world.db"), before)
        edit("other.db", "create table note(text)", "insert into note values ('keep me')")
        self.case("another table", run("load", "other.db", "-", text=dump), (1, "moo: store fault\n"))
        self.case("that stays", tables_of("other.db"), {"note": [("keep me",)]})

    def test_no_dump(self):
        make("world.db")
        before = tables_of("world.db")
        for name, words, text, wanted in [
            ("no such dump", ("no.dump",), "", READ),
            ("a folder", (".",), "", READ),
            ("an empty text", ("-",), "", (3, "moo: not a dump, line 1\n")),
            ("a line end", ("-",), "\n", (3, "moo: not a dump, line 1\n")),
            ("batches", ("-",), VERBS, (3, "moo: not a dump, line 1\n")),
            ("bytes", ("-",), bytes(range(256)), (3, "moo: not a dump, line 1\n")),
        ]:
            self.case(name, run("load", "new.db", *words, text=text), wanted)
            self.case(f"{name}: no file is made", [file for file in os.listdir() if file.startswith("new.db")], [])
            self.case(f"{name}: in memory", run("load", ":memory:", *words, text=text), wanted)
            self.case(f"{name}: a file stays", [run("load", "world.db", *words, text=text), tables_of("world.db")], [wanted, before])
        complaint = ended("load", "new.db", "no.dump").complaint
        self.case("the cause is said", complaint, "moo: read fault: no such file of batches or dump, or it can't be opened\n")

    def is_refused_or_loaded(self, name, text):
        """A text is refused with its line and a cause, and makes no file, or it is the dump of what it makes."""
        remove("edited.db")
        status, written, complaint = ended("load", "edited.db", "-", text=text)
        if status == 0:
            self.case(f"{name}: loaded as it is", run("dump", "edited.db"), (0, text))
            self.case(f"{name}: checked", run("check", "edited.db")[0], 0)
            return
        self.case(f"{name}: refused", (status, written if not REFUSALS.fullmatch(written) else ""), (3, ""))
        self.case(f"{name}: no file is made", os.path.exists("edited.db"), False)
        line = re.search(r"line (\d+)", written)
        self.case(f"{name}: its line is one of the text's", not line or 1 <= int(line[1]) <= text.count("\n") + 1, True)
        cause = CAUSES.fullmatch(complaint)
        self.case(f"{name}: the line and the cause are said", cause and cause[1] if line else bool(cause), line[1] if line else True)

    def test_edited_dumps(self):
        make("world.db", PETITIONS)
        for name, text in changed_lines(dump_of("world.db")):
            self.is_refused_or_loaded(name, text)
        make("verbs.db", VERBS)
        for name, text in changed_words(dump_of("verbs.db")):
            self.is_refused_or_loaded(name, text)

    def test_random_edits(self):
        make("world.db", PETITIONS)
        make("verbs.db", VERBS + text_of(VALUES.split("; ")))
        dumps = [dump_of("world.db"), dump_of("verbs.db")]
        for seed in range(300):
            self.is_refused_or_loaded(f"seed {seed}", random_edits(dumps[seed % 2], seed))

    def test_lines_of_known_edits(self):
        make("world.db", VERBS)
        dump = dump_of("world.db")
        lines = dump.splitlines(keepends=True)
        for n in range(len(lines)):
            spoiled = "".join([*lines[:n], "x" + lines[n], *lines[n + 1:]])
            self.case(f"a letter before line {n + 1}", run("load", ":memory:", "-", text=spoiled), (3, f"moo: not a dump, line {n + 1}\n"))
        cut = "".join(lines[:-1])
        self.case("the last line is gone", run("load", ":memory:", "-", text=cut), (3, f"moo: not a dump, line {len(lines)}\n"))
        self.case("a line more", run("load", ":memory:", "-", text=f"{dump}end\n"), (3, f"moo: not a dump, line {len(lines) + 1}\n"))
        orphan = dump.replace("object {#5, \"\", #3, #4,", "object {#5, \"\", #3, #99,")
        self.case("a parent that isn't an object", run("load", ":memory:", "-", text=orphan)[0], 3)

    def test_the_opening_world(self):
        make("world.db")
        dump = dump_of("world.db")
        self.case("it is loaded", run("load", "copy.db", "-", text=dump), (0, "loaded seq 0 objects 4\n"))
        self.case("and takes batches", run("apply", "copy.db", "-", text=text_of(["create(#1)"])), (0, accepted(1, "#4")))
