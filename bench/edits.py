"""Random edits by hand of the tables of a world, and what is said of them.

    python3 bench/edits.py PROGRAM [COUNT [SEED [FIRST]]]

COUNT times (2,000) a copy of a world's file is edited through a connection: numbers and texts are put into cells of every column, and
rows are added and deleted, one to three edits a copy. The world has clear and set slots, verbs, accept lists and petitions. Then

- `check` refuses it with a kind and a key, status 3, and so does `dump`, in the same words; or
- `check` accepts it, `dump` writes the objects, properties, slots, verbs and petitions that the tables hold, each line of which can be
  read, and a batch runs on it; then `check` accepts it again.

Whichever it is, the edited rows stay as they are until a batch is accepted. The seed is printed first. It stops at the first edit of which
anything else comes, with its seed, its number and its statements, and leaves the file: status 1. FIRST begins at that number.
"""
from __future__ import annotations

import collections
import os
import random
import re
import shutil
import sqlite3
import subprocess
import sys
import tempfile
from typing import Any, Callable, Optional, TypeVar

sys.dont_write_bytecode = True
sys.path.insert(0, os.path.dirname(os.path.dirname(os.path.abspath(__file__))))
from tests.support.columns import TABLES  # noqa: E402

WORLD = r'''batch as #3
create(#1)
add_property(#4, "a", 10, {#3, "r"})
create(#4)
add_property(#5, "b", {1, {"x\"y", #4}, E_PERM}, {#3, "rwc"})
create(#5)
set(#6, "b", 21)
create(#1)
add_property(#7, "c", "text", {#2, ""})
create(#6)
set(#8, "a", {})
set(#8, "name", "Lantern")
move(#8, #2)
move(#6, #8)
set_accept(#4, {#1, #5})
set_accept(#7, {})
add_verb(#4, {#3, "rd", "get take"}, {"any", "in", "this"})
add_verb(#4, {#3, "rwx", "l*ook"}, {"this", "none", "none"})
add_verb(#6, {#3, "", "put"}, {"any", "any", "any"})
create(#3, #0)
recycle(#9)
end
batch as #3
create(#7)
set(#10, "c", -9223372036854775808)
set(#10, "r", 1)
end
batch as #6
petition({{"create", #1, #6}, {"set_player_flag", #6, 1}})
petition({{"recycle", #6}})
petition({{"set", #8, "a", {1, {"x\"y", #4}, E_PERM}}})
decline(2)
end
'''
KINDS = (
    "bad-head bad-cell past-head no-parent parent-loop no-place place-loop no-definer double-name strange-slot missing-slot "
    "clear-definer strange-verb"
).split()
TEXTS = {("object", "name"), ("object", "accept"), ("prop", "name"), ("slot2", "value"), ("petition", "calls")} | {
    ("verb", column) for column in ("names", "bits", "dobj", "prep", "iobj")
}
NUMBERS = [-(2**63), -(2**31) - 1, -(2**31), -2, -1, 0, 1, 2, 3, 4, 5, 6, 7, 8, 9, 10, 11, 2**31 - 1, 2**31, 2**32 - 1, 2**32, 2**63 - 1]
# Texts that are cells of some column, and texts that are cells of none.
WORDS = [
    "", " ", "r", "w", "rw", "CWR", "rr", "x", "rd", "none", "any", "this", "in", "in/inside/into", "with/using", "name", "A", "a", "b",
    "look", "l*ook get",
    "0", "-1", "9223372036854775807", "9223372036854775808", "-9223372036854775809", "#4", "#-1", "#2147483648", "{}", "{#1}", "{ #1}",
    "{#1,#5 }", "{1,}", "{", "}", '"', '"x"',
    '"\\', "E_PERM", "e_perm", "E_", "{" * 32 + "}" * 32, "{" * 33 + "}" * 33, "\t", "\n", "a\nb", "\u00e9", "'", "x" * 255, "x" * 256,
    '"' + "x" * 65535 + '"',
    '"' + "x" * 65536 + '"', "{" + "0," * 1023 + "0}", "{" + "0," * 1024 + "0}", "a b", "a " * 300,
    '{{"players"}}', '{ {"sing" ,#1},{"Grant", 1}}', '{{"players"},}', "{{}}", "{{1}}", '{"players"}',
    "{" + ",".join(['{"players"}'] * 64) + "}",
    "{" + ",".join(['{"players"}'] * 65) + "}", '{{"x",' + "{" * 28 + "}" * 28 + "}}", '{{"x",' + "{" * 29 + "}" * 29 + "}}",
]
# A statement, and the values for its marks.
Edit = tuple[str, list[Any]]
Rows = dict[str, list[tuple[Any, ...]]]
Found = TypeVar("Found")
BYTES = [b"\x00", b"\xff", b"a\x00b", b'"\xc3"', b"\x7f", b'"\x01"']
CREATE = b"batch as #3\nset(#3, \"name\", \"Wizard\")\nend\n"


class Violation(Exception):
    """What an edit showed that it may not show."""


class Edits:
    """A world, a copy of it that is edited, and how often each thing was said of a copy."""

    def __init__(self, program: str, folder: str) -> None:
        self.program, self.folder = program, folder
        self.world, self.copy = os.path.join(folder, "world.db"), os.path.join(folder, "copy.db")
        self.said: collections.Counter[str] = collections.Counter()
        if self.run("init", self.world)[0] or self.run("apply", self.world, "-", text=WORLD.encode())[1].count(b"accepted") != 3:
            raise Violation("the world was not made")
        self.with_rows(self.world, lambda connection: connection.execute("pragma wal_checkpoint(truncate)").fetchall())
        self.rows = self.rows_of(self.world)

    def run(self, *words: str, text: bytes = b"") -> tuple[int, bytes]:
        """The status of the program, and what it prints."""
        ran = subprocess.run([self.program, *words], input=text, stdout=subprocess.PIPE, stderr=subprocess.DEVNULL, timeout=60)
        return ran.returncode, ran.stdout

    def with_rows(self, file: str, do: Callable[[sqlite3.Connection], Found]) -> Found:
        """What is done over a connection to a file."""
        connection = sqlite3.connect(file)
        connection.text_factory = bytes
        connection.execute("pragma synchronous = off")
        try:
            return do(connection)
        finally:
            connection.close()

    def rows_of(self, file: str) -> Rows:
        """The rows of each table."""
        return self.with_rows(file, lambda c: {table: sorted(c.execute(f"select * from {table}"), key=repr) for table in TABLES})

    def cell(self, chance: random.Random, table: str, column: str) -> tuple[Any, str]:
        """A value for a cell, and how it is written in a statement."""
        like = chance.choice(chance.choice(list(self.rows.values())) or [(0,)])
        if (table, column) not in TEXTS:
            near = chance.choice([value for value in like if isinstance(value, int)] or [0])
            return chance.choice([chance.choice(NUMBERS), near, near + chance.choice([-1, 1])]), "?"
        kind = chance.random()
        if kind < 0.5:
            return chance.choice(WORDS).encode(), "cast(? as text)"
        if kind < 0.6:
            return chance.choice(BYTES), "cast(? as text)"
        text = bytearray(chance.choice([value for value in like if isinstance(value, bytes)] or [b""]))
        for _ in range(chance.choice([0, 1, 1, 2])):
            at = chance.randrange(len(text) + 1)
            text[at : at + chance.randrange(3)] = chance.choice([b"", b" ", b"{", b"}", b",", b'"', b"#", b"1", b"-", b"e", b"/", b"\\"])
        return bytes(text), "cast(? as text)"

    def edit(self, chance: random.Random) -> Edit:
        """A statement, and its values."""
        table = chance.choice(["head", "object", "object", "prop", "slot2", "slot2", "verb", "petition", "petition_head"])
        columns = TABLES[table]
        row = chance.choice(self.rows[table])
        keys = columns[: 2 if table in ("slot2", "verb") else 1]
        where = " and ".join(f"{key} = {row[columns.index(key)]}" for key in keys)
        kind = chance.random()
        if kind < 0.1:
            return f"delete from {table} where {where}", []
        if kind < 0.25:
            values, marks = list(row), ["cast(? as text)" if (table, column) in TEXTS else "?" for column in columns]
            for column in chance.sample(columns, min(len(columns), chance.choice([1, 1, 2, 3]))):
                values[columns.index(column)] = self.cell(chance, table, column)[0]
            return f"insert or replace into {table} values ({', '.join(marks)})", values
        column = chance.choice(columns)
        value, mark = self.cell(chance, table, column)
        return f"update or replace {table} set {column} = {mark} where {where}", [value]

    def edited(self, chance: random.Random) -> list[Edit]:
        """The statements of one to three edits that the tables took."""
        for end in ("", "-wal", "-shm"):
            if os.path.exists(self.copy + end):
                os.remove(self.copy + end)
        shutil.copyfile(self.world, self.copy)
        edits = [self.edit(chance) for _ in range(chance.choice([1, 1, 1, 1, 2, 3]))]

        def make(connection: sqlite3.Connection) -> None:
            for statement, values in edits:
                try:
                    connection.execute(statement, values)
                except (sqlite3.IntegrityError, OverflowError):
                    self.said["refused by the tables themselves"] += 1
            connection.commit()

        self.with_rows(self.copy, make)
        return edits

    def refused(self, status: int, line: bytes) -> None:
        """What `check` refuses with this line, `dump` and `apply` refuse with the same."""
        if status != 3 or self.run("dump", self.copy) != (3, line) or self.run("apply", self.copy, "-", text=CREATE) != (3, line):
            raise Violation(f"check says {line!r} with status {status}, and dump or apply something else")
        self.said[line.decode().split()[2] if b"damaged" in line else "newer version"] += 1

    def accepted(self, rows: Rows, seq: int, objects: int) -> None:
        """What `check` accepts is dumped as these rows, and takes a batch."""
        status, dump = self.run("dump", self.copy)
        lines = dump.split(b"\n")
        head = rows["head"][0]
        counts = collections.Counter(line.split(b" ")[0] for line in lines)
        told = (counts[b"object"], counts[b"property"], counts[b"slot"], counts[b"verb"], counts[b"petition"])
        if status or lines[-2:] != [b"end", b""] or lines[:2] != [b"seq %d" % seq, b"top #%d" % head[3]]:
            raise Violation(f"dump: status {status}, {dump[:200]!r} .. {dump[-200:]!r}")
        held = tuple(len(rows[table]) for table in ("object", "prop", "slot2", "verb", "petition"))
        if told != held or told[0] != objects or seq != head[2]:
            raise Violation(f"the dump has {told} objects, properties, slots, verbs and petitions, and check says {objects} objects")
        for line in lines[2:-2]:
            if not is_line(line):
                raise Violation(f"a line of the dump can't be read: {line[:200]!r}")
        if self.rows_of(self.copy) != rows:
            raise Violation("check or dump changed a row")
        replied = self.run("apply", self.copy, "-", text=CREATE)
        # Who isn't a wizard any more, an object that isn't there, and the last number are refusals.
        if replied[0] or not re.fullmatch(rb"accepted %d\n0\nend\n|refused 1 E_\w+\n|full 0\n" % (seq + 1), replied[1]):
            raise Violation(f"a batch: {replied}")
        last = seq + (1 if replied[1].startswith(b"accepted") else 0)
        if self.run("check", self.copy) != (0, b"ok seq %d objects %d\n" % (last, objects)):
            raise Violation("the world isn't whole after a batch")
        self.said["accepted"] += 1

    def judge(self) -> None:
        """Looks at the edited copy."""
        rows = self.rows_of(self.copy)
        status, line = self.run("check", self.copy)
        found = re.fullmatch(rb"ok seq (\d+) objects (\d+)\n", line)
        if status == 0 and found:
            self.accepted(rows, int(found[1]), int(found[2]))
        elif re.fullmatch(
            rb"moo: (damaged (%s) (head|#-?\d+|[pr]-?\d+|#-?\d+ [pv]-?\d+)|newer version)\n" % "|".join(KINDS).encode(), line
        ):
            self.refused(status, line)
            if self.rows_of(self.copy) != rows:
                raise Violation("a refusal changed a row")
        else:
            raise Violation(f"check: status {status}, {line!r}")


def value_end(line: bytes, at: int) -> Optional[int]:
    """The end of the literal that begins there, or None."""
    plain = re.compile(rb'-?\d+|#-?\d+|E_[A-Z]+|"(?:[^"\\]|\\.)*"', re.S).match(line, at)
    if plain:
        return plain.end()
    if line[at : at + 1] != b"{":
        return None
    at += 1
    while line[at : at + 1] != b"}":
        end = value_end(line, at)
        if end is None:
            return None
        at = end
        if line[at : at + 2] == b", ":
            at += 2
        elif line[at : at + 1] != b"}":
            return None
    return at + 1


def is_line(line: bytes) -> bool:
    """Whether a line of a dump is a word and one list."""
    word, _, rest = line.partition(b" ")
    return word in (b"object", b"property", b"slot", b"verb", b"petition") and rest[:1] == b"{" and value_end(rest, 0) == len(rest)


def main() -> None:
    """Makes the edits, and prints the seed and what was said of them."""
    program = os.path.abspath(sys.argv[1])
    count = int(sys.argv[2]) if len(sys.argv) > 2 else 2000
    seed = int(sys.argv[3]) if len(sys.argv) > 3 else random.randrange(1_000_000)
    first = int(sys.argv[4]) if len(sys.argv) > 4 else 1
    print(f"seed {seed}", flush=True)
    folder = tempfile.mkdtemp(prefix="moo-edits-")
    edits = Edits(program, folder)
    for number in range(first, count + 1):
        statements = edits.edited(random.Random(f"{seed}/{number}"))
        try:
            edits.judge()
        except (Violation, subprocess.TimeoutExpired) as wrong:
            print(f"seed {seed}, edit {number}, {edits.copy}: {wrong}")
            for statement, values in statements:
                print(f"  {statement} {[value if isinstance(value, int) else value[:80] for value in values]}")
            sys.exit(1)
    shutil.rmtree(folder)
    said = ", ".join(f"{kind} {times}" for kind, times in sorted(edits.said.items()))
    print(f"{count + 1 - first} edits, each refused with a kind or a whole world: {said}")


if __name__ == "__main__":
    main()
