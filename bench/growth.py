"""How many instructions each piece of work takes, and how they grow with the world.

    python3 bench/growth.py PROGRAM [--bulk] [--calls] [--chains] [--refusals] [--sizes N..] [--objects N] [--beside SQLITE_ROWS]

Instructions outside the system are counted by valgrind's callgrind, so the figures need no quiet machine, and come out the same each time
but for a few in a thousand. With no option all four tables are printed.

--bulk    what a row, a batch or a line takes in bulk, on a file with OBJECTS objects (40,000) that have a slot each: objects made and their
          slots set, in batches of 1,000 calls; batches of one call; the opening of the file; its dump; its load; `get`. With --beside the
          same rows are written and read by a program in C over the machine's SQLite (sqlite_rows.c, built), with pages of 4,096 and 1,024
          bytes.
--calls   what one call takes, judged alone by `ask`, among N of what it has to look at (10, 100, 1,000 and 10,000), and the exponent with
          which it grows from the first size to the last.
--chains  the dump and the load of a chain of N objects, each under the one before it.
--refusals  batches of one or two calls and a `get` that is refused, by `apply` on a file, beside the same with a `get` that is answered, and
          how many times as much the first take. Among N objects or rows, up to 1,000.

Every figure but those of the chains is a difference of two runs that differ in the number of the pieces alone, so what a run takes besides
isn't in it.
"""
from __future__ import annotations

import argparse
import math
import os
import re
import subprocess
import sys
import tempfile
from collections.abc import Callable, Iterable, Iterator
from typing import NamedTuple

SIZES = (10, 100, 1000, 10000)
# `chparent` and `move` look at n of one thing and n of another: beyond this size a program whose time is their product isn't waited for.
LARGEST_PRODUCT = 1000
BATCH = 1000
# Each call is asked so many times more in the second run.
TIMES = 10


def batch(calls: Iterable[str], who: str = "#3") -> str:
    """The text of a batch of these calls."""
    return f"batch as {who}\n" + "\n".join(calls) + "\nend\n"


def batches(calls: list[str]) -> str:
    """The calls in batches of 1,000, each accepted as a whole."""
    return "".join(batch(calls[first : first + BATCH]) for first in range(0, len(calls), BATCH))


class Machine:
    """A program, and a folder for its files."""

    def __init__(self, program: str, folder: str) -> None:
        self.program = os.path.abspath(program)
        self.folder = folder

    def path(self, name: str) -> str:
        """The path of a file in the folder."""
        return os.path.join(self.folder, name)

    def fresh(self, name: str) -> str:
        """The path of a file that isn't there."""
        for end in ("", "-wal"):
            if os.path.exists(self.path(name) + end):
                os.remove(self.path(name) + end)
        return self.path(name)

    def run(self, words: list[str], text: str = "") -> bytes:
        """Runs the program, and returns what it printed. It has to succeed."""
        return subprocess.run([self.program, *words], input=text.encode(), stdout=subprocess.PIPE, cwd=self.folder, check=True).stdout

    def counted(self, words: list[str], text: str = "", program: str = "", is_refused: bool = False) -> int:
        """The instructions of a run, which has to succeed; and to accept each batch that it answers, or refuse each."""
        figures = self.fresh("callgrind")
        command = ["valgrind", "--tool=callgrind", f"--callgrind-out-file={figures}", program or self.program, *words]
        ran = subprocess.run(command, input=text.encode(), stdout=subprocess.PIPE, stderr=subprocess.PIPE, cwd=self.folder, check=True)
        wrong = rb"accepted" if is_refused else rb"refused"
        other = re.search(rb"^(" + wrong + rb"|nomemory|malformed|fault).*", ran.stdout, re.MULTILINE)
        if other:
            sys.exit(f"{words}: {other.group(0).decode()}")
        with open(figures, encoding="ascii") as lines:
            for line in lines:
                if line.startswith(("summary:", "totals:")):
                    return int(line.split()[1])
        sys.exit(f"{figures} has no sum")

    def apart(self, words: list[str], few: str, many: str, is_refused: bool = False) -> int:
        """How many instructions the second text takes more than the first."""
        first = self.counted(words, few, is_refused=is_refused)
        return self.counted(words, many, is_refused=is_refused) - first

    def world(self, calls: list[str]) -> str:
        """A new file with the world that these calls make."""
        path = self.fresh("world.db")
        self.run(["init", path])
        answers = self.run(["apply", path, "-"], batches(calls))
        if answers.count(b"accepted ") != math.ceil(len(calls) / BATCH):
            sys.exit(f"a world wasn't made: {answers[-200:]!r}")
        return path


def short(figure: float) -> str:
    """A number of instructions, as 84.9k."""
    for size, letter in ((1e9, "G"), (1e6, "M"), (1e3, "k")):
        if figure >= size:
            return f"{figure / size:.1f}{letter}"
    return f"{figure:.0f}"


def row(cells: Iterable[str]) -> None:
    """Prints a line of a table."""
    print("| " + " | ".join(cells) + " |", flush=True)


def heading(cells: list[str]) -> None:
    """Prints the head of a table."""
    print()
    row(cells)
    print("|" + "---|" * len(cells), flush=True)


# ---- in bulk


def made(first: int, count: int) -> Iterator[str]:
    """The calls that make objects under #4, which defines q, and set their slots."""
    for number in range(first, first + count):
        yield "create(#4)"
    for number in range(first, first + count):
        yield f'set(#{number}, "q", {number})'


def pairs(count: int) -> list[str]:
    """The same in batches of 1,000 calls: of each 500 objects, these and their slots."""
    calls: list[str] = []
    for first in range(0, count, BATCH // 2):
        calls += made(first + 5, min(BATCH // 2, count - first))
    return calls


# #4, which defines q, and has no heir yet.
FOUNDATION = ["create(#1)", 'add_property(#4, "q", 0, {#3, "rc"})']


def dumped(machine: Machine, path: str, name: str) -> int:
    """Dumps a world to a file, and answers how many lines that has."""
    text = machine.run(["dump", path])
    with open(machine.path(name), "wb") as output:
        output.write(text)
    return text.count(b"\n")


def loaded(machine: Machine, name: str) -> int:
    """The instructions of the load of a dump."""
    return machine.counted(["load", machine.fresh("new.db"), machine.path(name)])


def bulk(machine: Machine, objects: int) -> None:
    """What a piece of bulk work takes."""
    heading(["piece", "instructions"])
    path = machine.world(FOUNDATION)
    some = machine.counted(["apply", path, "-"], batches(pairs(1000)))
    path = machine.world(FOUNDATION)
    all_of_them = machine.counted(["apply", path, "-"], batches(pairs(objects)))
    row(["a pair: `create` and `set` of a slot, 1,000 calls a batch", short((all_of_them - some) / (objects - 1000))])
    opening = machine.counted(["ask", path, "-"], "")
    bare = machine.world(FOUNDATION)
    empty = machine.counted(["ask", bare, "-"], "")
    dumped(machine, bare, "bare.txt")
    empty_load = loaded(machine, "bare.txt")
    row(["opening, a row", short((opening - empty) / (2 * objects))])
    few, many = ("".join(batch([f'set(#4, "name", "Lantern {number}")']) for number in range(count)) for count in (100, 1100))
    row(["a batch of one call, on a small world", short(machine.apart(["apply", bare, "-"], few, many) / 1000)])
    large = machine.world(FOUNDATION + pairs(objects))
    few, many = (batches([f'get(#{5 + number * 7919 % objects}, "q")' for number in range(count)]) for count in (1000, 3000))
    row(["`get`, 1,000 calls a batch", short(machine.apart(["ask", large, "-"], few, many) / 2000)])
    row(["dump less opening, a line", short((machine.counted(["dump", large]) - opening) / dumped(machine, large, "world.txt"))])
    row(["load, a row", short((loaded(machine, "world.txt") - empty_load) / (2 * objects))])


def beside(machine: Machine, program: str, objects: int) -> None:
    """The same rows by SQLite."""
    program = os.path.abspath(program)
    heading(["piece, by SQLite", "pages of 4,096 bytes", "1,024"])

    def each(task: str, few: int, many: int) -> Callable[[str], float]:
        def figure(page: str) -> float:
            counts = [machine.counted([task, machine.fresh("theirs.db"), page, str(count)], program=program) for count in (few, many)]
            return (counts[1] - counts[0]) / (many - few)

        return figure

    def reading(page: str) -> float:
        counts = []
        for count in (100, objects):
            subprocess.run([program, "load", machine.fresh("theirs.db"), page, str(count)], stderr=subprocess.DEVNULL, check=True)
            counts.append(machine.counted(["read", machine.path("theirs.db")], program=program))
        return (counts[1] - counts[0]) / (2 * (objects - 100))

    for name, figure in (
        ("a pair, 500 of them a transaction", each("pairs", 1000, objects)),
        ("a read of all rows, a row", reading),
        ("a transaction of two updates", each("batches", 100, 1100)),
        ("all rows in one transaction, a row", lambda page: each("load", 100, objects)(page) / 2),
    ):
        row([name, short(figure("4096")), short(figure("1024"))])


# ---- a call among n


def properties(count: int) -> list[str]:
    """#4 defines n properties."""
    return ["create(#1)"] + [f'add_property(#4, "p{number}", {number}, {{#3, "rc"}})' for number in range(count)]


def verbs(count: int) -> list[str]:
    """#4 has n verbs."""
    return ["create(#1)"] + [f'add_verb(#4, {{#3, "rd", "v{number}"}}, {{"this", "none", "none"}})' for number in range(count)]


def chain(count: int) -> list[str]:
    """#4 under #1, and each next object under the one before it: the last is #(count + 3)."""
    return ["create(#1)"] + [f"create(#{number})" for number in range(4, count + 3)]


def siblings(count: int) -> list[str]:
    """n objects under #4."""
    return ["create(#1)"] + ["create(#4)"] * count


def inheriting(count: int) -> list[str]:
    """A chain of n whose first object defines a property."""
    first, *others = chain(count)
    return [first, *properties(1)[1:], *others]


def moving(count: int) -> list[str]:
    """The resident #4, a thing of #4's with n objects above it, and a place whose accept list has n entries: the last alone lets it in."""
    resident = ["create(#1)", "set_player_flag(#4, 1)"]
    above = ["create(#1, #4)"] + [f"create(#{number}, #4)" for number in range(5, count + 5)]
    entries = ", ".join(["#2"] * (count - 1) + ["#5"])
    return resident + above + ["create(#1)", f"set_accept(#{count + 6}, {{{entries}}})"]


def reparenting(count: int) -> list[str]:
    """#4 and #5 with n properties each, of other names."""
    letters = [f"a{number}" for number in range(count)], [f"b{number}" for number in range(count)]
    names = [(owner, name) for owner, of_owner in zip((4, 5), letters) for name in of_owner]
    return ["create(#1)", "create(#1)"] + [f'add_property(#{owner}, "{name}", 0, {{#3, "rc"}})' for owner, name in names]


class Call(NamedTuple):
    """A call among n: what it is, the calls that make its world, what is asked, and the largest n."""

    name: str
    world: Callable[[int], list[str]]
    asked: Callable[[int], str]
    largest: int = 10000
    # a wizard's `move` needs no accept list
    who: str = "#3"
    is_refused: bool = False


CALLS = [
    Call("`get` of the last of n properties", properties, lambda n: f'get(#4, "p{n - 1}")'),
    Call("`get` of none of n, refused", properties, lambda n: 'get(#4, "none")', is_refused=True),
    Call("`property_info` of the first of n", properties, lambda n: 'property_info(#4, "p0")'),
    Call("`add_property` on an object with n", properties, lambda n: 'add_property(#4, "one_more", 0, {#3, "rc"})'),
    Call("`create` under an object with n", properties, lambda n: "create(#4)"),
    Call("`get` of a property n levels up", inheriting, lambda n: f'get(#{n + 3}, "p0")'),
    Call("`verb_info` by name, the last of n", verbs, lambda n: f'verb_info(#4, "v{n - 1}")'),
    Call("`verb_info` by number, the last of n", verbs, lambda n: f"verb_info(#4, {n})"),
    Call("`children` of an object with n", siblings, lambda n: "children(#4)"),
    Call("`create` among n children", siblings, lambda n: "create(#4)"),
    Call("`move` with n ancestors and n entries", moving, lambda n: f"move(#{n + 5}, #{n + 6})", LARGEST_PRODUCT, who="#4"),
    Call("`chparent`, n own properties, under n", reparenting, lambda n: "chparent(#4, #5)", LARGEST_PRODUCT),
]


def calls(machine: Machine, sizes: list[int]) -> None:
    """What each call takes among n, and how that grows."""
    heading(["call", *(f"n = {size:,}" for size in sizes), "exponent"])
    for call in CALLS:
        figures = []
        for size in (size for size in sizes if size <= call.largest):
            path, question = machine.world(call.world(size)), batch([call.asked(size)], call.who)
            taken = machine.apart(["ask", path, "-"], question, question * (1 + TIMES), call.is_refused)
            figures.append((size, taken / TIMES))
        (least, first), (most, last) = figures[0], figures[-1]
        grows = math.log(last / first) / math.log(most / least) if most > least else 0.0
        row([call.name, *(short(figure) for _, figure in figures), *["-"] * (len(sizes) - len(figures)), f"{grows:.2f}"])


# ---- a chain


def chains(machine: Machine, sizes: list[int]) -> None:
    """What the dump and the load of a chain take."""
    heading(["a chain of n", *(f"n = {size:,}" for size in sizes)])
    dumps, loads = [], []
    for size in sizes:
        path = machine.world(chain(size))
        dumped(machine, path, "chain.txt")
        dumps.append(short(machine.counted(["dump", path])))
        loads.append(short(loaded(machine, "chain.txt")))
    row(["`dump`", *dumps])
    row(["`load`", *loads])


# ---- refusals


class Refusal(NamedTuple):
    """A batch that a last call makes refused or accepted: what it does, the calls that make its world, and its calls at each turn."""

    name: str
    world: Callable[[int], list[str]]
    calls: Callable[[int, int], list[str]]
    who: str = "#3"


def below(count: int) -> list[str]:
    """#4, #5 under it, and n objects under that."""
    return ["create(#1)", "create(#4)"] + ["create(#5)"] * count


def named_below(count: int) -> list[str]:
    """The same, and #4 defines p0."""
    return below(count) + properties(1)[1:]


def slots(count: int) -> list[str]:
    """#4 with n properties, and twenty objects under it, from #5."""
    return properties(count) + ["create(#4)"] * 20


REFUSALS = [
    Refusal("`set` of the name", properties, lambda n, turn: [f'set(#4, "name", "Lantern {turn}")']),
    Refusal("`create` under an object with n properties", properties, lambda n, turn: ["create(#4)"]),
    Refusal("`recycle` of an object with n slots", slots, lambda n, turn: [f"recycle(#{5 + turn})"]),
    Refusal("`add_property` above n objects", below, lambda n, turn: [f'add_property(#4, "q{turn}", 0, {{#3, "rc"}})']),
    Refusal("`set_accept` of n entries", below, lambda n, turn: ["set_accept(#4, {" + ", ".join(["#2"] * min(n, 1000)) + "})"]),
    Refusal("`chparent` to the same parent, n objects below", below, lambda n, turn: ["chparent(#5, #4)"]),
    Refusal("`chparent` to another parent and back, n objects below", below, lambda n, turn: ["chparent(#5, #1)", "chparent(#5, #4)"]),
    Refusal(
        "`set_property_info` with another name and back, above n objects", named_below,
        lambda n, turn: [f'set_property_info(#4, "{name}", {{#3, "rc", "{other}"}})' for name, other in (("p0", "q"), ("q", "p0"))]
    ),
    Refusal("`move` with n ancestors and n entries, and back", moving, lambda n, turn: [f"move(#{n + 5}, #{n + 6})", f"move(#{n + 5}, #-1)"], "#4"),
    Refusal(
        "`set_verb_info` by name, the last of n", verbs, lambda n, turn: [f'set_verb_info(#4, "v{n - 1}", {{#3, "rd", "v{n - 1}"}})']
    ),
]


def turns(refusal: Refusal, size: int, count: int, last: str) -> str:
    """So many batches, one after another."""
    return "".join(batch([*refusal.calls(size, turn), last], refusal.who) for turn in range(count))


def refusals(machine: Machine, sizes: list[int]) -> None:
    """What a batch takes that is refused at its last call, and one that is accepted."""
    heading(["calls before the last", *(f"n = {size:,}: accepted, refused, times" for size in sizes)])
    for refusal in REFUSALS:
        cells = []
        for size in sizes:
            taken = []
            for last, is_refused in (('get(#2, "name")', False), ('get(#2, "none")', True)):
                counts = [
                    machine.counted(["apply", machine.world(refusal.world(size)), "-"], turns(refusal, size, count, last), is_refused=is_refused)
                    for count in (2, 2 + TIMES)
                ]
                taken.append((counts[1] - counts[0]) / TIMES)
            cells.append(f"{short(taken[0])}, {short(taken[1])}, {taken[1] / taken[0]:.2f}")
        row([refusal.name, *cells])


def main() -> None:
    """Prints the tables that are asked for, or all."""
    parser = argparse.ArgumentParser(description=__doc__.split("\n")[0])
    parser.add_argument("program")
    for table in ("--bulk", "--calls", "--chains", "--refusals"):
        parser.add_argument(table, action="store_true")
    parser.add_argument("--sizes", type=int, nargs="+", default=list(SIZES))
    parser.add_argument("--objects", type=int, default=40000)
    parser.add_argument("--beside", metavar="SQLITE_ROWS")
    words = parser.parse_args()
    every = not (words.bulk or words.calls or words.chains or words.refusals)
    with tempfile.TemporaryDirectory(prefix="moo-growth.", dir="/dev/shm") as folder:
        machine = Machine(words.program, folder)
        if words.bulk or every:
            bulk(machine, words.objects)
        if words.beside:
            beside(machine, words.beside, words.objects)
        if words.calls or every:
            calls(machine, words.sizes)
        if words.chains or every:
            chains(machine, words.sizes)
        if words.refusals or every:
            refusals(machine, [size for size in words.sizes if size <= LARGEST_PRODUCT])


if __name__ == "__main__":
    main()
