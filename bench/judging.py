"""How long a batch takes without the store: its text is read, it is judged, and the reply is printed.

    python3 bench/judging.py PROGRAM.. [--objects N..] [--children N..]

Each PROGRAM answers texts of `ask`, which commits nothing and leaves the world as it is. In worlds of N objects under #1 the calls
`get`, `set` and `create` are asked 1,000 times each, a batch a call, on objects far from each other. Then comes a change of parent: #4
defines a, #5 is under it with N children, #6 defines c, and `chparent(#5, #6)` is asked; of #5 and each child a slot goes and a slot comes.
Times are in microseconds a batch: the median of nine runs, with the least after it in brackets.
"""
from __future__ import annotations

import argparse
import os
import statistics
import subprocess
import sys
import tempfile
import time

ROUNDS = 9
CALLS = 1000
STRIDE = 7919
FIRST = 4
ASKED = (
    ("get", 'get(#{x}, "name")'),
    ("set", 'set(#{x}, "name", "Lantern {x}")'),
    ("create", "create(#1)"),
)
FAMILY = ("create(#1)", "create(#4)", "create(#1)", 'add_property(#4, "a", 0, {#3, "rc"})', 'add_property(#6, "c", 0, {#3, "rc"})')


def batch(calls: str) -> str:
    """The text of a batch of these calls."""
    return f"batch as #3\n{calls}\nend\n"


def make(program: str, path: str, calls: list[str]) -> None:
    """Makes a world by these calls, in batches of 1,000."""
    subprocess.run([program, "init", path], stdout=subprocess.DEVNULL, check=True)
    text = "".join(batch("\n".join(calls[i : i + 1000])) for i in range(0, len(calls), 1000))
    subprocess.run([program, "apply", path, "-"], input=text.encode(), stdout=subprocess.DEVNULL, check=True)


class Questions:
    """A run of `ask` on a world, which is asked through pipes."""

    def __init__(self, program: str, path: str) -> None:
        self.run = subprocess.Popen([program, "ask", path, "-"], stdin=subprocess.PIPE, stdout=subprocess.PIPE)

    def ask(self, batches: list[str]) -> float:
        """The time from the first byte of their text to the last reply, a batch, in microseconds. Each has to be accepted."""
        assert self.run.stdin and self.run.stdout
        text = "".join(batches).encode()
        start = time.perf_counter()
        self.run.stdin.write(text)
        self.run.stdin.flush()
        for asked in batches:
            line = self.run.stdout.readline()
            if not line.startswith(b"accepted"):
                sys.exit(f"{asked[:80]!r} .. was not accepted: {line!r}")
            while line != b"end\n":
                line = self.run.stdout.readline()
        return (time.perf_counter() - start) / len(batches) * 1e6

    def end(self) -> None:
        """Ends the run."""
        assert self.run.stdin
        self.run.stdin.close()
        if self.run.wait() != 0:
            sys.exit(f"the run ended with {self.run.returncode}")


def measure(program: str, folder: str, calls: list[str], asked: list[list[str]]) -> list[str]:
    """The times of each list of batches on the world that the calls make."""
    path = os.path.join(folder, "world.db")
    make(program, path, calls)
    questions = Questions(program, path)
    times = [[questions.ask(batches) for batches in asked] for _ in range(ROUNDS)]
    questions.end()
    for end in ("", "-wal"):
        if os.path.exists(path + end):
            os.remove(path + end)
    return [f"{statistics.median(one):,.1f} ({min(one):,.1f})" for one in zip(*times)]


def main() -> None:
    """Measures each program, and prints its tables."""
    words = argparse.ArgumentParser(description=__doc__, formatter_class=argparse.RawDescriptionHelpFormatter)
    words.add_argument("programs", nargs="+")
    words.add_argument("--objects", nargs="*", type=int, default=[1_000, 10_000, 100_000])
    words.add_argument("--children", nargs="*", type=int, default=[2_000, 20_000, 200_000])
    given = words.parse_args()
    for program in given.programs:
        print(f"{program}\n| objects | " + " | ".join(name for name, _ in ASKED) + " |\n|---|" + "---|" * len(ASKED))
        for objects in given.objects:
            some = [FIRST + turn * STRIDE % objects for turn in range(CALLS)]
            asked = [[batch(call.format(x=x)) for x in some] for _, call in ASKED]
            with tempfile.TemporaryDirectory() as folder:
                print(f"| {objects:,} | " + " | ".join(measure(program, folder, ["create(#1)"] * objects, asked)) + " |", flush=True)
        print("| children | chparent |\n|---|---|")
        for children in given.children:
            with tempfile.TemporaryDirectory() as folder:
                (taken,) = measure(program, folder, [*FAMILY, *["create(#5)"] * children], [[batch("chparent(#5, #6)")]])
                print(f"| {children:,} | {taken} |", flush=True)


if __name__ == "__main__":
    main()
