"""Batches a second that the program runs on a new world in a file, or in memory.

    python3 moo_rate.py PROGRAM COUNT FOLDER [memory]

The time of `apply` on a text whose first batch makes #4 and whose COUNT others each give it another name, less that of a text of the
first batch alone. Each runs on a new world, in a file of FOLDER that `init` made before the clock started, or in memory.
"""
from __future__ import annotations

import os
import subprocess
import sys
import tempfile
import time

FIRST = "batch as #3\ncreate(#1)\nend\n"


def renamings(count: int) -> str:
    """The text of so many batches that each rename #4."""
    return "".join(f'batch as #3\nset(#4, "name", "Lantern {number}")\nend\n' for number in range(count))


def replies(count: int) -> str:
    """What the first batch and so many others are answered."""
    return "accepted 1\n#4\nend\n" + "".join(f"accepted {number + 2}\n0\nend\n" for number in range(count))


def seconds(program: str, text: str, answers: str, folder: str, in_memory: bool) -> float:
    """Runs the text on a new world, compares what is answered, and returns how long it took."""
    with tempfile.TemporaryDirectory(dir=folder) as room:
        world = ":memory:" if in_memory else "world.db"
        if not in_memory:
            subprocess.run([program, "init", world], stdout=subprocess.DEVNULL, cwd=room, check=True)
        start = time.perf_counter()
        ran = subprocess.run([program, "apply", world, "-"], input=text.encode(), stdout=subprocess.PIPE, cwd=room, check=True)
        taken = time.perf_counter() - start
    if ran.stdout.decode() != answers:
        sys.exit("the program answered something else")
    return taken


def main() -> None:
    """Measures the batches, and prints their rate on standard error."""
    program, count, folder = os.path.abspath(sys.argv[1]), int(sys.argv[2]), sys.argv[3]
    in_memory = sys.argv[4:] == ["memory"]
    alone = seconds(program, FIRST, replies(0), folder, in_memory)
    whole = seconds(program, FIRST + renamings(count), replies(count), folder, in_memory)
    taken = max(round((whole - alone) * 1_000_000), 1)
    print(f"{count} batches in {taken} us, {count * 1_000_000 // taken} a second", file=sys.stderr)


if __name__ == "__main__":
    main()
