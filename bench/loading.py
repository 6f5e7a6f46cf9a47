"""How long a world takes to be loaded from its dump, beside what `moo check` takes of the same file.

    python3 loading.py [OBJECTS [ROUNDS [FOLDER]]]

Makes a file of OBJECTS objects with one slot each (a property of #1), by the machine's own SQLite, and in each round takes in turn:
`moo check FILE`, `moo dump FILE`, and `moo load NEW DUMP`. The program is $MOO, or crates/moo/out/moo. Prints the median of the times, and
the greatest memory of each. At the end the dump of what was loaded has to be the text that was loaded.
"""
from __future__ import annotations

import os
import shutil
import subprocess
import sys
import tempfile

from opening import Run, Rows, make, measured, object_row, told  # which also leads to tests

from tests.support.columns import OPENING_OBJECTS, Row
from tests.support.program import MOO

PROPERTY: list[Row] = [(1, 1, "number")]


def plain(count: int) -> Rows:
    """The rows of a world in which each object has one slot, which is set on every second object."""
    objects = list(OPENING_OBJECTS) + [object_row(number, 1, 2, 0) for number in range(4, count)]
    slots: list[Row] = []
    for number, _, _, parent, *_ in objects:
        if number == 1 or parent == 1:
            slots.append((number, 1, 3, "rc", str(number) if number == 1 or number % 2 else ""))
    return objects, PROPERTY, slots, []


def dumped(file: str, text: str) -> None:
    """Writes the dump of a file into another one."""
    with open(text, "wb") as output:
        subprocess.run([MOO, "dump", file], stdout=output, check=True)


def main() -> None:
    """Measures the rounds, and prints the medians."""
    count = int(sys.argv[1]) if len(sys.argv) > 1 else 1_000_000
    rounds = int(sys.argv[2]) if len(sys.argv) > 2 else 3
    folder = tempfile.mkdtemp(prefix="moo-loading.", dir=sys.argv[3] if len(sys.argv) > 3 else None)
    try:
        file, new, text, again = (os.path.join(folder, name) for name in ("world.db", "new.db", "world.txt", "again.txt"))
        # in a process of its own: what this one holds would count as the memory of those that it starts
        measured([sys.executable, os.path.abspath(__file__), "--make", file, str(count)])
        dumped(file, text)
        checks: list[Run] = []
        loads: list[Run] = []
        for _ in range(rounds):
            checks.append(measured([MOO, "check", file]))
            for end in ("", "-wal"):
                if os.path.exists(new + end):
                    os.remove(new + end)
            loads.append(measured([MOO, "load", new, text]))
        dumped(new, again)
        same = subprocess.run(["cmp", text, again]).returncode == 0
        size = os.path.getsize(text) / 2**20
        print(f"{checks[0].line}; {loads[0].line}; {size:.0f} MB of text", file=sys.stderr)
        print(f"its dump is {'the same' if same else 'ANOTHER'}", file=sys.stderr)
        check = told("moo check", checks)
        load = told("moo load", loads)
        print(f"ratio: {load / check:.2f}")
    finally:
        shutil.rmtree(folder)


if __name__ == "__main__":
    if sys.argv[1:2] == ["--make"]:
        make(sys.argv[2], plain(int(sys.argv[3])))
    else:
        main()
