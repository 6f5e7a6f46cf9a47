"""How long a file of version 1 takes to be opened, which migrates it to version 2, beside opening the file that this leaves.

    python3 migrating.py [ROWS [ROUNDS [FOLDER]]]

Makes a file of ROWS rows of version 1 by the machine's own SQLite (the broad world of opening.py), and in each round copies it, and runs
`moo check` on the copy twice: the first takes it over. Prints the median of the times of each, the greatest memory, and the size of the
file before and after.
"""
from __future__ import annotations

import os
import shutil
import sys
import tempfile

from opening import Run, broad, make, measured, told  # which also leads to tests

from tests.support.program import MOO


def main() -> None:
    """Measures the rounds, and prints the medians."""
    rows = int(sys.argv[1]) if len(sys.argv) > 1 else 1_000_000
    rounds = int(sys.argv[2]) if len(sys.argv) > 2 else 3
    folder = tempfile.mkdtemp(prefix="moo-migrating.", dir=sys.argv[3] if len(sys.argv) > 3 else None)
    try:
        first, copy = os.path.join(folder, "first"), os.path.join(folder, "copy")
        # in a process of its own: what this one holds would count as the memory of those that it starts
        measured([sys.executable, os.path.abspath(__file__), "--make", first, str(rows)])
        over: list[Run] = []
        again: list[Run] = []
        for _ in range(rounds):
            shutil.copyfile(first, copy)
            over.append(measured([MOO, "check", copy]))
            again.append(measured([MOO, "check", copy]))
        if over[0].line != again[0].line:
            sys.exit(f"{over[0].line} and then {again[0].line}")
        print(f"moo check says: {over[0].line}", file=sys.stderr)
        told("taken over", over)
        told("opened again", again)
        print(f"the file: {os.path.getsize(first) / 2**20:.0f} MB, then {os.path.getsize(copy) / 2**20:.0f} MB")
    finally:
        shutil.rmtree(folder)


if __name__ == "__main__":
    if sys.argv[1:2] == ["--make"]:
        make(sys.argv[2], broad(int(sys.argv[3])), 1)
    else:
        main()
