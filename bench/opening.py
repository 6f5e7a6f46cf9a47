"""How long a world takes to be opened and checked, beside what SQLite takes to check and to read the same file.

    python3 opening.py [ROWS [SHAPE [ROUNDS [FOLDER]]]]

Makes a file of ROWS rows that is a sound world, by the machine's own SQLite, and in each round takes in turn: `moo check FILE` (the
program is $MOO, or crates/moo/out/moo), `PRAGMA integrity_check`, and a read of all rows of its tables in the order of their
keys. Each is a process of its own. Prints the median of the times, and the greatest memory of each. The time of `moo` is that of
the whole process; that of SQLite begins after Python has started.

SHAPE is `broad` (200 classes under #1, the objects under these, and 7 slots on each object) or `wide` (one object that defines
half of the rows as properties).
"""
from __future__ import annotations

import collections
import os
import shutil
import sqlite3
import statistics
import subprocess
import sys
import tempfile
import time
from typing import Iterable, NamedTuple

from tables import FIRST_TABLES, PRAGMAS, TABLES  # which also leads to tests

from tests.support.columns import OPENING_OBJECTS, Row, first_objects, thing
from tests.support.program import MOO

# The rows of the tables but the head: objects, properties, slots and verbs.
Rows = tuple[list[Row], list[Row], list[Row], list[Row]]
CLASSES = 200
VERBS_OF_CLASS = 50
ROOT_NAMES = ["description", "aliases", "key", "weight"]
CLASS_NAMES = ["count", "Opened_by", "notes"]
SETTING = ['"A thing of some weight, left here by somebody."', '{"lantern", "lamp"}', "#-1", "12", "0", "#3", "{1, {2, #3}}"]
LARGEST = 2**31 - 1
READS = [
    "SELECT * FROM head ORDER BY id",
    "SELECT * FROM object ORDER BY n",
    "SELECT * FROM prop ORDER BY id",
    "SELECT * FROM slot2 ORDER BY object, prop",
    "SELECT * FROM verb ORDER BY object, id",
]


def object_row(number: int, parent: int, location: int, fertile: int) -> Row:
    """The row of an object that everybody may read."""
    return thing(number, f"Thing {number}", parent=parent, location=location, r=1, f=fertile)


def broad(rows: int) -> Rows:
    """The rows of the four tables but the head: classes under #1, and objects under the classes."""
    each = 1 + len(ROOT_NAMES) + len(CLASS_NAMES)
    shared = 1 + CLASSES * (len(CLASS_NAMES) + VERBS_OF_CLASS) + len(ROOT_NAMES) + 4 + 3 * len(ROOT_NAMES) + len(ROOT_NAMES)
    count = max((rows - shared) // each, CLASSES)
    props: list[Row] = [(1 + at, 1, name) for at, name in enumerate(ROOT_NAMES)]
    first = 4
    for kind in range(CLASSES):
        for name in CLASS_NAMES:
            props.append((len(props) + 1, first + kind, f"{name}_{kind}"))
    objects = list(OPENING_OBJECTS)
    slots: list[Row] = []
    for number, _, _, parent, *_ in OPENING_OBJECTS:
        for at in range(len(ROOT_NAMES)):
            slots.append((number, at + 1, 3, "rc", SETTING[at] if number == 1 else ""))
    verbs: list[Row] = []
    for at in range(count):
        number = first + at
        kind = at % CLASSES
        is_class = at < CLASSES
        objects.append(object_row(number, 1 if is_class else first + kind, -1 if is_class else 2, 1 if is_class else 0))
        for place in range(len(ROOT_NAMES)):
            slots.append((number, place + 1, 3, "rc", SETTING[place] if (number + place) % 3 == 0 else ""))
        for place in range(len(CLASS_NAMES)):
            value = SETTING[len(ROOT_NAMES) + place] if is_class or (number + place) % 2 == 0 else ""
            slots.append((number, len(ROOT_NAMES) + kind * len(CLASS_NAMES) + place + 1, 3, "r", value))
        if is_class:
            for _ in range(VERBS_OF_CLASS):
                verbs.append((number, len(verbs) + 1, "l*ook ex*amine", 3, "rxd", "this", "none", "none"))
    return objects, props, slots, verbs


def wide(rows: int) -> Rows:
    """#4 defines half of the rows as properties."""
    count = (rows - 6) // 2
    objects = list(OPENING_OBJECTS) + [object_row(4, 1, 2, 0)]
    props: list[Row] = [(at + 1, 4, f"Property_{at}") for at in range(count)]
    slots: list[Row] = [(4, at + 1, 3, "r", str(at % LARGEST)) for at in range(count)]
    return objects, props, slots, []


def numbered(slots: list[Row]) -> list[Row]:
    """The rows of slots in version 2, in which r is 4, w 2 and c 1."""
    sums = {bits: sum({"r": 4, "w": 2, "c": 1}[letter] for letter in str(bits)) for bits in {row[3] for row in slots}}
    return [(*row[:3], sums[row[3]], row[4]) for row in slots]


def make(path: str, rows: Rows, version: int = 2) -> None:
    """Writes the file, and prints how many rows it has in each table."""
    objects, props, slots, verbs = rows
    connection = sqlite3.connect(path, isolation_level=None)
    for pragma in PRAGMAS:
        connection.execute(pragma).fetchall()
    connection.execute("BEGIN")
    for table in TABLES if version == 2 else FIRST_TABLES:
        connection.execute(table)
    held = ("slot2", numbered(slots)) if version == 2 else ("slot", slots)
    objects = objects if version == 2 else first_objects(objects)
    petitions: list[tuple[str, list[Row]]] = [("petition_head", [(1, 1)])] if version == 2 else []
    head: Row = (1, version, 0, max(int(row[0]) for row in objects), len(props) + 1, len(verbs) + 1)
    parts: list[tuple[str, list[Row]]] = [("head", [head]), ("object", objects), ("prop", props), held, ("verb", verbs), *petitions]
    for table, part in parts:
        if part:
            marks = ", ".join("?" * len(part[0]))
            connection.executemany(f"INSERT INTO {table} VALUES ({marks})", part)
    connection.execute("COMMIT")
    connection.execute("PRAGMA wal_checkpoint(TRUNCATE)").fetchall()
    connection.close()
    counts = [1, len(objects), len(props), len(slots), len(verbs)]
    print(f"{sum(counts)} rows: head, object, prop, slot, verb {counts}, {os.path.getsize(path) / 2**20:.0f} MB", file=sys.stderr)


def check(path: str) -> None:
    """What C SQLite's own check says of the file."""
    start = time.perf_counter()
    connection = sqlite3.connect(path)
    said = connection.execute("PRAGMA integrity_check").fetchone()[0]
    print(said, time.perf_counter() - start)


def read(path: str) -> None:
    """Goes over all rows."""
    start = time.perf_counter()
    connection = sqlite3.connect(path)
    for query in READS:
        collections.deque(connection.execute(query), maxlen=0)
    print("read", time.perf_counter() - start)


class Run(NamedTuple):
    """The wall time of a process in seconds, its greatest memory in MB, and the last line that it wrote."""

    seconds: float
    memory: float
    line: str


def measured(command: list[str]) -> Run:
    """What a process takes. It has to succeed."""
    start = time.perf_counter()
    process = subprocess.Popen(command, stdout=subprocess.PIPE)
    assert process.stdout
    written = process.stdout.read().decode().splitlines()
    _, status, usage = os.wait4(process.pid, 0)
    taken = time.perf_counter() - start
    if status:
        sys.exit(f"{command[0]} ended with {status}: {written[-1:]}")
    return Run(taken, usage.ru_maxrss / 1024, written[-1] if written else "")


def timed_within(command: list[str]) -> Run:
    """The same of a process that writes its own time after what it says."""
    _, memory, line = measured(command)
    said, taken = line.rsplit(" ", 1)
    return Run(float(taken), memory, said)


def told(name: str, runs: Iterable[Run]) -> float:
    """Prints the median of the times of these runs, the least and the most, and the greatest memory. Answers the median."""
    times, memory = [run.seconds for run in runs], max(run.memory for run in runs)
    median = statistics.median(times)
    print(f"{name}: {median:.2f} s ({min(times):.2f} to {max(times):.2f}), {memory:.0f} MB")
    return median


def main() -> None:
    """Measures the rounds, and prints the medians and their ratio."""
    rows = int(sys.argv[1]) if len(sys.argv) > 1 else 1_000_000
    shape = sys.argv[2] if len(sys.argv) > 2 else "broad"
    rounds = int(sys.argv[3]) if len(sys.argv) > 3 else 3
    folder = tempfile.mkdtemp(prefix="moo-opening.", dir=sys.argv[4] if len(sys.argv) > 4 else None)
    try:
        path = os.path.join(folder, "world")
        this = [sys.executable, os.path.abspath(__file__)]
        # in a process of its own: what this one holds would count as the memory of those that it starts
        measured(this + ["--make", path, str(rows), shape])
        # each may begin with the file in the page cache
        ours: list[Run] = []
        checks: list[Run] = []
        reads: list[Run] = []
        for _ in range(rounds):
            ours.append(measured([MOO, "check", path]))
            checks.append(timed_within(this + ["--integrity", path]))
            reads.append(timed_within(this + ["--read", path]))
        print(f"moo check says: {ours[0].line}; integrity_check says: {checks[0].line}", file=sys.stderr)
        times = []
        for name, runs in [("moo check", ours), ("integrity_check", checks), ("plain read", reads)]:
            times.append(told(name, runs))
        print(f"ratio to both: {times[0] / (times[1] + times[2]):.2f}")
    finally:
        shutil.rmtree(folder)


if __name__ == "__main__":
    if sys.argv[1:2] == ["--make"]:
        make(sys.argv[2], {"broad": broad, "wide": wide}[sys.argv[4]](int(sys.argv[3])))
    elif sys.argv[1:2] == ["--integrity"]:
        check(sys.argv[2])
    elif sys.argv[1:2] == ["--read"]:
        read(sys.argv[2])
    else:
        main()
