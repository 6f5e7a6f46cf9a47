"""Lets each system call on the two files of a world fail, and kills the program at each, and compares what the files then hold.

    python3 bench/syscalls.py PROGRAM [FOLDER]

It wants strace. Four batches are run by `apply FILE -` on a world that `init` made. A first run, without faults, tells the system calls
that name FILE or FILE-wal, or an open file of these. Then, for each of them in turn, on a copy of that world:

- the call fails with EIO, and no other;
- it fails with ENOSPC, and so does each later call of its name, as on a disk that stays full;
- the program is killed with signal 9 as it makes the call.

After each run the program, now without faults, has to open the world: `check` has to say the number of the last batch that was
acknowledged, or one more, and `dump` has to be the dump of the world of that number. The program itself has to end by a status of its
own, and 0 only if it acknowledged all four. It prints how many runs there were, by the name of the call, and ends with status 1
if one showed anything else.
"""
from __future__ import annotations

import collections
import os
import re
import shutil
import subprocess
import sys
import tempfile
from typing import Sequence

BATCHES = [
    'create(#1)\nadd_property(#4, "light", 7, {#3, "rc"})\nset(#4, "name", "Lantern")',
    "create(#4)\ncreate(#4)\nmove(#5, #2)\nset_accept(#6, {#1})",
    'set(#5, "light", "' + "x" * 9000 + '")\nadd_verb(#4, {#3, "rx", "look"}, {"this", "none", "none"})',
    'recycle(#6)\ndelete_property(#4, "light")\nset(#5, "name", "Lamp")',
]
WORLD = "world.db"
STATUSES = (0, 1, 4)


def text(count: int) -> bytes:
    """The text of the first so many batches."""
    return "".join(f"batch as #3\n{calls}\nend\n" for calls in BATCHES[:count]).encode()


class Trial:
    """A folder with the world that each run begins with, and the dumps of the worlds that may come of it."""

    def __init__(self, program: str, folder: str) -> None:
        self.program, self.folder = program, folder
        self.begin = os.path.join(folder, "begin")
        os.mkdir(self.begin)
        self.run(["init", WORLD], self.begin)
        self.dumps = [self.dump_after(count) for count in range(len(BATCHES) + 1)]
        if len(set(self.dumps)) != len(self.dumps):
            sys.exit("two of the worlds have the same dump")

    def run(self, words: list[str], room: str, given: bytes = b"", before: Sequence[str] = ()) -> subprocess.CompletedProcess[bytes]:
        """Runs the program in a folder, under a command if one is given before it."""
        command = [*before, self.program, *words]
        return subprocess.run(command, cwd=room, input=given, stdout=subprocess.PIPE, stderr=subprocess.DEVNULL)

    def fresh(self) -> str:
        """A folder with a copy of the world that each run begins with."""
        room = os.path.join(self.folder, "room")
        shutil.rmtree(room, ignore_errors=True)
        shutil.copytree(self.begin, room)
        return room

    def dump_after(self, count: int) -> bytes:
        """The dump of the world after the first so many batches, without faults."""
        room = self.fresh()
        ran = self.run(["apply", WORLD, "-"], room, text(count))
        if ran.returncode or acknowledged(ran.stdout) != count:
            sys.exit(f"without faults {count} batches end with status {ran.returncode}: {ran.stdout!r}")
        return self.run(["dump", WORLD], room).stdout

    def calls(self) -> list[tuple[str, int]]:
        """The system calls on the two files, without faults: the name of each, and which of its name it is."""
        room, trace = self.fresh(), os.path.join(self.folder, "trace")
        self.run(["apply", WORLD, "-"], room, text(len(BATCHES)), ["strace", "-y", "-o", trace])
        counts: collections.Counter[str] = collections.Counter()
        found: list[tuple[str, int]] = []
        with open(trace, encoding="utf-8", errors="replace") as lines:
            for line in lines:
                called = re.match(r"(\w+)\((.*)", line)
                if called:
                    counts[called[1]] += 1
                    if called[1] != "execve" and re.search(r'world\.db(-\w+)?[">]', called[2]):
                        found.append((called[1], counts[called[1]]))
        return found

    def faulty(self, name: str, fault: str) -> tuple[str, bool]:
        """What came of a run with a fault: what is wrong, or nothing; and whether one batch more is there than was acknowledged."""
        room = self.fresh()
        inject = ["strace", "-qq", "-o", "/dev/null", "-e", f"trace={name}", "-e", f"inject={name}:{fault}"]
        ran = self.run(["apply", WORLD, "-"], room, text(len(BATCHES)), inject)
        last = acknowledged(ran.stdout)
        is_killed = ran.returncode in (-9, 137)
        if is_killed != fault.startswith("signal") or not (is_killed or ran.returncode in STATUSES):
            return f"status {ran.returncode}: {ran.stdout!r}", False
        if ran.returncode == 0 and last != len(BATCHES):
            return f"status 0, and {last} acknowledged: {ran.stdout!r}", False
        checked = self.run(["check", WORLD], room)
        found = re.fullmatch(rb"ok seq (\d+) objects \d+\n", checked.stdout)
        if checked.returncode or not found:
            return f"acknowledged {last}; check: status {checked.returncode}, {checked.stdout!r}", False
        number = int(found[1])
        if number not in (last, last + 1) or number >= len(self.dumps):
            return f"acknowledged {last}; found {number}", False
        dumped = self.run(["dump", WORLD], room)
        if dumped.returncode or dumped.stdout != self.dumps[number]:
            return f"the dump isn't that of the world of {number}", False
        return "", number > last


def acknowledged(printed: bytes) -> int:
    """How many batches were answered `accepted`, in replies that are whole."""
    whole = re.findall(rb"^accepted (\d+)\n(?:.+\n)*?end\n", printed, re.M)
    return int(whole[-1]) if whole else 0


def main() -> None:
    """Lets each call fail in each way, and prints how many runs there were."""
    program = os.path.abspath(sys.argv[1])
    with tempfile.TemporaryDirectory(prefix="moo-calls-", dir=sys.argv[2] if len(sys.argv) > 2 else None) as folder:
        trial = Trial(program, folder)
        calls = trial.calls()
        counts = collections.Counter(name for name, _ in calls)
        print(f"{len(calls)} calls: " + ", ".join(f"{count} {name}" for name, count in sorted(counts.items())), flush=True)
        if not calls:
            sys.exit("strace saw no call on the files")
        runs = more = wrong = 0
        for name, number in calls:
            for fault in (f"error=EIO:when={number}", f"error=ENOSPC:when={number}+", f"signal=KILL:when={number}"):
                said, is_more = trial.faulty(name, fault)
                runs += 1
                more += is_more
                if said:
                    wrong += 1
                    print(f"{name} {fault}: {said}", flush=True)
    print(f"{runs} runs: {wrong} wrong; one more batch than was acknowledged in {more}")
    sys.exit(1 if wrong else 0)


if __name__ == "__main__":
    main()
