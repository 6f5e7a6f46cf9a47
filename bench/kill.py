"""Kills the program while it runs batches on a file, and compares what the file then holds with what was acknowledged.

    python3 bench/kill.py PROGRAM ROUNDS [SEED]

Each round makes a world in a new file, feeds `apply FILE -` with batches that don't end, kills it with signal 9 at a random moment (of
its start, or after its first reply) and opens the file by `check` and `dump`. The number has to be that of the last `accepted S` that
was printed, or one more, and the dump has to be the world of that number. It ends with status 1 at the first round that shows anything
else.
"""
from __future__ import annotations

import os
import random
import re
import signal
import subprocess
import sys
import tempfile
import threading
import time
from typing import IO

FIRST = b"batch as #3\ncreate(#1)\nend\n"


def renaming(number: int) -> bytes:
    """The batch that comes after so many others: it renames #4."""
    return f'batch as #3 at {number}\nset(#4, "name", "Lantern {number}")\nend\n'.encode()


def feed(pipe: IO[bytes]) -> None:
    """Writes batches until nobody reads them."""
    try:
        pipe.write(FIRST)
        number = 1
        while True:
            pipe.write(renaming(number))
            number += 1
    except (BrokenPipeError, ValueError, OSError):
        pass


def killed(program: str, room: str, moment: float, replied: bool) -> bytes:
    """Runs batches, kills the program after so many seconds, of its first reply if `replied`, and returns what it printed."""
    run = subprocess.Popen([program, "apply", "world.db", "-"], cwd=room, stdin=subprocess.PIPE, stdout=subprocess.PIPE)
    assert run.stdin and run.stdout
    threading.Thread(target=feed, args=(run.stdin,), daemon=True).start()
    output = run.stdout.fileno()
    printed = bytearray()
    first = threading.Event()

    def take() -> None:
        """Reads what the program prints until it is gone."""
        while piece := os.read(output, 65536):
            printed.extend(piece)
            first.set()

    taking = threading.Thread(target=take, daemon=True)
    taking.start()
    if replied:
        first.wait(60)
    time.sleep(moment)
    run.send_signal(signal.SIGKILL)
    run.wait()
    taking.join()
    return bytes(printed)


def acknowledged(printed: bytes) -> int:
    """The number of the last batch whose reply was printed whole."""
    whole = re.findall(rb"^accepted (\d+)\n.*\nend\n", printed, re.M)
    return int(whole[-1]) if whole else 0


def said(program: str, room: str, word: str) -> tuple[int, str]:
    """The status of a command on the world, and what it prints."""
    run = subprocess.run([program, word, "world.db"], cwd=room, stdout=subprocess.PIPE)
    return run.returncode, run.stdout.decode()


def fits(number: int, dump: str) -> bool:
    """Whether a dump is that of the world after so many of the batches."""
    if f"seq {number}\n" not in dump[:40]:
        return False
    lines = [line for line in dump.splitlines() if line.startswith("object {#4,")]
    if number == 0:
        return not lines
    name = "" if number == 1 else f"Lantern {number - 1}"
    return len(lines) == 1 and lines[0].startswith(f'object {{#4, "{name}",')


def one_round(program: str, moment: float, replied: bool) -> tuple[int, str]:
    """The number of the last acknowledged batch, and what is wrong: nothing, or `more` if one more is there."""
    with tempfile.TemporaryDirectory(prefix="moo-kill-") as room:
        if subprocess.run([program, "init", "world.db"], cwd=room, stdout=subprocess.DEVNULL).returncode:
            sys.exit("init failed")
        last = acknowledged(killed(program, room, moment, replied))
        status, line = said(program, room, "check")
        found = re.fullmatch(r"ok seq (\d+) objects (\d+)\n", line)
        if status or not found:
            return last, f"check: status {status}, {line!r}"
        number = int(found[1])
        if number not in (last, last + 1) or int(found[2]) != (4 if number == 0 else 5):
            return last, f"acknowledged {last}, found {line!r}"
        status, dump = said(program, room, "dump")
        if status or not fits(number, dump):
            return last, f"dump: status {status}, and not the world of {number}"
        return last, "" if number == last else "more"


def main() -> None:
    """Runs the rounds, and prints the seed and what they showed."""
    program, rounds = os.path.abspath(sys.argv[1]), int(sys.argv[2])
    seed = int(sys.argv[3]) if len(sys.argv) > 3 else random.randrange(1_000_000)
    print(f"seed {seed}")
    random.seed(seed)
    more = batches = 0
    for number in range(rounds):
        last, wrong = one_round(program, random.uniform(0, 0.5), random.random() < 0.75)
        if wrong not in ("", "more"):
            sys.exit(f"round {number + 1}: {wrong}")
        more += wrong == "more"
        batches += last
    print(f"{rounds} kills after {batches} acknowledged batches: none lost, one more there {more} times")


if __name__ == "__main__":
    main()
