"""How much address space a world takes, which `LimitAS=` of the unit bounds: while it is checked, at rest, and for great answers.

    python3 bench/space.py [OBJECTS ..]

Makes for each number a file of so many objects with one slot each, all children of #1, and a property of #2 of 256 KB. Then `moo check`
reads it, and a service gets one batch after another by `/ask`: one `children(#1)`, 10 and 1,000 of it, and 1,000 times the long property.
Each is asked of a new run, whose address space is bounded to 4 GB, as the unit has it. The program is $MOO, or crates/moo/out/moo. A line
for each world has the most address space of each, in MB, and what came: the size of the answer, or the status of a refusal, or that the
connection was closed without an answer. The load of the machine is printed before each line.
"""

from __future__ import annotations

import http.client
import json
import os
import pathlib
import resource
import subprocess
import sys
import tempfile
import time

from loading import plain
from opening import make  # which also leads to tests

from tests.support.program import MOO
from tests.support.service import free_port

MOST = 4 << 30
ASKED = (
    ("children", 1, "children(#1)"), ("10 children", 10, "children(#1)"), ("1,000 children", 1000, "children(#1)"),
    ("1,000 long", 1000, 'get(#2, "long")'),
)


def bound() -> None:
    """Bounds the address space of a process."""
    resource.setrlimit(resource.RLIMIT_AS, (MOST, MOST))


def most_of(number: int) -> int:
    """The most address space that a process has had, in MB."""
    text = pathlib.Path(f"/proc/{number}/status").read_text()
    return int(next(line for line in text.splitlines() if line.startswith("VmPeak")).split()[1]) >> 10


def checked(file: str) -> int:
    """That of `moo check`."""
    process = subprocess.Popen([MOO, "check", file], stdout=subprocess.DEVNULL, preexec_fn=bound)
    most = 0
    while process.poll() is None:
        try:
            most = max(most, most_of(process.pid))
        except (StopIteration, OSError):
            break
        time.sleep(0.005)
    process.wait()
    return most


def answered(port: int, calls: list[str]) -> str:
    """What comes of these calls: the size of the answer, or why there is none."""
    peer = http.client.HTTPConnection("127.0.0.1", port, timeout=3600)
    try:
        peer.request("POST", "/ask", json.dumps({"as": "#3", "calls": calls}))
        came = peer.getresponse()
        size = 0
        while piece := came.read(1 << 20):
            size += len(piece)
    except (http.client.HTTPException, ConnectionError):
        return "closed"
    return f"{size >> 10:,} KB" if came.status == 200 else f"status {came.status}"


def served(file: str, calls: list[str]) -> tuple[int, str]:
    """That of a service that was asked this, and what came."""
    port = free_port()
    words = [MOO, "serve", file, str(port)]
    process = subprocess.Popen(words, stdout=subprocess.PIPE, stderr=subprocess.DEVNULL, text=True, preexec_fn=bound)
    try:
        assert process.stdout
        process.stdout.readline()
        told = answered(port, calls) if calls else ""
        return most_of(process.pid), told
    finally:
        process.kill()
        process.wait()


def main() -> None:
    """Measures each world, and prints its line."""
    print("| objects | check | rest | " + " | ".join(name for name, _, _ in ASKED) + " |")
    for count in [int(word) for word in sys.argv[1:]] or [1_000, 100_000, 1_000_000]:
        with tempfile.TemporaryDirectory(prefix="moo-space.") as folder:
            file = os.path.join(folder, "world.db")
            make(file, plain(count))
            long = "{" + ", ".join([f'"{"x" * 65_000}"'] * 4) + "}"
            text = f'batch as #3\nadd_property(#2, "long", {long}, {{#3, "r"}})\nend\n'
            subprocess.run([MOO, "apply", file, "-"], input=text, text=True, check=True, stdout=subprocess.DEVNULL)
            cells = [str(checked(file)), str(served(file, [])[0])]
            for _, times, call in ASKED:
                most, told = served(file, [call] * times)
                cells.append(f"{most} ({told})")
            print(f"load {os.getloadavg()[0]:.1f}", file=sys.stderr)
            print(f"| {count:,} | " + " | ".join(cells) + " |", flush=True)


if __name__ == "__main__":
    main()
