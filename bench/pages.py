"""What the pages of moo-web take on a large world.

    python3 bench/pages.py PROGRAM [OBJECTS]

Makes a world of so many objects (100,000), serves it by PROGRAM and by the front, and prints: the seconds from a start of the front to its
first page; for each page the median of 20 on the clock, and the mean of the processor time of the front and of moo together; the same for
the world's page after each of 20 batches; and the front's memory. The load of the machine is that of the last minute.
"""
from __future__ import annotations

import os
import pathlib
import sys
import tempfile

sys.dont_write_bytecode = True
sys.path.insert(0, os.path.dirname(os.path.dirname(os.path.abspath(__file__))))
os.environ["MOO"] = os.path.abspath(sys.argv[1])
from tests.support.large import Measured, make_large  # noqa: E402
from tests.support.operating import KeptService  # noqa: E402
from tests.support.processes import end_all  # noqa: E402
from tests.support.web import add_person  # noqa: E402


def measured(folder: pathlib.Path, count: int) -> tuple[Measured, tuple[float, float]]:
    """What is measured on a world of so many objects, and after batches."""
    make_large(folder / "world.db", count)
    moo = KeptService(folder / "world.db")
    try:
        token = add_person(folder / "front", "wizard", 3)
        found = Measured(folder / "front", moo, count)
        return found, found.after_write(token)
    finally:
        moo.stop()
        end_all()


def main() -> None:
    """Measures the pages, and prints a line for each."""
    count = int(sys.argv[2]) if len(sys.argv) > 2 else 100_000
    with tempfile.TemporaryDirectory() as name:
        print(f"{count:,} objects, load {os.getloadavg()[0]:.0f} on {os.cpu_count()} processors; in milliseconds")
        large, after = measured(pathlib.Path(name), count)
        print(f"{'':32}{'median':>8}{'processor':>11}")
        print(f"{'start to first page':32}{1000 * large.start:8.0f}{1000 * large.start_cpu:11.0f}")
        for page, (seconds, cpu) in (*large.pages.items(), ("world, after a batch", after)):
            print(f"{page:32}{1000 * seconds:8.0f}{1000 * cpu:11.0f}")
        print(f"memory of the front: {large.memory:.0f} MB, load {large.load:.0f}")


if __name__ == "__main__":
    main()
