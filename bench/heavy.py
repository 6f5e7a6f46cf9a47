"""What the heaviest requests of an ordinary programmer take of `moo serve`.

    python3 bench/heavy.py PROGRAM [--search N] [--seed N] [--files FOLDER]

Makes worlds, and sends each request to a new service of a copy of its world: processor seconds of the service, its peak of memory over what
it had at rest, and the answer. With --search N requests more are made at random and from the heaviest so far, and the heaviest are printed.
The worlds and the requests are those that a stranger found to stop a world for seconds or minutes, before requests had ticks; `heavy.py` of
tests/support has them.
"""
from __future__ import annotations

import argparse
import dataclasses
import os
import pathlib
import random
import shutil
import sys
import tempfile

sys.dont_write_bytecode = True
sys.path.insert(0, os.path.dirname(os.path.dirname(os.path.abspath(__file__))))
from tests.support.heavy import (  # noqa: E402
    CALLS, FULL, TOP, WHO, Request, World, added, chain, doors, family, heavy_requests, kilobytes, make_file, processor_seconds, sent,
)
from tests.support.processes import end_all  # noqa: E402
from tests.support.service import Service  # noqa: E402

PATHS = ("/batch?why", "/ask?why", "/each?why")


@dataclasses.dataclass(order=True)
class Cost:
    """What a request took: seconds of processor, MB over what the service had at rest, and the front of the answer."""

    seconds: float
    memory: int
    answer: str


def requests_known() -> list[Request]:
    """The requests that were found, and a batch that fits its ticks."""
    return [*heavy_requests(FULL), Request("as many as fit", family(FULL.few), "/batch?why", added(150))]


class Bench:
    """Worlds in a folder, each made once, and services of copies of them."""

    def __init__(self, program: str, folder: pathlib.Path) -> None:
        self.program, self.folder = program, folder
        self.made: dict[str, pathlib.Path] = {}

    def file_of(self, world: World) -> pathlib.Path:
        """The file of a world, which is made if it isn't there."""
        if world.name not in self.made:
            file = self.folder / f"{len(self.made)}.db"
            make_file(self.program, file, world)
            self.made[world.name] = file
        return self.made[world.name]

    def cost(self, request: Request) -> Cost:
        """What a request takes of a service of its own."""
        file = self.folder / "served.db"
        for end in ("", "-wal"):
            pathlib.Path(f"{file}{end}").unlink(missing_ok=True)
        shutil.copy(self.file_of(request.world), file)
        moo = Service(self.program, str(file), None)
        try:
            before, rest = processor_seconds(moo.process.pid), kilobytes(moo.process.pid, "VmRSS")
            status, said = sent(moo.port, request)
            peak = kilobytes(moo.process.pid, "VmHWM")
            return Cost(processor_seconds(moo.process.pid) - before, max(peak - rest, 0) >> 10, f"{status} {said[:90]}")
        finally:
            moo.kill()


def some_call(chance: random.Random, world: World) -> str:
    """A call on one of the world's objects, as a builder could make it."""
    one, other = (chance.choice((TOP, TOP + 1, world.last, world.last - 1, chance.randint(TOP, world.last))) for _ in range(2))
    name = f"r{chance.randint(0, 9)}"
    return chance.choice((
        f"chparent(#{one}, #{other})", f"chparent(#{one}, #1)", f"chparent(#{one}, #-1)", f"children(#{one})", f"recycle(#{one})",
        f'add_property(#{one}, "{name}", 0, {{{WHO}, "rw"}})', f'delete_property(#{one}, "{name}")', f'get(#{one}, "{name}")',
        f'set(#{one}, "{name}", 1)', f'clear_property(#{one}, "{name}")', f'set_property_info(#{one}, "{name}", {{{WHO}, "r", "s{name}"}})',
        f"create(#{one})", f"move(#{one}, #{other})", f"properties(#{one})", f"verbs(#{one})", f'get(#{one}, "contents")',
        f'add_verb(#{one}, {{{WHO}, "rd", "look"}}, {{"this", "none", "none"}})', f"chparent(#{one}, #{world.last})",
        f"set_accept(#{one}, {{#{other}, #{world.last}}})", f'set(#{one}, "owner", {WHO})', f'verb_info(#{one}, "look")', "players()",
        f'petition({{{{"chparent", #{one}, #{other}}}, {{"recycle", #{one}}}}})', "petitions()",
    ))  # fmt: skip


def bred(chance: random.Random, parents: list[Request], worlds: list[World]) -> Request:
    """A request of random calls, or of those of a heavy one with some changed, doubled or left out."""
    if not parents or chance.random() < 0.3:
        world = chance.choice(worlds)
        calls = [some_call(chance, world) for _ in range(chance.choice((1, 2, 5, 20)))]
    else:
        parent = chance.choice(parents)
        world, calls = parent.world, list(parent.calls[: chance.choice((5, 20, 100, CALLS))])
        for _ in range(chance.randint(1, 4)):
            place = chance.randrange(len(calls))
            calls[place : place + chance.randint(0, 2)] = [some_call(chance, world) for _ in range(chance.randint(1, 2))]
    calls = (calls * (1 + chance.choice((0, 1, 9, 99, CALLS)) ))[:CALLS]
    return Request("bred", world, chance.choice(PATHS), calls)


def search(bench: Bench, count: int, chance: random.Random, worlds: list[World]) -> None:
    """Tries so many requests, and prints the heaviest."""
    best: list[tuple[Cost, Request]] = []
    for _ in range(count):
        request = bred(chance, [parent for _, parent in best], worlds)
        best.append((bench.cost(request), request))
        best.sort(key=lambda pair: pair[0].seconds, reverse=True)
        del best[8:]
    for cost, request in best:
        told(cost, request)
        print(f"    {len(request.calls)} calls: {', '.join(request.calls[:4])} ..")


def told(cost: Cost, request: Request) -> None:
    """A line for a request."""
    print(f"{cost.seconds:6.2f} s {cost.memory:6d} MB  {request.path:11s} {request.name}, {request.world.name}: {cost.answer}", flush=True)


def main() -> None:
    """Measures the known requests, and searches for heavier ones."""
    parser = argparse.ArgumentParser(description=(__doc__ or "").partition("\n")[0])
    parser.add_argument("program", metavar="PROGRAM")
    parser.add_argument("--search", type=int, default=0, metavar="N")
    parser.add_argument("--seed", type=int, default=1)
    parser.add_argument("--files", metavar="FOLDER")
    given = parser.parse_args()
    print(f"load {os.getloadavg()[0]:.1f}", flush=True)
    with tempfile.TemporaryDirectory(dir=given.files) as name:
        bench = Bench(os.path.abspath(given.program), pathlib.Path(name))
        try:
            for request in requests_known():
                told(bench.cost(request), request)
            if given.search:
                worlds = [family(10_000, 100), family(1000, 300), chain(3000, 100), doors(3000, 1000)]
                search(bench, given.search, random.Random(given.seed), worlds)
        finally:
            end_all()


if __name__ == "__main__":
    main()
