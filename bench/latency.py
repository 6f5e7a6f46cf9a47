"""Requests a second, and how long they wait, of programs side by side on loopback.

    python3 bench/latency.py PROGRAM.. [--rounds N] [--seconds S] [--threads T] [--ahead]

In each round every PROGRAM serves a new world in memory to `wrk` (which has to be installed): GET /seq and POST /batch of one `set` of a
name, by one client and by 16 at once, for S seconds each (1 if it isn't said). Each round begins with another program, so that each is
before and after the others alike. `wrk` and the service are started with `nice -n -10`, or with --ahead with `chrt -f 5`, so that they
don't wait for other work at all; both take a privileged user. Each request is a connection of its own, and its wait is that from its
first byte sent to its last byte heard.

After a run `wrk` adds waits that nobody had: a request that waited for five times the usual gap between two of its client counts as three
or four more, each a gap shorter, as if others had been sent meanwhile. So a pause of the machine of a hundredth of the run is its slowest
of 100, however few requests met it. Here these are taken away again, and the figures are of requests that were sent.

Prints the medians of N rounds (9), with the least and the greatest: requests a second, and waits in milliseconds: the middle one, those of
the slowest of 100 and of 1,000, and the slowest of 100 as `wrk` tells it. The second and later programs also have their change from the
first, in percent: the median of the changes within a round. What a machine does for others changes from round to round, and the medians
of two programs may be of different rounds. Give a copy of the first program as the last one: its change is what the machine makes of none.
"""
from __future__ import annotations

import argparse
import os
import statistics
import subprocess
import sys
import tempfile
from typing import NamedTuple

sys.dont_write_bytecode = True
sys.path.insert(0, os.path.dirname(os.path.dirname(os.path.abspath(__file__))))
from tests.support.service import free_port, line_of  # noqa: E402

MAKE = '{"as":"#3","calls":["create(#1)"]}'
RENAME = '{"as":"#3","calls":["set(#4, \\"name\\", \\"Lantern\\")"]}'
NICE = ["nice", "-n", "-10"]
AHEAD = ["chrt", "-f", "5"]

# What `wrk` runs: the request if it is a POST, and at the end lines of figures. Times are in microseconds.
POSTED = f"wrk.method = 'POST'\nwrk.body = [[{RENAME}]]\n"
FIGURES = """
done = function(summary, latency, requests)
  local errors = summary.errors
  local failed = errors.connect + errors.read + errors.write + errors.status + errors.timeout
  io.write(string.format("run %d %d %d\\n", summary.requests, summary.duration, failed))
  for place = 1, #latency do
    local wait, count = latency(place)
    io.write(string.format("wait %d %d\\n", wait, count))
  end
end
"""

# How many requests waited so many microseconds.
Waits = dict[int, int]


class Case(NamedTuple):
    """A request, and how many clients send it at once."""

    path: str
    clients: int

    def __str__(self) -> str:
        method = "POST" if self.is_post() else "GET"
        return f"{method} {self.path}, {self.clients} client{'s' if self.clients > 1 else ''}"

    def is_post(self) -> bool:
        """Whether it is a POST of the batch."""
        return self.path == "/batch"


class Means(NamedTuple):
    """How a case is measured."""

    seconds: int
    threads: int
    start: list[str]
    scripts: dict[bool, str]


NAMES = ("requests a second", "middle wait", "slowest of 100", "slowest of 1,000", "slowest of 100 by wrk")
CASES = [Case(path, clients) for path in ("/seq", "/batch") for clients in (1, 16)]


def truly(waits: Waits, gap: int) -> Waits:
    """The waits without those that `wrk` added: for each wait of two gaps or more, one less for each gap, down to a gap."""
    left = dict(waits)
    for wait in sorted(waits, reverse=True):
        count = left[wait]
        if wait < 2 * gap or not count:
            continue
        for shorter in range(wait - gap, gap, -gap):
            left[shorter] -= count
    return left


def wait_of(waits: Waits, share: float) -> float:
    """The wait in milliseconds that this share of the requests doesn't exceed."""
    left = share * sum(waits.values())
    for wait in sorted(waits):
        left -= waits[wait]
        if left <= 0:
            return wait / 1000
    return max(waits) / 1000


def figures(told: str, clients: int) -> tuple[float, ...]:
    """The figures of NAMES, of what `wrk` printed."""
    lines = [line.split() for line in told.splitlines()]
    count, taken, failed = next([int(word) for word in line[1:]] for line in lines if line[:1] == ["run"])
    waits = {int(line[1]): int(line[2]) for line in lines if line[:1] == ["wait"]}
    true = truly(waits, taken // (count // clients))
    if failed or sum(true.values()) != count or min(true.values()) < 0:
        sys.exit(f"{failed} of {count} requests failed, {sum(true.values())} waits are told")
    return count / taken * 1e6, wait_of(true, 0.5), wait_of(true, 0.99), wait_of(true, 0.999), wait_of(waits, 0.99)


def load(url: str, case: Case, means: Means) -> tuple[float, ...]:
    """Lets the clients of a case send requests, and tells the figures."""
    threads = min(means.threads, case.clients)
    words = ["wrk", f"-t{threads}", f"-c{case.clients}", f"-d{means.seconds}s", "-s", means.scripts[case.is_post()], url + case.path]
    ran = subprocess.run([*means.start, *words], stdout=subprocess.PIPE, text=True, check=True)
    return figures(ran.stdout, case.clients)


def measure(program: str, case: Case, means: Means) -> tuple[float, ...]:
    """The figures of a case on a new world of this program."""
    port = free_port()
    service = subprocess.Popen([*means.start, program, "serve", ":memory:", str(port)], stdout=subprocess.PIPE)
    try:
        assert service.stdout
        if line_of(service.stdout) != f"listening 127.0.0.1:{port}\n":
            sys.exit(f"{program} doesn't listen")
        url = f"http://127.0.0.1:{port}"
        subprocess.run(["curl", "-sf", "-o", "/dev/null", "-d", MAKE, url + "/batch"], check=True)
        return load(url, case, means)
    finally:
        service.kill()
        service.wait()


def write_scripts(folder: str) -> dict[bool, str]:
    """The paths of what `wrk` runs, by whether the request is a POST."""
    paths = {}
    for is_post in (False, True):
        paths[is_post] = os.path.join(folder, f"post_{is_post}.lua")
        with open(paths[is_post], "w", encoding="utf-8") as script:
            script.write((POSTED if is_post else "") + FIGURES)
    return paths


def measured(programs: list[str], rounds: int, means: Means) -> dict[tuple[str, Case], list[tuple[float, ...]]]:
    """The figures of each program and case, one for each round."""
    came: dict[tuple[str, Case], list[tuple[float, ...]]] = {(program, case): [] for program in programs for case in CASES}
    for count in range(rounds):
        for case in CASES:
            first = count % len(programs)
            for program in programs[first:] + programs[:first]:
                came[program, case].append(measure(program, case, means))
    return came


def change_from(values: list[float], first: list[float]) -> float:
    """By how many percent the values of a program differ from those of the first: the median over the rounds."""
    return 100 * (statistics.median(value / base for value, base in zip(values, first)) - 1)


def shown(values: list[float], first: list[float]) -> str:
    """The median with the least and the greatest, and the change from the first program."""
    middle = statistics.median(values)
    change = "" if values is first else f", {change_from(values, first):+.0f}%"
    digits = 0 if middle > 1000 else 3
    return f"{middle:,.{digits}f} ({min(values):,.{digits}f} to {max(values):,.{digits}f}){change}"


def main() -> None:
    """Measures the rounds, and prints the medians."""
    parser = argparse.ArgumentParser()
    parser.add_argument("programs", nargs="+")
    parser.add_argument("--rounds", type=int, default=9)
    parser.add_argument("--seconds", type=int, default=1)
    parser.add_argument("--threads", type=int, default=2)
    parser.add_argument("--ahead", action="store_true")
    words = parser.parse_args()
    programs = [os.path.abspath(program) for program in words.programs]
    before = os.getloadavg()[0]
    with tempfile.TemporaryDirectory() as folder:
        means = Means(words.seconds, words.threads, AHEAD if words.ahead else NICE, write_scripts(folder))
        came = measured(programs, words.rounds, means)
    print(f"{words.rounds} rounds of {words.seconds} s, {words.threads} threads; load {before:.1f} to {os.getloadavg()[0]:.1f}")
    for case in CASES:
        print(case)
        for place, name in enumerate(NAMES):
            columns = [[figure[place] for figure in came[program, case]] for program in programs]
            print(f"  {name}: " + "; ".join(shown(column, columns[0]) for column in columns))


if __name__ == "__main__":
    main()
