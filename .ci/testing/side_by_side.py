"""Modules of tests side by side, each in a process and a folder of its own."""
from __future__ import annotations

import contextlib
import json
import os
import queue
import signal
import subprocess
import sys
import threading
import time
from pathlib import Path
from typing import Iterator, Optional

from testing.cases import Outcome, line_of
from testing.subjects import TOP

# A module that runs for longer has stopped for good: the slowest takes a few minutes, and ten on a busy machine.
MOST_SECONDS = 2 * 3600
# What a process may take to end those that it has started.
PATIENCE = 20
TEXT = {"encoding": "utf-8", "errors": "replace"}


class Run:
    """A module that runs in a process of its own, in a folder that is there for it alone."""

    def __init__(self, name: str, folder: Path) -> None:
        self.name, self.folder, self.began = name, folder, time.monotonic()
        self.said, self.told = folder / "said", folder / "told"
        room = folder / "t"
        room.mkdir(parents=True)
        words = [sys.executable, str(TOP / ".ci/test"), "--tell", str(self.told), name]
        with self.said.open("wb") as said:
            self.process = subprocess.Popen(
                words, stdin=subprocess.DEVNULL, stdout=said, stderr=subprocess.STDOUT, env={**os.environ, "TMPDIR": str(room)},
                start_new_session=True
            )

    def outcome(self) -> Outcome:
        """What came of it, when it has ended. A process that ended before it told is a case that failed."""
        why = ""
        try:
            status = self.process.wait(MOST_SECONDS)
            if self.told.exists():
                return Outcome(*json.loads(self.told.read_text()))
            why = f"its process ended with status {status}" if status >= 0 else f"its process ended by {signal.Signals(-status).name}"
        except subprocess.TimeoutExpired:
            self.end()
            why = f"it ran for over {MOST_SECONDS} seconds"
        return Outcome(0, 1, [f"{self.name}: {why}"], [])

    def end(self) -> None:
        """Ends it, and what it has started."""
        for number in (signal.SIGTERM, signal.SIGKILL):
            with contextlib.suppress(ProcessLookupError, subprocess.TimeoutExpired):
                os.killpg(self.process.pid, number)
                self.process.wait(PATIENCE)


class Runs:
    """Runs of modules, so many side by side, and then those that run alone one after another."""

    def __init__(self, room: Path, workers: int) -> None:
        self.room, self.workers = room, workers
        self.running: list[Run] = []
        self.ended: queue.Queue[tuple[Run, Outcome]] = queue.Queue()

    def begin(self, name: str) -> None:
        """Starts a module, and a thread that waits for its end."""
        run = Run(name, self.room / str(len(list(self.room.iterdir()))))
        self.running.append(run)
        threading.Thread(target=lambda: self.ended.put((run, run.outcome())), daemon=True).start()

    def some(self, names: list[str], workers: int) -> Iterator[tuple[Run, Outcome]]:
        """Runs of these modules, each when it has ended."""
        left = list(reversed(names))
        while left or self.running:
            while left and len(self.running) < workers:
                self.begin(left.pop())
            run, outcome = self.ended.get()
            self.running.remove(run)
            yield run, outcome

    def all(self, beside: list[str], alone: list[str]) -> Iterator[tuple[Run, Outcome]]:
        """Runs of all modules. If it is broken off, nothing that it has started goes on."""
        try:
            yield from self.some(beside, self.workers)
            yield from self.some(alone, 1)
        finally:
            for run in self.running:
                run.end()


def show(run: Run, outcome: Outcome, number: int, count: int) -> None:
    """Prints what a module said if a case of it failed, and a line about it."""
    if outcome.failed:
        print(run.said.read_text(**TEXT), end="")
    if outcome.failures and not run.told.exists():
        print(f"FAILED {outcome.failures[0]}")
    print(f"[{number}/{count}] {line_of(run.name, outcome, run.began)}", flush=True)


def run_all(beside: list[str], alone: list[str], room: Path, workers: Optional[int]) -> Iterator[Outcome]:
    """What came of each module, with its lines. `workers` of them run side by side: as many as there are processors, if it is None."""
    count = len(beside) + len(alone)
    runs = Runs(room, workers or len(os.sched_getaffinity(0)))
    for number, (run, outcome) in enumerate(runs.all(beside, alone), 1):
        show(run, outcome, number, count)
        yield outcome
