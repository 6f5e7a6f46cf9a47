"""Bugs planted and judged in rounds. A round is one check of the crate, with one bug in each of many functions."""
from __future__ import annotations

import re
import sys
import tempfile
import time
from dataclasses import dataclass
from pathlib import Path
from typing import Callable, Iterator, NamedTuple

from checking.compiling import ERROR, refused
from checking.copies import Change, Copy, change_of, linked
from checking.crates import CRATES, Lacking
from planting.bugs import bugs_of, planted
from planting.declared import declared_in
from planting.functions import Function, functions_of
from planting.register import Survivor

STAYS, REFUSED, BY_A_NAME, NO_SOURCE, NOT_JUDGED, WAITS, NEW = "stays", "refused", "by a name", "no source", "not judged", "waits", "new"
# What the checker says of a function that isn't proved since one that it calls isn't: 'no proof: it calls `f`, which is not proved'.
WAITS_FOR = re.compile(r"it calls|it passes|a call of|rests on")
# An error that is only in a proof, of a name that is gone.
GONE = re.compile(r"proofs/.*(has no field|is not in scope|has no `|was not admitted)")
TOLD = re.compile(r": error|^note: ")
# A note of a function whose goals wait for another function, and no fault of its own.
NOT_TRIED = "has not tried the goals of"
# What is done after a check with the bugs that stay proved by it.
Keep = Callable[[list[Survivor]], None]


@dataclass
class Plant:
    """A bug in a function, the lines of the function, from 0, and what came of it."""

    function: Function
    survivor: Survivor
    change: Change
    lines: range
    kind: str = NEW


def reasons(words: str, told: list[str]) -> list[str]:
    """Why a function isn't proved, by its line and the errors and notes above it."""
    _, _, given = words.partition(": ")
    if given:
        return given.split("; ")
    # 'not proved; it calls `f`, which is not proved': its proof may be at fault too.
    what, *waits = words.split("; ")
    return waits if waits and all(NOT_TRIED in line for line in told) else [what]


class Verdict:
    """What a check says of each function: its line, and the errors and notes above it."""

    def __init__(self, said: str) -> None:
        self.of: dict[str, tuple[str, list[str]]] = {}
        told: list[str] = []
        for line in said.splitlines():
            if line.startswith("fn "):
                symbol, _, words = line[len("fn ") :].partition(": ")
                self.of[symbol] = (words, told)
                told = []
            elif TOLD.search(line):
                told.append(line)

    def kind(self, function: Function) -> str:
        """What came of the bug in a function."""
        found = [self.of[symbol] for symbol in self.of if function.fits(symbol)]
        if not found:
            return NOT_JUDGED
        lacking = [(words, told) for words, told in found if not words.startswith("proved")]
        if not lacking:
            return STAYS
        if any("could not tell" in words for words, _ in lacking):
            return NOT_JUDGED
        # One with a goal of its own that isn't proved is refused, whatever it calls.
        if all(WAITS_FOR.search(part) for words, told in lacking for part in reasons(words, told)):
            return WAITS
        told = [line for _, some in lacking for line in some]
        return BY_A_NAME if told and all(GONE.search(line) for line in told) else REFUSED


def plant(function: Function, before: str, after: str) -> Plant:
    """The plant that makes this text of the function's file into that."""
    change = change_of("", {function.file: before}, {function.file: after})
    numbers = sorted(number for _, number in change.lines)
    span = slice(numbers[0], numbers[-1] + 1)
    old, new = (" ".join(" ".join(text.split("\n")[span]).split()) for text in (before, after))
    survivor = Survivor(f"{function.file} {function.path}", old, new or "(nothing)")
    lines = range(before.count("\n", 0, function.signature[0].begin), before.count("\n", 0, function.body[-1].end) + 1)
    return Plant(function, survivor, Change(f"{survivor.place}: {survivor.new}", change.lines), lines)


def plants_of(crate: str, only: str = "") -> Iterator[tuple[Function, list[Plant]]]:
    """Each function of a crate whose file and path have this word, with its plants."""
    texts = {str(path.relative_to(CRATES / crate)): path.read_text() for path in sorted((CRATES / crate / "src").rglob("*.rt"))}
    declared = declared_in(texts.values())
    for file, text in texts.items():
        for function in functions_of(file, text):
            if only in f"{file} {function.path}":
                found = (plant(function, text, planted(text, bug)) for bug in bugs_of(function, text, declared))
                yield function, list({each.survivor: each for each in found}.values())


class Trial:
    """A crate's plants, tried in a room of their own."""

    def __init__(self, crate: str, room: Path, keep: Keep) -> None:
        self.copy, self.room, self.checks, self.keep = Copy(crate, room), room, 0, keep
        self.kept = room / "kept"
        own = CRATES / crate / "out/incremental"
        if own.is_dir():
            linked(own, self.kept)
        else:
            self.kept.mkdir()

    def begin(self) -> None:
        """Checks the crate without a bug, over what was kept of it. `Lacking`: it isn't proved."""
        said = self.copy.check("--incremental", str(self.kept))
        if "\nlogic=proved" not in said:
            raise Lacking(f"{self.copy.crate} isn't proved as it stands: {said.strip()[-300:]}")

    def sort_out(self, plants: list[Plant]) -> bool:
        """Notes those that don't compile; whether all do. An error is in the function with the bug."""
        changes = [each.change for each in plants]
        said = self.copy.compile(changes)
        places = [(file, int(line) - 1) for file, line, _ in ERROR.findall(said)]
        wrong = [each for each in plants if any(file == each.function.file and line in each.lines for file, line in places)]
        if said and not wrong:
            names = refused(self.copy, changes)
            wrong = [each for each in plants if each.change.name in names]
        for each in wrong:
            each.kind = NO_SOURCE
        return not wrong

    def ready(self, plants: list[list[Plant]], per: int, known: set[Survivor]) -> list[Plant]:
        """One plant that compiles of each function that has any left to try."""
        while True:
            some = next_round(plants, per, known)
            if self.sort_out(some):
                return some

    def judge(self, plants: list[Plant]) -> None:
        """One check of these plants, which are in functions of their own."""
        began = time.monotonic()
        self.copy.write([each.change for each in plants])
        self.checks += 1
        with tempfile.TemporaryDirectory(dir=self.room) as folder:
            over = Path(folder) / "kept"
            linked(self.kept, over)
            verdict = Verdict(self.copy.check("--incremental", str(over)))
        for each in plants:
            each.kind = verdict.kind(each.function)
            # Alone it waits for nothing but what is its own, as a closure.
            if each.kind == WAITS and len(plants) == 1:
                each.kind = REFUSED
        self.keep([each.survivor for each in plants if each.kind == STAYS])
        waiting = sum(each.kind == WAITS for each in plants)
        print(f"check {self.checks}: {len(plants)} bugs, {waiting} wait, {time.monotonic() - began:.0f} s", file=sys.stderr, flush=True)

    def judge_all(self, plants: list[Plant], ends: float) -> None:
        """Judges these plants, of which none are in one function. One that waits for another is tried again without that one."""
        while plants and time.monotonic() < ends:
            self.judge(plants)
            waiting = [each for each in plants if each.kind == WAITS]
            if waiting and len(waiting) == len(plants):
                half = (len(plants) + 1) // 2
                self.judge_all(plants[:half], ends)
                waiting = plants[half:]
            plants = waiting


def chosen(plants: list[Plant], per: int, known: set[Survivor]) -> list[Plant]:
    """The next plants of a function to be tried: those of the register, and others up to so many."""
    judged = sum(each.kind not in (NEW, NO_SOURCE) for each in plants)
    fresh = [each for each in plants if each.kind == NEW]
    of_register = [each for each in fresh if each.survivor in known]
    others = [each for each in fresh if each.survivor not in known]
    return [*of_register, *others[: max(per - judged - len(of_register), 0)]]


def next_round(plants: list[list[Plant]], per: int, known: set[Survivor]) -> list[Plant]:
    """One plant of each function that has any left to try."""
    found: list[Plant] = []
    for of_function in plants:
        found += chosen(of_function, per, known)[:1]
    return found


class Tried(NamedTuple):
    """What was tried of a crate, how many checks it took, and whether that is all that was wanted."""

    plants: list[Plant]
    checks: int
    is_whole: bool

    def number(self, *kinds: str) -> int:
        """How many came to one of these."""
        return sum(each.kind in kinds for each in self.plants)

    def functions(self) -> int:
        """How many functions were judged."""
        return len({each.survivor.place for each in self.plants if each.kind in (STAYS, REFUSED, BY_A_NAME)})


def try_plants(crate: str, per: int, only: str, known: set[Survivor], minutes: float, keep: Keep) -> Tried:
    """Tries so many plants of each function of a crate. After each check `keep` is given those that stay proved by it."""
    ends = time.monotonic() + 60 * minutes
    plants = [found for _, found in plants_of(crate, only)]
    with tempfile.TemporaryDirectory(prefix="moo-plants-") as folder:
        trial = Trial(crate, Path(folder), keep)
        trial.begin()
        while time.monotonic() < ends and (some := trial.ready(plants, per, known)):
            trial.judge_all(some, ends)
    found = [each for some in plants for each in some]
    is_whole = not next_round(plants, per, known) and not any(each.kind == WAITS for each in found)
    return Tried([each for each in found if each.kind not in (NEW, WAITS)], trial.checks, is_whole)
