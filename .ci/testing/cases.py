"""The cases of one module of tests, or of one lint, run in this process."""
from __future__ import annotations

import re
import runpy
import sys
import time
import traceback
import unittest
from pathlib import Path
from typing import Any, Iterator, NamedTuple

from testing.subjects import LINTS, TESTS


class Outcome(NamedTuple):
    """What came of a module: its counts of cases, a line for each case that failed, and the name and the reason of each test left out."""

    passed: int
    failed: int
    failures: list[str]
    left_out: list[tuple[str, str]]


class Counts(unittest.TestResult):
    """Counts each subtest as a case, and each test without subtests."""

    def __init__(self) -> None:
        super().__init__()
        self.passed = self.parts = 0
        self.told: list[str] = []
        self.left_out: list[tuple[str, str]] = []

    def startTest(self, test: unittest.TestCase) -> None:
        super().startTest(test)
        self.parts = 0

    def addSubTest(self, test: unittest.TestCase, subtest: unittest.TestCase, error: Any) -> None:
        super().addSubTest(test, subtest, error)
        self.parts += 1
        if error:
            self.tell(subtest, error)
        else:
            self.passed += 1

    def addSuccess(self, test: unittest.TestCase) -> None:
        super().addSuccess(test)
        self.passed += self.parts == 0

    def addFailure(self, test: unittest.TestCase, error: Any) -> None:
        super().addFailure(test, error)
        self.tell(test, error)

    def addError(self, test: unittest.TestCase, error: Any) -> None:
        super().addError(test, error)
        self.tell(test, error)

    def addSkip(self, test: unittest.TestCase, reason: str) -> None:
        super().addSkip(test, reason)
        self.left_out.append((name_of(test), reason))
        print(f"left out: {name_of(test)}: {reason}", flush=True)

    def tell(self, test: unittest.TestCase, error: Any) -> None:
        """Says of a case that it failed, and why; of an error that isn't a difference also at which place."""
        kind, fault, trace = error
        why = str(fault) if issubclass(kind, AssertionError) else in_a_line(fault)
        self.told.append(failure(name_of(test), why))
        if not issubclass(kind, AssertionError):
            traceback.print_exception(kind, fault, trace)


def failure(name: str, why: object) -> str:
    """The line for a case that failed, which is printed too."""
    line = f"{name}: {' '.join(str(why).splitlines())}"
    print(f"FAILED {line}", flush=True)
    return line


def in_a_line(fault: BaseException) -> str:
    """An error in a line. That of a module that can't be loaded has a whole trace in it, of which the last line says why."""
    lines = str(fault).rstrip().splitlines()
    return f"it can't be loaded: {lines[-1]}" if isinstance(fault, ImportError) and len(lines) > 1 else repr(fault)


def name_of(test: unittest.TestCase) -> str:
    """The name of a test, as FAILED says it. Of a whole class, `setUpClass (tests.web.test_full.Full)`, it is that of the class."""
    name = re.sub(r"^setUpClass \((.*)\)$", r"\1", test.id())
    return name[len("tests.") :] if name.startswith("tests.") else name


def run_tests(module: str) -> Outcome:
    """What comes of a module of tests/."""
    counts = Counts()
    unittest.defaultTestLoader.loadTestsFromName(f"tests.{module}").run(counts)
    if not (counts.passed or counts.told or counts.left_out):
        counts.told.append(failure(module, "it has no case"))
    return Outcome(counts.passed, len(counts.told), counts.told, counts.left_out)


def lint_cases(file: Path) -> Iterator[tuple[str, object]]:
    """The name of each case of a lint, and what is wrong with it, if anything is. An error of the lint itself is one more."""
    try:
        yield from runpy.run_path(str(file))["cases"]()
    except unittest.SkipTest:
        raise
    except Exception as fault:
        traceback.print_exc()
        yield "it runs to its end", repr(fault)


def run_lint(file: Path) -> Outcome:
    """What comes of a lint. It is left out with the reason of a `unittest.SkipTest`."""
    passed, told, left_out = 0, [], []
    try:
        for name, fault in lint_cases(file):
            if fault:
                told.append(failure(f"{file.stem}: {name}", fault))
            else:
                passed += 1
    except unittest.SkipTest as reason:
        left_out.append((file.stem, str(reason)))
        print(f"left out: {file.stem}: {reason}", flush=True)
    return Outcome(passed, len(told), told, left_out)


def run_module(name: str) -> Outcome:
    """What comes of a module of tests or a lint."""
    return run_tests(TESTS[name]) if name in TESTS else run_lint(LINTS[name])


def line_of(name: str, outcome: Outcome, began: float) -> str:
    """The line about a module that has ended. It began at this moment of the monotonic clock."""
    return f"{name}: {outcome.passed} passed, {outcome.failed} failed, {time.monotonic() - began:.1f} s"


def use_repository(top: Path) -> None:
    """Makes `tests` known, and leaves no compiled modules."""
    sys.path.insert(0, str(top))
    sys.dont_write_bytecode = True
