"""The end of a run of the tests: what was left out, what failed, and the counts."""
from __future__ import annotations

from collections import Counter
from typing import Iterable, Iterator

from testing.cases import Outcome

# The tests of one reason are listed by their names up to this many, and by their modules if there are more.
MOST_NAMES = 6
LONGEST = 300


def close(outcomes: Iterable[Outcome]) -> int:
    """Prints the end of a run when all modules have ended, and gives its status."""
    ended = list(outcomes)
    passed, failed = sum(outcome.passed for outcome in ended), sum(outcome.failed for outcome in ended)
    for line in [*left_out([pair for outcome in ended for pair in outcome.left_out]), *failures(ended)]:
        print(line)
    print(f"{passed} passed, {failed} failed", flush=True)
    return 0 if passed and not failed else 1


def left_out(pairs: list[tuple[str, str]]) -> Iterator[str]:
    """The lines about what was left out, by reasons."""
    if pairs:
        yield f"left out: {len(pairs)}, for these reasons:"
    for reason in dict.fromkeys(reason for _, reason in pairs):
        names = [name for name, other in pairs if other == reason]
        yield f"  {reason}"
        yield from (f"    {name}" for name in (names if len(names) <= MOST_NAMES else counted(names)))


def counted(names: list[str]) -> list[str]:
    """The modules of tests, each with the count of them."""
    modules = Counter(".".join(name.split(".")[:2]) for name in names)
    return [f"{module}: {count}" for module, count in modules.items()]


def failures(ended: list[Outcome]) -> Iterator[str]:
    """The lines about the cases that failed. What they said is above."""
    lines = [line for outcome in ended for line in outcome.failures]
    if lines:
        yield f"failed: {len(lines)}"
    yield from (f"  {line if len(line) <= LONGEST else line[:LONGEST] + ' ..'}" for line in lines)
