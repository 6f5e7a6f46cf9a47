"""What somebody is answered depends on nothing that they may not read: random pairs of worlds that are alike to a programmer who isn't a wizard
(tests/support/alike.py) answer the same batches of theirs alike, to the byte, with why a call is refused, and are alike to them afterwards.

PAIRS is how many pairs are tried: 10000 is the full size. SEED is where chance begins, which is printed.
"""

from __future__ import annotations

import os
from collections import Counter
from random import Random
from typing import NamedTuple

from tests.support.alike import Plot, drawn, making, other_than, readable
from tests.support.alike_calls import Caller
from tests.support.alike_dumps import Dump, differences, hidden
from tests.support.alike_sides import LAST, TextSide, WebSide
from tests.support.cases import ProgramTest
from tests.support.worlds import remove, text_of

PAIRS = int(os.environ.get("PAIRS", "60"))
SEED = int(os.environ.get("SEED") or Random().randrange(10**6))
# Standard error tells of 100 batches of a text, and so many pairs have about as many.
PAIRS_OF_A_TEXT = 5
BATCHES = 20
# One pair in so many is asked over HTTP.
OVER_HTTP = 6


class Pair(NamedTuple):
    """Two plots that are alike, and the kinds of their differences."""

    one: Plot
    other: Plot
    kinds: list[str]


def drawn_pair(random: Random, top: int) -> Pair:
    """A pair with at least one difference."""
    while True:
        plot = drawn(random, top)
        other, kinds = other_than(random, plot)
        if kinds:
            return Pair(plot, other, kinds)


def batches_of(random: Random, plot: Plot) -> list[str]:
    """Batches of the programmer: changes by chance, and then reads of which each is one."""
    caller = Caller(random, plot)
    batches = [caller.batch() for _ in range(BATCHES)] + [[read] for read in random.sample(caller.reads(), 12)]
    return [text_of(batch, f"#{plot.programmer}") for batch in batches]


def reads_of(plot: Plot) -> list[str]:
    """Calls that read each slot, verb and petition of a plot."""
    calls = ["petitions()"]
    for found in plot.definitions:
        calls += [f'{name}(#{number}, "{found.name}")' for number in found.slots for name in ("get", "property_info", "is_clear_property")]
    return calls + [f"{name}(#{number}, 1)" for number in plot.things for name in ("verb_info", "verb_args")]


class Alike(ProgramTest):
    limit = 36000

    def setUp(self):
        super().setUp()
        self.kinds = Counter()
        self.hidden = 0
        self.answered = Counter()

    def alike(self, name, one, other):
        """A case, which is counted only if it fails: there are too many."""
        if one != other:
            self.case(name, other, one)

    def tell(self, what):
        """Prints where chance began, how often each kind of difference was there, and what was answered how often."""
        print(f"requests.alike: SEED={SEED} {what}, {dict(self.kinds)}, {self.hidden} lines differ afterwards, {dict(self.answered)}")

    def texts(self, run, count):
        """So many pairs in two texts."""
        sides = TextSide("one.db"), TextSide("other.db")
        top, plots = 3, []
        for number in range(count):
            random = Random(f"{SEED} {run} {number}")
            pair = drawn_pair(random, top)
            self.kinds.update(pair.kinds)
            plots.append(pair.one)
            batches = batches_of(random, pair.one)
            made = making(pair.one).count("batch as")
            for side, plot in zip(sides, (pair.one, pair.other)):
                side.send(making(plot) + "".join(batches) + LAST)
            told = [side.replies(made + len(batches) + 1) for side in sides]
            for side in told:
                self.alike(f"{SEED} {run} {number}: it is made", [reply[:8] for reply in side[:made]], ["accepted"] * made)
            for batch, one, other in zip(batches, told[0][made:], told[1][made:]):
                self.answered[one.split()[0] + " " + one.split()[-1] * one.startswith("refused")] += 1
                self.alike(f"{SEED} {run} {number}: {batch}", one, other)
            self.alike(f"{SEED} {run} {number}", told[0], told[1])
            top = int(told[0][-1].splitlines()[1][1:])
        (said, dump), (other_said, other_dump) = [side.end() for side in sides]
        self.alike(f"{SEED} {run}: standard error", said, other_said)
        self.afterwards(f"{SEED} {run}", plots, dump, other_dump)
        remove("one.db")
        remove("other.db")

    def afterwards(self, name, plots, dump, other_dump):
        """The worlds are alike to each programmer still."""
        one, other = Dump(dump), Dump(other_dump)
        self.hidden += hidden(one, other)
        for plot in plots:
            self.alike(f"{name}: for #{plot.programmer} afterwards", [], list(differences(plot.programmer, one, other)))

    def test_texts(self):
        """Over texts, with what standard error says of refusals, and their dumps."""
        pairs = PAIRS - PAIRS // OVER_HTTP
        for run in range(0, pairs, PAIRS_OF_A_TEXT):
            with self.subTest(f"pairs {run} and on, SEED={SEED}"):
                self.texts(run, min(PAIRS_OF_A_TEXT, pairs - run))
        self.tell(f"{pairs} pairs by texts")
        self.case("something is hidden of each kind", {*self.kinds} >= {"value", "clear", "owner", "verb", "petition"}, True)
        self.case("and differs in the worlds afterwards", self.hidden > pairs, True)
        self.case("some are accepted and some refused", {"accepted ", "refused E_PERM"} <= {*self.answered}, True)

    def web_pair(self, number, sides):
        """A pair in two worlds that are served."""
        random = Random(f"{SEED} web {number}")
        top = int(sides[0].body("/dump").split("top #")[1].split()[0])
        pair = drawn_pair(random, top)
        self.kinds.update(pair.kinds)
        for side, plot in zip(sides, (pair.one, pair.other)):
            self.alike(f"{SEED} web {number}: it is made", [0], [*{len(answer.get("error", "")) for answer in side.make(making(plot))}])
        before = [Dump(side.body("/dump")) for side in sides]
        self.alike(f"{SEED} web {number}: alike before", [], list(differences(pair.one.programmer, *before)))
        caller = Caller(random, pair.one)
        asked = [("/each?why", random.sample(caller.reads(), 60))]
        for _ in range(4):
            asked += [("/each?why", [caller.call() for _ in range(20)]), ("/ask?why", caller.batch())]
            asked += [("/batch?why", caller.batch()) for _ in range(3)]
        for path, calls in [*asked, ("/each?why", caller.reads())]:
            one, other = [side.ask(path, pair.one.programmer, calls) for side in sides]
            self.answered[one.split()[1].decode()] += 1
            self.alike(f"{SEED} web {number}: {path} {calls}", one, other)
        self.alike(f"{SEED} web {number}: objects", sides[0].body(f"/objects/{top}"), sides[1].body(f"/objects/{top}"))
        self.afterwards(f"{SEED} web {number}", [pair.one], sides[0].body("/dump"), sides[1].body("/dump"))

    def test_web(self):
        """Over HTTP, with `?why`."""
        pairs = PAIRS // OVER_HTTP
        for first in range(0, pairs, 20):
            sides = WebSide(), WebSide()
            for number in range(first, min(first + 20, pairs)):
                with self.subTest(f"pair {number}, SEED={SEED}"):
                    self.web_pair(number, sides)
            for side in sides:
                side.service.kill()
        self.tell(f"{pairs} pairs over HTTP")
        self.case("something differs in the worlds afterwards", self.hidden > pairs, True)
        self.case("some are accepted and some refused", {"200", "409"} <= {*self.answered}, True)

    def answers(self, who, plots):
        """How many reads of all that is in the first of two plots somebody is answered otherwise in the second, how many reads there are, and where
        the dumps aren't alike to the programmer."""
        sides = WebSide(), WebSide()
        reads = reads_of(plots[0])
        for side, plot in zip(sides, plots):
            side.make(making(plot))
        one, other = [side.each(who, reads) for side in sides]
        found = sum(mine != theirs for mine, theirs in zip(one, other))
        dumps = [Dump(side.body("/dump")) for side in sides]
        for side in sides:
            side.service.kill()
        return found, len(one), list(differences(plots[0].programmer, *dumps))

    def test_what_is_hidden_is_there(self):
        """A wizard is answered otherwise in the second world of a pair, and the programmer isn't."""
        found = 0
        for number in range(4):
            pair = drawn_pair(Random(f"hidden {number}"), 3)
            plots = pair.one, pair.other
            by_wizard, count, _ = self.answers(3, plots)
            found += by_wizard
            self.case(f"{number}: the programmer", self.answers(pair.one.programmer, plots), (0, count, []))
        self.case("the wizard", found > 4, True)

    def test_what_can_be_read_is_told(self):
        """Two worlds that aren't alike are told from each other by the programmer's reads, and by their dumps."""
        found = 0
        for number in range(4):
            plot = drawn(Random(f"readable {number}"), 3)
            other = readable(Random(number), plot)
            if other is None:
                continue
            found += 1
            told, _, apart = self.answers(plot.programmer, (plot, other))
            self.case(f"{number}: a read tells", told > 0, True)
            self.case(f"{number}: a line differs", len(apart) > 0, True)
        self.case("there are such pairs", found > 0, True)
