"""The file of a world, brought on by the lines of a journal: the batches that count now are run, and the others are passed."""

from __future__ import annotations

from typing import Callable

from moolib.copies import Place
from moolib.errors import Failed

from moo_web.journal.applying import WorldFile
from moo_web.journal.branches import Course
from moo_web.journal.marks import Mark
from moo_web.journal.segments import FIRST_SUM, Accepted, JournalLine, Outcomes, Segment, next_branch


class Bringing:
    """Runs the batches of a journal on FILE, line by line. The course has to be known up to each line that is taken."""

    def __init__(self, world: WorldFile, course: Course, place: Place | None, mark: Mark, tell: Callable[[str], None]) -> None:
        self.world, self.course, self.place, self.mark, self.tell = world, course, place, mark, tell
        self.outcomes, self.branch = Outcomes(), FIRST_SUM
        # How many branches were left before the last line.
        self.passed = 0

    def test(self) -> None:
        """Looks whether FILE is of the history that counts now. `Failed`: it isn't."""
        fault = self.course.fault_of(self.world.file, self.world.seq, self.place)
        if fault:
            raise Failed(fault)

    def take(self, line: JournalLine) -> Accepted | None:
        """Takes a line, and gives the batch that was run, if one was. `Failed`: FILE can't be brought up by this journal."""
        told = self.outcomes.take(line)
        if isinstance(told, Accepted):
            return told if self.run(told, self.outcomes.sum) else None
        if told and told["k"] == "base":
            self.begin(line.segment)
        elif told and self.passed == len(self.course.left):
            self.tell(f"there writing has stopped: the world has number {told['world']} and the journal {told['journal']}")
        return None

    def run(self, batch: Accepted, sum_: str) -> bool:
        """Runs a batch if it is the next one of the history that counts now, and says whether it was."""
        if self.course.is_given_up(batch.at, self.passed) or batch.at < self.world.seq:
            return False
        if batch.at > self.world.seq:
            raise Failed(self.lacking(batch.at))
        self.test()
        self.world.run(batch)
        self.mark.put(batch.seq, sum_)
        self.place = Place(self.branch, batch.seq, sum_)
        return True

    def begin(self, segment: Segment) -> None:
        """Passes the beginning of a segment."""
        self.branch = next_branch(segment, self.branch)
        self.passed += segment.why == "rebase"
        is_kept = not any(segment.seq > seq for seq in self.course.left[self.passed :])
        if is_kept and self.world.seq < segment.seq:
            raise Failed(self.lacking(segment.seq))

    def lacking(self, seq: int) -> str:
        """What is said if FILE can't reach this number."""
        told = f"{self.world.file} has number {self.world.seq}; the journal has no batch for it, and goes on at {seq}"
        return f"{told}: take a copy of that number or a later one"
