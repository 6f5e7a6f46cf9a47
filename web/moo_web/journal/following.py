"""`moo-replay --follow`: a standby of a journal that is being written, here or on another machine.

A batch is run when its `done` is there: then it was accepted, and its intent is on the disk. The world's own number is its place in the
journal. Beside FILE there is FILE-followed, with the number of the last batch that was run and the sum of its intent: so a world that isn't
of this journal's past any more, since an older copy was restored there, is found out.

Of another machine's journal nothing is run before a first frame has come that made the copy whole, and only what was whole: so it is known
which batches count.
"""

from __future__ import annotations

import argparse
import contextlib
import signal
import time
from pathlib import Path
from typing import Callable, Iterator

from moolib.copies import Place
from moolib.errors import Failed

from moo_web.journal.applying import Ended, WorldFile
from moo_web.journal.branches import Course
from moo_web.journal.bringing import Bringing
from moo_web.journal.marks import Mark, place_beside
from moo_web.journal.receiving import Receiver
from moo_web.journal.tail import LinesGone, Tail
from moo_web.programs import notify, only_ours

PAUSE = 0.1
SAY_EVERY = 1.0
# After so many seconds in which nothing came a standby is late, and says so again and again.
LATE_AFTER = 30.0
WAITED_LONG = 10.0
FIRST_REST, LONGEST_REST = 0.1, 5.0
LAST_TRIES = 10


class Late(Failed):
    """Nothing came from the other machine for as long as the operator allows."""


class Follower:
    """Brings FILE up to the journal of FOLDER as that grows. `source` is what brings FOLDER up, if anything does."""

    def __init__(self, said: argparse.Namespace, program: str, source: Receiver | None, tell: Callable[[str], None]) -> None:
        self.folder, self.file, self.program, self.source, self.tell = said.folder, said.file, program, source, tell
        self.branch, self.longest = said.branch, said.late
        self.is_over = False
        self.said, self.said_at, self.late_at = "", 0.0, 0.0
        # When FILE had all that the journal had.
        self.even_at = time.monotonic()
        self.why, self.why_since = "", 0.0
        self.world: WorldFile | None = None

    def stop(self, *_: object) -> None:
        """Ends it when FILE has what FOLDER has now; at once, if it was told so before."""
        if self.is_over:
            raise KeyboardInterrupt
        self.is_over = True

    def run(self) -> int:
        """Follows until it is stopped, and gives the number of FILE. `Failed`, `Damaged`: FILE can't be brought up any more."""
        rest, tries = FIRST_REST, 0
        while True:
            began = time.monotonic()
            try:
                return self.run_once()
            except LinesGone:
                self.tell("the last lines of the journal aren't there any more: it is read anew")
            except Ended as error:
                tries += self.is_over
                if tries > LAST_TRIES:
                    raise
                self.tell(f"{error}. It is tried again")
            finally:
                self.leave()
            rest = FIRST_REST if time.monotonic() > began + WAITED_LONG else min(2 * rest, LONGEST_REST)
            time.sleep(rest)

    def run_once(self) -> int:
        """The same, until moo ends or the journal has to be read anew."""
        self.world = WorldFile(self.program, self.file)
        with contextlib.closing(Mark(Path(self.file))) as mark:
            reading = Past(self, self.world, mark)
            while not self.is_over:
                self.bring_up(reading)
                self.wait()
            if self.source:
                self.source.end()
            self.bring_up(reading)
            return self.world.seq

    def limit(self) -> tuple[int, int]:
        """Up to which segment, and which place in it, a copy of the journal is run: what was whole; in the end, all that is there."""
        assert self.source
        return self.source.synced() if self.is_over else self.source.whole

    def place_of(self, world: WorldFile, mark: Mark) -> Place | None:
        """The place of FILE in the journal, as far as it is known."""
        return Place(self.branch, world.seq, "") if self.branch else place_beside(Path(self.file), world.seq, mark)

    def leave(self) -> None:
        """Lets FILE go."""
        world, self.world = self.world, None
        if world:
            world.close()

    def wait(self) -> None:
        """Rests until there may be more. `Late`: nothing came for too long."""
        if not self.source:
            time.sleep(PAUSE)
            return
        self.source.look()
        if self.longest is not None and self.source.silence() > self.longest:
            raise Late(f"nothing came from the other machine for {self.longest:g} seconds; {self.file} has number {self.seq}")
        self.source.news.wait(PAUSE)
        self.source.news.clear()

    @property
    def seq(self) -> int:
        """The number of FILE."""
        return self.world.seq if self.world else 0

    def bring_up(self, reading: Past) -> None:
        """Runs what the journal has more by now."""
        for _ in reading.steps():
            # From now on its mark tells the place of FILE.
            self.branch = None
            if time.monotonic() > self.said_at + SAY_EVERY:
                self.say(reading.behind)
        is_there = reading.course.first is not None
        if is_there and not (self.source and self.source.whole_at is None):
            self.even_at = self.source.whole_at if self.source and self.source.whole_at else time.monotonic()
        self.say(0, is_there)
        self.tell_wait(reading.ahead.why)

    def say(self, behind: int, is_there: bool = True) -> None:
        """Says the number of FILE, and how many batches it lacks; or that nothing comes. `is_there`: a journal is."""
        if self.source and not self.is_over and (self.source.silence() > LATE_AFTER or self.source.whole_at is None):
            self.say_late(self.source)
            return
        text = f"seq {self.seq} behind {behind}" if behind else f"seq {self.seq}"
        now = time.monotonic()
        if text != self.said or now > self.said_at + SAY_EVERY:
            notify(self.status(behind, is_there))
            self.said_at = now
        if text != self.said:
            print(text, flush=True)
        self.said = text

    def status(self, behind: int, is_there: bool) -> str:
        """What systemd is told if something came."""
        if not is_there:
            return f"STATUS=seq {self.seq}, and {self.folder} has no journal yet"
        told = f"STATUS=seq {self.seq}, {behind} batches behind, lag {time.monotonic() - self.even_at:.0f} seconds"
        return told if behind else f"{told}\nREADY=1"

    def say_late(self, source: Receiver) -> None:
        """Says that nothing came, or that the first copy isn't whole yet."""
        silence, now = source.silence(), time.monotonic()
        if now < self.said_at + SAY_EVERY:
            return
        self.said_at = now
        if source.came_at is not None and silence <= LATE_AFTER:
            notify(f"STATUS=seq {self.seq}, and the first copy of the journal is coming")
            return
        since = "nothing came from the other machine" if source.came_at is not None else "nothing has come from the other machine yet"
        notify(f"STATUS=seq {self.seq}, LATE {silence:.0f} seconds: {since}")
        if silence >= SAY_EVERY and ("LATE" not in self.said or now > self.late_at + LATE_AFTER):
            self.said, self.late_at = f"seq {self.seq} LATE {silence:.0f}", now
            print(self.said, flush=True)

    def tell_wait(self, why: str) -> None:
        """Tells for what it has waited for long."""
        if why != self.why:
            self.why, self.why_since = why, time.monotonic()
        elif why and time.monotonic() > self.why_since + WAITED_LONG:
            self.tell(f"{self.folder}: {why}. It is waited for")


class Past:
    """A journal that grows, run on FILE. It is read ahead, so that no batch is run that was given up by what the journal has by now."""

    def __init__(self, follower: Follower, world: WorldFile, mark: Mark) -> None:
        self.world = world
        place = follower.place_of(world, mark)
        self.course = Course([place.sum] if place and place.sum else [])
        self.ahead = Tail(follower.folder, follower.limit if follower.source else None)
        self.tail = Tail(follower.folder, self.read_by_now)
        self.bringing = Bringing(world, self.course, place, mark, follower.tell)

    def read_by_now(self) -> tuple[int, int]:
        """Up to which segment, and which place in it, the course is known."""
        return (self.ahead.segment.number, self.ahead.end) if self.ahead.segment else (0, 0)

    @property
    def behind(self) -> int:
        """How many batches the world lacks of what is known of the journal."""
        return max(0, self.course.seq - self.world.seq)

    def steps(self) -> Iterator[None]:
        """Runs each batch that is there and wasn't run, and yields after it. `Failed`: FILE can't be brought up by this journal."""
        for line in self.ahead.lines():
            self.course.take(line)
        self.bringing.test()
        for line in self.tail.lines():
            if self.bringing.take(line):
                yield


def follow(said: argparse.Namespace, program: str, tell: Callable[[str], None]) -> None:
    """Follows until SIGTERM comes. `Failed`, `Damaged`, `InUse`: it can't. `Late`: nothing came for too long."""
    only_ours()
    source = Receiver(said.folder, said.source, tell) if said.source else None
    follower = Follower(said, program, source, tell)
    signal.signal(signal.SIGTERM, follower.stop)
    try:
        if source:
            source.start()
        print(f"seq {follower.run()}", flush=True)
    finally:
        if source:
            source.end()
