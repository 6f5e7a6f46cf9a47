"""What was done, and by whom: the index of the journal's accepted batches, by number, object, person and calls.

It reads the journal's files on from where it was, whenever a page wants to know, and at least once a minute. What it has read it puts into a
file beside each segment, so that it isn't read again: of a segment that isn't written any more, nothing but that file is looked at. The
calls and answers of a batch are read from the journal again when they are shown.
"""

from __future__ import annotations

import bisect
import contextlib
import itertools
import json
import threading
from pathlib import Path
from typing import Any, BinaryIO, Callable, Collection, Iterator, NamedTuple, Sequence

from moolib.calls import Call, call_name

from moo_web.journal.ledger import Ledger
from moo_web.journal.prefixes import is_as_it_was, put_prefix
from moo_web.journal.segments import LONGEST_LINE, SUM_LENGTH, Accepted, Damaged, Segment, accepted_of, segments_of
from moo_web.journal.tables import Growing, TableFile, kept_beside, numbers_in, objects_named, places_with, sum_of_calls, table_file_of

READING = 10.0
LOOK_EVERY = 60.0
# An old segment is checked again at each tenth look.
CHECK_EVERY = 10
# A file beside a segment is written anew after so many more bytes of it. A segment of fewer has none.
BETWEEN_FILES = 1 << 21
LEAST_SEGMENT = 1 << 16


class StillRead(Exception):
    """The journal is still being read."""


class Moments(Sequence[float]):
    """The moments of batches at some places, each read when it is looked at: `bisect` of Python 3.9 takes no key."""

    def __init__(self, places: Sequence[int], moment_at: Callable[[int], float]) -> None:
        self.places, self.moment_at = places, moment_at

    def __len__(self) -> int:
        return len(self.places)

    def __getitem__(self, at: Any) -> Any:
        return self.moment_at(self.places[at])


class Batches(NamedTuple):
    """Some batches, the newest first, each with its place; how many there are in all; and the place to go on from, None after the last."""

    places: list[tuple[int, Accepted]]
    total: int
    further: int | None

    @property
    def batches(self) -> list[Accepted]:
        """The batches without their places."""
        return [batch for _, batch in self.places]


class MadePetition(NamedTuple):
    """A petition as it was made: by whom, and its calls."""

    who: str
    asked: tuple[Call, ...]


def call_about(accepted: Accepted, number: int | None) -> str:
    """The first call of a batch that names an object or makes it; else, and of no object, the first one. Empty: it has no call."""
    for call, answer in accepted.answered:
        is_made = call_name(call) == "create" and answer == f"#{number}"
        if number is None or is_made or number in numbers_in(call):
            return call
    return accepted.calls[0] if accepted.calls else ""


class SegmentBatches(NamedTuple):
    """The batches of one segment, and the place of the first one among those of all."""

    batches: Growing | TableFile
    first: int

    @property
    def path(self) -> Path:
        """The file of the segment."""
        return self.batches.segment.path

    @property
    def end(self) -> int:
        """The place after the last batch."""
        return self.first + len(self.batches)

    def places(self, who: str | None, number: int | None, also: Collection[int] = ()) -> Sequence[int]:
        """The places in the segment of the batches of a person and about an object, ascending; with a person, those about `also` too."""
        if who is None:
            return range(len(self.batches)) if number is None else self.batches.of_object(number)
        theirs = self.batches.of_person(who.lower())
        if number is None and not also:
            return theirs
        found = set(theirs).union(*map(self.batches.of_object, also))
        return sorted(found if number is None else found.intersection(self.batches.of_object(number)))

    def between(self, places: Sequence[int], since: float | None, until: float | None) -> Sequence[int]:
        """Those of these places whose batches were made between two moments, as far as the clock went forward."""
        moments = Moments(places, self.moment_at)
        first = 0 if since is None else bisect.bisect_left(moments, since)
        last = len(places) if until is None else bisect.bisect_right(moments, until)
        return places[first:last]

    def moment_at(self, place: int) -> float:
        """The moment of the batch at a place; that of the first, if its file was moved away."""
        batch = self.read(place)
        return batch.t if batch else 0.0

    def read(self, place: int) -> Accepted | None:
        """The batch at a place in the segment. None: its file was moved away."""
        try:
            with open(self.path, "rb") as file:
                return accepted_of(line_at(file, self.batches.intents[place]), line_at(file, self.batches.outcomes[place]))
        except (OSError, ValueError):
            return None


class History:
    """The accepted batches of a folder's journal. Threads may share it. `second` gets the files beside its segments too."""

    def __init__(self, folder: Path, second: Path | None = None, between: int = BETWEEN_FILES, least: int = LEAST_SEGMENT) -> None:
        self.folder, self.second, self.between, self.least = folder, second, between, least
        self.turn = threading.Lock()
        # The segments that were read, in their order; and up to where the file beside the last one goes.
        self.parts: list[SegmentBatches] = []
        self.headers: dict[tuple[str, int], Segment] = {}
        self.kept = 0
        self.ledger = Ledger()
        # How many events of the last segment are in it, and which segment is to be checked again.
        self.noted, self.next_check = 0, 0

    # What pages ask

    def found(
        self, who: str | None, number: int | None, count: int, before: int | None = None, patience: float = READING,
        also: Collection[int] = (), since: float | None = None, until: float | None = None,
    ) -> Batches | None:  # fmt: skip
        """The newest batches of a person, or about an object, or all: at most so many, and of those before a place.

        With a person, those about the objects `also` are found too, whosever they are. `since` and `until` are moments between which they
        were made. None: the journal is still being read.
        """
        with self.caught_up(patience) as is_read:
            if not is_read:
                return None
            total, wanted, is_more = 0, list[int](), False
            for part in reversed(self.parts):
                places = part.between(part.places(who, number, also), since, until)
                end = len(places) if before is None else bisect.bisect_left(places, before - part.first)
                taken = min(end, count - len(wanted))
                wanted += [part.first + places[place] for place in range(end - 1, end - 1 - taken, -1)]
                total, is_more = total + len(places), is_more or end > taken
            return Batches(list(self.read(wanted)), total, wanted[-1] if wanted and is_more else None)

    def one(self, seq: int, patience: float = READING) -> Accepted | None:
        """The batch that made this number of the world. After the journal was begun anew at a lower number, the last batch of it counts.

        None: there is none, or its file was moved away. `StillRead`: the journal is still being read.
        """
        with self.caught_up(patience) as is_read:
            if not is_read:
                raise StillRead
            part = next((part for part in reversed(self.parts) if part.batches.base < seq), None)
            place = seq - part.batches.base - 1 if part else 0
            batch = part.read(place) if part and place < len(part.batches) else None
            return batch if batch and batch.seq == seq else None

    def named(self, accepted: Accepted) -> set[int]:
        """The objects that a batch names, those that it made, and those of the petitions that it granted."""
        return objects_named(accepted, self.ledger.named)

    def petition(self, number: int) -> MadePetition | None:
        """The petition of this number, as it was made; None if it isn't known."""
        with self.caught_up() as is_read:
            place = self.ledger.made.get(number) if is_read else None
            batch = None if place is None else next((batch for _, batch in self.read([place])), None)
        made = batch.made_petition(number) if batch else ""
        return MadePetition(batch.who, tuple(Call.read(made).asked)) if batch and made else None

    def same(self, who: str, calls: str, after: int) -> Accepted | None:
        """A batch of this person whose calls have this sum, accepted after that number of the present world.

        `StillRead`: the journal is still being read.
        """
        wanted = sum_of_calls(who, calls)
        with self.caught_up() as is_read:
            if not is_read:
                raise StillRead
            for part in self.of_this_world():
                for place in places_with(wanted, part.batches.sums, max(0, after - part.batches.base)):
                    batch = part.read(place)
                    if batch and batch.who == who:
                        return batch
            return None

    def of_this_world(self) -> Iterator[SegmentBatches]:
        """The parts since the journal began, or began anew, the newest first. What was before isn't of this world."""
        for part in reversed(self.parts):
            yield part
            if part.batches.why != "full":
                return

    def part_with(self, place: int) -> SegmentBatches | None:
        """The part that has the batch at a place."""
        at = bisect.bisect_right([part.first for part in self.parts], place) - 1
        return self.parts[at] if at >= 0 and place < self.parts[at].end else None

    def read(self, places: list[int]) -> Iterator[tuple[int, Accepted]]:
        """The batches at these places, each with its place. Those whose file was moved away are left out."""
        for place in places:
            part = self.part_with(place)
            if part and (batch := part.read(place - part.first)):
                yield place, batch

    # How the journal is read

    @contextlib.contextmanager
    def caught_up(self, patience: float = READING) -> Iterator[bool]:
        """Keeps others away, and reads what was written since the last time. It gives whether that was done: others may read for long."""
        if not self.turn.acquire(timeout=patience):
            yield False
            return
        try:
            self.catch_up()
            yield True
        finally:
            self.turn.release()

    def keep_up(self, tell: Callable[[str], None]) -> None:
        """Reads what is written, without end, so that no page has to read much; and now and then checks the sums of an old segment again."""
        for turn in itertools.count():
            with self.caught_up():
                pass
            if turn % CHECK_EVERY == CHECK_EVERY - 1:
                self.check_one(tell)
            threading.Event().wait(LOOK_EVERY)

    def check_one(self, tell: Callable[[str], None]) -> None:
        """Checks the sums of the next one of the segments that nobody reads any more."""
        old = [part.batches for part in self.parts if isinstance(part.batches, TableFile)]
        if old:
            one = old[self.next_check % len(old)]
            self.next_check += 1
            with contextlib.suppress(OSError):
                if not is_as_it_was(one.segment, one.prefix):
                    tell(f"{one.segment.path}: its sums are wrong now, and were right: look at the disk, and bring the file back from a copy")

    def catch_up(self) -> None:
        """Reads what was written since the last time, and writes files beside segments."""
        try:
            segments, _ = segments_of(self.folder, self.headers)
        except (Damaged, OSError):
            return
        known = {part.path for part in self.parts[:-1]}
        read = {part.path for part in self.parts}
        kept = kept_beside([segment for segment in segments if segment.path not in read])
        for segment in segments:
            if segment.path not in known:
                self.read_on(segment, kept.get(segment.path), segment is segments[-1])

    def read_on(self, segment: Segment, kept: TableFile | None, is_last: bool) -> None:
        """Reads a segment up to its last whole line: of one that wasn't read yet, what the file beside it doesn't say."""
        if not self.parts or self.parts[-1].path != segment.path:
            self.kept = self.noted = 0
            self.parts.append(SegmentBatches(self.begun(segment, kept, is_last), self.parts[-1].end if self.parts else 0))
        part = self.parts[-1]
        self.note(part)
        if isinstance(part.batches, Growing):
            with contextlib.suppress(OSError), open(segment.path, "rb") as file:
                file.seek(part.batches.end)
                while (raw := file.readline(LONGEST_LINE)).endswith(b"\n") and part.batches.take(raw):
                    pass
        self.note(part)
        if isinstance(part.batches, Growing):
            self.put(part, part.batches, is_last)

    def begun(self, segment: Segment, kept: TableFile | None, is_last: bool) -> Growing | TableFile:
        """What the file beside a segment says; nothing, if there is none that is right."""
        try:
            is_whole = kept is not None and kept.prefix.end == segment.path.stat().st_size
        except OSError:
            kept, is_whole = None, False
        if kept is None:
            return Growing(segment, self.ledger.named)
        self.kept = kept.prefix.end
        return kept if is_whole and not is_last else Growing.of(kept, self.ledger.named)

    def put(self, part: SegmentBatches, batches: Growing, is_last: bool) -> None:
        """Writes the file beside a segment, if it is time. If it can't be, the batches stay in memory."""
        is_due = batches.end >= self.kept + self.between if is_last else batches.end == part.path.stat().st_size
        if not is_due or batches.end < self.least or (is_last and not batches.is_settled):
            return
        # If this fails, it is tried once more when there is as much again.
        self.kept = batches.end
        with contextlib.suppress(OSError, ValueError):
            self.put_files(batches)
            if not is_last and (kept := table_file_of(batches.segment)):
                self.parts[-1] = part._replace(batches=kept)

    def put_files(self, batches: Growing) -> None:
        """Writes the file beside a segment, in each folder that has the segment."""
        segment, tables = batches.segment, batches.tables()
        put_prefix(segment, batches.prefix(), tables)
        other = self.second / segment.path.name if self.second else None
        if other and other.is_file() and other.stat().st_size >= batches.end:
            put_prefix(segment._replace(path=other), batches.prefix(), tables)

    def end(self) -> None:
        """Writes the file beside the last segment, so that the next start has little to read."""
        with self.caught_up(0.0) as is_read:
            last = self.parts[-1] if is_read and self.parts else None
            if last and isinstance(last.batches, Growing) and last.batches.is_settled and last.batches.end >= max(self.least, self.kept + 1):
                with contextlib.suppress(OSError):
                    self.put_files(last.batches)

    def note(self, part: SegmentBatches) -> None:
        """Notes the petitions that were made, answered and ended in the part that is read, as far as it wasn't done yet."""
        for event in part.batches.events[self.noted :]:
            self.ledger.take(event, part.first + event.place)
        self.noted = len(part.batches.events)


def line_at(file: BinaryIO, place: int) -> dict[str, Any]:
    """The object in the line at this place of a file. `ValueError`: there is none."""
    file.seek(place)
    said = json.loads(file.readline(LONGEST_LINE)[SUM_LENGTH + 1 :])
    if not isinstance(said, dict):
        raise ValueError
    return said
