"""The accepted batches of one segment: where each is, whose it is, which calls it has, and which objects it names.

`Growing` is that of a segment that is read on, in memory; `TableFile` is that of a file beside a segment, of which the system has in memory
what is looked at.
"""

from __future__ import annotations

import array
import bisect
import collections
import hashlib
import json
import mmap
import re
from concurrent.futures import ThreadPoolExecutor
from itertools import accumulate
from pathlib import Path
from typing import Any, Iterator, NamedTuple, Sequence

from moolib.calls import Call, call_name
from moolib.service import packed

from moo_web.journal.prefixes import NAMED_LINES, LinePlace, Prefix, PrefixFile, index_path, read_prefix
from moo_web.journal.segments import Accepted, Segment, accepted_of, line_json, sum_if_whole

# An object that is named, in a text too.
OBJECT_NUMBER = re.compile(r"#\s*([-+]?\d{1,10})")
NUMBERS, PLACES = "Q", "I"
NUMBER_BYTES, PLACE_BYTES = array.array(NUMBERS).itemsize, array.array(PLACES).itemsize
NOTHING: Sequence[int] = ()
# So many files beside segments are read side by side.
AT_ONCE = 4
IN_JSON = json.JSONEncoder(separators=(",", ":"))


def numbers_in(text: str) -> set[int]:
    """The objects that a call or an answer names, in its texts too."""
    return set(map(int, OBJECT_NUMBER.findall(text)))


def sum_of_calls(who: str, calls: str) -> int:
    """A short sum of whose a batch is and of the sum of its calls."""
    return int.from_bytes(hashlib.sha256(f"{who} {calls}".encode(errors="replace")).digest()[:NUMBER_BYTES], "little")


def sum_of(said: object) -> str:
    """A short sum of a value in JSON."""
    return hashlib.sha256(IN_JSON.encode(said).encode()).hexdigest()[:32]


def objects_named(accepted: Accepted, asked: dict[int, set[int]]) -> set[int]:
    """The objects that a batch names, those that it made, and those of the petitions that it granted: `asked` has what petitions name."""
    found: set[int] = set()
    for call, answer in accepted.answered:
        name = call_name(call)
        found |= numbers_in(call)
        if name == "create":
            found |= numbers_in(answer)
        elif name == "grant":
            found |= asked.get(Call.read(call).petition or 0, set())
    return {number for number in found if number >= 0}


class PetitionEvent(NamedTuple):
    """A batch makes a petition that names these objects, or ends it: then `who` is empty. Or `who` answers it: then there is `says`."""

    number: int
    place: int
    who: str
    named: list[int]
    says: str = ""


class Open(NamedTuple):
    """An intent that was read, and the place of its line."""

    start: int
    said: dict[str, Any]


class Growing:
    """The batches of a segment as it is read. `asked` is what petitions name, of this segment and those before."""

    def __init__(self, segment: Segment, asked: dict[int, set[int]]) -> None:
        self.segment, self.asked = segment, asked
        # Of each batch, in the order of the segment: the places of its intent and its outcome, and the sum of its calls.
        self.intents, self.outcomes, self.sums = (array.array(NUMBERS) for _ in range(3))
        # By a person's name and by an object's number, the batches, ascending.
        self.of_people: dict[str, array.array[int]] = {}
        self.of_objects: dict[int, array.array[int]] = {}
        self.events: list[PetitionEvent] = []
        # How far it was read, and what was said up to there.
        self.end, self.lines, self.sum, self.base, self.why = 0, 0, segment.former, 0, ""
        self.seq, self.moment = 0, 0.0
        self.gap: dict[str, Any] | None = None
        self.last: collections.deque[LinePlace] = collections.deque(maxlen=NAMED_LINES)
        self.open: dict[int, Open] = {}

    @classmethod
    def of(cls, kept: TableFile, asked: dict[int, set[int]]) -> Growing:
        """The same batches, to be read on."""
        grown, prefix = cls(kept.segment, asked), kept.prefix
        grown.intents, grown.outcomes, grown.sums = (array.array(NUMBERS, each) for each in (kept.intents, kept.outcomes, kept.sums))
        grown.of_people = {name: array.array(PLACES, kept.of_person(name)) for name in kept.people}
        grown.of_objects = {number: array.array(PLACES, kept.of_object(number)) for number in kept.objects}
        grown.events = list(kept.events)
        grown.end, grown.lines, grown.sum, grown.base, grown.why = prefix.end, prefix.lines, prefix.sum, prefix.base, prefix.why
        grown.seq, grown.moment, grown.gap = prefix.seq, prefix.moment, prefix.gap
        grown.last.extend(prefix.last)
        return grown

    def __len__(self) -> int:
        return len(self.intents)

    def of_person(self, name: str) -> Sequence[int]:
        """The batches of a person."""
        return self.of_people.get(name, NOTHING)

    def of_object(self, number: int) -> Sequence[int]:
        """The batches that name an object."""
        return self.of_objects.get(number, NOTHING)

    # How it grows

    def take(self, raw: bytes) -> bool:
        """Takes the next line in. False: it isn't one, or not yet, or its sum is wrong."""
        now = sum_if_whole(self.sum, raw)
        if now is None:
            return False
        self.take_in(json.loads(line_json(raw).decode()), self.end)
        self.last.append(LinePlace(self.end, now))
        self.end, self.lines, self.sum = self.end + len(raw), self.lines + 1, now
        return True

    def take_in(self, said: dict[str, Any], start: int) -> None:
        """Takes in what a line says."""
        kind = said["k"]
        self.moment = said.get("t", self.moment)
        if kind == "intent":
            self.open[said["at"]] = Open(start, said)
        elif kind == "done":
            self.seq = said["seq"]
            if intent := self.open.pop(said["seq"] - 1, None):
                self.take_batch(intent, start, accepted_of(intent.said, said))
        elif kind == "void":
            self.open = {at: intent for at, intent in self.open.items() if at < said["at"]}
        else:
            self.open.clear()
            self.gap = said if kind == "gap" else self.gap
        if kind == "base":
            self.seq = self.base = said["seq"]
            self.why = said["why"]

    def take_batch(self, intent: Open, outcome: int, accepted: Accepted) -> None:
        """Takes in an accepted batch."""
        place = len(self.intents)
        self.intents.append(intent.start)
        self.outcomes.append(outcome)
        self.sums.append(sum_of_calls(accepted.who, sum_of(accepted.calls)))
        self.note_petitions(accepted, place)
        self.of_people.setdefault(accepted.who.lower(), array.array(PLACES)).append(place)
        for number in objects_named(accepted, self.asked):
            self.of_objects.setdefault(number, array.array(PLACES)).append(place)

    def note_petitions(self, accepted: Accepted, place: int) -> None:
        """Notes the petitions that a batch makes, ends and answers."""
        note = accepted.note
        if note.says:
            self.events.append(PetitionEvent(note.petition, place, accepted.who.lower(), [], note.says))
        for call, answer in zip(accepted.calls, accepted.answers or []):
            name = call_name(call)
            if name == "petition" and answer.isdigit():
                self.asked[int(answer)] = numbers = numbers_in(call)
                self.events.append(PetitionEvent(int(answer), place, accepted.who.lower(), sorted(numbers)))
            elif name in ("grant", "decline"):
                self.events.append(PetitionEvent(Call.read(call).petition or 0, place, "", []))

    # How it is kept

    @property
    def is_settled(self) -> bool:
        """Whether no intent is open."""
        return all(at < self.seq for at in self.open)

    def prefix(self) -> Prefix:
        """What was read."""
        return Prefix(
            self.end, self.lines, len(self), self.base, self.why, self.seq, self.moment, self.gap, list(self.last), 0
        )  # fmt: skip

    def tables(self) -> bytes:
        """The tables of the file beside the segment."""
        objects, people = sorted(self.of_objects), sorted(self.of_people)
        of_objects, of_people = [self.of_objects[one] for one in objects], [self.of_people[one] for one in people]
        # Events of four parts are those that an older program knows.
        events = [event[:4] for event in self.events if not event.says]
        answers = [(event.number, event.place, event.who, event.says) for event in self.events if event.says]
        words = packed({"people": people, "events": events, "answers": answers})
        sizes = [len(self), len(objects), len(people), sum(map(len, of_objects)), sum(map(len, of_people)), len(words)]
        parts: list[array.array[int]] = [
            array.array(NUMBERS, sizes), self.intents, self.outcomes, self.sums, array.array(NUMBERS, objects),
            array.array(NUMBERS, accumulate(map(len, of_objects), initial=0)),
            array.array(NUMBERS, accumulate(map(len, of_people), initial=0)), *of_objects, *of_people,
        ]  # fmt: skip
        return b"".join([*(part.tobytes() for part in parts), words])


class TableFile:
    """The batches of a prefix, of the file beside its segment. `ValueError`, `OSError`: the file isn't right, or isn't there any more."""

    SIZES = 6

    def __init__(self, segment: Segment, found: PrefixFile) -> None:
        self.segment, self.prefix = segment, found.prefix
        with open(index_path(segment.path), "rb") as file:
            view = memoryview(mmap.mmap(file.fileno(), 0, access=mmap.ACCESS_READ))[found.start :]
        if hashlib.sha256(view).hexdigest() != found.tables_sum:
            raise ValueError
        self.view, self.at = view, 0
        batches, objects, people, of_objects, of_people, words = self.numbers(self.SIZES)
        self.intents, self.outcomes, self.sums = self.numbers(batches), self.numbers(batches), self.numbers(batches)
        self.objects, self.object_ends, self.person_ends = self.numbers(objects), self.numbers(objects + 1), self.numbers(people + 1)
        self.in_objects, self.in_people = self.places(of_objects), self.places(of_people)
        said = json.loads(bytes(view[self.at : self.at + words]))
        self.people: list[str] = said["people"]
        answers = [PetitionEvent(number, place, who, [], says) for number, place, who, says in said.get("answers", ())]
        self.events = [*(PetitionEvent(*event) for event in said["events"]), *answers]

    def numbers(self, count: int) -> memoryview:
        """The next so many numbers of the file."""
        self.at += count * NUMBER_BYTES
        return self.view[self.at - count * NUMBER_BYTES : self.at].cast(NUMBERS)

    def places(self, count: int) -> memoryview:
        """The next so many places of the file."""
        self.at += count * PLACE_BYTES
        return self.view[self.at - count * PLACE_BYTES : self.at].cast(PLACES)

    def __len__(self) -> int:
        return self.prefix.batches

    @property
    def base(self) -> int:
        """The world's number before the first batch."""
        return self.prefix.base

    @property
    def why(self) -> str:
        """Why the segment began."""
        return self.prefix.why

    def of_person(self, name: str) -> Sequence[int]:
        """The batches of a person."""
        return places_by_key(self.people, name, self.person_ends, self.in_people)

    def of_object(self, number: int) -> Sequence[int]:
        """The batches that name an object."""
        return places_by_key(self.objects, number, self.object_ends, self.in_objects)


def places_by_key(keys: Sequence[Any], key: Any, ends: Sequence[int], places: memoryview) -> Sequence[int]:
    """The places of a key, of those of all keys, which ascend."""
    at = bisect.bisect_left(keys, key)
    return places[ends[at] : ends[at + 1]] if at < len(keys) and keys[at] == key else NOTHING


def places_with(wanted: int, sums: Sequence[int], at: int) -> Iterator[int]:
    """The places of a number among others, from one place on."""
    numbers = array.array(NUMBERS, sums)
    while at < len(numbers):
        try:
            at = numbers.index(wanted, at)
        except ValueError:
            return
        yield at
        at += 1


def kept_beside(segments: Sequence[Segment]) -> dict[Path, TableFile]:
    """What the files beside these segments say, by the segments' paths: of each that has one which is right.

    A first look at a long journal takes the sums of all of them, side by side.
    """
    if len(segments) < 2:
        return {segment.path: kept for segment in segments if (kept := table_file_of(segment))}
    with ThreadPoolExecutor(AT_ONCE) as pool:
        return {segment.path: kept for segment, kept in zip(segments, pool.map(table_file_of, segments)) if kept}


def table_file_of(segment: Segment) -> TableFile | None:
    """What the file beside a segment says. None: there is none, or it isn't right."""
    found = read_prefix(segment)
    try:
        return TableFile(segment, found) if found else None
    except (OSError, ValueError, KeyError, TypeError):
        return None
