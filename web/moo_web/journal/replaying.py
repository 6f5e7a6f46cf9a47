"""The program `moo-replay`: brings the file of a world up to a journal, batch by batch, and compares the answers.

The world's own number is its place in the journal, so that a run that was broken off is simply run again.
"""

from __future__ import annotations

import argparse
import contextlib
import datetime
import re
import sys
from pathlib import Path
from typing import Callable, Optional

from moolib import __version__
from moolib.calls import Call, call_name
from moolib.copies import Place
from moolib.errors import Failed

from moo_web.journal.applying import WorldFile, program_named
from moo_web.journal.branches import course_of, history_of, lines_until
from moo_web.journal.bringing import Bringing
from moo_web.journal.choosing import make_file
from moo_web.journal.differing import Between, swapped
from moo_web.journal.following import Late, follow
from moo_web.journal.journal import InUse
from moo_web.journal.marks import Mark, place_beside
from moo_web.journal.segments import Accepted, Damaged
from moo_web.journal.undoing import undo_text, undone
from moo_web.programs import Teller, number_word, object_number

USAGE = """moo-replay FOLDER FILE [--to S] [--at TIME] [--copies COPIES | --branch SUM] [--moo PROGRAM]
       moo-replay FOLDER FILE --follow [--from COMMAND] [--late SECONDS] [--branch SUM] [--moo PROGRAM]
       moo-replay FOLDER --undo S
       moo-replay FOLDER --diff A B [--object #N]"""
LATE_STATUS = 3
MORE = """
FILE is a new world or a copy, and no program has it open. FOLDER is that of moo-web, which may run meanwhile. With --copies there is no FILE
yet: it is made from the copy in the folder COPIES that has most of what is asked for, and is of the history of the journal. A copy of another
branch, from before the journal was begun anew at a lower number, is refused.
It prints `seq S`, and with --follow a line each time that FILE has caught up, `seq S behind N`, or `seq S LATE N` if nothing came for N
seconds. A following run ends at SIGTERM, with all in FILE that FOLDER has.
--undo prints the batch that undoes batch S, as a text for `moo apply`; --diff what differs between numbers A and B of the world, a line a
value. Both need no FILE.
Exit status: 0 FILE is where it was asked for; 1 it isn't; 2 the words are wrong; 3 nothing came for the seconds of --late. docs/WEB.md has
more.
"""


def read_words(words: list[str]) -> argparse.Namespace:
    """What the command line says."""
    parser = argparse.ArgumentParser(prog="moo-replay", usage=USAGE, description="Brings a world up to a journal.", epilog=MORE)
    parser.add_argument("--version", action="version", version=f"%(prog)s {__version__}")
    parser.add_argument("folder", metavar="FOLDER", type=Path, help="the folder of the journal")
    parser.add_argument("file", metavar="FILE", nargs="?", help="the world")
    parser.add_argument("--to", metavar="S", type=batch_number, help="up to number S of the world")
    told = "up to a moment (ISO 8601, UTC if it has no offset): it ends before the first batch past it"
    parser.add_argument("--at", metavar="TIME", type=moment_word, help=told)
    parser.add_argument("--follow", action="store_true", help="go on with what comes to the journal, until SIGTERM comes")
    told = "a command that runs `moo-send` on the other machine: FOLDER is a copy, which this brings up meanwhile"
    parser.add_argument("--from", metavar="COMMAND", dest="source", help=told)
    parser.add_argument("--late", metavar="SECONDS", type=seconds, help="with --from: end with status 3 if nothing came for so long")
    told = "FILE isn't there: make it from the best copy in this folder, or as a new world if the journal begins at 0"
    parser.add_argument("--copies", metavar="COPIES", type=Path, help=told)
    told = "the branch of the journal of which FILE is: 64 digits and letters, as in a file BRANCH"
    parser.add_argument("--branch", metavar="SUM", type=branch_sum, help=told)
    parser.add_argument("--undo", metavar="S", type=batch_number, help="print what undoes the batch that made number S of the world")
    parser.add_argument("--diff", metavar=("A", "B"), nargs=2, type=batch_number, help="print what differs between two numbers of the world")
    parser.add_argument("--object", metavar="#N", dest="number", type=object_number, help="with --diff: of this object alone")
    parser.add_argument("--moo", metavar="PROGRAM", help="the program moo")
    said = parser.parse_args(words)
    if said.follow and (said.to is not None or said.at is not None):
        parser.error("--follow has no end, so --to and --at don't go with it")
    if said.source and not said.follow:
        parser.error("--from goes with --follow")
    # The unit of a standby gives both, and the command may be empty.
    if said.late is not None and said.source is None:
        parser.error("--late goes with --from")
    if said.copies and (said.follow or said.branch):
        parser.error("--copies goes with neither --follow nor --branch")
    if said.number is not None and said.diff is None:
        parser.error("--object goes with --diff")
    if said.undo is not None and said.diff is not None:
        parser.error("--undo and --diff don't go together")
    if (said.file is None) != (said.undo is not None or said.diff is not None):
        parser.error("FILE is missing" if said.file is None else "--undo and --diff need no FILE")
    return said


def batch_number(text: str) -> int:
    """A number of the world."""
    return number_word(text, 0, (1 << 63) - 1, "a number of a world")


def seconds(text: str) -> float:
    """A number of seconds, more than 0."""
    if not re.fullmatch(r"\d+(\.\d+)?", text, re.ASCII) or float(text) <= 0:
        raise argparse.ArgumentTypeError(f"{text!r} isn't a number of seconds")
    return float(text)


def branch_sum(text: str) -> str:
    """The name of a branch of a journal."""
    if not re.fullmatch(r"[0-9a-f]{64}", text):
        raise argparse.ArgumentTypeError(f"{text!r} isn't a branch: it has 64 digits and letters from a to f")
    return text


def moment_word(text: str) -> float:
    """A moment in seconds since 1970."""
    try:
        # Python before 3.11 knows no Z.
        read = datetime.datetime.fromisoformat(text[:-1] + "+00:00" if text[-1:] in ("Z", "z") else text)
    except ValueError:
        raise argparse.ArgumentTypeError(f"{text!r} isn't a moment, as 2026-11-27T12:00:00 or 2026-11-27T12:00:00+01:00") from None
    return (read if read.tzinfo else read.replace(tzinfo=datetime.timezone.utc)).timestamp()


def moment_text(seconds: float) -> str:
    """A moment as it is told."""
    return datetime.datetime.fromtimestamp(seconds, datetime.timezone.utc).isoformat(timespec="milliseconds")


# What is done to the world


class ClockCheck:
    """Tells it if the clock went back between two batches."""

    def __init__(self, tell: Callable[[str], None]) -> None:
        self.tell, self.last = tell, 0.0

    def take(self, batch: Accepted) -> None:
        """Looks at the moment of the next batch."""
        if batch.t < self.last:
            self.tell(f"the clock went back before batch {batch.seq}: from {moment_text(self.last)} to {moment_text(batch.t)}")
        self.last = batch.t


def replay(said: argparse.Namespace, tell: Callable[[str], None]) -> int:
    """Brings the file up, and gives its number. `Failed`, `Damaged`: it can't be brought up."""
    program = program_named(said.moo)
    if said.copies:
        make_file(said, program, tell)
    world = WorldFile(program, said.file)
    try:
        if said.to is not None and world.seq > said.to:
            raise Failed(f"{said.file} has number {world.seq} already")
        with contextlib.closing(Mark(Path(said.file))) as mark:
            bring_up(said, world, mark, tell)
    finally:
        world.close()
    return world.seq


def bring_up(said: argparse.Namespace, world: WorldFile, mark: Mark, tell: Callable[[str], None]) -> None:
    """Runs what the file lacks of what was asked for. `Failed`, `Damaged`: as `replay`."""
    place = Place(said.branch, world.seq, "") if said.branch else place_beside(Path(said.file), world.seq, mark)
    course = course_of(said.folder, said.at, [place.sum] if place and place.sum else [])
    bringing, clock = Bringing(world, course, place, mark, tell), ClockCheck(tell)
    bringing.test()
    for line in lines_until(said.folder, said.at):
        if world.seq == said.to:
            break
        if batch := bringing.take(line):
            clock.take(batch)
    if said.to is not None and world.seq < said.to:
        raise Failed(f"the journal ends at number {course.seq}; {said.file} has {world.seq}")
    if said.at is not None and world.seq > course.seq:
        raise Failed(f"{said.file} has number {world.seq}, and the world had {course.seq} at that moment: take an older copy")
    if said.to is None and world.seq > course.seq:
        tell(f"{said.file} is past the journal's last batch, which is {course.seq}")
    if course.telling and world.seq == course.seq:
        mark.put(course.seq, course.telling.sum)


# What undoes a batch


def print_undo(folder: Path, seq: int, tell: Callable[[str], None]) -> None:
    """Prints the batch that undoes one. `Failed`: nothing does."""
    batch = next((one for one in history_of(folder) if one.seq == seq), None)
    if batch is None:
        raise Failed(f"{folder} has no batch {seq}")
    undo = undone(batch, is_text=True)
    if not undo.lines:
        raise Failed(" ".join(map(in_ascii, undo.lasting)) or f"batch {seq} changes nothing")
    for sentence in undo.lasting:
        tell(in_ascii(sentence))
    print(undo_text(batch, undo), end="")


def print_differences(folder: Path, first: int, last: int, number: Optional[int]) -> None:
    """Prints what differs between two numbers of the world. `Failed`: the journal doesn't tell."""
    low, high = sorted((first, last))
    petitions: dict[int, list[Call]] = {}
    between, reached = Between(lambda petition: petitions.get(petition, [])), None
    for batch in history_of(folder):
        for text, answer in batch.answered:
            if call_name(text) == "petition" and answer.isdigit():
                petitions[int(answer)] = Call.read(text).asked
        if low < batch.seq <= high:
            if reached is None and batch.seq != low + 1:
                raise Failed(f"the journal begins after number {low}: its first batch is {batch.seq}")
            between.take(batch)
            reached = batch.seq
    if low != high and reached != high:
        raise Failed(f"the journal has no batch {high}")
    found = between.differences(number)
    for one in found if first <= last else swapped(found):
        print(one)


def in_ascii(sentence: str) -> str:
    """A sentence for a terminal, which may have no other letters than ASCII."""
    return sentence.replace("’", "'").replace("…", "..")


def main() -> None:
    """Runs the program with the words of the command line."""
    said = read_words(sys.argv[1:])
    tell = Teller("moo-replay")
    try:
        if said.undo is not None:
            print_undo(said.folder, said.undo, tell)
        elif said.diff is not None:
            print_differences(said.folder, said.diff[0], said.diff[1], said.number)
        elif said.follow:
            follow(said, program_named(said.moo), tell)
        else:
            print(f"seq {replay(said, tell)}")
    except Late as error:
        print(f"moo-replay: {error}", file=sys.stderr)
        sys.exit(LATE_STATUS)
    except (Failed, Damaged, InUse, OSError) as error:
        sys.exit(f"moo-replay: {error}")
    except KeyboardInterrupt:
        sys.exit(130)
