"""Batches of a journal, run on the file of a world: one run of `moo apply` after another, and every answer is compared."""

from __future__ import annotations

import os
import re
import shutil
import subprocess
from pathlib import Path

from moolib.calls import call_name
from moolib.errors import Failed

from moo_web.journal.segments import Accepted, kept_answers

# moo takes texts of at most 1 GiB.
LONGEST_TEXT = 1 << 29
OF_PETITIONS = ("petition", "petitions", "grant", "decline")
FROM_A_DUMP = ". A world that was loaded from a dump gives numbers of granted and declined petitions again: begin with a copy of the file"
IN_USE = "in use by another program"
PASSING = ("fault", "closed", "nomemory")


class Ended(Failed):
    """moo ended, had no room, or can't have the world now: the file is as it was, or has one batch more. It may be tried again."""


def program_named(given: str | None) -> str:
    """The program moo: as it is named, as the variable MOO names it, of the path, or of this checkout. `Failed`: there is none."""
    checkout = Path(__file__).resolve().parents[3] / "moo"
    found = given or os.environ.get("MOO") or shutil.which("moo") or (str(checkout) if checkout.is_file() else None)
    if not found:
        raise Failed("the program moo isn't in the path: name it by --moo")
    return found


class WorldFile:
    """A file that one run of `moo apply` after another brings on. `seq` is its number. `Ended`: another program has it open."""

    def __init__(self, program: str, file: str) -> None:
        self.program, self.file = program, file
        self.process: subprocess.Popen[bytes] | None = None
        self.sent = 0
        ran = subprocess.run([program, "check", file], stdin=subprocess.DEVNULL, capture_output=True, text=True, check=False)
        found = re.fullmatch(r"ok seq (\d+) objects \d+\n", ran.stdout)
        if not found:
            kind = Ended if IN_USE in ran.stderr else Failed
            raise kind(f"{file} isn't a whole world that can be opened: {(ran.stderr or ran.stdout).strip()}")
        self.seq = int(found[1])

    def run(self, batch: Accepted) -> None:
        """Runs a batch. `Failed`: its answers aren't those of the journal. `Ended`: as that says."""
        text = f"batch as #{batch.programmer} at {batch.at}\n" + "".join(f"{call}\n" for call in batch.calls) + "end\n"
        if self.sent + len(text) > LONGEST_TEXT:
            self.close()
        process = self.opened()
        assert process.stdin
        try:
            process.stdin.write(text.encode())
            process.stdin.flush()
        except OSError:
            raise Ended(f"moo ended before batch {batch.seq}; {self.file} has number {self.seq} or the next") from None
        self.sent += len(text)
        self.compare(batch)
        self.seq = batch.seq

    def opened(self) -> subprocess.Popen[bytes]:
        """The run of moo that takes batches."""
        if not self.process:
            words = [self.program, "apply", self.file, "-"]
            self.process, self.sent = subprocess.Popen(words, stdin=subprocess.PIPE, stdout=subprocess.PIPE), 0
        return self.process

    def compare(self, batch: Accepted) -> None:
        """Reads the reply to a batch, which has to be the journal's."""
        first = self.line()
        if first in PASSING:
            raise Ended(f"moo replies {first} to batch {batch.seq}; {self.file} has number {self.seq} or the next")
        if first != f"accepted {batch.seq}":
            raise Failed(f"batch {batch.seq} was accepted by the journal, and moo replies {first!r}{advice(batch)}")
        answers = [self.line() for _ in batch.calls]
        if self.line() != "end":
            raise Failed(f"moo's reply to batch {batch.seq} has another end")
        if kept_answers(answers) != batch.kept:
            raise Failed(f"{difference(batch, answers)}: {self.file} isn't the world of this journal, and is of no use now{advice(batch)}")

    def line(self) -> str:
        """One line of a reply."""
        assert self.process and self.process.stdout
        line = self.process.stdout.readline().decode()
        if not line.endswith("\n"):
            raise Ended(f"moo ended; {self.file} has number {self.seq} or the next: run this again")
        return line[:-1]

    def close(self) -> None:
        """Ends the run of moo."""
        process, self.process = self.process, None
        if process:
            process.communicate()


def difference(batch: Accepted, answers: list[str]) -> str:
    """How answers differ from those that the journal has of a batch."""
    for place, (answer, kept) in enumerate(zip(answers, batch.answers or ()), 1):
        if answer != kept:
            return f"call {place} of batch {batch.seq} answered {answer}, and {kept} by the journal"
    return f"the answers to batch {batch.seq} have another sum than by the journal"


def advice(batch: Accepted) -> str:
    """Why a batch may have another outcome, if it has to do with petitions."""
    return FROM_A_DUMP if any(call_name(call) in OF_PETITIONS for call in batch.calls) else ""
