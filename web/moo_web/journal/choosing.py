"""The copy from which a world is made again: of the history that counts now, and with most of what is asked for."""

from __future__ import annotations

import argparse
import os
import shutil
import subprocess
from pathlib import Path
from typing import Callable

from moolib.copies import Place, WorldCopy, copies_in, fault_of
from moolib.errors import Failed

from moo_web.journal.branches import Course, course_of
from moo_web.journal.marks import Mark
from moo_web.programs import sync_folder


def make_file(said: argparse.Namespace, program: str, tell: Callable[[str], None]) -> None:
    """Makes FILE from the best copy in the folder COPIES; or as a new world, if none fits and the journal begins at 0.

    `Failed`: FILE is there already, or nothing fits. `Damaged`: a sum of the journal is wrong.
    """
    file = Path(said.file)
    if file.exists() or file.with_name(file.name + "-wal").exists():
        raise Failed(f"{file} is there already, and --copies makes a new one: go on with it without --copies, or move it away with its log")
    places = places_in(said.copies, file.name, tell)
    course = course_of(said.folder, said.at, [place.sum for place in places.values() if place])
    most = course.seq if said.to is None else min(said.to, course.seq)
    for copy in best_first(places):
        fault = unfit(course, copy, places[copy], most) or fault_of(copy)
        if not fault:
            put_file(copy, places[copy], file)
            tell(f"it begins with {copy.path}")
            return
        if copy.number <= most or said.to is None and said.at is None:
            tell(f"left out: {copy.path}: {fault}")
    begin_new(course, said, program, tell)


def places_in(folder: Path, name: str, tell: Callable[[str], None]) -> dict[WorldCopy, Place | None]:
    """The copies of the world of this file name in a folder, with the places that they say. One whose place can't be read is left out."""
    places = {}
    for copy in copies_in(folder, name):
        try:
            places[copy] = copy.place()
        except ValueError as error:
            tell(f"left out: {error}")
    return places


def best_first(places: dict[WorldCopy, Place | None]) -> list[WorldCopy]:
    """Copies with the greatest number first. Of two with one number the first is one that says its place, and then that of the later name."""
    return sorted(places, key=lambda copy: (copy.number, places[copy] is not None, copy.path.name), reverse=True)


def unfit(course: Course, copy: WorldCopy, place: Place | None, most: int) -> str:
    """Why a world can't be made from a copy by this journal, at most up to this number; nothing if it can."""
    if copy.number > most:
        return f"it has number {copy.number}, and the journal goes up to {most}"
    if course.first is not None and copy.number < course.first:
        return f"it has number {copy.number}, and the journal begins at {course.first}"
    return course.fault_of(copy.path, copy.number, place)


def put_file(copy: WorldCopy, place: Place | None, file: Path) -> None:
    """Copies the files of a copy to FILE, onto the disk, and notes its place."""
    for end in ("-wal", ""):
        source = copy.path / f"{file.name}{end}"
        if source.exists():
            put_copy(source, file.with_name(file.name + end))
    mark = Mark(file)
    # That of a file which was there before says nothing of this one.
    mark.path.unlink(missing_ok=True)
    if place:
        mark.put(place.seq, place.sum)
        mark.close()
    sync_folder(file.absolute().parent)


def put_copy(source: Path, target: Path) -> None:
    """Copies one file to a new one of mode 0600, onto the disk."""
    opened = os.open(target, os.O_WRONLY | os.O_CREAT | os.O_EXCL, 0o600)
    with open(source, "rb") as old, open(opened, "wb") as new:
        shutil.copyfileobj(old, new, 1 << 20)
        new.flush()
        os.fsync(new.fileno())


def begin_new(course: Course, said: argparse.Namespace, program: str, tell: Callable[[str], None]) -> None:
    """Makes a new world, from which the journal goes on if it begins at 0. `Failed`: it doesn't."""
    if course.first != 0:
        raise Failed(f"{said.copies} has no copy of {Path(said.file).name} from which this journal can go on: it begins at number {course.first}")
    ran = subprocess.run([program, "init", said.file], stdin=subprocess.DEVNULL, capture_output=True, text=True, check=False)
    if ran.returncode:
        raise Failed(f"{said.file} can't be made: {(ran.stderr or ran.stdout).strip()}")
    Mark(Path(said.file)).path.unlink(missing_ok=True)
    tell("it begins with a new world")
