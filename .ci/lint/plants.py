"""That plants/ says of each bug that stays proved why it may, and that its function and its text are there still."""
from __future__ import annotations

import sys
from pathlib import Path
from typing import Iterator, Optional

TOP = Path(__file__).resolve().parents[2]
sys.path.insert(0, str(TOP / ".ci"))

from planting.functions import functions_of  # noqa: E402
from planting.register import HEAD, Survivor, read  # noqa: E402

PLANTS, CRATES = TOP / "plants", TOP / "crates"


def misfit(crate: Path, survivor: Survivor) -> Optional[str]:
    """Why a bug can't be planted as it is told, or nothing if it can."""
    file, _, path = survivor.place.partition(" ")
    if not (crate / file).is_file():
        return f"there is no {file}"
    text = (crate / file).read_text()
    if not any(each.path == path for each in functions_of(file, text)):
        return f"{file} has no function {path}"
    return None if survivor.old in " ".join(text.split()) else f"{file} has no text {survivor.old}"


def complaint(register: Path) -> Optional[str]:
    """What is wrong with the register of a crate."""
    crate, text = CRATES / register.name, register.read_text()
    if not crate.is_dir() or not text.startswith(HEAD):
        return "there is no such crate" if text.startswith(HEAD) else "it hasn't the head that .ci/plant writes"
    known = read(text)
    wrong = [f"{each.place}: it has no reason" for each, why in known.items() if not why]
    return "; ".join([*wrong, *filter(None, (misfit(crate, each) for each in known))]) or None


def cases() -> Iterator[tuple[str, Optional[str]]]:
    """The name of each case, and what is wrong with it."""
    for register in sorted(PLANTS.iterdir()):
        yield register.name, complaint(register)
