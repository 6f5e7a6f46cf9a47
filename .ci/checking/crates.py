"""What the checker is given for a crate: its root file, and the libraries that it uses, as they were built here."""
from __future__ import annotations

import subprocess
from functools import lru_cache
from pathlib import Path

TOP = Path(__file__).resolve().parents[2]
CRATES = TOP / "crates"


class Lacking(Exception):
    """A check can't be made here, for a reason."""


@lru_cache(maxsize=None)
def kit() -> Path:
    """The folder of the kit, which `rt doc` tells. `Lacking`: there is no kit."""
    try:
        ran = subprocess.run(["rt", "doc"], stdout=subprocess.PIPE, text=True, check=True)
    except (OSError, subprocess.CalledProcessError) as error:
        raise Lacking(f"it takes the Rattle kit: {error}") from error
    return Path(ran.stdout.strip()).parent


def read_uses(text: str) -> dict[str, list[str]]:
    """What each crate of a crates.txt uses, in the order of the file."""
    lines = [line.partition("#")[0].partition(":") for line in text.splitlines()]
    return {name.split()[0]: used.split() for name, _, used in lines if name.strip()}


def below(crate: str, uses: dict[str, list[str]]) -> list[str]:
    """The crates of the repository below a crate, each once. `Lacking`: it is none of them."""
    if crate not in uses:
        raise Lacking(f"crates.txt has no crate {crate}")
    found: list[str] = []
    for used in uses[crate]:
        if used in uses:
            found += [each for each in [*below(used, uses), used] if each not in found]
    return found


def library(crate: str) -> Path:
    """The folder of a crate that is built as a library for those above it."""
    return CRATES / crate / "out/rlib" / f"{crate}.rlib"


def words(crate: str) -> list[str]:
    """The words that a check of a crate has, in a folder with its sources. `Lacking`: a library below it isn't built."""
    uses = read_uses((TOP / "crates.txt").read_text())
    own = below(crate, uses)
    unbuilt = [each for each in own if not library(each).is_dir()]
    if unbuilt:
        raise Lacking(f"{crate} uses {unbuilt[0]}, which isn't built here: run `rt check` in crates/{crate}")
    root = "src/main.rt" if (CRATES / crate / "src/main.rt").is_file() else "src/lib.rt"
    found = ["--crate-name", crate, root, "--jobs", "1", "--links", f"{crate}="]
    for used in ["std", *uses[crate]]:
        found += ["--extern", f"{used}={library(used) if used in uses else kit() / 'rlibs' / f'{used}.rlib'}"]
    for folder in [kit() / "rlibs", *(library(each).parent for each in own)]:
        found += ["-L", f"dependency={folder}"]
    return [*found, "--antt-project", f"{kit()}/rattle/logic/antt-project.json", "--logic-built", f"{kit()}/logic_built"]
