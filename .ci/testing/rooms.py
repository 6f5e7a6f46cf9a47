"""A folder for what the tests make, in which programs can be run."""
from __future__ import annotations

import subprocess
import sys
import tempfile
from pathlib import Path
from typing import Optional

OTHERS = ("/dev/shm", "/var/tmp")


def folder() -> str:
    """The folder for temporary files, if a program can be run there: the tests make some. Else another one, which is told on standard
    error; if no program can be run in any, the first of them."""
    usual = tempfile.gettempdir()
    for place in (usual, *OTHERS):
        if runs_programs(place):
            if place != usual:
                print(f".ci/test: no program can be run in {usual} (is it mounted noexec?): the tests use {place}", file=sys.stderr, flush=True)
            return place
    return usual


def runs_programs(place: str) -> bool:
    """Whether a script can be made and run in a folder."""
    try:
        with tempfile.TemporaryDirectory(prefix="moo-tests-", dir=place) as made:
            script = Path(made, "script")
            script.write_text("#!/bin/sh\n")
            script.chmod(0o755)
            return status_of(script) == 0
    except OSError:
        return False


def status_of(script: Path) -> Optional[int]:
    """The status of a script. `OSError`: it can't be started."""
    return subprocess.run([script], stdin=subprocess.DEVNULL, check=False).returncode
