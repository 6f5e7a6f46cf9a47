"""Runs of tools/moo-shell on worlds of the program under test, by scripts and at a terminal."""

from __future__ import annotations

import os
import subprocess
import sys
import tempfile
import time
from pathlib import Path

from tests.support import TOOLS
from tests.support.program import MOO, Ended
from tests.support.terminal import Terminal

PATIENCE = 240
SHELL = [sys.executable, str(TOOLS / "moo-shell"), "--moo", MOO]


def environment(**more: str) -> dict[str, str]:
    """What the shell is given besides its words: a terminal, a pager that shows all, a history, and where Python keeps its work."""
    kept = {name: value for name, value in os.environ.items() if name not in ("MOO_TOKEN", "NO_COLOR", "LINES", "COLUMNS")}
    compiled = {"PYTHONPYCACHEPREFIX": f"{tempfile.gettempdir()}/moo-shell-compiled"}
    return {**kept, **compiled, "TERM": "xterm", "PAGER": "cat", "MOO_SHELL_HISTORY": "history", **more}


def run_shell(*words: str, text: str = "", patience: float = PATIENCE, **more: str) -> Ended:
    """How the shell ends, with a text as its standard input."""
    ran = subprocess.run(
        [*SHELL, *words], input=text.encode(), stdout=subprocess.PIPE, stderr=subprocess.PIPE, timeout=patience, env=environment(**more)
    )
    return Ended(ran.returncode, ran.stdout.decode(), ran.stderr.decode())


def run_script(text: str | bytes, *words: str, name: str = "build.moo", world: str = "world.db") -> Ended:
    """How a script ends that is in a file of this name."""
    Path(name).write_bytes(text if isinstance(text, bytes) else text.encode())
    return run_shell("-f", name, *words, world)


def at_prompt(*words: str, **more: str) -> Terminal:
    """The shell at a terminal, at its first prompt."""
    shell = Terminal([*SHELL, *words], environment(**more))
    shell.until("> ")
    return shell


def children(process: int) -> list[int]:
    """The processes that a process has started and that still run."""
    return [int(each) for each in Path(f"/proc/{process}/task/{process}/children").read_text().split()]


def is_running(process: int) -> bool:
    """Whether a process runs: one that has ended and that nobody waits for doesn't."""
    try:
        return Path(f"/proc/{process}/stat").read_text().rpartition(")")[2].split()[0] != "Z"
    except OSError:
        return False


def has_ended(process: int, seconds: float = PATIENCE) -> bool:
    """Whether a process ends within this time."""
    end = time.monotonic() + seconds
    while is_running(process):
        if time.monotonic() > end:
            return False
        time.sleep(0.05)
    return True


