"""The processes that a test starts, so that none of them outlives it."""
from __future__ import annotations

import atexit
import contextlib
import os
import resource
import signal
import subprocess
import sys
import time
from pathlib import Path
from typing import Any, Iterator, Sequence

# The script that starts a program of web/ which sends itself a signal.
SIGNALLED = Path(__file__).with_name("signalled.py")
started: list[subprocess.Popen[bytes]] = []


def start(words: Sequence[Any], **how: Any) -> subprocess.Popen[bytes]:
    """A process of these words, as subprocess.Popen starts it."""
    process = subprocess.Popen(words, **how)
    started.append(process)
    return process


@contextlib.contextmanager
def inherited_signal(number: signal.Signals, action: signal.Handlers) -> Iterator[None]:
    """What is started meanwhile begins with a signal that is ignored, or that ends it, whichever whoever runs the tests has chosen."""
    before = signal.signal(number, action)
    try:
        yield
    finally:
        signal.signal(number, before)


def run_script(words: Sequence[Any], seconds: float, **variables: str) -> tuple[int, str]:
    """The status of a script, and all that it says. What it started itself ends with it, and all of it after so many seconds."""
    script = start(
        words, env=dict(os.environ, **variables), start_new_session=True, stdin=subprocess.DEVNULL, stdout=subprocess.PIPE,
        stderr=subprocess.STDOUT
    )
    try:
        said, _ = script.communicate(timeout=seconds)
    finally:
        with contextlib.suppress(ProcessLookupError):
            os.killpg(script.pid, signal.SIGKILL)
    return script.returncode, said.decode(errors="replace")


def run_python(script: object, *words: object) -> tuple[int, str]:
    """The same of a script in Python."""
    return run_script([sys.executable, "-B", script, *words], 300)


def seconds_of_children() -> float:
    """The seconds of a processor that the processes took which were started and have ended, with those that they started."""
    used = resource.getrusage(resource.RUSAGE_CHILDREN)
    return used.ru_utime + used.ru_stime


def stand_still(process: subprocess.Popen[bytes]) -> None:
    """Stops a process, and waits until it stands still."""
    process.send_signal(signal.SIGSTOP)
    while state_of(process) not in "TZ":
        time.sleep(0.0002)


def state_of(process: subprocess.Popen[bytes]) -> str:
    """The letter of a process's state, as T if it is stopped and Z if it has ended."""
    return Path(f"/proc/{process.pid}/stat").read_text().rpartition(")")[2].split()[0]


def end_all() -> None:
    """Kills those that still run, and closes the streams of all."""
    while started:
        process = started.pop()
        if process.poll() is None:
            process.kill()
        process.wait()
        for stream in (process.stdin, process.stdout, process.stderr):
            if stream:
                # What was not sent yet can't be.
                with contextlib.suppress(OSError):
                    stream.close()


# So it is if the tests are broken off.
atexit.register(end_all)
