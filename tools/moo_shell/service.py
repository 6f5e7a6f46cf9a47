"""A service of the shell's own: `moo serve FILE PORT COUNT`, on a free port of this machine, that ends with the shell."""

from __future__ import annotations

import ctypes
import os
import select
import shutil
import signal
import socket
import subprocess
import sys
import tempfile
import time
from pathlib import Path
from typing import IO, Optional

from moo_shell.door import Door
from moolib.errors import Failed

# How many connections one run of the program takes. After them it is started again.
COUNT = 1_000_000
TRIES = 20
PATIENCE = 10
PR_SET_PDEATHSIG = 1
DATABASE, LAMBDAMOO = b"SQLite format 3\0", b"** LambdaMOO Database"


def find_program(named: Optional[str]) -> Optional[str]:
    """The program `moo`: the one that is named, or that of this checkout, or the one beside the shell, or the one in PATH."""
    if named:
        return shutil.which(named) or named
    here = Path(sys.argv[0]).resolve().parent
    for path in (here.parent / "crates/moo/out/moo", here.parent / "moo", here / "moo"):
        if path.is_file() and os.access(path, os.X_OK):
            return str(path)
    return shutil.which("moo")


def look_at(file: str) -> None:
    """Says of a file that can't hold a world why it can't. The program isn't run on it, so nothing is left beside it."""
    if file == ":memory:":
        return
    try:
        with open(file, "rb") as opened:
            head = opened.read(64)
    except FileNotFoundError:
        raise Failed(f"there is no {file}; `moo init {file}` makes a new world") from None
    except OSError as error:
        raise Failed(f"{file}: {error.strerror}") from None
    if head.startswith(LAMBDAMOO):
        raise Failed(f"{file} is a database of LambdaMOO: `from_lambdamoo.py {file} | moo load world.db -` makes a world of it")
    if head.startswith(b"seq "):
        raise Failed(f"{file} is a dump: `moo load world.db {file}` makes a world of it")
    if not head:
        raise Failed(f"{file} is empty; `moo init {file}` makes a new world in it")
    if not head.startswith(DATABASE):
        raise Failed(f"{file} isn't a database of moo")


def free_port() -> int:
    """A port that nobody listens on now, chosen by the system."""
    with socket.socket() as probe:
        probe.bind(("127.0.0.1", 0))
        return int(probe.getsockname()[1])


class OwnService(Door):
    """A service of the shell's own, and the door to it."""

    def __init__(self, program: str, file: str) -> None:
        super().__init__(0)
        self.program, self.file = program, file
        self.process: Optional[subprocess.Popen[bytes]] = None
        self.said: Optional[IO[bytes]] = None
        look_at(file)
        self.start()

    def where(self) -> str:
        return f"the service of {self.file}"

    def start(self) -> None:
        """Starts the program on a port that is free, and waits until it listens."""
        for _ in range(TRIES):
            self.port = free_port()
            line, said = self.run()
            if line == f"listening 127.0.0.1:{self.port}":
                return
            status = self.process.wait() if self.process else 1
            self.end()
            if line != "moo: cannot listen":
                why = next((part for part in said.splitlines() if part.startswith("moo: ")), line) or f"moo ended with status {status}"
                raise Failed(f"{self.file}: {why[len('moo: ') :] if why.startswith('moo: ') else why}", status=max(status, 1))
        raise Failed("no port of this machine is free")

    def run(self) -> tuple[str, str]:
        """The first line of a run of the program, and what it said on standard error before that."""
        self.said = tempfile.TemporaryFile()
        parent = os.getpid()
        words = [self.program, "serve", self.file, str(self.port), str(COUNT)]
        try:
            self.process = subprocess.Popen(
                words,
                stdin=subprocess.DEVNULL,
                stdout=subprocess.PIPE,
                stderr=self.said,
                start_new_session=True,
                preexec_fn=lambda: end_with(parent),
            )
        except OSError as error:
            self.end()
            raise Failed(f"{self.program} can't be run: {error.strerror}") from None
        return self.first_line(), self.told()

    def first_line(self) -> str:
        """The first line of standard output. Meanwhile it shows what the program says of its progress."""
        assert self.process and self.process.stdout
        line, shown = b"", 0
        while not line.endswith(b"\n"):
            if not select.select([self.process.stdout], [], [], 1)[0]:
                told = self.told()
                sys.stderr.write(told[shown:])
                sys.stderr.flush()
                shown = len(told)
                continue
            byte = os.read(self.process.stdout.fileno(), 1)
            if not byte:
                break
            line += byte
        return line.decode("utf-8", "replace").rstrip("\n")

    def told(self) -> str:
        """What the program has said on standard error."""
        if not self.said:
            return ""
        self.said.seek(0)
        return self.said.read().decode("utf-8", "replace")

    def end(self) -> None:
        """Ends the program, if it runs. What it answered is kept."""
        process, self.process = self.process, None
        if process:
            process.terminate()
            try:
                process.wait(PATIENCE)
            except subprocess.TimeoutExpired:
                process.kill()
                process.wait()
            if process.stdout:
                process.stdout.close()
        if self.said:
            self.said.close()
            self.said = None

    def rest(self, seconds: float) -> None:
        """Starts the program again if it has ended, as after its last connection."""
        if self.process is None or self.process.poll() is None:
            time.sleep(seconds)
            return
        status = self.process.returncode
        self.end()
        if status:
            print(f"the service ended with status {status}, and is started again", file=sys.stderr)
        self.start()

    def dump(self) -> str:
        """The dump of the world. The service is ended for it, and started again."""
        if self.file == ":memory:":
            raise Failed("this moo has no dump of a world that is in memory alone")
        self.end()
        try:
            ran = subprocess.run([self.program, "dump", self.file], stdin=subprocess.DEVNULL, capture_output=True, text=True)
        finally:
            self.start()
        if ran.returncode:
            raise Failed((ran.stderr or ran.stdout).strip())
        return ran.stdout


def end_with(parent: int) -> None:
    """In the new process: it is killed when the shell ends, whatever ends that."""
    ctypes.CDLL(None).prctl(PR_SET_PDEATHSIG, signal.SIGKILL)
    signal.pthread_sigmask(signal.SIG_SETMASK, set())
    if os.getppid() != parent:
        os._exit(1)
