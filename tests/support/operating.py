"""A service that is killed and started again, and what is in its world. For the tests of tools/."""

from __future__ import annotations

import importlib.machinery
import importlib.util
import pathlib
import random
import re
import subprocess
import threading
import time
from types import ModuleType
from typing import Optional

from tests.support import TOOLS
from tests.support.program import MOO
from tests.support.service import CANNOT_LISTEN, free_port

# How long is waited for what comes at once on a machine that has time.
SECONDS = 300


def said(*words: object, text: str = "") -> tuple[int, str]:
    """The status of the program with these words, and what it printed."""
    ran = subprocess.run([MOO, *map(str, words)], input=text, stdout=subprocess.PIPE, stderr=subprocess.DEVNULL, text=True, timeout=SECONDS)
    return ran.returncode, ran.stdout


def checked(file: object) -> Optional[int]:
    """The number of a whole world in a file; None if `check` finds no whole one."""
    status, line = said("check", file)
    found = re.fullmatch(r"ok seq (\d+) objects \d+\n", line)
    return int(found[1]) if status == 0 and found else None


def make_world(file: object, text: str) -> None:
    """A new world on which a text of batches has run."""
    if said("init", file) != (0, "created\n"):
        raise AssertionError("a world couldn't be made")
    status, replies = said("apply", file, "-", text=text)
    if status or re.search(r"^(refused|malformed|stale|fault)", replies, re.M):
        raise AssertionError(f"the first batches were answered {replies!r}")


class Pace:
    """The time between two kills. If nothing comes about meanwhile, as on a busy machine, it gets longer."""

    LONGEST = 30.0

    def __init__(self, chance: random.Random, seconds: float) -> None:
        self.chance, self.seconds, self.now, self.done = chance, seconds, seconds, 0

    def rest(self, done: int) -> None:
        """Rests for up to so long. `done` is how much has come about by now."""
        self.now = max(self.seconds, self.now / 1.1) if done > self.done else min(1.5 * self.now, self.LONGEST)
        self.done = done
        time.sleep(self.chance.uniform(0, self.now))


class KeptService:
    """`serve FILE PORT COUNT`, which is started again whenever it ends, until `stop`."""

    def __init__(self, file: object, count: int = 1_000_000, rest: float = 0.0, port: Optional[int] = None) -> None:
        self.file, self.count, self.rest = file, count, rest
        self.port, self.is_chosen = port or free_port(), not port
        self.starts = 0
        self.process: Optional[subprocess.Popen[bytes]] = None
        self.is_stopped, self.is_listening = threading.Event(), threading.Event()
        # Held while a program is started, so that none is that `stop` doesn't see.
        self.starting = threading.Lock()
        self.keeper = threading.Thread(target=self.keep, daemon=True)
        self.keeper.start()
        if not self.is_listening.wait(SECONDS):
            raise AssertionError("the service doesn't listen")

    def keep(self) -> None:
        """Runs the program again and again."""
        while True:
            with self.starting:
                if self.is_stopped.is_set():
                    return
                words = [MOO, "serve", str(self.file), str(self.port), str(self.count)]
                self.process = subprocess.Popen(words, stdout=subprocess.PIPE, stderr=subprocess.DEVNULL)
            with self.process as process:
                assert process.stdout
                first = process.stdout.readline().decode()
                if first.startswith("listening"):
                    self.starts += 1
                    self.is_listening.set()
                process.wait()
            if first == CANNOT_LISTEN and self.is_chosen and not self.starts:
                # Another program has taken the port just now.
                self.port = free_port()
            self.is_listening.clear()
            self.is_stopped.wait(self.rest)

    def kill(self) -> None:
        """Kills the program that runs. `is_listening` is set again by the next one."""
        self.is_listening.clear()
        assert self.process
        self.process.kill()

    def stop(self) -> None:
        """Ends it for good."""
        with self.starting:
            self.is_stopped.set()
        self.kill()
        self.keeper.join(SECONDS)


def tool(name: str, folder: pathlib.Path = TOOLS) -> ModuleType:
    """A program of tools/ or of another folder as a module."""
    loader = importlib.machinery.SourceFileLoader(name.replace("-", "_"), str(folder / name))
    spec = importlib.util.spec_from_loader(loader.name, loader)
    assert spec
    module = importlib.util.module_from_spec(spec)
    loader.exec_module(module)
    return module
