"""The program `moo-demo`: a village with three people in it, served until Ctrl-C, which leaves nothing.

It makes a new world of `examples/village.moo` in a folder of its own, starts `moo` and the front, and lets the people do a few things
through the front, so that its journal has something to show. The folder is removed at the end.
"""

from __future__ import annotations

import argparse
import contextlib
import json
import os
import secrets
import signal
import socket
import subprocess
import sys
import tempfile
from pathlib import Path
from typing import NamedTuple

from moolib.calls import call_name
from moolib.errors import Failed
from moolib.front import FrontService

from moo_web.people.people import People
from moo_web.programs import PEOPLE_FILE, only_ours, port_number
from moo_web.serving import DEBIANS_MODULES, PORT

WEB = Path(__file__).resolve().parents[1]
TOP = WEB.parent
USAGE = "moo-demo [--port P] [--moo PROGRAM]"
MORE = """
It needs Debian's python3-waitress and python3-jinja2, and the program moo: that of --moo, of the variable MOO, or of this checkout. Ctrl-C
ends it.
"""
STOP_SECONDS = 10.0
ENDS = (signal.SIGINT, signal.SIGTERM, signal.SIGHUP)
AGAIN = 1.0
PACKAGES = (("waitress", "python3-waitress"), ("jinja2", "python3-jinja2"))


class Guest(NamedTuple):
    """Somebody of the village: the account's name, what they are, the number of their object, and their password."""

    name: str
    role: str
    number: int
    password: str


# The rooms are #7 to #16.
MOVED = tuple(f"move(#{room}, #22)" for room in range(7, 17))
# Everybody may read the quotas of Ada, Ben and Cleo.
SHOWN_QUOTAS = tuple(f'set_property_info(#{one}, "ownership_quota", {{#3, "r"}})' for one in (18, 19, 23))
# What is done through the front at the beginning, by whom. #22 is the village, #23 is Cleo.
FIRST: tuple[tuple[str, tuple[str, ...]], ...] = (
    ("wizard", ("create(#1)", 'set(#22, "name", "The Village")', "set_accept(#22, {#1})", *MOVED)),
    ("wizard", ("create(#1, #-1)", 'set(#23, "name", "Cleo")', "set_player_flag(#23, 1)", 'set(#23, "ownership_quota", 0)')),
    ("wizard", ("move(#23, #11)", 'set(#18, "ownership_quota", 20)', *SHOWN_QUOTAS)),
    ("wizard", tuple(f'set(#{one}, "r", 1)' for one in (1, 4, 5, 6, 7, 17))),
    ("wizard", ('set(#12, "description", "Cool and dark, but for a lamp.")', "move(#20, #22)")),
    ("ada", ('set(#20, "description", "It smells of smoke and of apples.")', "create(#6)", 'set(#24, "name", "candle")')),
    ("ada", ('set(#24, "description", "A stump of wax.")', 'set(#24, "lit", 1)', "move(#24, #20)")),
    ("ben", ('set(#21, "name", "Ben\'s Boat")', 'set(#21, "description", "It leaks a little.")')),
    ("ben", ('petition({{"move", #21, #10}, {"set", #19, "ownership_quota", 3}})',)),
    ("cleo", ('petition({{"move", #17, #11}})',)),
)
# Why Ben and Cleo ask.
REASONS = {"ben": "It would be better there, and I need a few more objects for the oars.", "cleo": "I would like to have it near me."}
# The objects of the people in the village, once all that was done.
GUESTS = (("wizard", "a wizard, who may do everything", 3), ("ada", "a builder", 18), ("ben", "a builder", 19), ("cleo", "a resident", 23))


def lacking() -> list[str]:
    """The packages of Debian's that are missing."""
    sys.path.append(DEBIANS_MODULES)
    missing = []
    for module, package in PACKAGES:
        try:
            __import__(module)
        except ImportError:
            missing.append(package)
    return missing


def program_at(said: str | None) -> Path:
    """The program moo. `Failed`: it isn't there."""
    program = Path(said or os.environ.get("MOO") or TOP / "crates/moo/out/moo").absolute()
    if not os.access(program, os.X_OK):
        raise Failed(f"the program {program} is missing: run 'make', or name another one with --moo")
    return program


def free_port(wanted: int) -> int:
    """This port of the machine if nobody listens there, or else another one."""
    for port in (wanted, 0):
        with socket.socket() as probe, contextlib.suppress(OSError):
            probe.setsockopt(socket.SOL_SOCKET, socket.SO_REUSEADDR, 1)
            probe.bind(("127.0.0.1", port))
            return int(probe.getsockname()[1])
    raise Failed("no port of this machine is free")


class Demo:
    """The village in a folder, and the programs that serve it."""

    def __init__(self, folder: Path, program: Path, port: int) -> None:
        self.folder, self.program, self.port = folder, program, port
        self.moo_port = free_port(0)
        self.running: list[subprocess.Popen[str]] = []
        self.guests = [Guest(name, role, number, secrets.token_hex(4)) for name, role, number in GUESTS]

    def make_world(self) -> None:
        """A new world with the village."""
        world = self.folder / "village.db"
        ran_well([str(self.program), "init", str(world)], "a world can't be made")
        shell = [str(TOP / "tools/moo-shell"), "--moo", str(self.program), "-q", "-f", str(TOP / "examples/village.moo"), str(world)]
        ran_well(shell, "the village can't be made")

    def start(self) -> None:
        """Starts both programs, once there are accounts."""
        self.launched([str(self.program), "serve", str(self.folder / "village.db"), str(self.moo_port)])
        (self.folder / "front").mkdir(mode=0o700)
        people = People(self.folder / "front" / PEOPLE_FILE)
        try:
            for guest in self.guests:
                people.add(guest.name, guest.number, guest.password)
            tokens = {guest.name: people.tokens.make(guest.name) for guest in self.guests}
            front = [str(WEB / "moo-web"), str(self.folder / "front"), "--moo-port", str(self.moo_port), "--port", str(self.port)]
            self.launched(front)
            for name, calls in FIRST:
                self.send(tokens[name], calls, REASONS.get(name, "") if call_name(calls[0]) == "petition" else "")
            for name in tokens:
                people.tokens.end_all(name)
        finally:
            people.close()

    def launched(self, words: list[str]) -> None:
        """Starts a program, and waits for the line that it prints when it listens. A signal of the terminal doesn't reach it."""
        with open(self.folder / "told", "a") as told:
            running = subprocess.Popen(words, stdout=subprocess.PIPE, stderr=told, text=True, start_new_session=True)
        self.running.append(running)
        assert running.stdout
        if not running.stdout.readline().startswith("listening"):
            raise Failed(f"{Path(words[0]).name} doesn't start: {(self.folder / 'told').read_text().strip()}")

    def send(self, token: str, calls: tuple[str, ...], words: str) -> None:
        """Sends a batch with these words through the front."""
        front = FrontService(f"http://127.0.0.1:{self.port}", token)
        answer = front.sent("POST", "/batch", json.dumps({"calls": calls, "words": words}).encode())
        if not answer.is_good:
            raise Failed(f"the village is another one than this program knows: {answer.text}")

    def wait(self) -> None:
        """Waits for the front, which ends by itself only with a failure. `Failed`: it has."""
        self.running[-1].wait()
        raise Failed(f"the front ended: {(self.folder / 'told').read_text().strip()}")

    def stop(self) -> None:
        """Ends both programs, the front first."""
        for running in reversed(self.running):
            running.terminate()
            try:
                running.wait(STOP_SECONDS)
            except subprocess.TimeoutExpired:
                running.kill()
                running.wait()


def ran_well(words: list[str], what: str) -> None:
    """Runs a program to its end. `Failed`: it says that something went wrong."""
    ran = subprocess.run(words, capture_output=True, text=True, stdin=subprocess.DEVNULL, check=False)
    if ran.returncode:
        raise Failed(f"{what}: {(ran.stderr or ran.stdout).strip()}")


def greet(demo: Demo) -> None:
    """Says how to come in."""
    print(f"\nThe village is at  http://127.0.0.1:{demo.port}/\n")
    for guest in demo.guests:
        print(f"    {guest.name:8}{guest.password:12}{guest.role}")
    print("\nSign in with a name and its password. Ctrl-C ends it, and leaves nothing.", flush=True)


def end_by_signal(number: int, frame: object) -> None:
    """Ends the program by an exception, so that all is cleared up. A second signal is ignored meanwhile.

    Python throws an exception away that comes during an import or while an object is freed. So it comes again until the clearing begins.
    """
    for one in ENDS:
        signal.signal(one, signal.SIG_IGN)
    signal.signal(signal.SIGALRM, end_by_signal)
    signal.setitimer(signal.ITIMER_REAL, AGAIN)
    raise KeyboardInterrupt


def run(said: argparse.Namespace) -> None:
    """Serves the village until a signal comes."""
    missing = lacking()
    if missing:
        raise Failed(f"{' and '.join(missing)} {'is' if len(missing) == 1 else 'are'} missing: apt-get install {' '.join(missing)}")
    program = program_at(said.moo)
    with tempfile.TemporaryDirectory(prefix="moo-demo-") as folder:
        demo = Demo(Path(folder), program, free_port(said.port))
        try:
            demo.make_world()
            demo.start()
            greet(demo)
            demo.wait()
        finally:
            signal.setitimer(signal.ITIMER_REAL, 0)
            demo.stop()


def main() -> None:
    """Runs the program with the words of the command line."""
    parser = argparse.ArgumentParser(prog="moo-demo", usage=USAGE, description="A village to look at in a browser.", epilog=MORE)
    parser.add_argument("--port", metavar="P", type=port_number, default=PORT, help=f"the port of the front ({PORT}, or else a free one)")
    parser.add_argument("--moo", metavar="PROGRAM", help="the program moo")
    said = parser.parse_args()
    only_ours()
    for number in ENDS:
        # As nohup has it for SIGHUP.
        if signal.getsignal(number) is not signal.SIG_IGN:
            signal.signal(number, end_by_signal)
    try:
        run(said)
    except Failed as error:
        sys.exit(f"moo-demo: {error}")
    except KeyboardInterrupt:
        print("\nIt is over, and nothing is left.")
