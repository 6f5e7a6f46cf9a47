"""The blocks of commands of docs/OPERATING.md, as they are run."""

from __future__ import annotations

import contextlib
import os
import random
import re
import socket
import sys
import time
from collections.abc import Iterator
from pathlib import Path
from typing import NoReturn

TOP = Path(__file__).resolve().parents[2]
# The version of these sources, which `.ci/test versions` compares with the program's.
(NEW,) = re.findall(r'^version = "(.*)"$', (TOP / "pyproject.toml").read_text(), re.MULTILINE)
# Each block of commands of the page that is followed: its heading, and how its first line begins.
BLOCKS = {
    "install": ("Install", "apt-get update"),
    "make install": ("Install", "apt-get install make git xz-utils python3"),
    "make a world": ("Run", "runuser -u moo -- moo init"),
    "settings": ("Run", "printf 'PORT="),
    "start": ("Run", "systemctl enable --now"),
    "install the front": ("Let people in", "apt-get install ./out/moo-web"),
    "its own network": ("Let people in", "systemctl stop moo-watch@world.timer"),
    "start the front": ("Let people in", "systemctl disable --now moo-backup@world.timer"),
    "a second journal": ("Let people in", "install -d -o moo-web -g moo-web -m 700 /srv/journal2"),
    "get at it": ("Let people in", 'alone="nsenter'),
    "a text of batches": ("Let people in", "systemctl stop moo-web@world.socket"),
    "a key": ("A standby", "usermod --shell"),
    "begin a standby": ("A standby", "install -d -o moo-web"),
    "back up": ("Back up", "systemctl start moo-backup@world"),
    "copy the journal": ("Back up", "systemctl start moo-keep@world"),
    "copy away": ("Back up", "rsync "),
    "bring back": ("Restore", "rsync "),
    "move away": ("Restore", "systemctl stop "),
    "restore": ("Restore", "ls /var/backups/moo"),
    "begin the journal anew": ("Restore", "echo ONCE=--rebase"),
    "from the journal": ("Drills", "systemctl stop moo-web@world.socket moo-web@world moo@world moo-watch"),
    "from the journal's copy": ("Drills", "moo-replay /var/backups/moo-web/world"),
    "put in place": ("Drills", "install -o moo -g moo -m 600 /srv/again/world.db "),
    "end the standby": ("Drills", "systemctl disable --now moo-follow@world"),
    "become the world": ("Drills", "install -o moo -g moo -m 600 /var/lib/moo-web/world/standby.db "),
    "noon": ("Drills", "install -d -m 700 /srv/again"),
    "spoiled standby": ("Drills", "systemctl stop moo-follow@world"),
    "both are gone": ("Drills", "rsync -a --chown=moo-web:moo-web"),
    "at each boot": ("Drills", "systemctl enable moo@world moo-web@world.socket"),
    "disks": ("Drills", "df -h "),
    "look now": ("Drills", "systemctl start moo-watch@world"),
    "bound of a start": ("Limits, and what to do about them", "[Service]"),
    "go on from noon": ("Drills", "systemctl stop moo-web@world.socket moo-web@world moo@world"),
    "somebody left": ("Drills", "runuser -u moo-web -- moo-people"),
    "make the packages": ("Upgrade", "make deb"),
    "upgrade a standby": ("Upgrade", "apt-get install --reinstall"),
    "upgrade": ("Upgrade", "systemctl start moo-backup@world"),
    "upgrade both": ("Upgrade", "systemctl start moo-keep@world"),
    "from 1.0.0": ("Upgrade", "sed -i '/^COUNT=/d'"),
    "the way back": ("Upgrade", "apt-get install --allow-downgrades"),
}


def is_wrong(why: str) -> NoReturn:
    """Ends the rehearsal."""
    sys.exit(f"packaging/rehearse: {why}")


def page() -> list[tuple[str, list[str]]]:
    """The blocks of the page, each with its heading."""
    blocks: list[tuple[str, list[str]]] = []
    heading, is_inside = "", False
    for line in (TOP / "docs/OPERATING.md").read_text().splitlines():
        heading = line[3:] if line.startswith("## ") else heading
        if line.startswith("    ") and not is_inside:
            blocks.append((heading, []))
        is_inside = line.startswith("    ")
        if is_inside:
            blocks[-1][1].append(line[4:])
    return blocks


class Commands:
    """How many lines of the page have been run."""

    def __init__(self) -> None:
        self.lines = {line for _, lines in page() for line in lines}
        self.count = 0

    def take(self, lines: list[str]) -> None:
        """Counts those of these lines that are the page's."""
        self.count += sum(line in self.lines for line in lines)


COMMANDS = Commands()


def block(name: str) -> list[str]:
    """The lines of a block. Of two that begin alike it is the one whose first line is no longer than that."""
    heading, begins = BLOCKS[name]
    found = [lines for under, lines in page() if under == heading and lines[0].startswith(begins)]
    found = [lines for lines in found if lines[0] == begins] or found
    if len(found) != 1:
        is_wrong(f"{len(found)} blocks of the page under '{heading}' begin with '{begins}'")
    return found[0]


def steady_port() -> int:
    """A port that nobody listens on now, and that no other program gets by chance: it isn't one that the system gives away."""
    while True:
        port = random.randrange(20_000, 30_000)
        with socket.socket() as probe, contextlib.suppress(OSError):
            probe.bind(("127.0.0.1", port))
            return port


# The ports of a world and of its front: those of the page may be taken here.
PORT, WEB_PORT = steady_port(), steady_port()


def here(lines: list[str]) -> list[str]:
    """Commands with the ports of this rehearsal, and with the folder that plays another machine in place of OTHER."""
    changes = (("8080", str(PORT)), ("8088", str(WEB_PORT)), ("OTHER:", "/other/"), ("ADDRESS", "/other/sources.git"))
    for old, new in changes:
        lines = [line.replace(old, new) for line in lines]
    return lines


def of_version(lines: list[str], version: str) -> list[str]:
    """Commands with the packages of this version."""
    return [re.sub(r"(/moo(?:-web)?)_(?:VERSION|\d[\d.]*)_", rf"\1_{version}_", line) for line in lines]


def with_copy(lines: list[str], copy: Path) -> list[str]:
    """Commands on a copy, with its name in place of that of the page."""
    return [re.sub(r"world\.db-\d{8}T\S+?(?=/|$)", copy.name, line) for line in lines]


@contextlib.contextmanager
def step(name: str) -> Iterator[None]:
    """A step. When it is done its name, its minutes, how many of the page's lines were run as they are, and the machine's load are printed."""
    began, before = time.monotonic(), COMMANDS.count
    yield
    told = f"{(time.monotonic() - began) / 60:.1f} minutes, {COMMANDS.count - before} commands of the page, load {os.getloadavg()[0]:.0f}"
    print(f"ok {name}: {told}", flush=True)
