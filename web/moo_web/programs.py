"""What the programs of the front share: their folder, their words, and how they end."""

from __future__ import annotations

import argparse
import contextlib
import datetime
import os
import socket
import sys
import threading
import time
from pathlib import Path

from moolib.errors import failing

PEOPLE_FILE = "people.db"


class Teller:
    """Writes lines to standard error, each with the program's name; the same line again at most once a minute."""

    def __init__(self, program: str) -> None:
        self.program, self.lock = program, threading.Lock()
        self.told: dict[str, float] = {}

    def __call__(self, text: str) -> None:
        with self.lock:
            now = time.monotonic()
            if now - self.told.get(text, -60.0) < 60.0:
                return
            if len(self.told) > 1000:
                self.told.clear()
            self.told[text] = now
            self.always(text)

    def always(self, text: str) -> None:
        """Writes a line whether it was written before or not."""
        print(f"{self.program}: {text}", file=sys.stderr, flush=True)


def own_folder(text: str) -> Path:
    """The folder of this name, which is made if it isn't there, for its owner alone. `Failed`: it can't be."""
    folder = Path(text).absolute()
    missing = [path for path in (folder, *folder.parents) if not path.exists()]
    with failing(folder):
        folder.mkdir(mode=0o700, parents=True, exist_ok=True)
        for path in missing:
            sync_folder(path.parent)
    return folder


def sync_folder(folder: Path) -> None:
    """Sees to it that the names in a folder are on the disk."""
    opened = os.open(folder, os.O_RDONLY | os.O_DIRECTORY)
    try:
        os.fsync(opened)
    finally:
        os.close(opened)


def only_ours() -> None:
    """Makes each file that is made from now on one of mode 0600."""
    os.umask(0o077)


def number_word(text: str, least: int, most: int, what: str) -> int:
    """The number that a word of the command line is. `ArgumentTypeError`: it isn't `what`, which is between these."""
    if not text.isascii() or not text.isdigit() or len(text) > 19 or not least <= int(text) <= most:
        raise argparse.ArgumentTypeError(f"{text!r} isn't {what}")
    return int(text)


def port_number(text: str) -> int:
    """A port."""
    return number_word(text, 0, 65535, "a port")


def object_number(text: str) -> int:
    """The number of an object, with or without #."""
    return number_word(text.removeprefix("#"), 0, 9_999_999_999, "the number of an object")


def utc(moment: float) -> str:
    """A moment, of seconds since 1970, as `2026-11-29T12:00:00.000Z`."""
    told = datetime.datetime.fromtimestamp(moment, datetime.timezone.utc).isoformat(timespec="milliseconds")
    return told.replace("+00:00", "Z")


def notify(text: str) -> None:
    """Tells systemd something, if it wants to know (sd_notify(3))."""
    address = os.environ.get("NOTIFY_SOCKET", "")
    if address:
        with contextlib.suppress(OSError), socket.socket(socket.AF_UNIX, socket.SOCK_DGRAM) as peer:
            peer.connect("\0" + address[1:] if address.startswith("@") else address)
            peer.send(text.encode())
