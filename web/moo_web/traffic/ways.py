"""The ways in to a front: a port of this machine, the socket that systemd gives, and a socket of the file system for a proxy."""

from __future__ import annotations

import functools
import os
import socket
import stat
from pathlib import Path

from moolib.errors import Failed

FIRST_SOCKET = 3
PROXY_MODE = 0o660


@functools.lru_cache(maxsize=None)
def given_sockets() -> list[socket.socket]:
    """The listening sockets that systemd gives. They are kept: one that isn't would be closed."""
    count = int(os.environ.get("LISTEN_FDS") or 0) if os.environ.get("LISTEN_PID") == str(os.getpid()) else 0
    return [socket.socket(fileno=FIRST_SOCKET + place) for place in range(count)]


def given_socket(status_port: int | None = None) -> socket.socket | None:
    """That of them for people, if there is one: the first that isn't the status port."""
    return next((one for one in given_sockets() if one.getsockname()[1] != status_port), None)


def own_socket(port: int) -> socket.socket:
    """A socket at this port of the machine, bound. `Failed`: the port can't be had."""
    own = socket.socket(socket.AF_INET, socket.SOCK_STREAM)
    try:
        own.setsockopt(socket.SOL_SOCKET, socket.SO_REUSEADDR, 1)
        own.bind(("127.0.0.1", port))
    except OSError as error:
        own.close()
        raise Failed(f"port {port}: {error.strerror}") from error
    return own


def socket_at(path: Path) -> socket.socket:
    """A socket of the file system for who owns it and the group, bound. One that nobody serves any more is replaced. `Failed`: it can't be had."""
    own = socket.socket(socket.AF_UNIX, socket.SOCK_STREAM)
    try:
        make_room(path)
        # Until its mode is set, its owner alone may open it.
        own.bind(str(path))
        path.chmod(PROXY_MODE)
    except OSError as error:
        own.close()
        raise Failed(f"{path}: {error.strerror or error}") from error
    return own


def make_room(path: Path) -> None:
    """Takes a socket away that nobody serves. `Failed`: something else is there."""
    if not path.exists():
        return
    if not stat.S_ISSOCK(path.stat().st_mode):
        raise Failed(f"{path} is there, and isn't a socket")
    with socket.socket(socket.AF_UNIX, socket.SOCK_STREAM) as probe:
        try:
            probe.connect(str(path))
        except ConnectionRefusedError:
            path.unlink()
            return
    raise Failed(f"{path} is in use by another program")
