"""The service as a process, and clients of it. For the tests and the measurements in bench/."""
from __future__ import annotations

import os
import select
import socket
import struct
import subprocess
from typing import IO, Optional

from moo_shell.service import free_port
from tests.support.processes import start

# How long is waited for what comes at once on a machine that has time.
PATIENCE = 300
CANNOT_LISTEN = "moo: cannot listen\n"


class Service:
    """`PROGRAM serve FILE PORT COUNT`, from its first line on. With None in place of the count, that is left out, and so are ticks."""

    def __init__(
        self, program: str, file: str, count: Optional[int], port: Optional[int] = None, folder: Optional[str] = None,
        env: Optional[dict[str, str]] = None, ticks: Optional[int] = None,
    ) -> None:  # fmt: skip
        self.port, self.told = port or free_port(), ""
        self.ticks = [] if ticks is None else ["--ticks", str(ticks)]
        self.begin(program, file, count, folder, env)
        # Another program may have taken the port just now.
        while self.first == CANNOT_LISTEN and not port:
            self.end()
            self.port = free_port()
            self.begin(program, file, count, folder, env)

    def begin(self, program: str, file: str, count: Optional[int], folder: Optional[str], env: Optional[dict[str, str]]) -> None:
        """Starts it, and hears its first line."""
        words = [program, "serve", file, str(self.port), *([] if count is None else [str(count)]), *self.ticks]
        self.process = start(words, cwd=folder, stdout=subprocess.PIPE, stderr=subprocess.PIPE, env=env)
        assert self.process.stdout
        self.first = line_of(self.process.stdout)

    def is_listening(self) -> bool:
        """Whether its first line says that it listens."""
        return self.first == f"listening 127.0.0.1:{self.port}\n"

    def end(self) -> tuple[int, str]:
        """Its status, and what it wrote after its first line. `told` is then what it wrote to standard error."""
        output, told = self.process.communicate(timeout=PATIENCE)
        self.told = told.decode()
        return self.process.returncode, output.decode()

    def kill(self) -> None:
        """Kills it, and waits for its end."""
        self.process.kill()
        self.process.communicate()

    def peer(self) -> socket.socket:
        """A connection to it."""
        return socket.create_connection(("127.0.0.1", self.port), PATIENCE)

    def ask(self, request: bytes) -> bytes:
        """The bytes that answer those of a request."""
        with self.peer() as peer:
            peer.sendall(request)
            return heard(peer)


def line_of(stream: IO[bytes]) -> str:
    """What comes of one line of a stream; less, if it ends or nothing comes in time."""
    said = b""
    while not said.endswith(b"\n") and select.select([stream], [], [], PATIENCE)[0]:
        byte = os.read(stream.fileno(), 1)
        if not byte:
            break
        said += byte
    return said.decode()


def heard(peer: socket.socket) -> bytes:
    """All bytes that come of a peer until it closes."""
    parts = []
    while part := peer.recv(65536):
        parts.append(part)
    return b"".join(parts)


def get(path: str) -> bytes:
    """The bytes of a GET."""
    return f"GET {path} HTTP/1.1\r\nhost: localhost\r\n\r\n".encode()


def post(path: str, body: str) -> bytes:
    """The bytes of a POST of a text."""
    return f"POST {path} HTTP/1.1\r\nhost: localhost\r\ncontent-length: {len(body)}\r\n\r\n{body}".encode()


def answer(status: str, body: str, allow: str = "", is_head: bool = False, kind: str = "application/json") -> bytes:
    """The bytes of an answer with this status line and body."""
    head = f"HTTP/1.1 {status}\r\ncontent-type: {kind}\r\ncontent-length: {len(body)}\r\nconnection: close\r\n{allow}\r\n"
    return (head + ("" if is_head else body)).encode()


def reset(peer: socket.socket) -> None:
    """Breaks a connection off, so that the other side sees an error and no end."""
    peer.setsockopt(socket.SOL_SOCKET, socket.SO_LINGER, struct.pack("ii", 1, 0))
    peer.close()
