"""One request over HTTP/1.1 and its answer, on a connection of its own: a socket, and the few lines of a head that matter.

    with Exchange("127.0.0.1", 8080, wait=30.0) as exchange:
        exchange.send("GET", "/seq")
        status, body = exchange.answer(1 << 24)

An answer may take `wait` seconds, and one more for each 100,000 bytes of it that came. Its length is stated, or it comes in chunks, as
from a proxy, or it ends with the connection.
"""

from __future__ import annotations

import re
import socket
import time
from collections.abc import Iterator, Mapping
from types import TracebackType
from typing import Optional

from moolib.errors import LostAnswer, NoService, TooLong

PIECE = 1 << 16
# The bytes of an answer that give it a second more.
BYTES_A_SECOND = 100_000
LONGEST_HEAD = 1 << 16
HERE = ("127.0.0.1", "localhost", "::1")
STATUS = re.compile(rb"HTTP/1\.[0-9] ([1-9][0-9]{2})(?: [^\r\n]*)?(?:\r\n|$)")
WORD = re.compile(r"[!-~]+")


class Exchange:
    """A connection, open until `close`. `NoService`: there is none to be had. `is_safe`: over TLS, by the system's certificates."""

    def __init__(self, host: str, port: int, wait: float, is_safe: bool = False) -> None:
        self.host, self.port, self.wait = host, port, wait
        self.end = time.monotonic() + wait
        self.came = b""
        # For how many seconds the service asks that nothing is sent.
        self.after = 0.0
        self.is_usual = port == (443 if is_safe else 80)
        self.connection = self.opened(is_safe)

    def opened(self, is_safe: bool) -> socket.socket:
        """The socket, connected."""
        connection: Optional[socket.socket] = None
        try:
            if self.host == "127.0.0.1":
                # No name is to be looked up.
                connection = socket.socket(socket.AF_INET, socket.SOCK_STREAM)
                connection.settimeout(self.wait)
                connection.connect((self.host, self.port))
            else:
                connection = socket.create_connection((self.host, self.port), self.wait)
            connection.setsockopt(socket.IPPROTO_TCP, socket.TCP_NODELAY, 1)
            return self.safe(connection) if is_safe else connection
        except (OSError, ValueError) as error:
            if connection:
                connection.close()
            raise NoService(str(error)) from error

    def safe(self, connection: socket.socket) -> socket.socket:
        """The same over TLS."""
        import ssl

        return ssl.create_default_context().wrap_socket(connection, server_hostname=self.host)

    def __enter__(self) -> Exchange:
        return self

    def __exit__(self, kind: Optional[type[BaseException]], error: Optional[BaseException], trace: Optional[TracebackType]) -> None:
        self.close()

    def close(self) -> None:
        """Closes it."""
        self.connection.close()

    def send(self, method: str, path: str, body: Optional[bytes] = None, lines: Optional[Mapping[str, str]] = None) -> None:
        """Sends a request, with these lines in its head besides. `LostAnswer`: perhaps not whole."""
        host = f"[{self.host}]" if ":" in self.host else self.host
        request = request_bytes(method, path, host if self.is_usual else f"{host}:{self.port}", body, lines or {})
        try:
            self.connection.sendall(request)
        except OSError as error:
            # A service that refuses before it has read all has answered.
            if not isinstance(error, (BrokenPipeError, ConnectionResetError)):
                raise LostAnswer(str(error)) from error

    def answer(self, longest: int) -> tuple[int, bytes]:
        """The status of the answer and its body. `TooLong`: it has more bytes than that. `LostAnswer`: it didn't come whole."""
        status, pieces = self.begun()
        found: list[bytes] = []
        length = 0
        for piece in pieces:
            length += len(piece)
            if length > longest:
                raise TooLong(f"an answer of over {longest} bytes")
            found.append(piece)
        return status, found[0] if len(found) == 1 else b"".join(found)

    def begun(self) -> tuple[int, Iterator[bytes]]:
        """The status of the answer, and the pieces of its body as they come. `LostAnswer`: as in `answer`, also while they come."""
        status = 100
        while status < 200:
            head = self.until(b"\r\n\r\n", LONGEST_HEAD)
            found = STATUS.match(head)
            if not found:
                raise LostAnswer("the answer isn't one of HTTP")
            status = int(found[1])
        return status, self.body_of(head.lower(), status)

    def body_of(self, head: bytes, status: int) -> Iterator[bytes]:
        """The pieces of the body of an answer with this head."""
        lines = {name: value for name, _, value in (line.partition(b":") for line in head.split(b"\r\n")[1:])}
        after = lines.get(b"retry-after", b"").strip()
        self.after = float(after) if after.isdigit() and len(after) < 6 else 0.0
        if status in (204, 304):
            return iter(())
        if b"chunked" in lines.get(b"transfer-encoding", b""):
            return self.chunks()
        length = lines.get(b"content-length", b"").strip()
        if not length:
            return self.to_the_end()
        if not length.isdigit() or len(length) > 18:
            raise LostAnswer("the answer states no length")
        return self.exactly(int(length))

    def more(self) -> bytes:
        """What comes next; nothing at the end. `LostAnswer`: nothing came in time, or the connection broke."""
        left = self.end - time.monotonic()
        if left <= 0:
            raise LostAnswer("the answer took too long")
        try:
            self.connection.settimeout(left)
            came = self.connection.recv(PIECE)
        except (OSError, ValueError) as error:
            raise LostAnswer(str(error)) from error
        self.end += len(came) / BYTES_A_SECOND
        return came

    def until(self, mark: bytes, longest: int) -> bytes:
        """What comes up to a mark, which is taken too. `LostAnswer`: none comes within so many bytes."""
        while mark not in self.came:
            piece = self.more() if len(self.came) <= longest else b""
            if not piece:
                broken = None if self.came else ConnectionResetError("the connection was closed")
                raise LostAnswer("the answer ended in its head") from broken
            self.came += piece
        before, _, self.came = self.came.partition(mark)
        return before

    def exactly(self, length: int) -> Iterator[bytes]:
        """So many bytes, in pieces."""
        while length:
            piece = self.came or self.more()
            if not piece:
                raise LostAnswer("the answer was cut off")
            piece, self.came = piece[:length], piece[length:]
            length -= len(piece)
            yield piece

    def chunks(self) -> Iterator[bytes]:
        """What comes in chunks, up to the last."""
        while True:
            size = self.until(b"\r\n", 1000).partition(b";")[0].strip()
            if not re.fullmatch(rb"[0-9A-Fa-f]{1,15}", size):
                raise LostAnswer("a chunk has no length")
            if not int(size, 16):
                return
            yield from self.exactly(int(size, 16))
            if self.until(b"\r\n", 2):
                raise LostAnswer("a chunk has another length than it says")

    def to_the_end(self) -> Iterator[bytes]:
        """What comes until the connection ends."""
        piece = self.came or self.more()
        self.came = b""
        while piece:
            yield piece
            piece = self.more()


def request_bytes(method: str, path: str, host: str, body: Optional[bytes], lines: Mapping[str, str]) -> bytes:
    """The bytes of a request. `ValueError`: a word or a line has letters that would end it."""
    more = "".join([f"{name}: {value}\r\n" for name, value in lines.items()]) if lines else ""
    if not WORD.fullmatch(path) or more.count("\n") != len(lines) or more.count("\r") != len(lines):
        raise ValueError(f"no request: {path!r}")
    length = "" if body is None else f"content-length: {len(body)}\r\n"
    head = f"{method} {path} HTTP/1.1\r\nhost: {host}\r\nconnection: close\r\n{more}{length}\r\n"
    return head.encode("ascii") + (body or b"")
