"""The connections of a front, by Debian's waitress, and what bounds a peer. This needs python3-waitress.

    server = listen(app, [Way(socket)], Room(), Places(whose))
    server.run()

A connection has one request at a time. What comes after it stays unread until the answer was sent, so that no thread ever waits for a peer
that doesn't read. A peer has to send a request and to read its answer: one that moves fewer than 64 kB in 20 seconds is let go. What all
connections hold together, in memory and in temporary files, is bounded by a `Room`.
"""

from __future__ import annotations

import socket
import threading
import time
from collections.abc import Iterable
from typing import Any, Callable, NamedTuple

from waitress.adjustments import Adjustments
from waitress.buffers import ReadOnlyFileBasedBuffer
from waitress.channel import HTTPChannel
from waitress.server import TcpWSGIServer, UnixWSGIServer
from waitress.task import WSGITask

from moo_web.app import REFUSED
from moo_web.interface.followers import AWAY
from moo_web.traffic.places import Places

MOST_CONNECTIONS = 500
SILENT_SECONDS = 20
LEAST_BYTES = 1 << 16
LONGEST_HEAD = 1 << 16
# Longer bodies than moo's get an answer in JSON up to here; beyond it the server gives its own.
LONGEST_READ = 1 << 22
# What all connections may hold together of requests and answers.
MOST_HELD = 1 << 28
LOOK_EVERY = 1
# A turn of the loop waits for so many seconds at most.
LONGEST_TURN = 1.0


class Room:
    """How many bytes of requests and answers the connections hold. When they are over `most`, the connection with the most is let go."""

    def __init__(self, most: int = MOST_HELD) -> None:
        self.most = most
        self.lock = threading.Lock()
        self.held: dict[Channel, int] = {}
        self.total = 0

    def note(self, channel: Channel, count: int) -> None:
        """Takes note of how many bytes a connection holds now."""
        with self.lock:
            self.total += count - self.held.pop(channel, 0)
            if count:
                self.held[channel] = count
            while self.total > self.most:
                largest = max(self.held, key=lambda one: self.held[one])
                self.total -= self.held.pop(largest)
                largest.let_go()


class Task(WSGITask):  # type: ignore[misc]
    """A request that is answered."""

    def get_environment(self) -> dict[str, Any]:
        environ: dict[str, Any] = super().get_environment()
        environ[REFUSED] = self.channel.is_refused
        environ[AWAY] = self.channel.server.task_dispatcher.away
        return environ


class Channel(HTTPChannel):  # type: ignore[misc]
    """A connection."""

    task_class = Task
    room: Room
    # Whether its request has waited for too long.
    is_refused = False
    # The request that comes at this moment.
    request: Any = None
    # Whether it was told to go on.
    sent_continue: bool = False
    # What came after the request that is being answered.
    ahead = b""
    # How many bytes have moved since this moment.
    moved, moment = 0, 0.0
    # How many bytes of the answer are a file that the application keeps.
    in_file = 0

    def begin(self) -> None:
        """Gives the peer its time anew."""
        self.moved, self.moment = 0, time.time()

    def count(self, moved: int) -> None:
        """Counts bytes that came or went."""
        self.moved += moved
        if self.moved >= LEAST_BYTES:
            self.begin()

    def recv(self, size: int) -> bytes:
        data: bytes = super().recv(size)
        self.count(len(data))
        return data

    def send(self, data: bytes, do_close: bool = True) -> int:
        sent: int = super().send(data, do_close) if self.connected else 0
        self.count(sent)
        return sent

    @property
    def bytes_held(self) -> int:
        """How many bytes are kept for this connection."""
        requests = [*self.requests, *([self.request] if self.request else [])]
        coming: int = sum(request.header_bytes_received + request.body_bytes_received for request in requests)
        going: int = self.total_outbufs_len - self.in_file
        return len(self.ahead) + coming + max(0, going)

    def let_go(self) -> None:
        """Has the connection closed. Any thread may ask for it."""
        self.will_close = True
        self.server.next_channel_cleanup = 0
        self.server.pull_trigger()

    def is_late(self, now: float) -> bool:
        """Whether the peer has been too slow or silent for too long. While its answer is being made it isn't."""
        if self.total_outbufs_len or self.request is not None:
            return now > self.moment + SILENT_SECONDS
        return not self.requests and now > self.last_activity + SILENT_SECONDS

    def check_client_disconnected(self) -> bool:
        """Whether the peer has closed the connection. While its request is answered nothing is read, so this looks and takes nothing."""
        try:
            return not self.connected or not self.socket.recv(1, socket.MSG_PEEK | socket.MSG_DONTWAIT)
        except BlockingIOError:
            return False
        except (OSError, AttributeError):
            # It was closed here just now.
            return True

    # What comes

    def readable(self) -> bool:
        return bool(super().readable()) and not self.ahead

    def received(self, data: bytes) -> bool:
        """Takes one request out of what came. The rest waits until its answer was sent."""
        with self.requests_lock:
            data = self.ahead + data
            if not data or self.will_close or self.close_when_flushed:
                return False
            while data and not self.requests:
                data = data[self.read(data) :]
            self.ahead = data
        self.room.note(self, self.bytes_held)
        return True

    def read(self, data: bytes) -> int:
        """Reads on in a request, or begins one, and gives how many bytes are of it."""
        if self.request is None:
            self.request = self.parser_class(self.adj)
            self.begin()
        taken: int = self.request.received(data)
        if self.request.expect_continue and self.request.headers_finished and not self.sent_continue:
            self.send_continue()
        if self.request.completed:
            self.sent_continue = False
            if not self.request.empty:
                self.requests.append(self.request)
                self.server.add_task(self)
            self.request = None
        return taken

    def has_next(self) -> bool:
        """Whether the answer was sent, and more had come meanwhile."""
        return bool(self.ahead) and not self.requests and not self.total_outbufs_len

    # What goes

    def service(self) -> None:
        super().service()
        self.room.note(self, self.bytes_held if self.connected else 0)

    def write_soon(self, data: Any) -> int:
        if not self.total_outbufs_len:
            self.begin()
        if isinstance(data, ReadOnlyFileBasedBuffer):
            self.in_file = len(data)
        written: int = super().write_soon(data)
        self.room.note(self, self.bytes_held)
        return written

    def writable(self) -> bool:
        return bool(self.connected and (super().writable() or self.has_next()))

    def handle_write(self) -> None:
        super().handle_write()
        if not self.connected:
            return
        if not self.total_outbufs_len:
            self.in_file = 0
        if self.has_next():
            self.received(b"")
        else:
            self.room.note(self, self.bytes_held)

    def handle_close(self) -> None:
        super().handle_close()
        self.ahead = b""
        if self.request is not None:
            self.request.close()
        self.room.note(self, 0)


class Patient:
    """What lets slow and silent peers go, for servers, and ends their loop."""

    active_channels: dict[int, Channel]
    asyncore: Any
    _map: dict[int, Any]
    task_dispatcher: Any
    pull_trigger: Callable[[], None]
    # What is called about once a second, as long as the loop turns.
    beat: Callable[[], None]
    is_over = False

    def run(self) -> None:
        """Serves until `end` is called. Then no request is begun any more, and those that were begun have some seconds."""
        while not self.is_over:
            self.asyncore.loop(LONGEST_TURN, True, self._map, 1)
        self.task_dispatcher.shutdown()

    def end(self) -> None:
        """Has the loop end after this turn. The handler of a signal may call it, and any thread."""
        self.is_over = True
        self.pull_trigger()

    def maintenance(self, now: float) -> None:
        """Closes each connection whose peer is late, or that is let go. A peer that reads nothing can't be written to, so this waits for none."""
        self.beat()
        for channel in list(self.active_channels.values()):
            if channel.will_close or channel.is_late(now):
                channel.will_close = True
                channel.handle_close()


class TcpServer(Patient, TcpWSGIServer):  # type: ignore[misc]
    """The server at a port."""


class UnixServer(Patient, UnixWSGIServer):  # type: ignore[misc]
    """The server at a socket of the file system."""


class Way(NamedTuple):
    """A socket that is bound, and the address of whose peers `x-forwarded-for` is believed; None: of nobody's."""

    socket: socket.socket
    proxy: str | None = None

    def adjustments(self) -> Adjustments:
        """How waitress serves it."""
        trusted = {"trusted_proxy": self.proxy, "trusted_proxy_count": 1, "trusted_proxy_headers": {"x-forwarded-for"}}
        return Adjustments(
            ident=None, connection_limit=MOST_CONNECTIONS, cleanup_interval=LOOK_EVERY, max_request_body_size=LONGEST_READ,
            max_request_header_size=LONGEST_HEAD, clear_untrusted_proxy_headers=True, **(trusted if self.proxy else {}),
        )  # fmt: skip


def open_connections(server: Any) -> int:
    """How many connections a server has."""
    return sum(isinstance(one, Channel) for one in list(server._map.values()))


def do_nothing() -> None:
    """What a loop does if nobody wants to know that it turns."""


def listen(app: Any, ways: Iterable[Way], room: Room, places: Places, beat: Callable[[], None] = do_nothing) -> Any:
    """The server at these sockets. It knows the port of the last. While its loop turns, `beat` is called about once a second."""
    channel = type("Channel", (Channel,), {"room": room})
    shared: dict[int, Any] = {}
    server: Any = None
    for way in ways:
        own = way.socket
        kind = UnixServer if own.family == socket.AF_UNIX else TcpServer
        where = (own.family, own.type, own.proto, own.getsockname())
        server = kind(app, shared, True, own, dispatcher=places, adj=way.adjustments(), bind_socket=False, sockinfo=where)
        server.channel_class, server.beat = channel, beat
    return server
