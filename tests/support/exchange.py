"""Requests to the service of new worlds in memory, and answers to compare with what comes."""
from __future__ import annotations

import contextlib
import json
import socket
from typing import Sequence

from tests.support.cases import ProgramTest
from tests.support.program import MOO
from tests.support.service import Service, answer


def error(word: str) -> str:
    """The body of an answer that is an error."""
    return f'{{"error":"{word}"}}'


BAD_REQUEST = answer("400 Bad Request", error("bad request"))
NOT_FOUND = answer("404 Not Found", error("not found"))
NO_OBJECT = answer("404 Not Found", error("E_INVARG"))
TOO_LARGE = answer("413 Payload Too Large", error("too large"))
NOTHING = b""
SEQ_QUESTION = b"GET /seq HTTP/1.1\r\n\r\n"

# A batch of 95 bytes; its answer on a new world has 116.
BATCH = b'POST /batch HTTP/1.1\r\nhost: localhost\r\ncontent-length: 34\r\n\r\n{"as":"#3","calls":["create(#1)"]}'
BATCH_ANSWER = answer("200 OK", '{"answers":["#4"],"seq":1}')


def seq(number: int) -> bytes:
    """The answer to a question for the number."""
    return answer("200 OK", f'{{"seq":{number}}}')


def accepted(number: int, *literals: str) -> bytes:
    """If `number` batches are accepted by now."""
    return answer("200 OK", json.dumps({"answers": literals, "seq": number}, separators=(",", ":")))


def refused(call: int, code: str) -> bytes:
    """The answer to a batch that is refused at a call."""
    return answer("409 Conflict", f'{{"call":{call},"error":"{code}"}}')


def stale(number: int) -> bytes:
    """The answer to a batch for another number."""
    return answer("409 Conflict", f'{{"error":"stale","seq":{number}}}')


def malformed(call: int) -> bytes:
    """The answer to a batch with a call that can't be read."""
    return answer("400 Bad Request", f'{{"call":{call},"error":"malformed"}}')


def allow(method: str, is_head: bool = False) -> bytes:
    """The answer to another method than the route has."""
    return answer("405 Method Not Allowed", error("method not allowed"), f"allow: {method}\r\n", is_head)


def object_body(name: str) -> str:
    """The JSON of an object of #3 under #1, which is nowhere, and has nothing."""
    parts: dict[str, object] = dict.fromkeys(("player", "programmer", "wizard", "r", "w", "f"), 0)
    parts |= {"children": [], "contents": [], "location": "#-1", "name": name, "owner": "#3", "parent": "#1"}
    return json.dumps(dict(sorted(parts.items())), separators=(",", ":"))


def posted(path: str, body: bytes) -> bytes:
    """A POST of bytes, with their length."""
    return b"POST %s HTTP/1.1\r\nhost: localhost\r\ncontent-length: %d\r\n\r\n%s" % (path.encode(), len(body), body)


def heard_to_the_end(peer: socket.socket) -> tuple[bytes, str]:
    """What comes until the service closes, and how it closes: 'closed', or 'reset' if bytes were left that it hasn't read."""
    parts = []
    try:
        while part := peer.recv(65536):
            parts.append(part)
    except ConnectionResetError:
        return b"".join(parts), "reset"
    return b"".join(parts), "closed"


def send_in_pieces(peer: socket.socket, request: bytes, most: int) -> None:
    """Sends a request in pieces of so many bytes."""
    peer.setsockopt(socket.IPPROTO_TCP, socket.TCP_NODELAY, 1)
    for start in range(0, len(request), most):
        peer.sendall(request[start : start + most])


def said(service: Service, request: bytes, most: int = 1 << 20) -> bytes:
    """What answers a request that comes in pieces of so many bytes, and after which the input ends."""
    with service.peer() as peer:
        # A service that refuses what has come by then doesn't read the rest, and may have closed.
        with contextlib.suppress(OSError):
            send_in_pieces(peer, request, most)
            peer.shutdown(socket.SHUT_WR)
        return heard_to_the_end(peer)[0]


class RequestTest(ProgramTest):
    """Tests that send requests to the service."""

    def in_turn(self, title: str, rows: Sequence[tuple[str, bytes, bytes]], before: Sequence[bytes] = ()) -> None:
        """Rows of a name, a request and its answer, one after another on a new world; after requests that aren't looked at."""
        service = Service(MOO, ":memory:", len(before) + len(rows))
        for request in before:
            said(service, request)
        for name, request, wanted in rows:
            self.case(f"{title}: {name}", said(service, request), wanted)
        count = len(before) + len(rows)
        self.case(f"{title}: all of them are served", service.end(), (0, f"served {count} failed 0\n"))
