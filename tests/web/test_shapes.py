"""Requests whose shape is doubtful, as those have it who smuggle one request within another: lengths, chunks, folds, bare line ends, paths.

Each shape has a batch in it, and some have a second request after the first. A front answers no more requests than there are by the rules of
HTTP, and what it hasn't answered with 200 hasn't acted.
"""

import contextlib
import socket
import unittest
from concurrent.futures import ThreadPoolExecutor

from tests.support.web import ask
from tests.web.test_serving import ServingTest

BODY = b'{"calls":["max_object()"]}'
CHUNKS = b"%x\r\n%b\r\n0\r\n\r\n" % (len(BODY), BODY)
SECOND = b"GET /seq HTTP/1.1\r\nhost: 127.0.0.1\r\nconnection: close\r\n\r\n"
LENGTH = b"content-length: %d" % len(BODY)
CHUNKED = b"transfer-encoding: chunked"
FIRST = b"POST /api/batch HTTP/1.1"
# The first line, lines of the head, and what follows the head, by the name of a shape. A host and a token are between the first two.
SHAPES = {
    "as it has to be": (FIRST, [LENGTH], BODY),
    "two equal lengths": (FIRST, [LENGTH, LENGTH], BODY),
    "two other lengths": (FIRST, [LENGTH, b"content-length: %d" % (len(BODY) + 5)], BODY),
    "a list of lengths": (FIRST, [LENGTH + b", %d" % len(BODY)], BODY),
    "a length with a sign": (FIRST, [b"content-length: +%d" % len(BODY)], BODY),
    "a length below zero": (FIRST, [b"content-length: -1"], BODY),
    "a length in hexadecimal": (FIRST, [b"content-length: 0x%x" % len(BODY)], BODY),
    "a length with a stroke": (FIRST, [b"content-length: 2_6"], BODY),
    "a length of other digits": (FIRST, [b"content-length: \xb2\xb6"], BODY),
    "a length past all": (FIRST, [b"content-length: 18446744073709551616"], BODY),
    "a length with zeros": (FIRST, [b"content-length: 000%d" % len(BODY)], BODY),
    "an empty length": (FIRST, [b"content-length:"], BODY),
    "chunks": (FIRST, [CHUNKED], CHUNKS),
    "chunks and a length": (FIRST, [CHUNKED, LENGTH], CHUNKS + SECOND),
    "a length that ends before the chunks do": (FIRST, [b"content-length: 4", CHUNKED], b"0\r\n\r\n" + SECOND),
    "chunks by another name": (FIRST, [b"transfer-encoding: xchunked", LENGTH], BODY),
    "chunks and nothing": (FIRST, [b"transfer-encoding: chunked, identity"], CHUNKS),
    "a blank before the colon": (FIRST, [b"transfer-encoding : chunked", LENGTH], BODY),
    "a tab after the colon": (FIRST, [b"transfer-encoding:\tchunked"], CHUNKS),
    "a line feed of another kind": (FIRST, [b"transfer-encoding: \x0bchunked", LENGTH], BODY),
    "two kinds of transfer": (FIRST, [CHUNKED, b"transfer-encoding: identity"], CHUNKS),
    "chunks with bare line ends": (FIRST, [CHUNKED], CHUNKS.replace(b"\r\n", b"\n")),
    "a chunk below zero": (FIRST, [CHUNKED], b"-1\r\n" + BODY),
    "a chunk in two systems": (FIRST, [CHUNKED], b"0x" + CHUNKS),
    "chunks in HTTP/1.0": (FIRST.replace(b"1.1", b"1.0"), [CHUNKED, LENGTH], CHUNKS),
    "a length on a line of its own": (FIRST, [b"content-length:\r\n %d" % len(BODY)], BODY),
    "a line that goes on": (FIRST, [b"x-a: b\r\n c: d", LENGTH], BODY),
    "a first line that goes on": (FIRST, [b" x: y", LENGTH], BODY),
    "a bare carriage return": (FIRST, [b"x: a\rcontent-length: 1", LENGTH], BODY),
    "a zero byte in a line": (FIRST, [b"x: a\0b", LENGTH], BODY),
    "a zero byte in the path": (b"POST /api/batch\0 HTTP/1.1", [LENGTH], BODY),
    "a name with a blank": (FIRST, [b"content length: 1", LENGTH], BODY),
    "a length with an underscore": (FIRST, [b"content_length: 3", LENGTH], BODY),
    "a line without a colon": (FIRST, [b"xabc", LENGTH], BODY),
    "a line without a name": (FIRST, [b": x", LENGTH], BODY),
    "another site": (b"POST http://elsewhere.example/api/batch HTTP/1.1", [LENGTH], BODY),
    "another site with a user": (b"POST http://a@b:99/api/batch HTTP/1.1", [LENGTH], BODY),
    "two strokes": (b"POST //api/batch HTTP/1.1", [LENGTH], BODY),
    "a dot": (b"POST /./api/batch HTTP/1.1", [LENGTH], BODY),
    "strokes in hexadecimal": (b"POST %2fapi%2fbatch HTTP/1.1", [LENGTH], BODY),
    "a line end in the path": (b"POST /api/batch%0d%0ax:y HTTP/1.1", [LENGTH], BODY),
    "a version that isn't": (b"POST /api/batch HTTP/2.0", [LENGTH], BODY),
    "a word after the version": (b"POST /api/batch HTTP/1.1 x", [LENGTH], BODY),
    "a method in small letters": (b"post /api/batch HTTP/1.1", [LENGTH], BODY),
    "a tunnel": (b"CONNECT 127.0.0.1:22 HTTP/1.1", [], b""),
    "an echo": (b"TRACE /api/batch HTTP/1.1", [LENGTH], BODY),
    "two blanks": (b"POST  /api/batch  HTTP/1.1", [LENGTH], BODY),
    "tabs": (b"POST\t/api/batch\tHTTP/1.1", [LENGTH], BODY),
    "empty lines before it": (b"\r\n" * 5 + FIRST, [LENGTH], BODY),
    "wait for 100": (FIRST, [b"expect: 100-continue", LENGTH], BODY),
    "another protocol": (FIRST, [b"upgrade: h2c", b"connection: upgrade, http2-settings", LENGTH], BODY),
    "two hosts": (FIRST, [b"host: elsewhere.example", LENGTH], BODY),
    "a second request": (FIRST, [LENGTH], BODY + SECOND),
    "a second request in the body of a GET": (b"GET /api/seq HTTP/1.1", [b"content-length: %d" % len(SECOND)], SECOND),
}
# Shapes that have a second request by the rules.
TWO = {"chunks and a length", "a length that ends before the chunks do", "a second request"}


# For so long an answer is waited for, and after it another one.
PATIENCE, SILENCE = 5.0, 1.0
AT_ONCE = 6
# What a front answers to a shape.
STATUSES = {200, 400, 401, 403, 404, 405, 411, 413, 501, 505}


class Shapes(ServingTest):
    # What the host is called, which statuses there may be, and which shapes never come to the front.
    host, statuses = b"127.0.0.1", STATUSES
    kept_away: frozenset[str] = frozenset()

    def setUp(self):
        super().setUp()
        self.front_ = self.begun()

    def begun(self):
        """The front."""
        return self.front()

    def connected(self):
        """A connection to the front, or to who is before it."""
        return socket.create_connection(("127.0.0.1", self.front_.port), PATIENCE)

    def test_each(self):
        before = self.seq()
        with ThreadPoolExecutor(AT_ONCE) as threads:
            found = dict(zip(SHAPES, threads.map(lambda shape: self.answered(*shape), SHAPES.values())))
        for name, statuses in found.items():
            with self.subTest(name, statuses=statuses):
                self.assertLessEqual(len(statuses), 2 if name in TWO else 1)
                self.assertLessEqual(set(statuses), self.statuses)
        asking = {name for name, shape in SHAPES.items() if shape[0].startswith(b"GET")} | self.kept_away
        acted = [name for name, statuses in found.items() if statuses[:1] == [200] and name not in asking]
        self.assertIn("as it has to be", acted)
        self.assertEqual(self.seq() - before, len(acted), acted)

    def seq(self):
        """The number of the world."""
        return ask(self.front_.port, "GET", "/api/seq", token=self.token)[1]["seq"]

    def answered(self, first, lines, rest):
        """The statuses of the answers to what is sent, up to the end of the connection or until nothing more comes."""
        head = [first, b"host: " + self.host, f"authorization: Bearer {self.token}".encode(), *lines]
        came = b""
        with self.connected() as peer, contextlib.suppress(OSError):
            peer.sendall(b"\r\n".join(head) + b"\r\n\r\n" + rest)
            for piece in iter(lambda: peer.recv(65536), b""):
                came += piece
                peer.settimeout(SILENCE)
        # `100 Continue` comes before an answer.
        return [int(part[2:5]) for part in came.split(b"HTTP/1.")[1:] if part[2:5] != b"100"]


if __name__ == "__main__":
    unittest.main()
