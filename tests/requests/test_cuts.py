"""Requests that come in pieces or are cut off, bytes that are left, and peers that go away."""
import re
import socket

from tests.support.exchange import BAD_REQUEST, BATCH, BATCH_ANSWER, MOO, NOT_FOUND, NOTHING, SEQ_QUESTION, TOO_LARGE, RequestTest
from tests.support.exchange import accepted, allow, heard_to_the_end, posted, said, send_in_pieces, seq
from tests.support.service import Service, answer, reset

# It is for the eighth batch: so the world of its scenes has seven.
AT_7 = posted("/batch", b'{"as":"#3","at":7,"calls":["create(#1)"]}')
NO_CALLS = posted("/batch", b'{"as":"#3","calls":[]}')
PIECES = (1, 7, 4096)


def world_of(batches, connections):
    """The service of a new world after so many batches, for so many further connections."""
    service = Service(MOO, ":memory:", batches + connections)
    for _ in range(batches):
        service.ask(NO_CALLS)
    return service


def first_wrong(rows):
    """The first of some numbers at which something else came, and what; or nothing."""
    return next(((number, came) for number, came, wanted in rows if came != wanted), None)


def break_off(service, sent, most=1 << 20):
    """A peer that sends these bytes, and resets."""
    peer = service.peer()
    send_in_pieces(peer, sent, most)
    reset(peer)


# No peer of these says that it has no more: what isn't needed isn't waited for.
SILENT = [
    ("a question that states a length", b"GET /seq HTTP/1.1\r\ncontent-length: 9\r\n\r\n", seq(7)),
    ("no object", b"GET /object/4 HTTP/1.1\r\n\r\n", answer("404 Not Found", '{"error":"E_INVARG"}')),
    ("no route", b"GET /nothing HTTP/1.1\r\n\r\n", NOT_FOUND),
    ("another method", b"PUT /batch HTTP/1.1\r\ncontent-length: 9\r\n\r\n", allow("POST")),
    ("no length", b"POST /batch HTTP/1.1\r\n\r\n", BAD_REQUEST),
    ("a batch that is too large", b"POST /batch HTTP/1.1\r\ncontent-length: 1048577\r\n\r\n", TOO_LARGE),
    ("a question that is too large", b"POST /ask HTTP/1.1\r\ncontent-length: 1048577\r\n\r\n", TOO_LARGE),
    ("the front of what is no head", b"GET  /", BAD_REQUEST),
    ("8,192 bytes of a head without an end", b"GET /" + b"x" * 8187, BAD_REQUEST),
    ("a batch", AT_7, accepted(8, "#4")),
]


# More follows these than is wanted. The service reads what is left before it closes, so that the connection is not reset.
LEFT = [
    (
        "a second request behind a body", posted("/ask", b'{"as":"#3","at":7,"calls":["create(#1)"]}' + b" " * 3000) + SEQ_QUESTION,
        accepted(7, "#4")
    ),
    ("one byte behind a body", posted("/ask", b'{"as":"#3","at":7,"calls":["create(#1)"]}' + b" " * 3000) + b"x", accepted(7, "#4")),
    ("a body that is too large", b"POST /batch HTTP/1.1\r\ncontent-length: 1048577\r\n\r\n" + b" " * 4000, TOO_LARGE),
    ("one byte behind 8,192 of a head without an end", b"GET /" + b"x" * 8188, BAD_REQUEST),
    ("1,813 bytes behind 8,192 of a head without an end", b"GET /" + b"x" * 10000, BAD_REQUEST),
]


# An answer of some 60 MB, more than the system keeps for a peer.
LONG = "x" * 60000
LONG_BATCH = posted("/batch", ('{"as":"#3","calls":["set(#3,\\"name\\",\\"%s\\")"%s]}' % (LONG, ',"get(#3,\\"name\\")"' * 999)).encode())
LONG_ANSWER = accepted(1, "0", *[f'"{LONG}"'] * 999)


def front_of(peer, size):
    """So many bytes of an answer."""
    came = b""
    while len(came) < size and (part := peer.recv(size - len(came))):
        came += part
    return came


class RequestCuts(RequestTest):
    def test_cuts(self):
        """The batch cut at each length; after each cut the number is asked for."""
        service = Service(MOO, ":memory:", 2 * len(BATCH) + 2)
        came = [(said(service, BATCH[:end]), said(service, SEQ_QUESTION)) for end in range(len(BATCH))]
        self.case("none of it has no answer", came[0], (NOTHING, seq(0)))
        rows = [(end, came[end], (BAD_REQUEST, seq(0))) for end in range(1, len(BATCH))]
        self.case("cut off behind 1 to 94 bytes it is a bad request, and doesn't act", (len(rows), first_wrong(rows)), (94, None))
        self.case("whole it is answered", said(service, BATCH), BATCH_ANSWER)
        self.case("and has acted", said(service, SEQ_QUESTION), seq(1))
        self.case("each cut is served", service.end(), (0, f"served {2 * len(BATCH) + 2} failed 0\n"))

    def cuts_in_pieces(self, most):
        service = world_of(7, len(AT_7) + 2)
        rows = [(end, said(service, AT_7[:end], most), BAD_REQUEST if end else NOTHING) for end in range(len(AT_7))]
        self.case(f"in pieces of {most}: cut off at each length it is a bad request", first_wrong(rows), None)
        self.case(f"in pieces of {most}: the number is as before", said(service, SEQ_QUESTION), seq(7))
        self.case(f"in pieces of {most}: whole it acts", said(service, AT_7, most), accepted(8, "#4"))
        self.case(f"in pieces of {most}: each cut is served", service.end(), (0, f"served {len(AT_7) + 9} failed 0\n"))

    def test_pieces(self):
        for most in PIECES:
            self.cuts_in_pieces(most)

    def test_resets(self):
        """Peers that reset at each length of the batch; after each the next client asks for the number."""
        service = Service(MOO, ":memory:", 2 * len(BATCH) + 2)
        rows = []
        for end in range(len(BATCH)):
            break_off(service, BATCH[:end])
            rows.append((end, said(service, SEQ_QUESTION), seq(0)))
        self.case("behind a peer that resets at each length of a batch the next is served, and nothing acted", first_wrong(rows), None)
        self.case("the batch acts behind them", said(service, BATCH), BATCH_ANSWER)
        self.case("and once", said(service, SEQ_QUESTION), seq(1))
        self.case("each of the 95 peers has failed", service.end(), (0, "served 97 failed 95\n"))

    def resets_in_pieces(self, most):
        service = world_of(7, len(AT_7) + 2)
        for end in range(len(AT_7)):
            break_off(service, AT_7[:end], most)
        self.case(
            f"in pieces of {most}: behind peers that reset at each length the number is as before", said(service, SEQ_QUESTION), seq(7)
        )
        self.case(f"in pieces of {most}: whole it acts behind them", said(service, AT_7, most), accepted(8, "#4"))
        self.case(f"in pieces of {most}: each of these peers has failed", service.end(), (0, f"served 9 failed {len(AT_7)}\n"))

    def test_resets_of_pieces(self):
        for most in PIECES:
            self.resets_in_pieces(most)

    def test_silent(self):
        service = world_of(7, len(SILENT))
        for name, request, wanted in SILENT:
            with service.peer() as peer:
                send_in_pieces(peer, request, 7)
                self.case(f"nothing more is waited for behind {name}", heard_to_the_end(peer), (wanted, "closed"))
        self.case("all that wait are served", service.end(), (0, f"served {7 + len(SILENT)} failed 0\n"))

    def test_left(self):
        service = world_of(7, len(LEFT) + 1)
        for name, request, wanted in LEFT:
            with service.peer() as peer:
                peer.sendall(request)
                self.case(f"there is one answer, and left is {name}", heard_to_the_end(peer), (wanted, "closed"))
        self.case("what was left changed nothing", said(service, SEQ_QUESTION), seq(7))
        self.case("all that have more are served", service.end(), (0, f"served {8 + len(LEFT)} failed 0\n"))

    def test_byte_by_byte(self):
        """A question, an object and a refusal, a byte a piece."""
        service = Service(MOO, ":memory:", 3)
        self.case("a question, byte by byte", said(service, SEQ_QUESTION, 1), seq(0))
        self.case("no route, byte by byte", said(service, b"GET /nothing HTTP/1.1\r\nhost: a\r\n\r\n", 1), NOT_FOUND)
        self.case("empty lines before a question, byte by byte", said(service, b"\r\n\r\n" + SEQ_QUESTION, 1), seq(0))
        self.case("all that come byte by byte are served", service.end(), (0, "served 3 failed 0\n"))

    def test_queue(self):
        """Three clients are there at once; the last one sends first, and each waits for its answer."""
        service = Service(MOO, ":memory:", 3)
        peers = [service.peer() for _ in range(3)]
        came = []
        for peer, request in reversed(list(zip(peers, (SEQ_QUESTION, BATCH, SEQ_QUESTION)))):
            peer.sendall(request)
            came.append(heard_to_the_end(peer)[0])
            peer.close()
        self.case("who sends first is served first, whoever connected first", came, [seq(0), BATCH_ANSWER, seq(1)])
        self.case("all three of them", service.end(), (0, "served 3 failed 0\n"))

    def test_next_client(self):
        """All of them have sent before the first is served."""
        service = Service(MOO, ":memory:", 3)
        peers = [service.peer() for _ in range(3)]
        for peer, request in reversed(list(zip(peers, (NOTHING, BATCH[:-16], SEQ_QUESTION)))):
            peer.sendall(request)
            peer.shutdown(socket.SHUT_WR)
        came = [heard_to_the_end(peer)[0] for peer in peers]
        for peer in peers:
            peer.close()
        self.case("behind one that sends nothing and one that breaks off the next is served", came, [NOTHING, BAD_REQUEST, seq(0)])
        self.case("neither has failed", service.end(), (0, "served 3 failed 0\n"))

    def test_unheard(self):
        """Peers that send a whole batch and don't read the answer."""
        service = Service(MOO, ":memory:", 4)
        with service.peer() as peer:
            peer.sendall(BATCH)
        self.case("a batch stands whose peer closed", said(service, SEQ_QUESTION), seq(1))
        break_off(service, BATCH)
        self.case("so does one whose peer reset", said(service, SEQ_QUESTION), seq(2))
        status, line = service.end()
        counts = re.fullmatch(r"served (\d+) failed (\d+)\n", line)
        # The answer may have gone out before the reset came.
        self.case("each of the four is counted", (status, bool(counts) and int(counts[1]) + int(counts[2])), (0, 4))

    def test_half_heard(self):
        """Peers that reset after so many bytes of a long answer."""
        for size in (0, 1, 116, 65536):
            service = Service(MOO, ":memory:", 2)
            peer = service.peer()
            peer.sendall(LONG_BATCH)
            # Once its answer begins, the batch has been read: a reset takes none of it away.
            begun = peer.recv(1, socket.MSG_PEEK)
            self.case(f"a long answer of which {size} bytes are read", (begun, front_of(peer, size)), (b"H", LONG_ANSWER[:size]))
            reset(peer)
            self.case(f"its batch stands, where it can't be written on behind {size} bytes", said(service, SEQ_QUESTION), seq(1))
            self.case(f"and the peer that read {size} bytes has failed", service.end(), (0, "served 1 failed 1\n"))

    def test_long_answer(self):
        service = Service(MOO, ":memory:", 1)
        self.case("a long answer comes whole", said(service, LONG_BATCH), LONG_ANSWER)
        self.case("to its end", service.end(), (0, "served 1 failed 0\n"))
