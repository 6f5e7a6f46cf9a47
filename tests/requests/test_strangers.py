"""Requests that the page of a browser sends: 403 before all else but a head that can't be read, and nothing changes."""
from tests.support.exchange import BAD_REQUEST, NOT_FOUND, RequestTest, accepted, allow, answer, error, seq

FORBIDDEN = answer("403 Forbidden", error("forbidden"))
CREATE = b'{"as":"#3","calls":["create(#1)"]}'


def request(line, *lines, body=b""):
    """A request of these lines, with a body."""
    length = [b"content-length: %d" % len(body)] if body else []
    return b"\r\n".join([line + b" HTTP/1.1", *lines, *length, b"", body])


# A line `origin` is refused at every route, known or not, whatever the method, the body and the other lines are.
ORIGINS = [
    ("a batch", request(b"POST /batch", b"origin: http://example.com", body=CREATE), FORBIDDEN),
    ("a batch with ?why", request(b"POST /batch?why", b"origin: http://example.com", body=CREATE), FORBIDDEN),
    ("a question", request(b"POST /ask", b"Origin: null", body=CREATE), FORBIDDEN),
    ("in large letters", request(b"POST /batch", b"ORIGIN: http://example.com", body=CREATE), FORBIDDEN),
    ("of this machine", request(b"POST /batch", b"host: localhost", b"origin: http://localhost", body=CREATE), FORBIDDEN),
    ("without a value", request(b"POST /batch", b"origin:", body=CREATE), FORBIDDEN),
    ("twice", request(b"POST /batch", b"origin: a", b"origin: b", body=CREATE), FORBIDDEN),
    ("behind other lines", request(b"POST /batch", b"host: localhost", b"x: y", b"origin: a", body=CREATE), FORBIDDEN),
    ("the number", request(b"GET /seq", b"origin: a"), FORBIDDEN),
    ("an object", request(b"GET /object/3", b"origin: a"), FORBIDDEN),
    ("no number of an object", request(b"GET /object/x", b"origin: a"), FORBIDDEN),
    ("a list", request(b"GET /objects/0", b"origin: a"), FORBIDDEN),
    ("no route", request(b"GET /nothing", b"origin: a"), FORBIDDEN),
    ("another method", request(b"PUT /batch", b"origin: a"), FORBIDDEN),
    ("OPTIONS", request(b"OPTIONS /batch", b"origin: a", b"access-control-request-method: POST"), FORBIDDEN),
    ("HEAD", request(b"HEAD /seq", b"origin: a"), answer("403 Forbidden", error("forbidden"), is_head=True)),
    ("no length", request(b"POST /batch", b"origin: a"), FORBIDDEN),
    ("a great length", request(b"POST /batch", b"origin: a", b"content-length: 9999999999"), FORBIDDEN),
    ("a body in chunks", request(b"POST /batch", b"origin: a", b"transfer-encoding: chunked"), FORBIDDEN),
    # The head comes first, and a name that only begins so is another one.
    ("a head that is none", b"POST /batch\r\norigin: a\r\n\r\n", BAD_REQUEST),
    ("a head that is cut off", b"POST /batch HTTP/1.1\r\norigin: a\r\n", BAD_REQUEST),
    ("a longer name", request(b"GET /seq", b"origins: a"), seq(0)),
    ("a shorter name", request(b"GET /seq", b"origi: a"), seq(0)),
    ("the word in a value", request(b"GET /seq", b"x: origin: a"), seq(0)),
    ("the word in the path", request(b"GET /seq?origin:a"), seq(0)),
    ("nothing acted", request(b"GET /seq"), seq(0)),
    ("without the line it acts", request(b"POST /batch", body=CREATE), accepted(1, "#4")),
]

OWN = b"127.0.0.1 127.0.0.1:8080 localhost localhost:1 LocalHost:8080 LOCALHOST [::1] [::1]:65535 localhost:0".split()
OTHERS = [
    *b"example.com example.com:8080 localhost.example.com 127.0.0.1.example.com 127.0.0.2 127.1 ::1 [::1 [::2] [::1]x".split(),
    *b"localhost: localhost:x localhost:80x localhost:65536 localhost:-1 localhost:80:80 localhos xlocalhost".split(),
    *b"127.0.0.1,localhost user@localhost".split(),
    b"localhost 80",
    b"",
]
# The answer to a list of no object, on a new world.
EMPTY = answer("200 OK", '{"next":null,"objects":[],"seq":0}')


class Strangers(RequestTest):
    def test_origins(self):
        self.in_turn("a line origin", ORIGINS)

    def test_hosts(self):
        """A GET of a page whose name leads here has no line `origin`, but names that page."""
        rows = [(f"{host} is this machine", request(b"GET /objects/9", b"host: " + host), EMPTY) for host in OWN]
        rows += [(f"{host} isn't", request(b"GET /objects/9", b"host: " + host), FORBIDDEN) for host in OTHERS]
        rows += [
            ("no line host", request(b"GET /objects/9"), EMPTY),
            ("a name in large letters", request(b"GET /objects/9", b"HOST: example.com"), FORBIDDEN),
            ("two of this machine", request(b"GET /objects/9", b"host: localhost", b"host: 127.0.0.1"), EMPTY),
            ("two, of which one is another", request(b"GET /objects/9", b"host: localhost", b"host: example.com"), FORBIDDEN),
            ("another one first", request(b"GET /objects/9", b"host: example.com", b"host: localhost"), FORBIDDEN),
            # It comes before the method and the number, and after the route.
            ("before the method", request(b"POST /objects/9", b"host: example.com"), FORBIDDEN),
            ("before the number", request(b"GET /objects/x", b"host: example.com"), FORBIDDEN),
            ("the method alone", request(b"POST /objects/9", b"host: localhost"), allow("GET")),
            ("the number alone", request(b"GET /objects/x", b"host: localhost"), NOT_FOUND),
            ("after the route", request(b"GET /nothing", b"host: example.com"), NOT_FOUND),
            # The other routes take any name.
            ("the number of batches", request(b"GET /seq", b"host: example.com"), seq(0)),
            ("a batch", request(b"POST /batch", b"host: example.com", body=CREATE), accepted(1, "#4")),
        ]
        self.in_turn("a line host", rows)
