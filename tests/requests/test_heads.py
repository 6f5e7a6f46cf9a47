"""Heads of requests: routes, methods, lengths, limits, and the order in which they are refused."""
from tests.support.exchange import BAD_REQUEST, MOO, NO_OBJECT, NOT_FOUND, NOTHING, TOO_LARGE, RequestTest, accepted, allow, answer, error
from tests.support.exchange import object_body, posted, said, seq
from tests.support.service import Service

# The world of the heads: #4 to #7, the first and the last of which have a name.
MADE = posted(
    "/batch",
    b'{"as":"#3","calls":["create(#1)","create(#1)","create(#1)","create(#1)",'
    b'"set(#4,\\"name\\",\\"Four\\")","set(#7,\\"name\\",\\"Seven\\")"]}',
)
FOUR = answer("200 OK", object_body("Four"))
SEVEN = answer("200 OK", object_body("Seven"))
ZERO = answer("200 OK", object_body("System Object"))

ORDER = [
    ("no bytes have no answer", b"", NOTHING),
    ("one of version 1.1", b"GET /seq HTTP/1.1\r\n\r\n", seq(1)),
    ("one of version 1.0, with bare line feeds", b"GET /seq HTTP/1.0\n\n", seq(1)),
    ("empty lines before it", b"\r\n\nGET /seq HTTP/1.1\r\n\r\n", seq(1)),
    # No head, or one that is cut off, before all else.
    ("an empty line alone", b"\r\n", BAD_REQUEST),
    ("no version", b"GET /seq\r\n\r\n", BAD_REQUEST),
    ("version 2.0", b"GET /seq HTTP/2.0\r\n\r\n", BAD_REQUEST),
    ("two blanks, and no route", b"GET  /nothing HTTP/1.1\r\n\r\n", BAD_REQUEST),
    ("cut off behind its first line, and no route", b"PUT /nothing HTTP/1.1\r\n", BAD_REQUEST),
    ("cut off behind the first line of a question", b"GET /seq HTTP/1.1\r\n", BAD_REQUEST),
    ("a line without a colon", b"GET /seq HTTP/1.1\r\nno line\r\n\r\n", BAD_REQUEST),
    # No route, before the method.
    ("no route for another method", b"PUT /nothing HTTP/1.1\r\n\r\n", NOT_FOUND),
    ("no route for a POST without a length", b"POST /nothing HTTP/1.1\r\n\r\n", NOT_FOUND),
    ("the root is no route", b"GET / HTTP/1.1\r\n\r\n", NOT_FOUND),
    ("nor is a star", b"GET * HTTP/1.1\r\n\r\n", NOT_FOUND),
    ("nor a whole address", b"GET http://localhost/seq HTTP/1.1\r\n\r\n", NOT_FOUND),
    ("nor large letters", b"GET /SEQ HTTP/1.1\r\n\r\n", NOT_FOUND),
    ("nor a slash behind it", b"GET /seq/ HTTP/1.1\r\n\r\n", NOT_FOUND),
    ("nor an encoded letter", b"GET /%73eq HTTP/1.1\r\n\r\n", NOT_FOUND),
    ("HEAD of no route", b"HEAD /nothing HTTP/1.1\r\n\r\n", answer("404 Not Found", error("not found"), is_head=True)),
    # Another method, before the object's number and before the length.
    ("POST where GET is wanted", b"POST /seq HTTP/1.1\r\n\r\n", allow("GET")),
    ("a method in small letters", b"get /seq HTTP/1.1\r\n\r\n", allow("GET")),
    ("POST of an object that is no number", b"POST /object/x HTTP/1.1\r\n\r\n", allow("GET")),
    ("PUT where POST is wanted, with a great length", b"PUT /ask HTTP/1.1\r\ncontent-length: 9999999999\r\n\r\n", allow("POST")),
    ("HEAD of an object", b"HEAD /object/4 HTTP/1.1\r\n\r\n", allow("GET", is_head=True)),
    ("HEAD where POST is wanted", b"HEAD /batch HTTP/1.1\r\n\r\n", allow("POST", is_head=True)),
    ("a method that begins with HEAD", b"HEADS /seq HTTP/1.1\r\n\r\n", allow("GET")),
    # The query isn't a part of the path.
    ("an empty query", b"GET /seq? HTTP/1.1\r\n\r\n", seq(1)),
    ("a query that is a path", b"GET /seq?/object/4 HTTP/1.1\r\n\r\n", seq(1)),
    ("a query alone", b"GET ?/seq HTTP/1.1\r\n\r\n", NOT_FOUND),
    ("a query behind an object", b"GET /object/4?x=1 HTTP/1.1\r\n\r\n", FOUR),
    # A body's lines aren't looked at if there is no body.
    ("a GET with lines of a bad body", b"GET /seq HTTP/1.1\r\ncontent-length: x\r\ntransfer-encoding: chunked\r\n\r\n", seq(1)),
    ("a GET with the length of a body that isn't there", b"GET /seq HTTP/1.0\r\ncontent-length: 7\r\n\r\n", seq(1)),
    ("more behind a GET", b"GET /object/4 HTTP/1.1\r\n\r\nmore", FOUR),
    ("a path below an object", b"GET /object/4/5 HTTP/1.1\r\n\r\n", NOT_FOUND),
    ("nothing of all this acted", b"GET /seq HTTP/1.1\r\n\r\n", seq(1)),
]

NUMBERS = [
    ("0", ZERO), ("007", SEVEN), ("-0", ZERO), ("-1", NO_OBJECT), ("2147483647", NO_OBJECT), ("-2147483648", NO_OBJECT),
    ("2147483648", NOT_FOUND), ("-2147483649", NOT_FOUND), ("99999999999999999999999999", NOT_FOUND), ("", NOT_FOUND), ("-", NOT_FOUND),
    ("+1", NOT_FOUND), ("1x", NOT_FOUND), ("#1", NOT_FOUND), ("x", NOT_FOUND),
]

# The body is `{}`, of two bytes and of another shape: a length that is taken is a bad request too, so the large ones tell.
LENGTHS = [
    ("none", b"", BAD_REQUEST),
    ("one over the limit", b"content-length: 1048577\r\n", TOO_LARGE),
    ("letters of both cases, and no blank", b"Content-LENGTH:1048577\r\n", TOO_LARGE),
    ("blanks and tabs round it", b"content-length: \t 1048577 \t\r\n", TOO_LARGE),
    ("zeros before it, ten digits", b"content-length: 0001048577\r\n", TOO_LARGE),
    ("the greatest of ten digits", b"content-length: 9999999999\r\n", TOO_LARGE),
    ("one over the limit, where leave is asked for", b"expect: 100-continue\r\ncontent-length: 1048577\r\n", TOO_LARGE),
    ("the limit, of a body that ends before", b"content-length: 1048576\r\n", BAD_REQUEST),
    ("zeros before it, eleven digits", b"content-length: 00001048577\r\n", BAD_REQUEST),
    ("eleven digits", b"content-length: 99999999999\r\n", BAD_REQUEST),
    ("a line without a number", b"content-length:\r\n", BAD_REQUEST),
    ("a plus sign", b"content-length: +1048577\r\n", BAD_REQUEST),
    ("a minus sign", b"content-length: -1048577\r\n", BAD_REQUEST),
    ("a letter behind it", b"content-length: 1048577x\r\n", BAD_REQUEST),
    ("hexadecimal digits", b"content-length: 0x100001\r\n", BAD_REQUEST),
    ("a blank inside", b"content-length: 1048 577\r\n", BAD_REQUEST),
    ("two in one line", b"content-length: 1048577, 1048577\r\n", BAD_REQUEST),
    ("the same twice", b"content-length: 1048577\r\ncontent-length: 1048577\r\n", BAD_REQUEST),
    ("the right one twice", b"content-length: 2\r\ncontent-length: 2\r\n", BAD_REQUEST),
    ("two that differ", b"content-length: 1048577\r\nx: y\r\nCONTENT-LENGTH: 2\r\n", BAD_REQUEST),
    ("chunks before it", b"transfer-encoding: chunked\r\ncontent-length: 1048577\r\n", BAD_REQUEST),
    ("another coding behind it", b"content-length: 1048577\r\nTransfer-Encoding: identity\r\n", BAD_REQUEST),
    ("chunks beside the right one", b"content-length: 2\r\ntransfer-encoding: chunked\r\n", BAD_REQUEST),
    ("a line of another name", b"x-content-length: 1048577\r\n", BAD_REQUEST),
    ("the right one", b"content-length: 2\r\n", BAD_REQUEST),
]

# A batch that acts, if its head is taken; after it comes its body, of 34 bytes.
CREATE = b'{"as":"#3","calls":["create(#1)"]}'
ACTING_LENGTHS = [
    ("the same twice", b"content-length: 34\r\ncontent-length: 34\r\n", BAD_REQUEST),
    ("chunks beside it", b"content-length: 34\r\ntransfer-encoding: chunked\r\n", BAD_REQUEST),
    ("a plus sign", b"content-length: +34\r\n", BAD_REQUEST),
    ("hexadecimal digits", b"content-length: 0x22\r\n", BAD_REQUEST),
    ("one byte more than comes", b"content-length: 35\r\n", BAD_REQUEST),
    ("one byte less", b"content-length: 33\r\n", BAD_REQUEST),
    ("a blank before the colon", b"content-length : 34\r\n", BAD_REQUEST),
    ("the right one, which acts", b"content-length: 34\r\n", accepted(1, "#4")),
    ("and ten digits, which acts", b"Content-Length:\t0000000034 \r\n", accepted(2, "#5")),
]


def seq_head(lines, more):
    """A GET of /seq whose head has so many lines, and so many further bytes in the last one."""
    return b"GET /seq HTTP/1.1\r\n" + b"x: y\r\n" * (lines - 1) + b"x:" + b"y" * more + b"\r\n\r\n"


class RequestHeads(RequestTest):
    def test_order(self):
        self.in_turn("a head", ORDER, [MADE])

    def test_object_numbers(self):
        rows = [(f"'{number}'", f"GET /object/{number} HTTP/1.1\r\n\r\n".encode(), wanted) for number, wanted in NUMBERS]
        self.in_turn("the number of an object", rows, [MADE])

    def test_lengths(self):
        rows = [(name, b"POST /batch HTTP/1.1\r\n%s\r\n{}" % lines, wanted) for name, lines, wanted in LENGTHS]
        self.in_turn("a length", rows + [("nothing of all this acted", b"GET /seq HTTP/1.1\r\n\r\n", seq(0))])

    def test_acting_lengths(self):
        rows = [(name, b"POST /batch HTTP/1.1\r\n%s\r\n%s" % (lines, CREATE), wanted) for name, lines, wanted in ACTING_LENGTHS]
        self.in_turn("the length of a batch", rows)

    def test_limits(self):
        # The first line, the last one and what is always there of the line before it are 25 bytes.
        rows = [(32, 0, seq(0)), (33, 0, BAD_REQUEST), (1, 8167, seq(0)), (1, 8168, BAD_REQUEST)]
        service = Service(MOO, ":memory:", 2 * len(rows))
        for lines, more, wanted in rows:
            head = seq_head(lines, more)
            self.case(f"a head of {lines} lines and {len(head)} bytes", said(service, head), wanted)
            self.case(f"{lines} lines and {len(head)} bytes in pieces of 1,000", said(service, head, 1000), wanted)
        self.case("all of these heads are served", service.end(), (0, f"served {2 * len(rows)} failed 0\n"))
