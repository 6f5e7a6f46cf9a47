"""`?why`: refusals that say why, to the byte, and that nothing else changes."""
import json

from tests.support.cases import ProgramTest
from tests.support.exchange import BAD_REQUEST, MOO, NO_OBJECT, NOT_FOUND, TOO_LARGE, RequestTest, accepted, allow, answer, error, malformed, posted
from tests.support.exchange import refused, said, seq, stale
from tests.support.program import edit, ended
from tests.support.service import Service
from tests.support.worlds import make, text_of

BAD, MISSING, CONFLICT = "400 Bad Request", "404 Not Found", "409 Conflict"


def told(status, why, **parts):
    """An answer whose last key says why."""
    return answer(status, json.dumps({**parts, "why": why}, separators=(",", ":")))


def told_refusal(call, code, why):
    return told(CONFLICT, why, call=call, error=code)


def unlike(path, method, is_head=False):
    """The answer to another method than the route has, which says why."""
    body = {"error": "method not allowed", "why": f"{path} is asked by {method}"}
    return answer("405 Method Not Allowed", json.dumps(body, separators=(",", ":")), f"allow: {method}\r\n", is_head)


def headed(target, method="GET", lines=""):
    """A request without a body."""
    return f"{method} {target} HTTP/1.1\r\n{lines}\r\n".encode()


NO_NUMBER = "the value of at is neither null nor a number from 0 to 9223372036854775807"
# A body that is whole, and why it is refused.
SHAPES = [
    ("no bytes", b"", "the body isn't JSON"),
    ("a byte that is no text", b"\xff", "the body isn't JSON"),
    ("a word behind it", b'{"as":"#3","calls":[]} x', "the body isn't JSON"),
    ("an array", b"[]", "the body isn't an object of JSON"),
    ("a string", b'"#3"', "the body isn't an object of JSON"),
    ("no keys", b"{}", "the body has no key as"),
    ("a key in another case", b'{"As":"#3","calls":[]}', "the body has no key as"),
    ("a programmer that is a number", b'{"as":3,"calls":[]}', "the value of as isn't a string"),
    ("a programmer that is null", b'{"as":null,"calls":[]}', "the value of as isn't a string"),
    ("a programmer without a sign", b'{"as":"3","calls":[]}', "the value of as isn't an object, as #3 is one"),
    ("a programmer of 33 bits", b'{"as":"#2147483648","calls":[]}', "the value of as isn't an object, as #3 is one"),
    ("no calls", b'{"as":"#3"}', "the body has no key calls"),
    ("calls that are a string", b'{"as":"#3","calls":"max_object()"}', "the value of calls isn't an array"),
    ("a call that is a number", b'{"as":"#3","calls":["max_object()",1]}', "the value of calls has an entry that isn't a string"),
    ("a number in a string", b'{"as":"#3","at":"0","calls":[]}', NO_NUMBER),
    ("a number below zero", b'{"as":"#3","at":-1,"calls":[]}', NO_NUMBER),
    ("a number of 64 bits", b'{"as":"#3","at":9223372036854775808,"calls":[]}', NO_NUMBER),
    ("a call too many", b'{"as":"#3","calls":[%s]}' % b",".join([b'""'] * 1001), "calls has over 1,000 calls"),
    ("a long call", b'{"as":"#3","calls":["%s"]}' % (b"x" * 262145), "a call has over 262,144 bytes"),
    ("the first of two faults", b'{"as":3,"calls":3}', "the value of as isn't a string"),
]

# A route, its method, and another one.
METHODS = [
    ("/batch", "POST", "GET"), ("/ask", "POST", "PUT"), ("/each", "POST", "post"), ("/seq", "GET", "POST"), ("/object", "GET", "POST"),
    ("/objects", "GET", "DELETE"), ("/dump", "GET", "POST"),
]  # fmt: skip
# Targets of routes with a number that have no number of 32 bits.
NO_NUMBERS = ["", "/", "/x", "/-", "/+1", "/#1", "/1x", "/2147483648", "/-2147483649"]
# Targets that no route has.
NO_ROUTES = ["/", "*", "/nothing", "/seq/", "/SEQ", "/dump/0", "/object/1/2", "/objects//", "/objec", "/objectss", "/object0", "/each/1", "http://localhost/seq"]
CHUNKED = "chunked bodies aren't read: send content-length"
NO_LENGTH = "content-length isn't one number"
# Lines of a head that state no length of a body, and why that is refused.
LENGTHS = [
    ("none", "", NO_LENGTH),
    ("a line without a number", "content-length:\r\n", NO_LENGTH),
    ("a sign", "content-length: -1\r\n", NO_LENGTH),
    ("two numbers in a line", "content-length: 2, 2\r\n", NO_LENGTH),
    ("the same twice", "content-length: 2\r\ncontent-length: 2\r\n", NO_LENGTH),
    ("eleven digits", "content-length: 00000000002\r\n", NO_LENGTH),
    ("chunks", "transfer-encoding: chunked\r\n", CHUNKED),
    ("chunks and a length", "content-length: 2\r\nTransfer-Encoding: chunked\r\n", CHUNKED),
    ("another coding, and two lengths", "transfer-encoding: gzip\r\ncontent-length: 2\r\ncontent-length: 2\r\n", CHUNKED),
]

# A request without a whole head, and one that is refused for another cause, is answered as ever.
AS_EVER = [
    ("no head", b"POST /batch?why\r\n\r\n", BAD_REQUEST),
    ("a head that is cut off", b"GET /nothing?why HTTP/1.1\r\n", BAD_REQUEST),
    ("a head of 33 lines", headed("/nothing?why", lines="a: b\r\n" * 33), BAD_REQUEST),
    ("a page of a browser", headed("/nothing?why", lines="origin: http://localhost\r\n"), answer("403 Forbidden", error("forbidden"))),
    ("another machine", headed("/objects/x?why", lines="host: example.org\r\n"), answer("403 Forbidden", error("forbidden"))),
    ("a great length", b"POST /batch?why HTTP/1.1\r\ncontent-length: 1048577\r\n\r\n", TOO_LARGE),
    ("a body that is cut off", b'POST /batch?why HTTP/1.1\r\ncontent-length: 9\r\n\r\n{"as":3}', BAD_REQUEST),
    ("another number", posted("/batch?why", b'{"as":"#3","at":7,"calls":["valid(#1)"]}'), stale(0)),
    ("a question", posted("/ask?why", b'{"as":"#3","calls":["create(#1)"]}'), accepted(0, "#4")),
    ("a number that is no object", b"GET /object/9?why HTTP/1.1\r\n\r\n", NO_OBJECT),
    ("nothing of all this acted", b"GET /seq?why HTTP/1.1\r\n\r\n", seq(0)),
    ("a batch", posted("/batch?why", b'{"as":"#3","calls":["create(#1)"]}'), accepted(1, "#4")),
]

# What follows the first question mark if the reason is asked for.
QUERIES = ["?why", "?why=", "?why=1"]
# What follows it if it isn't.
OTHER_QUERIES = ["", "?", "?Why", "?why=0", "?why=11", "?why==", "?why=1&x", "?why&x", "?x&why", "?x?why", "??why", "?why?", "?wh", "?whyy", "?%77hy"]

# Calls of #3 on a new world, of which the last isn't accepted, and why.
NOT_ACCEPTED = [
    (["creat(#1)"], told(BAD, "'creat' names no call (did you mean create?)", call=1, error="malformed")),
    (["valid(#1)", "valid(#1"], told(BAD, "a comma or `)` is missing before ''", call=2, error="malformed")),
    (["set(#1, \"name\", \"x)"], told(BAD, "a text without its closing quote", call=1, error="malformed")),
    ([""], told(BAD, "'' isn't a call: each line of a batch is one, and there are no comments", call=1, error="malformed")),
    (["valid(#1)\n"], told(BAD, "'?' after the call: a line holds one call, and no comment", call=1, error="malformed")),
    (["\u00e9\t"], told(BAD, "'???' isn't a call: each line of a batch is one, and there are no comments", call=1, error="malformed")),
    (["recycle(#9)"], told_refusal(1, "E_INVARG", "recycle(#9): E_INVARG, #9 isn't an object")),
    (["create(#1)", "chparent(#1, #4)"], told_refusal(2, "E_RECMOVE", "chparent(#1, #4): E_RECMOVE, #4 is under #1")),
    (["set(#1, \"a\tb\\\"\", 1)"], told_refusal(1, "E_PROPNF", "set(#1, \"a\tb\\\"\", 1): E_PROPNF, #1 has no property \"a\tb\\\"\"")),
    (["create()"], told_refusal(1, "E_ARGS", "create(): E_ARGS, it is written create(PARENT) or create(PARENT, OWNER)")),
]


def bytes_of(calls, programmer="#3"):
    return json.dumps({"as": programmer, "calls": calls}).encode()


class Why(RequestTest):
    def test_shapes(self):
        rows = []
        for name, body, why in SHAPES:
            for path in ("/batch", "/ask"):
                rows.append((f"{name}, {path}?why", posted(f"{path}?why", body), told(BAD, why, error="bad request")))
                rows.append((f"{name}, {path}", posted(path, body), BAD_REQUEST))
        self.in_turn("another shape", [*rows, ("none of them acted", b"GET /seq HTTP/1.1\r\n\r\n", seq(0))])

    def test_as_ever(self):
        self.in_turn("as ever", AS_EVER)

    def test_methods(self):
        rows = []
        for route, method, other in METHODS:
            for target in [f"{route}/4", f"{route}/x"] if route in ("/object", "/objects") else [route]:
                for query in QUERIES:
                    rows.append((f"{other} {target}{query}", headed(f"{target}{query}", other), unlike(route, method)))
                rows.append((f"HEAD {target}?why", headed(f"{target}?why", "HEAD"), unlike(route, method, is_head=True)))
                rows.append((f"{other} {target}", headed(target, other), allow(method)))
        self.in_turn("another method", rows)

    def test_paths(self):
        rows = []
        whys = [(f"{route}{rest}", f"{route} wants a number: {route}/0") for route in ("/object", "/objects") for rest in NO_NUMBERS]
        for target, why in [*whys, *((target, "no route has this path") for target in NO_ROUTES)]:
            for query in QUERIES:
                rows.append((f"{target}{query}", headed(f"{target}{query}"), told(MISSING, why, error="not found")))
            rows.append((target, headed(target), NOT_FOUND))
        rows.append(("no route, whatever the method", headed("/object?why", "PUT"), told(MISSING, whys[0][1], error="not found")))
        rows.append(("a query alone", headed("?why"), told(MISSING, "no route has this path", error="not found")))
        self.in_turn("no path", rows)

    def test_lengths(self):
        rows = []
        for name, lines, why in LENGTHS:
            for route in ("/batch", "/ask", "/each"):
                for query in QUERIES:
                    rows.append((f"{name}, {route}{query}", headed(f"{route}{query}", "POST", lines), told(BAD, why, error="bad request")))
                rows.append((f"{name}, {route}", headed(route, "POST", lines), BAD_REQUEST))
        self.in_turn("no length", rows)

    def test_other_queries(self):
        rows = []
        for query in OTHER_QUERIES:
            rows.append((f"{query} of no route", headed(f"/nothing{query}"), NOT_FOUND))
            rows.append((f"{query} of another method", headed(f"/seq{query}", "POST"), allow("GET")))
            rows.append((f"{query} of no length", headed(f"/batch{query}", "POST"), BAD_REQUEST))
            rows.append((f"{query} of a shape", posted(f"/batch{query}", b"{}"), BAD_REQUEST))
            rows.append((f"{query} of a text", posted(f"/batch{query}", bytes_of(["sing()"])), malformed(1)))
            rows.append((f"{query} of a call", posted(f"/ask{query}", bytes_of(["recycle(#9)"])), refused(1, "E_INVARG")))
        self.in_turn("another query", rows)

    def test_each_query_that_asks(self):
        rows = []
        for query in QUERIES:
            rows.append((f"{query} of a shape", posted(f"/batch{query}", b"{}"), told(BAD, "the body has no key as", error="bad request")))
            why = told_refusal(1, "E_INVARG", "recycle(#9): E_INVARG, #9 isn't an object")
            rows.append((f"{query} of a call", posted(f"/ask{query}", bytes_of(["recycle(#9)"])), why))
        self.in_turn("a query that asks", rows)

    def test_not_accepted(self):
        rows = []
        for calls, wanted in NOT_ACCEPTED:
            rows.append((f"batch {calls}", posted("/batch?why", bytes_of(calls)), wanted))
            rows.append((f"ask {calls}", posted("/ask?why", bytes_of(calls)), wanted))
        self.in_turn("why", [*rows, ("none of them acted", b"GET /seq HTTP/1.1\r\n\r\n", seq(0))])

    def test_a_long_one(self):
        """It is cut as a line of standard error isn't."""
        make("world.db")
        call = f"valid({', '.join(['#1'] * 400)})"
        whole = f"{call}: E_ARGS, it is written valid(O)"
        line = ended("ask", "world.db", "-", text=text_of([call])).complaint
        self.case("standard error has the whole", line, f"moo: line 2: refused: {whole}\n")
        service = Service(MOO, "world.db", 3)
        cut = whole[:998] + ".."
        self.case("a refusal", said(service, posted("/ask?why", bytes_of([call]))), told_refusal(1, "E_ARGS", cut))
        # 1,000 bytes are whole, and 1,001 aren't.
        for count in (1000, 1001):
            words = self.of_length(count)
            wanted = words if count == 1000 else words[:998] + ".."
            body = bytes_of([words.split(": ")[0]])
            self.case(f"{count} bytes", said(service, posted("/ask?why", body)), told_refusal(1, "E_ARGS", wanted))
        self.case("all are served", service.end(), (0, "served 3 failed 0\n"))

    @staticmethod
    def of_length(count):
        """The reason of a call of `valid` with so many bytes."""
        end = ": E_ARGS, it is written valid(O)"
        room = count - len("valid()") - len(end)
        values = ["1"] * (room // 3 - 1)
        left = room - len(", ".join(values)) - 2
        return f"valid({', '.join([*values, '1' * left])}){end}"


class WhyFull(ProgramTest):
    def test_no_number_is_left(self):
        """A world that has given the greatest number to an object."""
        make("full.db")
        edit("full.db", "update head set top = 2147483647")
        service = Service(MOO, "full.db", 2)
        body = bytes_of(["valid(#1)", "create(#1)"])
        full = told(CONFLICT, "no number is left for what the call makes", call=2, error="full")
        self.case("why", said(service, posted("/batch?why", body)), full)
        self.case("not why", said(service, posted("/batch", body)), refused(2, "full"))
        self.case("both are served", service.end(), (0, "served 2 failed 0\n"))
