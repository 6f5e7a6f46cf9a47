"""`POST /each`: what each call alone would answer, to the byte, and that nothing changes."""
import json

from tests.support.cases import ProgramTest
from tests.support.exchange import BAD_REQUEST, MOO, TOO_LARGE, RequestTest, accepted, allow, answer, posted, said, seq, stale
from tests.support.program import edit
from tests.support.service import Service
from tests.support.worlds import make

FORBIDDEN = answer("403 Forbidden", '{"error":"forbidden"}')


def bytes_of(calls, programmer="#3", **more):
    return json.dumps({"as": programmer, "calls": calls, **more}).encode()


def asked(calls, programmer="#3", path="/each", **more):
    """A request that asks these calls, each alone."""
    return posted(path, bytes_of(calls, programmer, **more))


def each(number, *entries):
    """The answer at this number. An entry is the text of an answer, or the keys of what is refused."""
    parts = [{"answer": entry} if isinstance(entry, str) else entry for entry in entries]
    return answer("200 OK", json.dumps({"each": parts, "seq": number}, separators=(",", ":")))


def fails(word, why=None):
    return {"error": word} if why is None else {"error": word, "why": why}


# In turn on one world.
ROWS = [
    ("no calls", asked([]), each(0)),
    ("one", asked(["valid(#1)"]), each(0, "1")),
    ("each alone: none sees another", asked(["create(#1)", "create(#1)", "valid(#4)", "max_object()"]), each(0, "#4", "#4", "0", "#3")),
    (
        "a refused one leaves the others",
        asked(["recycle(#9)", "name(#3)", 'get(#3, "name")', "sing(#1)", "create()", ""]),
        each(0, fails("E_INVARG"), fails("malformed"), '"Wizard"', fails("malformed"), fails("E_ARGS"), fails("malformed")),
    ),
    ("a list, quotes and backslashes", asked(["children(#1)", 'set(#3, "name", "a")']), each(0, "{#0, #2, #3}", "0")),
    ("by another", asked(["create(#3)", 'set(#1, "name", "x")', "max_object()"], "#2"), each(0, fails("E_PERM"), fails("E_PERM"), "#3")),
    ("by nobody", asked(["max_object()", "sing()"], "#9"), each(0, fails("E_PERM"), fails("malformed"))),
    ("at the present number", asked(["create(#1)"], at=0), each(0, "#4")),
    ("no number", asked(["create(#1)"], at=None), each(0, "#4")),
    ("at another number", asked(["create(#1)"], at=7), stale(0)),
    ("at another number, with texts that are no calls", asked(["sing()"], at=1), stale(0)),
    ("at another number, no calls", asked([], at=1), stale(0)),
    ("nothing of all this acted", b"GET /seq HTTP/1.1\r\n\r\n", seq(0)),
    ("a batch acts", posted("/batch", bytes_of(["create(#1, #-1)", 'set(#4, "name", "A \\"b\\\\")'])), accepted(1, "#4", "0")),
    ("it is seen", asked(["max_object()", 'get(#4, "name")', "recycle(#4)", "valid(#4)"]), each(1, "#4", '"A \\"b\\\\"', "0", "1")),
    ("a petition is kept by none", asked(['petition({{"create", #1}})', "petitions()"], "#4"), each(1, "1", "{}")),
    ("the number of before", asked([], at=0), stale(1)),
    ("a thousand", asked(["valid(#1)"] * 1000), each(1, *["1"] * 1000)),
    ("HEAD", b"HEAD /each HTTP/1.1\r\n\r\n", allow("POST", is_head=True)),
    ("GET", b"GET /each HTTP/1.1\r\n\r\n", allow("POST")),
    ("a longer path", posted("/each/1", bytes_of([])), answer("404 Not Found", '{"error":"not found"}')),
    ("a query", asked(["recycle(#9)"], path="/each?x"), each(1, fails("E_INVARG"))),
]

# What isn't whole, or has another shape, is refused as it is for `/ask`.
BODIES = [
    ("no length", b"POST /each HTTP/1.1\r\n\r\n", BAD_REQUEST),
    ("a body in chunks", b"POST /each HTTP/1.1\r\ntransfer-encoding: chunked\r\n\r\n0\r\n\r\n", BAD_REQUEST),
    ("a great length", b"POST /each HTTP/1.1\r\ncontent-length: 1048577\r\n\r\n", TOO_LARGE),
    ("a body that is cut off", b'POST /each HTTP/1.1\r\ncontent-length: 99\r\n\r\n{"as":"#3","calls":[]}', BAD_REQUEST),
    ("no JSON", posted("/each", b"x"), BAD_REQUEST),
    ("no programmer", posted("/each", b'{"calls":[]}'), BAD_REQUEST),
    ("no calls", posted("/each", b'{"as":"#3"}'), BAD_REQUEST),
    ("a call that is a number", posted("/each", b'{"as":"#3","calls":["valid(#1)",1]}'), BAD_REQUEST),
    ("a number below zero", posted("/each", b'{"as":"#3","at":-1,"calls":[]}'), BAD_REQUEST),
    ("a call too many", asked(["valid(#1)"] * 1001), BAD_REQUEST),
    ("a long call", asked(["x" * 262145]), BAD_REQUEST),
    ("a page", b"POST /each HTTP/1.1\r\norigin: null\r\ncontent-length: 2\r\n\r\n{}", FORBIDDEN),
    ("another machine", b"POST /each HTTP/1.1\r\nhost: example.com\r\ncontent-length: 2\r\n\r\n{}", FORBIDDEN),
    ("another machine, before the method", b"GET /each HTTP/1.1\r\nhost: example.com\r\n\r\n", FORBIDDEN),
    ("this machine", b"POST /each HTTP/1.1\r\nhost: [::1]:80\r\ncontent-length: 2\r\n\r\n{}", BAD_REQUEST),
    ("nothing acted", b"GET /seq HTTP/1.1\r\n\r\n", seq(0)),
]

WHY = [
    (
        "each has its own",
        ["create(#1)", "creat(#1)", "recycle(#9)", "valid(#1)", "chparent(#1, #2)"],
        [
            "#4",
            fails("malformed", "'creat' names no call (did you mean create?)"),
            fails("E_INVARG", "recycle(#9): E_INVARG, #9 isn't an object"),
            "1",
            fails("E_RECMOVE", "chparent(#1, #2): E_RECMOVE, #2 is under #1"),
        ],
    ),
    ("none is refused", ["valid(#1)", "max_object()"], ["1", "#3"]),
    ("none is there", [], []),
]


class Each(RequestTest):
    def test_rows(self):
        self.in_turn("each", ROWS)

    def test_bodies(self):
        self.in_turn("a body", BODIES)

    def test_why(self):
        rows = []
        for name, calls, entries in WHY:
            bare = [entry if isinstance(entry, str) else fails(entry["error"]) for entry in entries]
            rows.append((name, asked(calls, path="/each?why"), each(0, *entries)))
            rows.append((f"{name}, unasked", asked(calls), each(0, *bare)))
            rows.append((f"{name}, with a sign", asked(calls, path="/each?why="), each(0, *entries)))
            rows.append((f"{name}, with a one", asked(calls, path="/each?why=1"), each(0, *entries)))
            rows.append((f"{name}, another query", asked(calls, path="/each?why=0"), each(0, *bare)))
        shape = answer("400 Bad Request", '{"error":"bad request","why":"the body has no key calls"}')
        rows.append(("another shape", posted("/each?why", b'{"as":"#3"}'), shape))
        rows.append(("another number", asked(["sing()"], path="/each?why", at=7), stale(0)))
        self.in_turn("why", rows)


class EachFull(ProgramTest):
    def test_no_number_is_left(self):
        """A world that has given the greatest number to an object."""
        make("full.db")
        edit("full.db", "update head set top = 2147483647")
        service = Service(MOO, "full.db", 2)
        calls = ["create(#1)", "valid(#1)"]
        why = fails("full", "no number is left for what the call makes")
        self.case("full is an answer", said(service, asked(calls)), each(0, fails("full"), "1"))
        self.case("why", said(service, asked(calls, path="/each?why")), each(0, why, "1"))
        self.case("both are served", service.end(), (0, "served 2 failed 0\n"))

    def test_no_batch_more_can_be_counted(self):
        """A world after 9,223,372,036,854,775,807 batches takes none more, so that each call alone is full."""
        make("last.db")
        edit("last.db", "update head set seq = 9223372036854775807")
        service = Service(MOO, "last.db", 1)
        last = 9223372036854775807
        self.case("full", said(service, asked(["valid(#1)", "sing()"])), each(last, fails("full"), fails("malformed")))
        self.case("it is served", service.end(), (0, "served 1 failed 0\n"))
