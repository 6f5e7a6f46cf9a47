"""Bodies: who asks, the calls, and the number that the batch is for."""
from tests.support.exchange import BAD_REQUEST, MOO, SEQ_QUESTION, RequestTest, accepted, malformed, posted, refused, said, seq, stale
from tests.support.service import Service

# In turn, so that the numbers rise. #4 to #7 are made first. What a programmer makes is its own, which tells who asked.
SHAPES = [
    (
        "four objects are made", rb'{"as":"#3","calls":["create(#1)","create(#1)","create(#1)","create(#1)"]}',
        accepted(1, "#4", "#5", "#6", "#7")
    ),
    ("no calls", rb'{"as":"#3","calls":[]}', accepted(2)),
    ("one call", rb'{"as":"#3","calls":["create(#1)"]}', accepted(3, "#8")),
    ("what it made is the programmer's", rb'{"as":"#3","calls":["get(#8,\"owner\")"]}', accepted(4, "#3")),
    ("a number below zero, and no calls", rb'{"as":"#-1","calls":[]}', accepted(5)),
    ("a number below zero is nobody", rb'{"as":"#-1","calls":["max_object()"]}', refused(1, "E_PERM")),
    (
        "blanks, another order, an escape, and a number that isn't the present one",
        b' {"calls" : ["create( #1 )", "\\tMAX_OBJECT()"],\n"at":7, "as":"#3"} ', stale(5)
    ),
    ("zeros before the programmer's number", rb'{"as":"#007","calls":[]}', accepted(6)),
    ("they change nobody", rb'{"as":"#007","calls":["create(#1)","get(#9,\"owner\")"]}', accepted(7, "#9", "#7")),
    (
        "blanks, another order, an escape, and the present number",
        b' {"calls" : ["create( #1 )", "\\tMAX_OBJECT()"],\n"at":7, "as":"#3"} ', accepted(8, "#10", "#10")
    ),
    ("an escape in the programmer", rb'{"as":"\u00233","calls":[]}', accepted(9)),
    ("it is who it says", rb'{"as":"\u00233","calls":["create(#1)","get(#11,\"owner\")"]}', accepted(10, "#11", "#3")),
    ("null for a number", rb'{"as":"#3","at":null,"calls":[]}', accepted(11)),
    ("zero is a number", rb'{"as":"#3","at":0,"calls":[]}', stale(11)),
    ("the greatest number", rb'{"as":"#3","at":9223372036854775807,"calls":[]}', stale(11)),
    ("a further member, which holds a number", rb'{"as":"#3","calls":[],"x":[{"at":1}]}', accepted(12)),
    ("of two programmers the last", rb'{"as":"#2","as":"#3","calls":[]}', accepted(13)),
    ("which tells in what is made", rb'{"as":"#2","as":"#3","calls":["create(#1)","get(#12,\"owner\")"]}', accepted(14, "#12", "#3")),
    ("of two numbers and two arrays the last", rb'{"as":"#3","at":1,"at":null,"calls":[1],"calls":[]}', accepted(15)),
    ("a last number that is none", rb'{"as":"#3","at":null,"at":1.5,"calls":[]}', BAD_REQUEST),
    # A text that isn't a call, by its number.
    ("an empty text", rb'{"as":"#3","calls":[""]}', malformed(1)),
    ("the second is the first that is none", rb'{"as":"#3","calls":["max_object()","end","creat(#1)"]}', malformed(2)),
    ("more behind the third", rb'{"as":"#3","calls":["max_object()","max_object()","create(#1) x"]}', malformed(3)),
    ("a text that is none is told before another number", rb'{"as":"#3","at":1,"calls":[""]}', malformed(1)),
    ("another shape, before a text that is no call", rb'{"as":"#3","calls":[""],"at":1.5}', BAD_REQUEST),
]

# A body that could act would: so a wrong reading of its shape shows in the number.
OTHERS = [
    ("no bytes", b""),
    ("a blank", b" "),
    ("a brace", b"{"),
    ("no members", b"{}"),
    ("an array", b"[]"),
    ("null", b"null"),
    ("a string", b'"#3"'),
    ("a byte that is no text", b"\xff"),
    ("a word behind it", b'{"as":"#3","calls":[]} x'),
    ("a comma too many", b'{"as":"#3","calls":[],}'),
    ("no calls", b'{"as":"#3"}'),
    ("no programmer", b'{"calls":[]}'),
    ("a name in another case", b'{"As":"#3","calls":[]}'),
    ("a programmer that is a number", b'{"as":3,"calls":[]}'),
    ("a programmer that is null", b'{"as":null,"calls":[]}'),
    ("a programmer without a sign", b'{"as":"3","calls":[]}'),
    ("a programmer without a number", b'{"as":"#","calls":[]}'),
    ("a blank inside the programmer", b'{"as":"# 3","calls":[]}'),
    ("a blank before the programmer", b'{"as":" #3","calls":[]}'),
    ("a blank behind the programmer", b'{"as":"#3 ","calls":[]}'),
    ("a tab behind the programmer", b'{"as":"#3\\t","calls":[]}'),
    ("a letter behind the programmer", b'{"as":"#3x","calls":[]}'),
    ("a plus sign in the programmer", b'{"as":"#+3","calls":[]}'),
    ("a programmer of 33 bits", b'{"as":"#2147483648","calls":[]}'),
    ("calls that are null", b'{"as":"#3","calls":null}'),
    ("calls that are a string", b'{"as":"#3","calls":"create(#1)"}'),
    ("calls that are an object", b'{"as":"#3","calls":{}}'),
    ("a call that is a number", b'{"as":"#3","calls":[1]}'),
    ("a second call that is null", b'{"as":"#3","calls":["max_object()",null]}'),
    ("a number of 64 bits", b'{"as":"#3","at":9223372036854775808,"calls":[]}'),
    ("a number of 65 bits", b'{"as":"#3","at":18446744073709551616,"calls":[]}'),
    ("a number with an exponent", b'{"as":"#3","at":1e3,"calls":[]}'),
    ("a number with a point", b'{"as":"#3","at":1.0,"calls":[]}'),
    ("a number below zero", b'{"as":"#3","at":-1,"calls":[]}'),
    ("zero with a sign", b'{"as":"#3","at":-0,"calls":[]}'),
    ("a number in a string", b'{"as":"#3","at":"7","calls":[]}'),
    ("a number that is a word", b'{"as":"#3","at":false,"calls":[]}'),
]


def many_calls(calls, spaces):
    """A body of so many calls without arguments, the first of which is led by so many spaces."""
    first = b'"%smax_object()"' % (b" " * spaces)
    return b'{"as":"#3","calls":[%s]}' % b",".join([first] + [b'"max_object()"'] * (calls - 1))


def nested(arrays):
    """A body with a further member of so many arrays, one in another."""
    return b'{"as":"#3","calls":["max_object()"],"x":%s}' % (b"[" * arrays + b"]" * arrays)


class RequestBodies(RequestTest):
    def test_shapes(self):
        self.in_turn("a body", [(name, posted("/batch", body), wanted) for name, body, wanted in SHAPES])

    def test_others(self):
        """Each is sent as a question and as a batch."""
        service = Service(MOO, ":memory:", 2 * len(OTHERS) + 1)
        for name, body in OTHERS:
            came = [said(service, posted(path, body)) for path in ("/ask", "/batch")]
            self.case(f"a body of another shape: {name}", came, [BAD_REQUEST, BAD_REQUEST])
        self.case("a body of another shape: none of them acted", said(service, SEQ_QUESTION), seq(0))
        self.case("a body of another shape: all are served", service.end(), (0, f"served {2 * len(OTHERS) + 1} failed 0\n"))

    def test_limits(self):
        # A call without arguments has 12 bytes; the body is an object round its arrays.
        rows = [
            ("1,000 calls", many_calls(1000, 0), accepted(0, *["#3"] * 1000)),
            ("1,001 calls", many_calls(1001, 0), BAD_REQUEST),
            ("a call of 262,144 bytes", many_calls(1, 262132), accepted(0, "#3")),
            ("a call of 262,145 bytes", many_calls(1, 262133), BAD_REQUEST),
            ("values 127 deep", nested(126), accepted(0, "#3")),
            ("values 128 deep", nested(127), BAD_REQUEST),
        ]
        self.in_turn("the limits of a body", [(name, posted("/ask", body), wanted) for name, body, wanted in rows])
