"""Answers to the byte: what batches, questions and objects are answered, in turn on new worlds."""
from tests.support.exchange import (
    BAD_REQUEST, BATCH, BATCH_ANSWER, NO_OBJECT, NOT_FOUND, SEQ_QUESTION, TOO_LARGE, RequestTest, allow, answer, posted, seq
)

OK, BAD, CONFLICT = "200 OK", "400 Bad Request", "409 Conflict"

# In turn on one world, so that the numbers rise.
BATCHES = [
    ("another number", r'{"as":"#3","at":7,"calls":[]}', CONFLICT, r'{"error":"stale","seq":0}'),
    ("a number below zero", r'{"as":"#3","at":-1,"calls":[]}', BAD, r'{"error":"bad request"}'),
    ("a number with an exponent", r'{"as":"#3","at":1e0,"calls":[]}', BAD, r'{"error":"bad request"}'),
    ("two calls", r'{"as":"#3","calls":["create(#1)","valid(#4)"]}', OK, r'{"answers":["#4","1"],"seq":1}'),
    (
        "quotes and backslashes, at the present number",
        r'{"as":"#3","at":1,"calls":["set(#4,\"name\",\"A \\\"b\\\\\")","get(#4,\"name\")"]}',
        OK,
        r'{"answers":["0","\"A \\\"b\\\\\""],"seq":2}',
    ),
    (
        "sent again it doesn't act again",
        r'{"as":"#3","at":1,"calls":["set(#4,\"name\",\"A \\\"b\\\\\")","get(#4,\"name\")"]}',
        CONFLICT,
        r'{"error":"stale","seq":2}',
    ),
    (
        "the second call is refused", r'{"as":"#3","at":null,"calls":["valid(#0)","recycle(#9)"]}', CONFLICT,
        r'{"call":2,"error":"E_INVARG"}'
    ),
    # Nothing acts of what is refused, or isn't read.
    ("nothing acts of what is refused", r'{"as":"#3","calls":["create(#1)","recycle(#9)"]}', CONFLICT, r'{"call":2,"error":"E_INVARG"}'),
    ("nor of what is no call", r'{"as":"#3","calls":["create(#1)","sing(#1)"]}', BAD, r'{"call":2,"error":"malformed"}'),
    ("nor of what has no calls", r'{"as":"#3"}', BAD, r'{"error":"bad request"}'),
    ("the objects are as before", r'{"as":"#3","at":null,"calls":["max_object()"]}', OK, r'{"answers":["#4"],"seq":3}'),
    ("no calls", r'{"as":"#3","calls":[]}', OK, r'{"answers":[],"seq":4}'),
    ("a list", r'{"as":"#3","calls":["children(#1)"]}', OK, r'{"answers":["{#0, #2, #3, #4}"],"seq":5}'),
    (
        "of a key that stands twice the last, and another key",
        r'{"as":"#0","as":"#3","more":[1.5],"calls":["create(#1)"]}',
        OK,
        r'{"answers":["#5"],"seq":6}',
    ),
    ("of two numbers the last", r'{"as":"#3","at":9,"calls":[],"at":6}', OK, r'{"answers":[],"seq":7}'),
    (
        "zeros before numbers",
        r'{"as":"#003","calls":["valid(#03)","get(#3,\"wizard\")","valid(#-1)"]}',
        OK,
        r'{"answers":["1","1","0"],"seq":8}',
    ),
    ("no right", r'{"as":"#2","calls":["create(#3)"]}', CONFLICT, r'{"call":1,"error":"E_PERM"}'),
    ("nobody", r'{"as":"#9","calls":["max_object()"]}', CONFLICT, r'{"call":1,"error":"E_PERM"}'),
    ("the present number, behind the calls", r'{"as":"#3","calls":["is_player(#3)"],"at":8}', OK, r'{"answers":["1"],"seq":9}'),
]

QUESTIONS = [
    ("what is made", r'{"as":"#3","calls":["create(#1)"]}', OK, r'{"answers":["#4"],"seq":0}'),
    ("the same again, at the present number", r'{"as":"#3","at":0,"calls":["create(#1)"]}', OK, r'{"answers":["#4"],"seq":0}'),
    ("another number", r'{"as":"#3","at":1,"calls":["create(#1)"]}', CONFLICT, r'{"error":"stale","seq":0}'),
    ("too few words", r'{"as":"#3","calls":["create()"]}', CONFLICT, r'{"call":1,"error":"E_ARGS"}'),
    ("no call", r'{"as":"#3","calls":["max_object()","sing(#1)"]}', BAD, r'{"call":2,"error":"malformed"}'),
    ("they changed nothing", r'{"as":"#3","calls":["max_object()"]}', OK, r'{"answers":["#3"],"seq":0}'),
]

# On another world: what residents ask and wizards grant.
PETITIONS = [
    ("somebody is made", r'{"as":"#3","calls":["create(#1, #-1)"]}', OK, r'{"answers":["#4"],"seq":1}'),
    ("none is there", r'{"as":"#4","calls":["petitions()"]}', OK, r'{"answers":["{}"],"seq":2}'),
    (
        "a petition",
        r'{"as":"#4","calls":["petition({{\"create\", #1, #4}, {\"set\", #5, \"name\", \"a \\\"b\\\\\"}})"]}',
        OK,
        r'{"answers":["1"],"seq":3}',
    ),
    (
        "it is listed as it stands in a text",
        r'{"as":"#3","at":3,"calls":["petitions()"]}',
        OK,
        r'{"answers":["{{1, #4, {{\"create\", #1, #4}, {\"set\", #5, \"name\", \"a \\\"b\\\\\"}}}}"],"seq":4}',
    ),
    ("who is no wizard grants nothing", r'{"as":"#4","calls":["grant(1)"]}', CONFLICT, r'{"call":1,"error":"E_PERM"}'),
    ("no number", r'{"as":"#3","calls":["grant(\"1\")"]}', CONFLICT, r'{"call":1,"error":"E_TYPE"}'),
    ("no such petition", r'{"as":"#3","calls":["grant(2)"]}', CONFLICT, r'{"call":1,"error":"E_INVARG"}'),
    ("a petition for a grant", r'{"as":"#4","calls":["petition({{\"grant\", 1}})"]}', CONFLICT, r'{"call":1,"error":"E_INVARG"}'),
    (
        "a petition for nothing that is a call", r'{"as":"#4","calls":["petition({{\"sing\"}})"]}', CONFLICT,
        r'{"call":1,"error":"E_INVARG"}'
    ),
    (
        "a petition that is no value", r'{"as":"#4","calls":["max_object()","petition({{\"create\", #1},})"]}', BAD,
        r'{"call":2,"error":"malformed"}'
    ),
    (
        "its grant, sent with its number",
        r'{"as":"#3","at":4,"calls":["grant(1)","get(#5, \"name\")","get(#5, \"owner\")"]}',
        OK,
        r'{"answers":["0","\"a \\\"b\\\\\"","#4"],"seq":5}',
    ),
    ("sent again it doesn't act again", r'{"as":"#3","at":4,"calls":["grant(1)"]}', CONFLICT, r'{"error":"stale","seq":5}'),
    ("it is gone", r'{"as":"#3","calls":["petitions()"]}', OK, r'{"answers":["{}"],"seq":6}'),
    (
        "another, whose second call will fail", r'{"as":"#4","calls":["petition({{\"create\", #1}, {\"recycle\", #99}})"]}', OK,
        r'{"answers":["2"],"seq":7}'
    ),
    ("the grant is what is refused", r'{"as":"#3","calls":["max_object()","grant(2)"]}', CONFLICT, r'{"call":2,"error":"E_INVARG"}'),
    ("nothing of it acted", r'{"as":"#3","calls":["max_object()","decline(2)","petitions()"]}', OK, r'{"answers":["#5","0","{}"],"seq":8}'),
    ("the next number is another", r'{"as":"#4","calls":["petition({{\"players\"}})"]}', OK, r'{"answers":["3"],"seq":9}'),
]
# As questions, which keep nothing.
ASKED = [
    (
        "a petition", r'{"as":"#3","calls":["petition({{\"create\", #1}})","grant(1)","max_object()"]}', OK,
        r'{"answers":["1","0","#4"],"seq":0}'
    ),
    ("which isn't there then", r'{"as":"#3","calls":["grant(1)"]}', CONFLICT, r'{"call":1,"error":"E_INVARG"}'),
]

WIZARD = (
    '{"children":[],"contents":[],"f":0,"location":"#2","name":"Wizard","owner":"#3","parent":"#1","player":1,"programmer":1,'
    '"r":0,"w":0,"wizard":1}'
)
ROOM = (
    '{"children":[],"contents":["#3"],"f":0,"location":"#-1","name":"The First Room","owner":"#3","parent":"#1","player":0,'
    '"programmer":0,"r":0,"w":0,"wizard":0}'
)

OTHERS = [
    ("the number, without a line", SEQ_QUESTION, seq(0)),
    ("no object", b"GET /object/-1 HTTP/1.1\r\n\r\n", NO_OBJECT),
    ("no number", b"GET /object/x HTTP/1.1\r\n\r\n", NOT_FOUND),
    ("an object with its marks, behind a query", b"GET /object/3?x HTTP/1.1\r\n\r\n", answer(OK, WIZARD)),
    ("an object with what it holds", b"GET /object/002 HTTP/1.1\r\n\r\n", answer(OK, ROOM)),
    ("another method", b"POST /seq HTTP/1.1\r\n\r\n", allow("GET")),
    ("HEAD of a batch", b"HEAD /batch HTTP/1.1\r\n\r\n", allow("POST", is_head=True)),
    ("two lengths", b"POST /batch HTTP/1.1\r\ncontent-length: 2\r\ncontent-length: 2\r\n\r\n{}", BAD_REQUEST),
    ("a body that is too large", b"POST /batch HTTP/1.1\r\ncontent-length: 1048577\r\n\r\n{}", TOO_LARGE),
    ("what was refused changed nothing", BATCH, BATCH_ANSWER),
    ("and the batch did", SEQ_QUESTION, seq(1)),
]


def rows_of(path, table):
    return [(name, posted(path, body.encode()), answer(status, wanted)) for name, body, status, wanted in table]


class RequestAnswers(RequestTest):
    def test_batches(self):
        self.in_turn("a batch", rows_of("/batch", BATCHES))

    def test_questions(self):
        self.in_turn("a question", rows_of("/ask", QUESTIONS))

    def test_petitions(self):
        self.in_turn("a petition", rows_of("/batch", PETITIONS))
        self.in_turn("a question of petitions", rows_of("/ask", ASKED))

    def test_others(self):
        self.in_turn("an answer", OTHERS)
