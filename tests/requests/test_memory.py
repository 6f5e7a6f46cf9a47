"""Requests by which memory runs out: each growth of it from the opening of the world on is refused in turn.

The answer is then the whole one, the same without a `why`, a lack of memory, or none at all; and nothing changes.
"""
import errno
import itertools
import shutil
import unittest

from tests.support.cases import ProgramTest
from tests.support.refusing import Fault, Post, Task, build_refuser, growths, run
from tests.support.service import answer, get, post
from tests.files.test_refuse import FAILED, NO_MEMORY, REFUSED, SERVED, unavailable

CONFLICT, BAD, OK = "409 Conflict", "400 Bad Request", "200 OK"
NO_OBJECT, NO_CALL = ',"why":"recycle(#9): E_INVARG, #9 isn\'t an object"', ',"why":"\'sing\' names no call"'
# A request, the status of its answer, and the body with the places of its sentences.
TOLD = [
    ("a call", post("/batch?why", '{"as":"#3","calls":["recycle(#9)"]}'), CONFLICT, '{"call":1,"error":"E_INVARG"%s}', [NO_OBJECT]),
    ("a text", post("/ask?why", '{"as":"#3","calls":["sing()"]}'), BAD, '{"call":1,"error":"malformed"%s}', [NO_CALL]),
    ("a shape", post("/ask?why", '{"as":"#3"}'), BAD, '{"error":"bad request"%s}', [',"why":"the body has no key calls"']),
    (
        "each call",
        post("/each?why", '{"as":"#3","calls":["create(#1)","sing()","recycle(#9)"]}'),
        OK,
        '{"each":[{"answer":"#4"},{"error":"malformed"%s},{"error":"E_INVARG"%s}],"seq":0}',
        [NO_CALL, NO_OBJECT],
    ),
]
# The objects of a new world from #3 on (docs/CALLS.md).
PAGE = (
    '{"next":null,"objects":[{"f":0,"location":"#2","name":"Wizard","number":"#3","owner":"#3","parent":"#1","player":1,"programmer":1,'
    '"r":0,"w":0,"wizard":1}],"seq":0}'
)


@unittest.skipUnless(shutil.which("cc"), "the command cc isn't on this machine")
class WithoutMemory(ProgramTest):
    def setUp(self):
        super().setUp()
        build_refuser()
        run(["init", "new.db"], ".")
        self.fault = Fault("memory", errno.ENOMEM)
        self.opening = growths(Task("new.db", ["ask", "w.db", "-"], "", REFUSED | {("", 0): {0}}))

    def refused(self, name, request, answers):
        """Refuses the growths of a request in turn, until a run meets none."""
        ends = dict.fromkeys([*((text + SERVED, 0) for text in answers), (FAILED, 0), (answers[0] + NO_MEMORY, 4)], {0})
        ends |= REFUSED | {("moo: cannot listen\n", 1): {0}}
        task = Post("new.db", [], request.decode(), ends)
        met, wrong, number, count = True, "", self.opening, 0
        while met and not wrong:
            met, wrong = task.refuse(self.fault, number)
            number, count = number + 1, count + met
        self.case(name, wrong, "")
        self.case(f"{name}: some were refused", count > 10, True)

    def test_reasons(self):
        for name, request, status, body, whys in TOLD:
            said = [answer(status, body % found).decode() for found in itertools.product(*((why, "") for why in whys))]
            self.refused(f"why {name} is refused", request, [*said, unavailable("nomemory")])

    def test_a_list_and_a_dump(self):
        dump, _ = run(["dump", "new.db"], ".")
        for path, body, kind in (("/objects/3", PAGE, "application/json"), ("/dump", dump, "text/plain")):
            self.refused(path, get(path), [answer(OK, body, kind=kind).decode(), unavailable("nomemory")])
