"""`moo serve --ticks N`: what one request may take, and what is answered to one that takes more."""
from __future__ import annotations

import json
from typing import Sequence

from tests.support.cases import ProgramTest
from tests.support.exchange import SEQ_QUESTION, accepted, posted, refused, seq
from tests.support.program import MOO
from tests.support.service import Service, answer
from tests.support.worlds import make, run

# A class of 1,000 objects, #5 to #1004, under #4; and a chain of 1,000, the last of which is #2004.
CHILDREN, CHAIN = 1000, 1000
WORLD = (
    "batch as #3\ncreate(#1)\n" + "create(#4)\n" * (CHILDREN - 1) + "end\n"
    "batch as #3\ncreate(#4)\n" + "".join(f"create(#{number})\n" for number in range(4 + CHILDREN, 3 + CHILDREN + CHAIN)) + "end\n"
)
LAST = 3 + CHILDREN + CHAIN
ADD = 'add_property(#4, "p", 0, {#3, ""})'
# It puts a slot on each of them, and so on more than 2,000 objects.
TOO_FEW = 2000
ENOUGH = 1000000


def body(calls: Sequence[str], **more: object) -> bytes:
    """The body of a request of the wizard's."""
    return json.dumps({"as": "#3", "calls": calls, **more}).encode()


def spent(call: int, ticks: int) -> bytes:
    """The answer to a request whose ticks are spent at this call, if it asks why."""
    return answer("503 Service Unavailable", f'{{"error":"nomemory","why":"call {call}: over {ticks} ticks (moo serve --ticks)"}}')


SPENT = answer("503 Service Unavailable", '{"error":"nomemory"}')


class Ticks(ProgramTest):
    def setUp(self):
        super().setUp()
        make("world.db", WORLD)

    def served(self, ticks: int | None) -> Service:
        """A service of the world with these ticks."""
        service = Service(MOO, "world.db", None, ticks=ticks)
        self.addCleanup(service.kill)
        return service

    def test_a_call_that_changes_too_much(self):
        service = self.served(TOO_FEW)
        for path in ("/batch", "/ask", "/each"):
            self.case(path, service.ask(posted(path, body([ADD]))), SPENT)
            self.case(f"{path}, why", service.ask(posted(f"{path}?why", body([ADD]))), spent(1, TOO_FEW))
            calls = ["valid(#1)", "max_object()", ADD]
            self.case(f"{path}, the third call", service.ask(posted(f"{path}?why", body(calls))), spent(3, TOO_FEW))
        self.case("texts that are no calls have numbers", service.ask(posted("/each?why", body(["sing()", "valid(#1)", ADD]))), spent(3, TOO_FEW))
        self.case("nothing has changed", service.ask(SEQ_QUESTION), seq(2))
        self.case("not even in part", service.ask(posted("/ask", body(['properties(#4)']))), accepted(2, "{}"))
        self.case("a batch for another number is stale", service.ask(posted("/batch", body([ADD], at=1))), answer("409 Conflict", '{"error":"stale","seq":2}'))
        self.case("a small one acts", service.ask(posted("/batch", body(["create(#1)"]))), accepted(3, f"#{LAST + 1}"))

    def test_calls_that_look_too_much_up(self):
        service = self.served(ENOUGH // 20)
        call = f'get(#{LAST}, "nosuch")'
        refusal = service.ask(posted("/each", body([call])))
        self.case("one is refused", refusal, answer("200 OK", '{"each":[{"error":"E_PROPNF"}],"seq":2}'))
        self.case("a hundred share the ticks, refused as they are", service.ask(posted("/each", body([call] * 100))), SPENT)
        self.case("in a batch the first refused one ends it", service.ask(posted("/batch", body([call] * 100))), refused(1, "E_PROPNF"))
        self.case("each request has its own", service.ask(posted("/each", body([call]))), refusal)

    def test_a_call_alone_that_spends_the_last_tick(self):
        service = self.served(1000)
        # It looks up more than 1,000 rows before it is refused.
        call = f'get(#{LAST}, "nosuch")'
        refusal = answer("200 OK", '{"each":[{"error":"E_PROPNF"}],"seq":2}')
        self.case("it has its answer", service.ask(posted("/each", body([call]))), refusal)
        self.case("there is no tick for the next", service.ask(posted("/each", body([call, "valid(#1)"]))), SPENT)
        self.case("which is named", service.ask(posted("/each?why", body([call, "valid(#1)", "valid(#1)"]))), spent(2, 1000))
        texts = ["sing()", call, "sing()", "valid(#1)"]
        self.case("texts that are no calls have numbers", service.ask(posted("/each?why", body(texts))), spent(4, 1000))
        self.case("in a batch it is refused", service.ask(posted("/batch", body([call, "valid(#1)"]))), refused(1, "E_PROPNF"))

    def test_answers_cost(self):
        text = "x" * 64000
        service = self.served(10000)
        self.case("it is set", service.ask(posted("/batch", body([f'set(#3, "name", "{text}")']))), accepted(3, "0"))
        calls = ['get(#3, "name")'] * 20
        self.case("a tick for 64 bytes: the tenth is over 10,000", service.ask(posted("/ask?why", body(calls))), spent(10, 10000))
        self.case("nine aren't", service.ask(posted("/ask", body(calls[:9]))), accepted(3, *[f'"{text}"'] * 9))
        self.case("a tick for a value", service.ask(posted("/ask?why", body(["children(#4)"] * 20)))[:16], b"HTTP/1.1 503 Ser")

    def test_calls_that_a_petition_holds(self):
        service = self.served(1000)
        many = "{%s}" % ", ".join([f'{{"add_property", #4, "p{number}", 0, {{#3, ""}}}}' for number in range(64)])
        self.case("it is filed", service.ask(posted("/batch", body([f"petition({many})"]))), accepted(3, "1"))
        self.case("it takes too much", service.ask(posted("/batch?why", body(["grant(1)"]))), spent(1, 1000))
        self.case("it is still there", service.ask(posted("/batch", body(["decline(1)"]))), accepted(4, "0"))

    def test_what_has_no_ticks(self):
        service = self.served(1000)
        self.case("a list of objects", service.ask(b"GET /objects/0 HTTP/1.1\r\n\r\n")[:15], b"HTTP/1.1 200 OK")
        self.case("a dump", service.ask(b"GET /dump HTTP/1.1\r\n\r\n")[:15], b"HTTP/1.1 200 OK")
        service.kill()
        text = f"batch as #3\n{ADD}\nend\n"
        for command in ("ask", "rehearse", "apply"):
            self.case(command, run(command, "world.db", "-", text=text), (0, f"accepted {2 if command == 'ask' else 3}\n0\nend\n"))

    def test_enough(self):
        service = self.served(None)
        self.case("the ticks that it has by itself", service.ask(posted("/ask", body([ADD]))), accepted(2, "0"))
        service.kill()
        self.case("more", self.served(4294967295).ask(posted("/ask", body([ADD]))), accepted(2, "0"))
