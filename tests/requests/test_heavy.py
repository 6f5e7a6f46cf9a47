"""The heavy requests of an ordinary programmer, at few ticks: they are refused, nothing has changed, and a request beside them is answered.

What they take of the processor is compared with what an honest request takes of the same service, which has 1,000 calls, or as many bytes.
"""
from __future__ import annotations

import json
import pathlib
import re

from tests.support.cases import ProgramTest
from tests.support.exchange import SEQ_QUESTION, posted
from tests.support.heavy import SMALL, Request, honest_request, make_file, of_chains, of_classes, of_names, processor_seconds
from tests.support.program import MOO
from tests.support.service import Service, heard

TICKS = 20_000
# So many times what an honest request takes a heavy one may take. They were seen to take up to five times as much.
TIMES = 20
TRIES = 3


class Heavy(ProgramTest):
    def setUp(self) -> None:
        super().setUp()
        self.services: dict[str, Service] = {}

    def service_of(self, request: Request) -> Service:
        """The service of a world, which is made if it isn't there."""
        name = request.world.name
        if name not in self.services:
            file = pathlib.Path(f"{len(self.services)}.db")
            make_file(MOO, file, request.world)
            self.services[name] = Service(MOO, str(file), None, ticks=TICKS)
        return self.services[name]

    def cost(self, service: Service, request: Request) -> tuple[float, bytes]:
        """The least of three times what a request takes of the processor, and its answer."""
        seconds, said = [], b""
        for _ in range(TRIES):
            before = processor_seconds(service.process.pid)
            said = service.ask(posted(request.path, request.body))
            seconds.append(processor_seconds(service.process.pid) - before)
        return min(seconds), said

    def refusal(self, request: Request, said: bytes) -> None:
        """The answer is that the ticks are spent, or to a long request that it was judged."""
        status, _, body = said.partition(b"\r\n\r\n")
        told = json.loads(body)
        if not request.too_much:
            self.assertTrue(status.startswith(b"HTTP/1.1 200 "), status)
            self.assertEqual(len(told.get("each") or told["answers"]), len(request.calls))
            return
        self.assertTrue(status.startswith(b"HTTP/1.1 503 "), status)
        self.assertEqual(told["error"], "nomemory")
        # If a refused call of `/each` has spent the last tick, the answer comes without a `why`.
        if "why" in told or not request.path.startswith("/each"):
            self.assertTrue(re.fullmatch(rf"call \d+: over {TICKS} ticks \(moo serve --ticks\)", told["why"]), told["why"])

    def one(self, request: Request) -> None:
        """A heavy request, beside an honest one."""
        service = self.service_of(request)
        number = service.ask(SEQ_QUESTION)
        honest, answer = self.cost(service, honest_request(request.world, len(request.body)))
        self.assertTrue(answer.startswith(b"HTTP/1.1 200 "), answer[:200])
        heavy, said = self.cost(service, request)
        self.refusal(request, said)
        self.assertLess(heavy, TIMES * honest)
        with service.peer() as peer, service.peer() as beside:
            peer.sendall(posted(request.path, request.body))
            beside.sendall(SEQ_QUESTION)
            self.assertEqual(heard(beside), number)
            self.assertEqual(heard(peer), said)

    def each(self, requests: list[Request]) -> None:
        """Each of these requests, by its name."""
        for request in requests:
            with self.subTest(f"{request.name}, {request.world.name}"):
                self.one(request)

    def test_about_classes(self) -> None:
        self.each(of_classes(SMALL))

    def test_about_chains(self) -> None:
        self.each(of_chains(SMALL))

    def test_a_name_that_is_almost_right(self) -> None:
        """It is looked for among 200 names at the most."""
        few, many = of_names(300), of_names(3000)
        costs = [self.cost(self.service_of(request), request) for request in (few, many)]
        self.refusal(many, costs[1][1])
        self.assertLess(costs[1][0], 4 * costs[0][0])
