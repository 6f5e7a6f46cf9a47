"""Services that play others, in front of the program under test: with routes that are hidden or added, with tokens, and with faults.

`StandIn` passes requests on to a service of the program. `routes` says whether it answers `/each`, `/objects/N` and `/dump`, made of the
program's other routes, or has no such routes. With a `token` it is a front: its paths begin with `/api`, and it writes `as` itself.
"""

from __future__ import annotations

import http.client
import json
import threading
from http.server import BaseHTTPRequestHandler, ThreadingHTTPServer
from typing import Any, Callable, Optional

ADDED = ("/each", "/objects/", "/dump")


class StandIn:
    """A service on a port of its own, until `close`.

    `fault` is asked before each request to `/batch` is passed on, and after it: it may answer `drop`, which closes the connection, or a
    status and a body that are answered in place of the program's. `answers_all`, a status and a body, is answered to each request if it is
    set. `seen` are the paths that were asked for.
    """

    def __init__(self, port: int, routes: bool = True, token: Optional[str] = None, person: int = 3, dump: str = "", why: str = "") -> None:
        self.inner, self.routes, self.token, self.person, self.dump, self.why = port, routes, token, person, dump, why
        self.fault: Callable[[str], Any] = lambda moment: None
        self.answers_all: Optional[tuple[int, Any]] = None
        self.seen: list[str] = []
        outer = self

        class Handler(BaseHTTPRequestHandler):
            """Answers one request."""

            def log_message(self, *_: Any) -> None:
                pass

            def do_GET(self) -> None:
                outer.answer(self, None)

            def do_POST(self) -> None:
                outer.answer(self, json.loads(self.rfile.read(int(self.headers["content-length"]))))

        self.server = ThreadingHTTPServer(("127.0.0.1", 0), Handler)
        self.port = self.server.server_address[1]
        threading.Thread(target=self.server.serve_forever, daemon=True).start()

    def close(self) -> None:
        """Ends it."""
        self.server.shutdown()
        self.server.server_close()

    def answer(self, handler: BaseHTTPRequestHandler, body: Any) -> None:
        """Answers a request with this body."""
        path = handler.path
        self.seen.append(path)
        if self.answers_all:
            return send(handler, *self.answers_all)
        if self.token is not None:
            if handler.headers["authorization"] != f"Bearer {self.token}":
                return send(handler, 401, {"error": "unauthorized"})
            path = path.removeprefix("/api")
            if body is not None and body.setdefault("as", f"#{self.person}") != f"#{self.person}":
                return send(handler, 403, {"error": "forbidden"})
        answers = [self.fault("before") if path.startswith("/batch") else None]
        if answers[0] is None:
            answers = [self.passed_on(handler.command, path, body), self.fault("after") if path.startswith("/batch") else None]
        said = answers[-1] or answers[0]
        if said == "drop":
            handler.close_connection = True
            return handler.connection.close()
        send(handler, *said)

    def passed_on(self, method: str, path: str, body: Any) -> tuple[int, Any]:
        """The status and the body that the program answers, or those of a route that is added to it."""
        if path.startswith(ADDED) and not self.routes:
            return 404, {"error": "not found"}
        if path.startswith("/each"):
            return 200, self.each(body)
        if path.startswith("/objects/"):
            return 200, self.objects(int(path.rpartition("/")[2]))
        if path.startswith("/dump"):
            return (200, self.dump) if self.dump else (503, {"error": "nomemory"})
        status, said = self.inner_answer(method, path, body)
        if self.why and path.endswith("?why") and status in (400, 409) and "call" in said:
            said["why"] = f"{body['calls'][said['call'] - 1]}: {said['error']}, {self.why}"
        return status, said

    def inner_answer(self, method: str, path: str, body: Any) -> tuple[int, Any]:
        """The status and the body that the program answers."""
        connection = http.client.HTTPConnection("127.0.0.1", self.inner, timeout=60)
        try:
            connection.request(method, path, None if body is None else json.dumps(body))
            came = connection.getresponse()
            return came.status, json.loads(came.read())
        finally:
            connection.close()

    def each(self, body: Any) -> Any:
        """What each call alone would answer."""
        found = []
        for call in body["calls"]:
            status, said = self.inner_answer("POST", "/ask", {**body, "calls": [call]})
            found.append({"answer": said["answers"][0]} if status == 200 else {"error": said["error"]})
        return {"each": found, "seq": self.inner_answer("GET", "/seq", None)[1]["seq"]}

    def objects(self, begin: int) -> Any:
        """A page of objects, of at most two, so that there are several."""
        found: list[Any] = []
        last = int(self.inner_answer("POST", "/ask", {"as": "#3", "calls": ["max_object()"]})[1]["answers"][0][1:])
        for number in range(begin, last + 1):
            status, said = self.inner_answer("GET", f"/object/{number}", None)
            if status == 200 and len(found) == 2:
                return {"next": f"#{number}", "objects": found, "seq": 0}
            if status == 200:
                found.append({key: value for key, value in said.items() if key not in ("children", "contents")} | {"number": f"#{number}"})
        return {"next": None, "objects": found, "seq": 0}


def send(handler: BaseHTTPRequestHandler, status: int, said: Any) -> None:
    """Sends an answer; a text as it is, all else as JSON."""
    body = (said if isinstance(said, str) else json.dumps(said)).encode()
    handler.send_response(status)
    handler.send_header("content-type", "text/plain" if isinstance(said, str) else "application/json")
    handler.send_header("content-length", str(len(body)))
    handler.end_headers()
    handler.wfile.write(body)
