"""The status port: /health, /ready, /metrics and /activity, on this machine alone, by a server and threads of its own.

It answers as long as the process runs, also when all connections and places of the front are taken.
"""

from __future__ import annotations

import socket
import threading
from collections.abc import Iterable
from typing import Any, Callable

from moolib.errors import Failed

from moo_web.app import App, Reply, Request
from moo_web.status.activity import Activity
from moo_web.status.metrics import KIND, Metric, metrics_text
from moo_web.status.readiness import Readiness
from moo_web.traffic.hosts import Hosts
from moo_web.traffic.ways import given_sockets, own_socket
from moo_web.world.door import packed

THREADS, MOST_CONNECTIONS, SILENT_SECONDS = 2, 50, 10
TEXT = "text/plain; charset=utf-8"


class Status:
    """The application of the status port. `metrics` are those of the front, and `more` gives others as text."""

    def __init__(
        self, readiness: Readiness, activity: Activity, metrics: Iterable[Metric], more: Callable[[], str], tell: Callable[[str], None]
    ) -> None:  # fmt: skip
        self.readiness, self.activity, self.more = readiness, activity, more
        self.metrics = list(metrics)
        self.app = App(tell)
        self.app.add_guard("", Hosts(self.app, ()).guard)
        self.app.add("GET", "/health", lambda request: Reply(200, b"ok", TEXT))
        self.app.add("GET", "/ready", self.ready)
        self.app.add("GET", "/metrics", lambda request: Reply(200, (metrics_text(self.metrics) + self.more()).encode(), KIND))
        self.app.add("GET", "/activity", lambda request: Reply(200, packed(self.activity.shown())))

    def ready(self, request: Request) -> Reply:
        """Whether the front can do its work, or why not, in a line."""
        fault = " ".join(self.readiness.fault().split())
        return Reply(503, f"{fault}\n".encode(), TEXT) if fault else Reply(200, b"ok", TEXT)


def sockets_at(port: int) -> list[socket.socket]:
    """The sockets of the status port: that which systemd gives, if it does, and one of our own.

    That of systemd may be in the network of the machine, and the front in one of its own. If both are in one, ours can't be had.
    """
    given = [one for one in given_sockets() if one.getsockname()[1] == port]
    try:
        return [*given, own_socket(port)]
    except Failed:
        if given:
            return given
        raise


def serve_port(app: App, sockets: list[socket.socket]) -> int:
    """Serves the status port by a thread of its own, and gives its number."""
    import waitress.server

    server: Any = waitress.server.create_server(
        app, map={}, sockets=sockets, threads=THREADS, connection_limit=MOST_CONNECTIONS, channel_timeout=SILENT_SECONDS, cleanup_interval=2,
        ident=None, clear_untrusted_proxy_headers=True, max_request_body_size=1, max_request_header_size=1 << 14,
    )  # fmt: skip
    threading.Thread(target=server.run, name="status", daemon=True).start()
    return int(sockets[-1].getsockname()[1])
