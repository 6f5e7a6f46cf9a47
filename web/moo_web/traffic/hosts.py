"""By which names a front may be asked. A page of another site can have its own name lead to this machine, and then asks by that name."""

from __future__ import annotations

import argparse
import re
from collections.abc import Iterable

from moo_web.app import App, Reply, Request

LOCAL = ("127.0.0.1", "localhost", "[::1]")
# The address of who comes by a socket of the file system, and the line that is there only if it is believed.
BY_SOCKET, FORWARDED = "localhost", "x-forwarded-for"
HOST_NAME = re.compile(r"[A-Za-z0-9._-]+|\[[0-9A-Fa-f:.]+\]")
TOLD = "a request was refused, since it asked by a host that isn't ours (--host NAME)"


def host_name(text: str) -> str:
    """A name for `--host`."""
    if not HOST_NAME.fullmatch(text):
        raise argparse.ArgumentTypeError(f"{text!r} isn't the name of a host")
    return text.lower()


class Hosts:
    """The names of a front. Without any, what comes by a proxy may ask by any name."""

    def __init__(self, app: App, names: Iterable[str]) -> None:
        self.app = app
        self.names = frozenset(names)

    def guard(self, request: Request) -> Reply | None:
        """The refusal of a request that asks by another name. One that names no host is taken: browsers always name one."""
        asked = request.line("host").lower()
        if not asked or host_name_in(asked) in self.names.union(LOCAL) or (not self.names and is_by_proxy(request)):
            return None
        self.app.tell(TOLD)
        return self.app.failed(request, 403, error="forbidden")


def host_name_in(asked: str) -> str:
    """The name in a host line, without the port."""
    found = re.fullmatch(r"(\[[^\]]*\]|[^:]*)(:\d*)?", asked)
    return found[1] if found else asked


def is_by_proxy(request: Request) -> bool:
    """Whether a request came by the proxy that is believed."""
    return request.line(FORWARDED) != "" or request.address == BY_SOCKET
