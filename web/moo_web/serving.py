"""The program `moo-web`: the front of one world, on a port of this machine."""

from __future__ import annotations

import argparse
import contextlib
import os
import signal
import sys
import threading
import time
from pathlib import Path
from typing import TYPE_CHECKING, Any, Callable

from moolib import __version__
from moolib.errors import Failed

from moo_web.api import Api, token_of
from moo_web.app import App, Reply, Request
from moo_web.journal.history import History
from moo_web.journal.journal import Broken, InUse, Journal, NoRoom
from moo_web.journal.segments import Damaged
from moo_web.journal.writer import Writer
from moo_web.people.audit import auditing
from moo_web.people.growth import DAILY_BYTES, Growth
from moo_web.people.keeping import Keeper
from moo_web.people.file import Wrong
from moo_web.people.people import People
from moo_web.people.person import Person
from moo_web.people.sessions import secret_of
from moo_web.programs import PEOPLE_FILE, Teller, notify, number_word, only_ours, own_folder, port_number
from moo_web.status import port, process, standbys
from moo_web.status.access import AccessLog, open_anew_at_hangup
from moo_web.status.activity import Activity
from moo_web.status.heart import Heart
from moo_web.status.meters import Meters
from moo_web.status.readiness import Readiness
from moo_web.traffic.hosts import BY_SOCKET, Hosts, host_name
from moo_web.traffic.places import Places
from moo_web.traffic.shares import DEFAULT_SHARE, Shares, share_of
from moo_web.traffic.turns import Turnstile
from moo_web.traffic.visitors import Visitor
from moo_web.traffic.ways import given_socket, own_socket, socket_at
from moo_web.traffic.writing import Counted
from moo_web.world.door import Door, Unreachable, batch_body

if TYPE_CHECKING:
    from moo_web.traffic.connections import Room

PORT = 8088
RATE = 100.0
SEGMENT_BYTES = 1 << 26
DEBIANS_MODULES = "/usr/lib/python3/dist-packages"
END_SECONDS = 5.0
INTERRUPTED = 130
WIZARD_ASKING = 2.0
SHARE_HELP = (
    "what a person may use in a minute: seconds of moo's time, rows and bytes written "
    f"({DEFAULT_SHARE.seconds:.0f},{DEFAULT_SHARE.rows:.0f},{DEFAULT_SHARE.bytes:.0f}); an address twice as much, a wizard ten times"
)
HOST_HELP = "a name by which people ask for the front, in the line host; again for more. Without it a proxy may ask by any"
NO_PAGES = "there are no pages, since python3-jinja2 is missing: apt-get install python3-jinja2"

USAGE = (
    "moo-web FOLDER --moo-port M [--port P] [--journal FOLDER2] [--proxy ADDRESS | --proxy-socket PATH] [--host NAME].. [--share S,R,B]"
    " [--daily-bytes N] [--full FILE] [--description NAME] [--exits NAME] [--about TEXT] [--status-port P2] [--access-log FILE] [--metrics FILE] [--rebase]"
)
MORE = """
It needs a world that `moo serve FILE M` keeps, and that nobody else writes to. FOLDER has the accounts and the journal. It prints
`listening http://127.0.0.1:P/` once it answers. docs/WEB.md has the rest.
"""


def read_words(words: list[str]) -> argparse.Namespace:
    """What the command line says."""
    parser = argparse.ArgumentParser(prog="moo-web", usage=USAGE, description="The front of one world.", epilog=MORE)
    parser.add_argument("--version", action="version", version=f"%(prog)s {__version__}")
    parser.add_argument("folder", metavar="FOLDER", help="the accounts and the journal; made if it isn't there")
    parser.add_argument("--moo-port", metavar="M", type=port_number, required=True, help="the port of `moo serve` on this machine")
    parser.add_argument("--port", metavar="P", type=port_number, default=PORT, help=f"the port of the front ({PORT}); 0 is a free one")
    parser.add_argument("--journal", metavar="FOLDER2", help="a folder on another disk, which gets the journal and the accounts too")
    proxies = parser.add_mutually_exclusive_group()
    proxies.add_argument("--proxy", metavar="ADDRESS", help="the address of a reverse proxy whose x-forwarded-for is believed")
    proxies.add_argument("--proxy-socket", metavar="PATH", type=Path, help="listen there too, and believe x-forwarded-for of what comes there")
    parser.add_argument("--host", metavar="NAME", type=host_name, action="append", default=[], help=HOST_HELP)
    parser.add_argument("--rebase", action="store_true", help="begin the journal anew at the world's present number")
    parser.add_argument("--rate", metavar="N", type=float, default=RATE, help=f"requests a second of a token ({RATE:g})")
    parser.add_argument("--share", metavar="S,R,B", type=share_of, default=DEFAULT_SHARE, help=SHARE_HELP)
    told = f"bytes that a person may add to the world in a day ({DAILY_BYTES:,}); a wizard ten times as many"
    parser.add_argument("--daily-bytes", metavar="N", type=byte_count, default=DAILY_BYTES, help=told)
    told = "while this file is there nothing is added to the world: moo-watch makes it when the world has no room"
    parser.add_argument("--full", metavar="FILE", type=Path, help=told)
    told = "the name of the property that describes a place or an object (description)"
    parser.add_argument("--description", metavar="NAME", default="description", help=told)
    told = 'the name of the property that has the exits of a place, such as {{"west", #7}} (exits)'
    parser.add_argument("--exits", metavar="NAME", default="exits", help=told)
    told = "a text of what this place is, which anybody may read; without it there is one of our own"
    parser.add_argument("--about", metavar="TEXT", type=Path, help=told)
    told = "the port of this machine that tells how the front is: /health, /ready, /metrics, /activity; 0 is a free one"
    parser.add_argument("--status-port", metavar="P2", type=port_number, help=told)
    told = "a line of JSON for each request is appended to this file, which is opened anew after SIGHUP"
    parser.add_argument("--access-log", metavar="FILE", type=Path, help=told)
    parser.add_argument("--metrics", metavar="FILE", type=Path, help="the file in which moo-watch leaves its metrics: /metrics shows them too")
    parser.add_argument("--segment", metavar="BYTES", type=int, default=SEGMENT_BYTES, help="the size of a file of the journal (64 MiB)")
    return parser.parse_args(words)


def byte_count(text: str) -> int:
    """How many bytes: at least one."""
    return number_word(text, 1, (1 << 63) - 1, "a number of bytes")


def need_server() -> None:
    """Finds the module of Debian's python3-waitress, also for another Python than Debian's. `Failed`: it isn't there."""
    sys.path.append(DEBIANS_MODULES)
    try:
        import waitress  # noqa: F401
    except ImportError:
        raise Failed("python3-waitress is missing: apt-get install python3-waitress") from None


def add_pages(app: App, people: People, writer: Writer, history: History, said: argparse.Namespace, tell: Teller) -> Any:
    """Puts the pages into the application, and gives them. Without Debian's python3-jinja2 there are none, and that is told."""
    sys.path.append(DEBIANS_MODULES)
    try:
        from moo_web.world.properties import SightNames
        from moo_web.pages.about import BadText, text_in
        from moo_web.pages.site import make_pages
    except ModuleNotFoundError as error:
        if error.name not in ("jinja2", "markupsafe"):
            raise
        tell(f"{NO_PAGES}. What programs ask for at /api is served")
        app.for_people = lambda request, reply, parts: Reply(503, f"{NO_PAGES}.\n".encode(), "text/plain; charset=utf-8")
        return None
    try:
        text_in(said.about) if said.about else ""
    except BadText as bad:
        raise Failed(str(bad)) from None
    return make_pages(app, people, writer, history, said.rate, SightNames(said.description, said.exits), said.about)


def whose_of(app: App, channel: Any) -> Visitor:
    """Whose the request of a connection is, as far as it is known before it is read: the address, and the person of a known secret."""
    head: dict[str, str] = channel.requests[0].headers
    address = channel.addr[0]
    if channel.adj.trusted_proxy == address:
        address = head.get("X_FORWARDED_FOR", address).rpartition(",")[2].strip()
    lines = {f"HTTP_{name}": head[name] for name in ("AUTHORIZATION", "COOKIE") if name in head}
    request = Request({"REQUEST_METHOD": "", "REMOTE_ADDR": address, **lines})
    return request.visitor._replace(person=app.names.get(token_of(request) or secret_of(request), ""))


class Front:
    """All parts of a front, put together."""

    def __init__(self, said: argparse.Namespace, tell: Teller) -> None:
        folder = own_folder(said.folder)
        second = own_folder(said.journal) if said.journal else None
        if second is not None and os.path.samefile(folder, second):
            raise Failed("FOLDER and FOLDER2 are the same folder")
        self.journal = Journal(folder, second, tell, said.segment)
        self.people, self.meters = People(folder / PEOPLE_FILE), Meters()
        self.people.audit = auditing(tell, self.meters.audited.add)
        if second is not None:
            keeper = Keeper(folder, second, tell)
            keeper.keep()
            keeper.start()
        self.shares = Shares(said.share, self.is_wizard)
        self.journal.note_sync = self.meters.sync_seconds.take
        self.door = Door(said.moo_port, turnstile=Turnstile(self.shares.spend), note=self.meters.asked)
        self.writer = Writer(self.door, self.journal, tell)
        growth = Growth(self.door, said.daily_bytes, said.full)
        self.writer.bound = growth.test
        self.writer.listeners.append(growth.take)
        self.app = App(tell, self.shares)
        log = AccessLog(said.access_log, tell) if said.access_log else None
        open_anew_at_hangup(log)
        self.app.observer = self.activity = Activity(self.meters, self.app.route_of, log)
        self.app.add_guard("", Hosts(self.app, said.host).guard)
        self.api = Api(self.app, self.door, self.writer, self.people, said.rate)
        self.history = History(folder, second)
        self.pages = add_pages(self.app, self.people, self.writer, self.history, said, tell)
        self.writer.watch = Counted(self.shares, self.people.may_come_in, lambda: self.pages.index.kept if self.pages else None)
        self.places = Places(lambda channel: whose_of(self.app, channel))
        self.readiness = Readiness(self.writer, [folder] if second is None else [folder, second])
        # The server, once it listens.
        self.server: Any = None

    def listen(self, said: argparse.Namespace, room: Room) -> None:
        """Has the server listen. `Failed`: it can't."""
        from moo_web.traffic.connections import Way, listen

        ways = [Way(given_socket(said.status_port) or own_socket(said.port), said.proxy)]
        if said.proxy_socket:
            # The port is the last, so that the server knows it.
            ways.insert(0, Way(socket_at(said.proxy_socket), BY_SOCKET))
        self.server = listen(self.app, ways, room, self.places, Heart(self.writer, self.places, self.state).beat)

    def state(self) -> str:
        """How the front is, in a line for systemd."""
        from moo_web.traffic.connections import open_connections

        stopped = "; writing has stopped" if self.writer.stopped else ""
        return f"seq {self.writer.seq}, {open_connections(self.server)} connections{stopped}"

    def serve_status(self, said: argparse.Namespace, room: Room, tell: Teller) -> None:
        """Serves the status port. `Failed`: it can't be had."""
        from moo_web.status import gauges
        from moo_web.traffic.connections import open_connections

        folders = self.readiness.folders
        metrics = [
            *gauges.of_world(self.writer, self.readiness, said.full),
            *self.meters.all(),
            *gauges.of_journal(folders),
            *standbys.standby_metrics(folders[0], self.writer),
            *gauges.of_traffic(lambda: open_connections(self.server) if self.server else 0, room, self.places, self.api.followers),
            *process.process_metrics(),
        ]
        status = port.Status(self.readiness, self.activity, metrics, lambda: gauges.watched(said.metrics), tell)
        own = port.serve_port(status.app, port.sockets_at(said.status_port))
        tell(f"the status port is http://127.0.0.1:{own}/")

    def is_wizard(self, person: Person) -> bool:
        """Whether somebody's object is a wizard. If that isn't told soon, it isn't."""
        call = f'get(#{person.number}, "wizard")'
        with contextlib.suppress(Unreachable):
            answer = self.door.asked("POST", "/ask", batch_body(person.number, [call]), time.monotonic() + WIZARD_ASKING)
            return answer.said.get("answers") == ["1"]
        return False


def serve(said: argparse.Namespace) -> None:
    """Serves until a signal comes."""
    only_ours()
    tell = Teller("moo-web")
    need_server()
    from moo_web.traffic.connections import Room

    front, room = Front(said, tell), Room()
    if said.status_port is not None:
        front.serve_status(said, room, tell)
    front.writer.start(said.rebase)
    front.listen(said, room)
    at_signals(lambda number: end_in_order(front.server))
    if front.pages:
        threading.Thread(target=front.pages.warm, name="warm", daemon=True).start()
    threading.Thread(target=front.history.keep_up, args=(tell,), name="history", daemon=True).start()
    front.readiness.is_started = True
    print(f"listening http://127.0.0.1:{getattr(front.server, 'effective_port', said.port)}/", flush=True)
    notify(f"READY=1\nSTATUS={front.state()}")
    try:
        front.server.run()
    finally:
        notify("STOPPING=1")
        if said.proxy_socket:
            said.proxy_socket.unlink(missing_ok=True)
        front.writer.end(END_SECONDS)
        front.history.end()


def at_signals(act: Callable[[int], None]) -> None:
    """Has SIGTERM and SIGINT do this. One that is ignored stays so, as SIGINT is in the background of a shell.

    `act` raises nothing: Python throws an exception away that comes during an import or while an object is freed, and all would go on.
    """
    for number in (signal.SIGTERM, signal.SIGINT):
        if signal.getsignal(number) is not signal.SIG_IGN:
            signal.signal(number, lambda number, frame: act(number))


def end_at_once(number: int) -> None:
    """Ends the process, whatever it does: a start has nothing to put in order, and who sends a second signal won't wait."""
    os._exit(0 if number == signal.SIGTERM else INTERRUPTED)


def end_in_order(server: Any) -> None:
    """Has the server end, and the process with it. The next signal ends it at once."""
    at_signals(end_at_once)
    server.end()


def main() -> None:
    """Runs the program with the words of the command line."""
    at_signals(end_at_once)
    said = read_words(sys.argv[1:])
    try:
        serve(said)
    except (Failed, InUse, Damaged, NoRoom, Broken, Wrong, OSError) as error:
        sys.exit(f"moo-web: {error}")
    # Python would wait for the thread of a disk that doesn't answer.
    os._exit(0)

