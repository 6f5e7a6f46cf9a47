"""`GET /dump`: what `moo dump` writes, to the byte, while the world is served."""
import json
import resource
from pathlib import Path

from tests.support.cases import ProgramTest
from tests.support.dumped import OPENING
from tests.support.exchange import MOO, NOT_FOUND, RequestTest, accepted, allow, answer, error, posted, said, seq
from tests.support.service import Service, get
from tests.support.worlds import PETITIONS, VERBS, make, remove, run, text_of

FORBIDDEN = answer("403 Forbidden", error("forbidden"))
NO_MEMORY = answer("503 Service Unavailable", error("nomemory"))
DUMP = get("/dump")


def dumped(text):
    return answer("200 OK", text, kind="text/plain")


NEW = dumped(f"seq 0\ntop #3\n{OPENING}end\n")
ROWS = [
    ("a new world", DUMP, NEW),
    ("with ?why", get("/dump?why"), NEW),
    ("no line host", b"GET /dump HTTP/1.1\r\n\r\n", NEW),
    ("this machine by its name", b"GET /dump HTTP/1.1\r\nHost: LOCALHOST:1\r\n\r\n", NEW),
    ("another machine", b"GET /dump HTTP/1.1\r\nhost: example.com\r\n\r\n", FORBIDDEN),
    ("another machine, before the method", b"POST /dump HTTP/1.1\r\nhost: example.com\r\n\r\n", FORBIDDEN),
    ("a page", b"GET /dump HTTP/1.1\r\norigin: null\r\n\r\n", FORBIDDEN),
    ("POST", posted("/dump", b"{}"), allow("GET")),
    ("HEAD", b"HEAD /dump HTTP/1.1\r\n\r\n", allow("GET", is_head=True)),
    ("a longer path", get("/dump/"), NOT_FOUND),
    ("another case", get("/Dump"), NOT_FOUND),
    ("nothing acted", get("/seq"), seq(0)),
]
RENAMED = json.dumps({"as": "#3", "calls": ["create(#1)", 'set(#1, "name", "Root")']}).encode()
# The names of two properties, each as long as a name may be.
LONG_NAMES = ["a" * 255, "b" * 255]


class Dump(RequestTest):
    def test_rows(self):
        self.in_turn("a dump", ROWS)


class DumpOfAFile(ProgramTest):
    def test_worlds(self):
        """It has the batches that were accepted before it, and is loaded again as it is."""
        for name, text in (("verbs", VERBS), ("petitions", PETITIONS)):
            make("world.db", text)
            written = run("dump", "world.db")[1]
            number = text.count("batch") + 1
            top = int(written.split("\n")[1].removeprefix("top #")) + 1
            service = Service(MOO, "world.db", 4)
            self.case(f"{name}: it is what moo dump writes", said(service, DUMP), dumped(written))
            self.case(f"{name}: a batch", said(service, posted("/batch", RENAMED)), accepted(number, f"#{top}", "0"))
            after = said(service, DUMP)
            self.case(f"{name}: the dump changes nothing", said(service, get("/seq")), seq(number))
            self.case(f"{name}: all are served", service.end(), (0, "served 4 failed 0\n"))
            self.case(f"{name}: it has the batch", after, dumped(run("dump", "world.db")[1]))
            remove("copy.db")
            body = after.split(b"\r\n\r\n", 1)[1]
            self.case(f"{name}: it is loaded", run("load", "copy.db", "-", text=body)[0], 0)
            self.case(f"{name}: as the same", run("dump", "copy.db")[1].encode(), body)

    def test_no_memory(self):
        """A dump of over 60 MB, if 16 MB more may be taken: the answer says so, and the service goes on."""
        define = [f'add_property(#4, "{name}", 0, {{#3, "c"}})' for name in LONG_NAMES]
        make("large.db", text_of(["create(#1)", *define]) + text_of(["create(#4)"] * 1000) * 100)
        service = Service(MOO, "large.db", 3)
        pages = int(Path(f"/proc/{service.process.pid}/statm").read_text().split()[0])
        room = pages * resource.getpagesize() + (16 << 20)
        free = resource.prlimit(service.process.pid, resource.RLIMIT_AS, (room, resource.RLIM_INFINITY))
        self.case("no memory", said(service, DUMP), NO_MEMORY)
        self.case("the next one", said(service, get("/seq")), seq(101))
        resource.prlimit(service.process.pid, resource.RLIMIT_AS, free)
        whole = said(service, DUMP)
        self.case("all are served", service.end(), (0, "served 3 failed 0\n"))
        # Opening may take so long that lines tell how much was read.
        log = [line.partition(" GMT: ")[2] for line in service.told.splitlines() if " GMT: " in line]
        self.case("the line of the log", log, ["/dump: 503: out of memory"])
        self.case("it is large", len(whole) > 60_000_000, True)
        self.case("with memory it is the dump", whole == dumped(run("dump", "large.db")[1]), True)
