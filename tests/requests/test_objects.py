"""`GET /objects/N`: the objects from a number on, a page at a time, to the byte."""
import json
import os
from pathlib import Path

from tests.support.exchange import MOO, NOT_FOUND, RequestTest, accepted, allow, answer, error, posted, said
from tests.support.service import Service, get
from tests.support.worlds import make, text_of


def entry(number, name="", parent="#1", location="#-1", owner="#3", marks=(0, 0, 0), bits=(0, 0, 0)):
    """The JSON of an object in a list. The marks are those of a player, a programmer and a wizard, the bits r, w and f."""
    return {
        "f": bits[2], "location": location, "name": name, "number": f"#{number}", "owner": owner, "parent": parent, "player": marks[0],
        "programmer": marks[1], "r": bits[0], "w": bits[1], "wizard": marks[2],
    }


def page(entries, following=None, seq=0):
    body = {"next": f"#{following}" if following is not None else None, "objects": entries, "seq": seq}
    return answer("200 OK", json.dumps(body, separators=(",", ":")))


NO_NUMBERS = ("2147483648", "-2147483649", "", "-", "+1", "1x", "#1", "x", "1/2")
GONE = (4, 500, 1003, 1004, 2003)
# The objects of a new world (docs/CALLS.md): the wizard #3 is in the room #2.
OPENING = [
    entry(0, "System Object"),
    entry(1, "Root Class", parent="#-1", bits=(0, 0, 1)),
    entry(2, "The First Room"),
    entry(3, "Wizard", location="#2", marks=(1, 1, 1)),
]


def seconds_of(pid):
    """The processor time that a process has taken, its own and the system's for it."""
    fields = Path(f"/proc/{pid}/stat").read_text().rsplit(") ", 1)[1].split()
    return (int(fields[11]) + int(fields[12])) / os.sysconf("SC_CLK_TCK")


class Objects(RequestTest):
    def test_a_new_world(self):
        rows = [(f"from {number} on", get(f"/objects/{number}"), page(OPENING[number:])) for number in range(5)]
        rows += [
            ("007 is 7", get("/objects/003"), page(OPENING[3:])),
            ("-0 is 0", get("/objects/-0"), page(OPENING)),
            ("from below zero on", get("/objects/-1"), page(OPENING)),
            ("from the least number on", get("/objects/-2147483648"), page(OPENING)),
            ("from the greatest number on", get("/objects/2147483647"), page([])),
            ("a query", get("/objects/3?why"), page(OPENING[3:])),
        ]
        rows += [(f"{word} is no number", get(f"/objects/{word}"), NOT_FOUND) for word in NO_NUMBERS]
        rows += [
            ("no number at all", get("/objects"), NOT_FOUND),
            ("POST", posted("/objects/0", b"{}"), allow("GET")),
            ("HEAD", b"HEAD /objects/0 HTTP/1.1\r\n\r\n", allow("GET", is_head=True)),
            ("HEAD of no number", b"HEAD /objects/x HTTP/1.1\r\n\r\n", allow("GET", is_head=True)),
        ]
        self.in_turn("a list", rows)

    def test_fields(self):
        named = 'set(#4, "name", "A \\"b\\\\\tc")'
        calls = ["create(#1, #-1)", named, "move(#4, #2)", 'set(#4, "r", 1)', 'set(#4, "f", 1)', "set_player_flag(#4, 1)"]
        body = json.dumps({"as": "#3", "calls": calls}).encode()
        four = entry(4, 'A "b\\\tc', owner="#4", marks=(1, 0, 0), bits=(1, 0, 1), location="#2")
        rows = [
            ("it is made", posted("/batch", body), accepted(1, "#4", "0", "0", "0", "0", "0")),
            ("it is listed", get("/objects/4"), page([four], seq=1)),
            ("all are listed", get("/objects/0"), page([*OPENING, four], seq=1)),
        ]
        self.in_turn("fields", rows)

    def test_pages(self):
        """2,003 objects, of which some are gone again."""
        make("world.db", text_of(["create(#1)"] * 1000) * 2 + text_of([f"recycle(#{number})" for number in GONE]))
        numbers = [number for number in range(2004) if number not in GONE]
        entries = OPENING + [entry(number) for number in numbers if number > 3]
        firsts = (0, 1, 4, 5, 499, 501, 999, 1000, 1002, 1003, 1005, 1006, 2002, 2003)
        service = Service(MOO, "world.db", len(firsts) + 3)
        for first in firsts:
            left = [one for one in entries if int(one["number"][1:]) >= first]
            following = int(left[1000]["number"][1:]) if len(left) > 1000 else None
            self.case(f"from {first} on", said(service, get(f"/objects/{first}")), page(left[:1000], following, 3))
        found, first = [], 0
        while first is not None:
            body = json.loads(said(service, get(f"/objects/{first}")).split(b"\r\n\r\n", 1)[1])
            found += body["objects"]
            first = int(body["next"][1:]) if body["next"] else None
        self.case("page after page they are all", found, entries)
        self.case("no object", said(service, get("/object/4")), answer("404 Not Found", error("E_INVARG")))
        self.case("all are served", service.end(), (0, f"served {len(firsts) + 3} failed 0\n"))

    def test_many(self):
        """100,000 objects in 100 requests, for which the service takes 2 seconds of a processor at most."""
        make("many.db", text_of(["create(#1)"] * 1000) * 99 + text_of(["create(#1)"] * 996))
        service = Service(MOO, "many.db", 100)
        before, first, count, requests = seconds_of(service.process.pid), 0, 0, 0
        while first is not None:
            body = json.loads(service.ask(get(f"/objects/{first}")).split(b"\r\n\r\n", 1)[1])
            numbers = [int(one["number"][1:]) for one in body["objects"]]
            if numbers != list(range(count, count + len(numbers))):
                raise AssertionError(f"from {first} on come {numbers[:3]} and so on")
            count, requests = count + len(numbers), requests + 1
            taken = seconds_of(service.process.pid) - before
            first = int(body["next"][1:]) if body["next"] else None
        self.case("each once, in their order", (count, requests), (100_000, 100))
        self.case(f"in 2 seconds: {taken}", taken <= 2, True)
        self.case("all are served", service.end(), (0, "served 100 failed 0\n"))
