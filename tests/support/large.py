"""A world of many objects, and what the front's pages take on it: from a start to the first page, each page, and memory."""

from __future__ import annotations

import http.client
import json
import os
import pathlib
import random
import statistics
import time
import urllib.parse
from typing import Any

from tests.support.operating import SECONDS, make_world, said
from tests.support.web import PASSWORD, Front

SEED = 20261128
PLAYERS, CLASSES, ROOMS = 50, 100, 1000
FIRST_PLAYER = 4
FIRST_CLASS = FIRST_PLAYER + PLAYERS
FIRST_ROOM = FIRST_CLASS + CLASSES
FIRST_THING = FIRST_ROOM + ROOMS
WORDS = "oak brass silver old small broken painted heavy round blue lamp chest key coin book cup door rope bell stone".split()
# What is asked for, by names; as the wizard.
PATHS = {
    "world": "/", "an object": f"/o/{FIRST_THING + 77}", "a class with 50,000 children": f"/o/{FIRST_CLASS}",
    "its children": f"/o/{FIRST_CLASS}/children?page=300",
    "search by name": "/find?q=brass+lamp", "search by a letter": "/find?q=a", "search by number": "/find?q=77", "search by property": "/find?q=.size",
    "map of inheritance": "/map/parents",
    "map of places": "/map/places", "a part of a map": f"/map/places?from={FIRST_ROOM}", "history": "/history",
    "history of an object": f"/history?o={FIRST_THING}",
    "search by a word in values": "/find?q=stump", "all values with a word": "/find?q=stump&in=values", "values with a letter": "/find?q=e&in=values",
    "what names an object": f"/o/{FIRST_ROOM + 5}/named", "its children by name": f"/o/{FIRST_CLASS}/children?sort=name",
    "its children of an owner": f"/o/{FIRST_CLASS}/children?owner=%23{FIRST_PLAYER}&sort=where",
    "people": "/people", "map of exits": f"/map/exits?from={FIRST_ROOM}",
    "a form": f"/do/move?object=%23{FIRST_THING}", "a form to make objects": "/do/create",
}  # fmt: skip
BATCH = 300
# So often a page is asked for.
TRIES = 20


def make_large(file: pathlib.Path, count: int) -> None:
    """Makes a world of so many objects. It takes some seconds, or on a busy machine some minutes: so it is made in parts."""
    batches = world_of(count).split("end\n")[:-1]
    make_world(file, "")
    for first in range(0, len(batches), 20):
        status, replies = said("apply", file, "-", text="end\n".join(batches[first : first + 20]) + "end\n")
        if status or replies.count("accepted") != len(batches[first : first + 20]):
            raise AssertionError(f"the batches of a large world were answered {replies[:300]!r}")


def world_of(count: int) -> str:
    """The text of batches that make a world of so many objects: half of the things are under one class and have descriptions, all are in
    rooms."""
    rng, number = random.Random(SEED), FIRST_PLAYER
    lines: list[str] = []

    def call(text: str) -> None:
        if len(lines) % (3 * BATCH) == 0:
            lines.append("end\nbatch as #3\n" if lines else "batch as #3\n")
        lines.append(text + "\n")

    for _ in range(PLAYERS):
        call("create(#1, #-1)")
        call(f"set_player_flag(#{number}, 1)")
        number += 1
    for place in range(CLASSES):
        call(f"create(#{1 if place < 20 else rng.randrange(FIRST_CLASS, number)})")
        call(f'set(#{number}, "name", "generic {rng.choice(WORDS)}")')
        if place % 10 == 0:
            call(f'add_property(#{number}, "{"size" if place else "description"}{place or ""}", "as such things are", {{#3, "rc"}})')
        number += 1
    for place in range(ROOMS):
        call("create(#1)")
        call(f'set(#{number}, "name", "room {place}")')
        call(f"set_accept(#{number}, {{#1}})")
        number += 1
    while number < count:
        parent = FIRST_CLASS if number % 2 else rng.randrange(FIRST_CLASS, FIRST_ROOM)
        call(f"create(#{parent}, #{rng.randrange(FIRST_PLAYER, FIRST_CLASS)})")
        call(f'set(#{number}, "name", "{rng.choice(WORDS)} {rng.choice(WORDS)} {number}")')
        call(f"move(#{number}, #{rng.randrange(FIRST_ROOM, FIRST_THING)})")
        if parent == FIRST_CLASS:
            # One of ten names a room, and one of a thousand has the word that is looked for.
            words = [rng.choice(WORDS) for _ in range(8)] + ["stump"] * (number % 1000 == 1)
            text = f'"A {" ".join(words)} that somebody has left here."'
            room = f"{{{text}, #{rng.randrange(FIRST_ROOM, FIRST_THING)}}}"
            call(f'set(#{number}, "description", {room if number % 10 == 1 else text})')
        number += 1
    return "".join(lines) + "end\n"


def cpu_of(*processes: int) -> float:
    """The seconds of processor time that these have taken."""
    ticks = 0
    for process in processes:
        fields = pathlib.Path(f"/proc/{process}/stat").read_text().rpartition(")")[2].split()
        ticks += int(fields[11]) + int(fields[12])
    return ticks / os.sysconf("SC_CLK_TCK")


def memory_of(process: int) -> float:
    """The megabytes of memory that a process has."""
    status = pathlib.Path(f"/proc/{process}/status").read_text()
    return int(status.partition("VmRSS:")[2].split()[0]) / 1024


def reading_of(moo: Any) -> float:
    """The seconds of processor time, moo's and this program's, that a plain client takes to read the whole world by `/objects`."""
    before = cpu_of(moo.process.pid, os.getpid())
    connection = http.client.HTTPConnection("127.0.0.1", moo.port, timeout=SECONDS)
    number, objects = "0", []
    try:
        while number:
            connection.request("GET", f"/objects/{number}")
            part = json.loads(connection.getresponse().read())
            objects += part["objects"]
            number = (part["next"] or "").lstrip("#")
    finally:
        connection.close()
    return cpu_of(moo.process.pid, os.getpid()) - before


class Guest:
    """Somebody who is signed in at a front."""

    def __init__(self, port: int, cookie: str = "") -> None:
        self.port, self.cookie = port, cookie

    def asked(self, method: str, path: str, fields: dict[str, str] | None = None) -> tuple[int, bytes]:
        """The status and the body of an answer. Its cookie is kept."""
        connection = http.client.HTTPConnection("127.0.0.1", self.port, timeout=SECONDS)
        try:
            connection.request(method, path, urllib.parse.urlencode(fields) if fields else None, {"Cookie": self.cookie})
            answer = connection.getresponse()
            text = answer.read()
        finally:
            connection.close()
        if line := answer.getheader("Set-Cookie"):
            self.cookie = line.partition(";")[0]
        return answer.status, text

    def sign_in(self, name: str) -> None:
        """Signs in by the password that the people of the tests have."""
        status, _ = self.asked("POST", "/in", {"name": name, "password": PASSWORD, "to": "/"})
        if status != 303:
            raise AssertionError(f"signing in was answered {status}")


class Measured:
    """What was measured on a world: seconds on the clock and of processor time, the front's and moo's together, and megabytes.

    `start` and `start_cpu` are from the start of the front to its first page whole; `pages` has for each path the median of the seconds,
    and the mean of the processor time; `after_write` is the same for the first page after a batch.
    """

    def __init__(self, folder: pathlib.Path, moo: Any, count: int) -> None:
        front = Front(folder, moo.port, "--rate", 100_000)
        guest = Guest(front.port)
        guest.sign_in("wizard")
        front.kill()
        began, moo_began = time.monotonic(), cpu_of(moo.process.pid)
        front = Front(folder, moo.port, "--rate", 100_000)
        guest.port = front.port
        self.must(guest, "/")
        self.start = time.monotonic() - began
        self.start_cpu = cpu_of(front.process.pid) + cpu_of(moo.process.pid) - moo_began
        self.front, self.moo, self.guest, self.count = front, moo, guest, count
        self.pages = {name: self.page(path) for name, path in PATHS.items()}
        self.memory = memory_of(front.process.pid)
        self.load = os.getloadavg()[0]

    @staticmethod
    def must(guest: Guest, path: str) -> bytes:
        """A page that has to be there. On a busy machine the front may say that moo doesn't answer in time: then it is asked again."""
        end = time.monotonic() + SECONDS
        status, text = guest.asked("GET", path)
        while status == 503 and time.monotonic() < end:
            status, text = guest.asked("GET", path)
        if status not in (200, 303):
            raise AssertionError(f"{path} was answered {status}: {text[:300]!r}")
        return text

    def page(self, path: str) -> tuple[float, float]:
        """The median of the seconds of a page, and the mean of its processor time. The first isn't counted."""
        self.must(self.guest, path)
        before = cpu_of(self.front.process.pid, self.moo.process.pid)
        seconds: list[float] = []
        for _ in range(TRIES):
            began = time.monotonic()
            self.must(self.guest, path)
            seconds.append(time.monotonic() - began)
        return statistics.median(seconds), (cpu_of(self.front.process.pid, self.moo.process.pid) - before) / TRIES

    def after_write(self, token: str) -> tuple[float, float]:
        """The same for the first page after a batch that renames an object, with a new one every time."""
        from tests.support.web import ask

        seconds: list[float] = []
        cpu = 0.0
        for number in range(TRIES):
            calls = [f'set(#{FIRST_THING + number}, "name", "renamed {number}")', f"create(#{FIRST_CLASS})"]
            status, said = ask(self.front.port, "POST", "/api/batch", {"calls": calls}, token)
            if status != 200:
                raise AssertionError(f"a batch was answered {status} {said}")
            before, began = cpu_of(self.front.process.pid, self.moo.process.pid), time.monotonic()
            self.must(self.guest, "/")
            seconds.append(time.monotonic() - began)
            cpu += cpu_of(self.front.process.pid, self.moo.process.pid) - before
        return statistics.median(seconds), cpu / TRIES
