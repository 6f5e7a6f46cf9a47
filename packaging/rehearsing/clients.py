"""Clients that make one object after another, and whether what they were answered is in a world or in a copy."""

from __future__ import annotations

import contextlib
import http.client
import json
import shutil
import subprocess
import tempfile
import threading
import time
from collections.abc import Iterator
from pathlib import Path
from typing import Any

import moo_client
from moo_client import AnswersLost, Moo, Obj

from rehearsing.machines import SECONDS
from rehearsing.page import PORT, WEB_PORT, is_wrong

CLIENTS = 4
Made = dict[Any, list[Any]]


class Client(threading.Thread):
    """A client that makes one object after another under one of its own, by moo's port. `made` are the answers."""

    def __init__(self, home: Any, made: list[Any]) -> None:
        super().__init__(daemon=True)
        self.home, self.made = home, made
        self.is_over, self.wrong = threading.Event(), ""

    def run(self) -> None:
        world = Moo(PORT, mark=(self.home, "mark"), patience=SECONDS)
        try:
            while not self.is_over.wait(0.02):
                try:
                    self.made += world.run([("create", self.home)], as_=3)
                except AnswersLost:
                    # It has acted, and nobody else makes objects there.
                    self.made.append(world.ask([("children", self.home)], as_=3)[0][-1])
        except Exception as error:  # a thread's own failure is the rehearsal's
            self.wrong = repr(error)


class Visitor(threading.Thread):
    """The same by the front, with a person's token. What was answered is in `made`; of what wasn't nothing is known."""

    def __init__(self, token: str, home: Any, made: list[Any]) -> None:
        super().__init__(daemon=True)
        self.token, self.home, self.made = token, home, made
        self.is_over, self.wrong = threading.Event(), ""

    def run(self) -> None:
        while not self.is_over.wait(0.02):
            status, said = asked(self.token, "batch", [f"create({self.home})"])
            if status == 200:
                self.made += [moo_client.read(answer) for answer in said["answers"]]
            elif status not in (0, 429, 503) or said.get("error") == "gap":
                self.wrong = f"{status} {said}"
                return


def asked(token: str, route: str, calls: list[str]) -> tuple[int, Any]:
    """The status and the body of an answer of the front; status 0 if none came."""
    connection = http.client.HTTPConnection("127.0.0.1", WEB_PORT, timeout=30)
    try:
        connection.request("POST", f"/api/{route}", json.dumps({"calls": calls}), {"Authorization": f"Bearer {token}"})
        came = connection.getresponse()
        return came.status, json.loads(came.read())
    except (OSError, http.client.HTTPException, ValueError):
        return 0, {}
    finally:
        connection.close()


def answered(token: str, route: str, calls: list[str]) -> list[Any]:
    """The answers to a batch by the front, which come in the end."""
    end = time.monotonic() + SECONDS
    while time.monotonic() < end:
        status, said = asked(token, route, calls)
        if status == 200:
            return [moo_client.read(answer) for answer in said["answers"]]
        if status not in (0, 429, 503):
            break
        time.sleep(0.2)
    is_wrong(f"the front answers {status} {said} to {calls}")
    raise AssertionError


@contextlib.contextmanager
def running(clients: list[Any]) -> Iterator[None]:
    """Clients that write meanwhile."""
    for client in clients:
        client.start()
    time.sleep(3)
    yield
    for client in clients:
        client.is_over.set()
    for client in clients:
        client.join(SECONDS)
        if client.wrong:
            is_wrong(f"a client: {client.wrong}")


@contextlib.contextmanager
def load(made: Made) -> Iterator[None]:
    """Clients that write meanwhile by moo's port. `made` is what each was answered, by its object; without any they make one each."""
    if not made:
        for _ in range(CLIENTS):
            (home,) = Moo(PORT, alone=True).run([("create", Obj(1))], as_=3)
            Moo(PORT, alone=True).run([("add_property", home, "mark", "", [Obj(3), ""])], as_=3)
            made[home] = []
    with running([Client(home, answers) for home, answers in made.items()]):
        yield


@contextlib.contextmanager
def visits(token: str, made: Made) -> Iterator[None]:
    """The same by the front."""
    while len(made) < CLIENTS:
        made[answered(token, "batch", ["create(#1)"])[0]] = []
    with running([Visitor(token, home, answers) for home, answers in made.items()]):
        yield


def is_within(answers: list[Any], found: list[Any]) -> bool:
    """Whether answers are among what was found, in their order."""
    rest = iter(found)
    return all(answer in rest for answer in answers)


def has_all(token: str, made: Made) -> None:
    """The world has what was answered by the front. What else is there was sent, and its answer was lost."""
    for home, answers in made.items():
        (under,) = answered(token, "ask", [f"children({home})"])
        if not is_within(answers, under):
            is_wrong(f"of {len(answers)} acknowledged objects under {home} some are missing: {len(under)} are there")
        answers[:] = under


def counts(made: Made) -> dict[Any, int]:
    """How many answers there are by now."""
    return {home: len(answers) for home, answers in made.items()}


def numbers(literal: str) -> list[Any]:
    """The objects of a list, as its literal has them."""
    found = moo_client.read(literal)
    if not isinstance(found, list):
        is_wrong(f"{literal} is no list")
    return found


def held(copy: Path, homes: list[Any], program: str) -> Made:
    """What is in a copy below each of these objects."""
    with tempfile.TemporaryDirectory() as room:
        for file in copy.glob("world.db*"):
            shutil.copy(file, room)
        calls = [f"children({home})" for home in homes]
        text = "\n".join(["batch as #3", *calls, "end", ""])
        ran = subprocess.run([program, "ask", f"{room}/world.db", "-"], input=text, stdout=subprocess.PIPE, text=True, check=True)
    return {home: numbers(line) for home, line in zip(homes, ran.stdout.splitlines()[1:])}


def compare(copy: Path, made: Made, before: dict[Any, int], program: str) -> None:
    """The copy has what was answered before, and of what was answered later the first."""
    for home, under in held(copy, list(made), program).items():
        end = time.monotonic() + SECONDS
        while len(made[home]) < len(under) and time.monotonic() < end:
            time.sleep(0.1)
        if len(under) < before[home] or under != made[home][: len(under)]:
            is_wrong(f"{copy} has {len(under)} objects under {home}; {before[home]} were acknowledged before")
