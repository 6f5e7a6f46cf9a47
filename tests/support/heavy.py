"""Heavy requests of an ordinary programmer to `moo`, on worlds of any size: those by which a stranger stopped a world for seconds or minutes."""
from __future__ import annotations

import dataclasses
import http.client
import json
import pathlib
import subprocess
import time
from typing import NamedTuple

WHO = "#4"
# The first object of #4's: the class of a world of many children, or the top of a chain. What comes after them is in MORE.
TOP = 5
CALLS = 1000
# Of a name and of a text as long as they may be.
LONG_NAME, LONG_TEXT = 249, 64_000


@dataclasses.dataclass
class World:
    """A world by the calls that make it, all of #4's, and its last object."""

    name: str
    calls: list[str]
    last: int


@dataclasses.dataclass
class Request:
    """A request to a world: its path, and its calls. One that isn't `too_much` is only long."""

    name: str
    world: World
    path: str
    calls: list[str]
    too_much: bool = True

    @property
    def body(self) -> bytes:
        """Its body, as it is sent."""
        return json.dumps({"as": WHO, "calls": self.calls}, separators=(",", ":")).encode()


class Sizes(NamedTuple):
    """How large the worlds are: three classes, the properties beside the second one, two chains, the names beside the longer one, and lists."""

    few: int
    wide: int
    wider: int
    properties: int
    deep: int
    deeper: int
    names: int
    values: int
    let_in: int


# As the stranger had them; and of a tenth or less, for tests.
FULL = Sizes(few=1000, wide=10_000, wider=100_000, properties=1000, deep=10_000, deeper=100_000, names=6000, values=100_000, let_in=1000)
SMALL = Sizes(few=200, wide=1000, wider=10_000, properties=100, deep=1000, deeper=30_000, names=600, values=10_000, let_in=1000)


def family(count: int, properties: int = 0) -> World:
    """A class of so many children, and an object beside it that defines so many properties."""
    calls = ["create(#1)"] + [f"create(#{TOP})"] * count + ["create(#1)"]
    beside = TOP + count + 1
    calls += [f'add_property(#{beside}, "p{number}", 0, {{{WHO}, "rw"}})' for number in range(properties)]
    return World(f"a class of {count:,}, one of {properties:,} properties", calls, beside)


def chain(count: int, properties: int = 0) -> World:
    """A chain of so many objects, and an object beside it that defines so many properties."""
    calls = ["create(#1)"] + [f"create(#{number})" for number in range(TOP, TOP + count - 1)] + ["create(#-1)"]
    beside = TOP + count
    calls += [f'add_property(#{beside}, "p{number}", 0, {{{WHO}, "rw"}})' for number in range(properties)]
    return World(f"a chain of {count:,}, one of {properties:,} properties", calls, beside)


def doors(count: int, entries: int) -> World:
    """A chain of so many objects, and two places with such a list of what they let in: the first has the top of the chain, the last nothing."""
    calls = ["create(#1)"] + [f"create(#{number})" for number in range(TOP, TOP + count - 1)] + ["create(#1)", "create(#1)"]
    place, other = TOP + count, TOP + count + 1
    let_in = [f"#{900_000 + number}" for number in range(entries)]
    calls += [f"set_accept(#{place}, {{{', '.join(let_in[1:])}, #{TOP}}})", f"set_accept(#{other}, {{{', '.join(let_in)}}})"]
    return World(f"a chain of {count:,}, places with {entries:,} entries", calls, other)


def alike(count: int) -> World:
    """An object of so many properties with long names that are almost the same."""
    name = "a" * LONG_NAME
    return World(f"{count:,} long names", ["create(#1)"] + [f'add_property(#{TOP}, "{name}{number}", 0, {{{WHO}, "r"}})' for number in range(count)], TOP)


def there_and_back(times: int, world: World) -> list[str]:
    """The class goes under the object beside it and back."""
    return [f"chparent(#{TOP}, #{world.last})", f"chparent(#{TOP}, #1)"] * times


def added(count: int) -> list[str]:
    """So many properties more."""
    return [f'add_property(#{TOP}, "q{number}", 0, {{{WHO}, "rw"}})' for number in range(count)]


def of_classes(sizes: Sizes) -> list[Request]:
    """The requests about classes."""
    wide, wider, few = family(sizes.wide, sizes.properties), family(sizes.wider), family(sizes.few)
    numbers = ",".join(["1"] * sizes.values)
    return [
        Request("a class under many properties and back", wide, "/ask?why", there_and_back(1, wide)),
        Request("5 times", wide, "/ask?why", there_and_back(5, wide)),
        Request("500 times", wide, "/ask?why", there_and_back(500, wide)),
        Request("1,000 times all children", wider, "/ask?why", [f"children(#{TOP})"] * CALLS),
        Request("1,000 new properties", wide, "/ask?why", added(CALLS)),
        Request("100 new properties", wider, "/ask?why", added(100)),
        Request("1,000 new properties", few, "/batch?why", added(CALLS)),
        Request("each of 1,000 new properties", wide, "/each?why", added(CALLS)),
        Request("a class is recycled", wider, "/batch?why", [f"recycle(#{TOP})"]),
        Request("each of 1,000 would recycle a class", wide, "/each?why", [f"recycle(#{TOP})"] * CALLS),
        Request("a list, read 1,000 times", few, "/ask?why", [
            f'add_property(#{TOP}, "list", {{{numbers}}}, {{{WHO}, "rw"}})', *[f'get(#{TOP}, "list")'] * 999
        ]),
        Request("900 new verbs, and 100 times all", few, "/ask?why", [
            *(f'add_verb(#{TOP}, {{{WHO}, "r", "foo{number}*bar"}}, {{"this", "none", "none"}})' for number in range(900)),
            *[f"verbs(#{TOP})"] * 100,
        ]),
        Request("each of 1,000 verbs that aren't there", few, "/each?why", [f'verb_info(#{TOP}, "nosuch")'] * CALLS, False),
        Request("7 texts of escapes", few, "/ask?why", ['set(#%d, "name", "%s")' % (TOP, '\\"' * (LONG_TEXT // 2))] * 7, False),
    ]  # fmt: skip


def of_chains(sizes: Sizes) -> list[Request]:
    """The requests about chains, and about places."""
    deep, deeper, places = chain(sizes.deep), chain(sizes.deeper, sizes.names), doors(sizes.deep, sizes.let_in)
    bottom, lowest = TOP + sizes.deep - 1, TOP + sizes.deeper - 1
    away = [f"chparent(#{TOP + 1}, #-1)", f"chparent(#{TOP + 1}, #{TOP})"]
    new_and_gone = [f'add_property(#{TOP}, "q", 0, {{{WHO}, "rw"}})', f'delete_property(#{TOP}, "q")']
    return [
        Request("500 properties at the top, and away", deep, "/ask?why", new_and_gone * 500),
        Request("10 properties at the top", deeper, "/ask?why", added(10)),
        Request("1,000 moves of the top", deep, "/ask?why", away * 500),
        Request("20 moves of the top", deeper, "/ask?why", away * 10),
        Request("each of 1,000 moves of the top under the lowest", deep, "/each?why", [f"chparent(#{TOP}, #{bottom})"] * CALLS),
        Request("each of 1,000 names that aren't there", deep, "/each?why", [f'get(#{bottom}, "nosuch")'] * CALLS),
        Request("each of 100 names that aren't there", deeper, "/each?why", [f'get(#{lowest}, "nosuch")'] * 100),
        Request("many names under the chain", deeper, "/ask?why", [f"chparent(#{deeper.last}, #{lowest})"] * 10),
        Request("500 times into a place and out", places, "/ask?why", [f"move(#{bottom}, #{places.last - 1})", f"move(#{bottom}, #-1)"] * 500),
        Request("each of 1,000 isn't let in", places, "/each?why", [f"move(#{bottom}, #{places.last})"] * CALLS),
    ]  # fmt: skip


def of_names(count: int) -> Request:
    """The request about a name that is almost right, among so many."""
    calls = [f'get(#{TOP}, "{"a" * LONG_NAME}b1")'] * CALLS
    return Request("each of 1,000 names that are almost right", alike(count), "/each?why", calls, False)


def heavy_requests(sizes: Sizes) -> list[Request]:
    """All of them."""
    return [*of_classes(sizes), *of_chains(sizes), of_names(400)]


def honest_request(world: World, length: int) -> Request:
    """A request of 1,000 calls, none of which is much work; of such a length at least."""
    texts = ["x" * min(LONG_TEXT, length - first) for first in range(0, length, LONG_TEXT)]
    calls = [f'set(#{TOP}, "name", "{text}")' for text in texts]
    return Request("1,000 objects and names", world, "/ask?why", ["create(#1)"] * (CALLS - len(calls)) + calls, False)


def make_file(program: str, file: pathlib.Path, world: World) -> None:
    """Makes the file of a world."""
    subprocess.run([program, "init", file], check=True, stdout=subprocess.DEVNULL)
    parts = ["batch as #3\ncreate(#1, #-1)\nend\n"]
    for first in range(0, len(world.calls), CALLS):
        parts.append("\n".join([f"batch as {WHO}", *world.calls[first : first + CALLS], "end", ""]))
    ran = subprocess.run([program, "apply", "--stop", file, "-"], input="".join(parts).encode(), stdout=subprocess.DEVNULL, check=False)
    assert ran.returncode == 0, world.name


def sent(port: int, request: Request) -> tuple[int, str]:
    """The status and the body of the answer to a request."""
    connection = http.client.HTTPConnection("127.0.0.1", port, timeout=3000)
    try:
        connection.request("POST", request.path, request.body)
        answer = connection.getresponse()
        return answer.status, answer.read().decode()
    finally:
        connection.close()


def processor_seconds(pid: int) -> float:
    """What a process took of processors so far, by the clock that the system keeps of it."""
    return time.clock_gettime((~pid << 3) | 2)


def kilobytes(pid: int, what: str) -> int:
    """A line of what a process holds."""
    lines = pathlib.Path(f"/proc/{pid}/status").read_text().splitlines()
    return next(int(line.split()[1]) for line in lines if line.startswith(f"{what}:"))
