"""Random batches through the service and by texts, kills at random moments, and what the file then holds.

    python3 bench/soak.py PROGRAM [SECONDS [SEED [FOLDER]]]

Round after round for SECONDS (60; at most 3,600), the program serves a world in a file to one to four clients at once, or runs texts on
it by `apply`, and is killed with signal 9 at a random moment. The batches are random: some are refused, stale or malformed, and some
clients break off. After each kill:

- `check` has to find the world whole, at the number of the last batch that was acknowledged, or one more;
- `dump` has to be that of a second file, on which the acknowledged batches were run without a kill, in their order; if one more is
  there, that of one which was under way;
- each acknowledged answer has to be what that second run answers.

It prints the seed first, and stops at the first round that shows anything else, with the seed, the round and the folder that it leaves:
status 1. A new world is begun every 25 rounds.
"""
from __future__ import annotations

import json
import os
import random
import re
import shutil
import signal
import subprocess
import sys
import tempfile
import threading
import time
from typing import Optional

sys.dont_write_bytecode = True
sys.path.insert(0, os.path.dirname(os.path.dirname(os.path.abspath(__file__))))
from tests.support.service import Service, get, post, reset  # noqa: E402

ROUNDS_OF_A_WORLD = 25
# A batch that was acknowledged: its number, its calls and its answers.
Done = tuple[int, list[str], list[str]]


class Violation(Exception):
    """What a round showed that it may not show."""


def random_call(chance: random.Random) -> str:
    """A call of the wizard's on low numbers, so that many meet an object; some are refused."""

    def low() -> str:
        return f"#{chance.choice([0, 1, 2, 3, 4, 4, 5, 5, 6, 7, 8, 9, 12, 15, 20])}"

    name = chance.choice(["light", "weight", "key", "Note", "a"])
    value = chance.choice(["0", "-12", '"text"', "{}", "{1, {2, #3}}", "#4", "E_PERM", '"' + "x" * chance.randrange(2000) + '"'])
    petition = chance.randrange(1, 12)
    return chance.choice(
        [
            f"create({low()})",
            "create(#1)",
            f'set({low()}, "name", "Thing {chance.randrange(1000)}")',
            f'set({low()}, "{name}", {value})',
            f'add_property({low()}, "{name}", {value}, {{#3, "rc"}})',
            f'delete_property({low()}, "{name}")',
            f'clear_property({low()}, "{name}")',
            f"chparent({low()}, {low()})",
            f"move({low()}, {low()})",
            f"recycle(#{chance.randrange(4, 30)})",
            f'add_verb({low()}, {{#3, "rx", "look"}}, {{"this", "none", "none"}})',
            f"delete_verb({low()}, 1)",
            f"set_accept({low()}, {{#1}})",
            f'set({low()}, "f", {chance.randrange(2)})',
            f'petition({{{{"set", {low()}, "name", "Wish {chance.randrange(1000)}"}}, {{"create", {low()}}}}})',
            f"grant({petition})",
            f"decline({petition})",
            "petitions()",
            "max_object()",
            f"children({low()})",
        ]
    )


def random_calls(chance: random.Random) -> list[str]:
    """The calls of a random batch."""
    return [random_call(chance) for _ in range(chance.choice([1, 1, 1, 2, 3, 8]))]


def body_of(calls: list[str], at: Optional[int] = None) -> str:
    """The body of a request with a batch."""
    return json.dumps({"as": "#3", "calls": calls} if at is None else {"as": "#3", "calls": calls, "at": at})


def text_of(calls: list[str]) -> str:
    """The text of a batch."""
    return "batch as #3\n" + "".join(call + "\n" for call in calls) + "end\n"


class Client(threading.Thread):
    """Sends random requests until the service is gone.

    `answered` are its acknowledged batches, each with its number and answers, and `under_way` the calls of the one that wasn't answered.
    """

    def __init__(self, service: Service, seed: float) -> None:
        super().__init__(daemon=True)
        self.service, self.chance = service, random.Random(seed)
        self.answered: list[Done] = []
        self.under_way: Optional[list[str]] = None
        self.wrong: Optional[str] = None

    def run(self) -> None:
        """Sends requests until the service is gone."""
        try:
            while True:
                self.one_request()
        except OSError:
            pass
        except Exception as error:  # a thread's own failure is a violation too
            self.wrong = repr(error)

    def one_request(self) -> None:
        """Sends a random request: mostly a batch, and some that break off, are refused or only ask."""
        kind = self.chance.random()
        if kind < 0.05:
            peer = self.service.peer()
            peer.sendall(post("/batch", body_of(["create(#1)"]))[: self.chance.randrange(90)])
            reset(peer) if self.chance.random() < 0.5 else peer.close()
        elif kind < 0.10:
            self.service.ask(
                self.chance.choice([get("/nothing"), get("/object/3"), post("/batch", "{"), post("/batch", body_of(["sing()"]))])
            )
        elif kind < 0.15:
            self.service.ask(post("/ask", body_of(random_calls(self.chance))))
        elif kind < 0.20:
            # a number that was reached long ago, or never will be
            self.service.ask(post("/batch", body_of(random_calls(self.chance), at=10**12)))
        else:
            self.one_batch()

    def one_batch(self) -> None:
        """Sends a random batch, and notes what it is answered."""
        calls = self.under_way = random_calls(self.chance)
        said = self.service.ask(post("/batch", body_of(calls)))
        head, _, body = said.partition(b"\r\n\r\n")
        length = re.search(rb"content-length: (\d+)", head)
        if not length or len(body) != int(length[1]):
            raise OSError("an answer that is cut off")
        if head.startswith(b"HTTP/1.1 200 "):
            came = json.loads(body)
            self.answered.append((came["seq"], calls, came["answers"]))
        elif not head.startswith(b"HTTP/1.1 409 "):
            raise ValueError(f"{said!r} to {calls!r}")
        self.under_way = None


def replies(printed: str) -> list[tuple[int, list[str]]]:
    """The whole replies of a text that are `accepted`: the number of each, and its answers."""
    return [(int(number), lines.splitlines()) for number, lines in re.findall(r"^accepted (\d+)\n((?:.+\n)*?)end\n", printed, re.M)]


class Soak:
    """The two files, and what the rounds so far have shown."""

    def __init__(self, program: str, folder: str, seed: int) -> None:
        self.program, self.folder, self.chance = program, folder, random.Random(seed)
        self.last = self.rounds = self.batches = self.more = 0
        self.kills = {"service": 0, "text": 0}
        self.world, self.second = os.path.join(folder, "world.db"), os.path.join(folder, "second.db")

    def run(self, *words: str, text: str = "") -> tuple[int, str]:
        """The status of the program, and what it prints."""
        ran = subprocess.run([self.program, *words], input=text.encode(), stdout=subprocess.PIPE, stderr=subprocess.PIPE, timeout=300)
        return ran.returncode, ran.stdout.decode()

    def begin(self) -> None:
        """Begins a new world, in both files."""
        for file in (self.world, self.second):
            for end in ("", "-wal"):
                if os.path.exists(file + end):
                    os.remove(file + end)
            if self.run("init", file) != (0, "created\n"):
                raise Violation("init failed")
        self.last = 0

    def serve(self) -> tuple[list[Done], list[list[str]]]:
        """The acknowledged batches of a service that is killed, and those under way."""
        service = Service(self.program, self.world, 1_000_000)
        if not service.is_listening():
            raise Violation(f"the service began with {service.first!r}")
        clients = [Client(service, self.chance.random()) for _ in range(self.chance.randrange(1, 5))]
        for client in clients:
            client.start()
        time.sleep(self.chance.uniform(0, 1.5))
        service.kill()
        for client in clients:
            client.join(60)
            if client.wrong or client.is_alive():
                raise Violation(f"a client: {client.wrong or 'it waits for an answer of a service that is gone'}")
        done = sorted(batch for client in clients for batch in client.answered)
        return done, [client.under_way for client in clients if client.under_way]

    def apply(self) -> tuple[list[Done], list[list[str]]]:
        """The same of a text."""
        process = subprocess.Popen(
            [self.program, "apply", self.world, "-"], stdin=subprocess.PIPE, stdout=subprocess.PIPE, stderr=subprocess.DEVNULL
        )
        assert process.stdin and process.stdout
        given = process.stdin
        sent = [random_calls(self.chance) for _ in range(1000)]

        def feed() -> None:
            try:
                given.write("".join(map(text_of, sent)).encode())
                given.close()
            except OSError:
                pass

        feeder = threading.Thread(target=feed, daemon=True)
        feeder.start()
        killer = threading.Timer(self.chance.uniform(0, 0.4), process.send_signal, [signal.SIGKILL])
        killer.start()
        printed = process.stdout.read().decode()
        process.wait()
        killer.cancel()
        feeder.join(60)
        return self.told(printed, sent)

    def told(self, printed: str, sent: list[list[str]]) -> tuple[list[Done], list[list[str]]]:
        """Which batches were acknowledged by what was printed, and the one after the last whole reply."""
        done: list[Done] = []
        place = 0
        for reply in re.finditer(r"^(?:accepted (\d+)\n((?:.+\n)*?)end|refused \d+ E_\w+|full \d+)\n", printed, re.M):
            if reply[1]:
                done.append((int(reply[1]), sent[place], reply[2].splitlines()))
            place += 1
        return done, sent[place : place + 1]

    def same_again(self, done: list[Done]) -> None:
        """Runs the acknowledged batches on the second file, and compares the answers."""
        status, printed = self.run("apply", self.second, "-", text="".join(text_of(calls) for _, calls, _ in done))
        if status or replies(printed) != [(number, answers) for number, _, answers in done]:
            raise Violation(f"the acknowledged batches, run again, are answered otherwise (status {status})")

    def dump(self, file: str) -> str:
        """The dump of a file."""
        status, dump = self.run("dump", file)
        if status:
            raise Violation(f"dump of {file}: status {status}")
        return dump

    def takes_one_more(self, dump: str, under_way: list[list[str]]) -> bool:
        """Whether a batch under way makes the second file the world of this dump; if so, it has run on it."""
        for calls in under_way:
            kept = self.second + ".kept"
            shutil.copyfile(self.second, kept)
            self.run("apply", self.second, "-", text=text_of(calls))
            if self.dump(self.second) == dump:
                return True
            os.replace(kept, self.second)
            if os.path.exists(self.second + "-wal"):
                os.remove(self.second + "-wal")
        return False

    def one_round(self) -> None:
        """Serves or runs a text, kills the program, and compares what the file then holds."""
        if self.rounds % ROUNDS_OF_A_WORLD == 0:
            self.begin()
        kind = self.chance.choice(["service", "text"])
        done, under_way = self.serve() if kind == "service" else self.apply()
        if [number for number, _, _ in done] != list(range(self.last + 1, self.last + 1 + len(done))):
            raise Violation(f"after {self.last} these were acknowledged: {[number for number, _, _ in done]}")
        self.last += len(done)
        status, line = self.run("check", self.world)
        found = re.fullmatch(r"ok seq (\d+) objects \d+\n", line)
        if status or not found or int(found[1]) not in (self.last, self.last + 1):
            raise Violation(f"acknowledged {self.last}; check: status {status}, {line!r}")
        self.same_again(done)
        dump = self.dump(self.world)
        if int(found[1]) == self.last:
            if self.dump(self.second) != dump:
                raise Violation(f"the dump isn't that of the world of {self.last}")
        elif not self.takes_one_more(dump, under_way):
            raise Violation(f"the dump isn't that of {self.last} and one batch that was under way")
        self.more += int(found[1]) - self.last
        self.last = int(found[1])
        self.rounds += 1
        self.kills[kind] += 1
        self.batches += len(done)


def main() -> None:
    """Runs rounds for the time that is given, and prints the seed and what they showed."""
    program = os.path.abspath(sys.argv[1])
    seconds = min(float(sys.argv[2]) if len(sys.argv) > 2 else 60, 3600)
    seed = int(sys.argv[3]) if len(sys.argv) > 3 else random.randrange(1_000_000)
    folder = tempfile.mkdtemp(prefix="moo-soak-", dir=sys.argv[4] if len(sys.argv) > 4 else None)
    print(f"seed {seed}", flush=True)
    soak = Soak(program, folder, seed)
    end = time.monotonic() + seconds
    while time.monotonic() < end:
        try:
            soak.one_round()
        except Violation as wrong:
            print(f"seed {seed}, round {soak.rounds + 1}, {folder}: {wrong}")
            sys.exit(1)
    shutil.rmtree(folder)
    kills = f"{soak.kills['service']} kills of the service and {soak.kills['text']} of texts"
    print(f"{kills}, after {soak.batches} acknowledged batches: none lost, one more there {soak.more} times")


if __name__ == "__main__":
    main()
