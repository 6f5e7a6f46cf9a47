"""Front, moo and both are killed while four clients write; then the journal is replayed onto a new world.

Each start of the front ends at a step of the journal's protocol, in turn (tests/support/crashing_front.py); moo is killed at random
moments. Nothing that was acknowledged may be missing, nothing may act twice, and the replayed world has the same dump, byte for byte.
`KILLS` in the environment is another number of kills (200), `SEED` the seed.
"""

import collections
import http.client
import os
import random
import signal
import threading
import time
import unittest

from tests.support.crashing_front import STEPS
from tests.support.journals import accepted_in
from tests.support.operating import KeptService, Pace, SECONDS, make_world, said
from tests.support.program import TOP
from tests.support.service import free_port
from tests.support.web import DEBIANS_PYTHON, Front, Kept, RoomTest, add_person, ask, program, use_web

use_web()

from moo_web.journal.segments import Accepted  # noqa: E402

KILLS = int(os.environ.get("KILLS", 200))
NAMES = ("wizard", "ada", "ben", "cas")
# Three players, #4 to #6, and a thing of each person's: #7 of the wizard's, and so on.
FIRST = "\n".join([
    "batch as #3", *["create(#1)"] * 3, *[f"set_player_flag(#{number}, 1)" for number in (4, 5, 6)], "create(#1, #3)", "create(#1, #4)",
    "create(#1, #5)", "create(#1, #6)", 'set(#1, "f", 1)', 'set(#2, "f", 1)', "end", "",
])  # fmt: skip
SCRIPT = (DEBIANS_PYTHON, TOP / "tests/support/crashing_front.py")


class Client(threading.Thread):
    """Writes batches that no other is like, until it is told to stop. `outcomes` has each with what came of it."""

    def __init__(self, port, name, number, token, seed, is_over):
        super().__init__(daemon=True)
        self.port, self.name_, self.number, self.token, self.is_over = port, name, number, token, is_over
        self.chance = random.Random(f"{seed} {name}")
        self.own = number + 4
        self.mine, self.outcomes, self.wrong = [self.own], [], None

    def run(self):
        try:
            while not self.is_over.is_set():
                self.write(self.calls(f"{self.name_}-{len(self.outcomes)}"))
        except Exception as error:  # a thread's own failure is the test's
            self.wrong = repr(error)

    def calls(self, tag):
        """Some calls, the first with the tag."""
        one = self.chance.choice(self.mine)
        number, kind = self.chance.randrange(1, 40), self.chance.randrange(8)
        more = {
            0: ["create(#1)"],
            1: [f'add_property(#{one}, "{tag}", "{tag}", {{#{self.number}, "rc"}})'],
            2: [f"move(#{one}, #-1)"],
            3: [f'petition({{{{"set", #2, "name", "asked by {tag}"}}}})'],
            4: [f"grant({number})" if self.number == 3 else f"decline({number})"],
            5: [f"recycle(#{one})"] if one != self.own else ["max_object()"],
            6: [f"chparent(#{one}, #{self.chance.choice(self.mine)})"],
        }
        return [f'set(#{self.own}, "name", "{tag}")', *more.get(kind, ["players()"])]

    def write(self, calls):
        try:
            status, said_ = ask(self.port, "POST", "/api/batch", {"calls": calls}, self.token)
        except (OSError, http.client.HTTPException) as error:
            refused = isinstance(error, ConnectionRefusedError)
            if not refused:
                self.outcomes.append((calls, "lost", None))
            time.sleep(0.01)
            return
        self.outcomes.append((calls, "done" if status == 200 else said_["error"] if status == 503 else "refused", said_))
        if status == 200:
            self.mine += [int(answer[1:]) for call, answer in zip(calls, said_["answers"]) if call.startswith("create")]


def done_by(clients):
    """How many batches these clients were told are done."""
    return sum(outcome == "done" for client in clients for _, outcome, _ in list(client.outcomes))


class Kills(RoomTest):
    """One long run of it."""

    def setUp(self):
        super().setUp()
        self.folder, self.second = self.room / "front", self.room / "second"
        self.seed = int(os.environ.get("SEED", random.randrange(1_000_000)))
        self.chance = random.Random(self.seed)
        self.steps = collections.Counter()

    def started(self, count):
        """A front that ends at the next step in turn, soon."""
        step = STEPS[count % len(STEPS)]
        self.steps[step] += 1
        times = 1 if "segment" in step else self.chance.randrange(1, 8)
        return self.front(STEP=step, TIMES=str(times))

    def front(self, **env):
        words = ("--journal", self.second, "--rate", 1_000_000, "--segment", 6000)
        return Front(self.folder, self.moo.port, *words, port=self.port, script=SCRIPT, env=env, wait=False)

    def test_nothing_is_lost_and_nothing_acts_twice(self):
        make_world(self.room / "world.db", FIRST)
        self.moo, self.port = KeptService(self.room / "world.db"), free_port()
        self.addCleanup(self.moo.stop)
        is_over = threading.Event()
        tokens = [add_person(self.folder, name, number) for number, name in enumerate(NAMES, 3)]
        clients = [Client(self.port, name, number, tokens[number - 3], self.seed, is_over) for number, name in enumerate(NAMES, 3)]
        kept = Kept(self.started)
        self.addCleanup(kept.stop)
        for client in clients:
            client.start()
        kills = self.kill(kept, clients)
        is_over.set()
        # What a client is told must be known before its front is stopped.
        for client in clients:
            client.join(2 * SECONDS)
            self.assertFalse(client.is_alive())
            self.assertIsNone(client.wrong)
        kept.stop()
        self.assertEqual(kept.statuses, {-signal.SIGKILL}, kept.front.said()[-2000:])
        self.settle()
        self.compare(clients, kills)

    def kill(self, kept, clients):
        """Kills moo now and then, and together with each third front, until there are enough kills of all."""
        kills = collections.Counter()

        def on_end():
            kills["both" if kept.count % 3 == 0 else "front"] += 1
            if kept.count % 3 == 0:
                self.moo.kill()

        kept.on_end = on_end
        pace = Pace(self.chance, 1.2)
        # On a busy machine few batches come between two kills: then there are more kills.
        while (
            sum(kills.values()) < KILLS or min(self.steps[step] for step in STEPS) < 2 or done_by(clients) <= KILLS // 4
        ) and not any(client.wrong for client in clients):
            self.assertLess(sum(kills.values()), 50 * KILLS, "too few batches to show anything")
            pace.rest(done_by(clients))
            if self.moo.is_listening.wait(SECONDS):
                self.moo.kill()
                kills["moo"] += 1
        kept.on_end = lambda: None
        return kills

    def settle(self):
        """A last start decides what was left open."""
        front = self.front()
        self.assertEqual(front.process.stdout.readline().decode(), f"listening http://127.0.0.1:{self.port}/\n", front.said())
        front.process.terminate()
        self.assertEqual(front.end(), 0)
        self.moo.stop()

    def compare(self, clients, kills):
        """The journal has just what the clients were told, and makes the same world."""
        batches = [one for one in accepted_in(self.folder) if isinstance(one, Accepted)]
        for place, one in enumerate(batches):
            self.assertEqual(one.seq, 2 + place, "the numbers go on without a hole")
        where = {one.calls[0]: one for one in batches}
        self.assertEqual(len(where), len(batches), "no batch acts twice")
        count = collections.Counter()
        for client in clients:
            for calls, outcome, told in client.outcomes:
                self.compare_one(client, calls, outcome, told, where.pop(calls[0], None))
                count[outcome] += 1
        self.assertEqual(where, {}, "each batch of the journal was sent by a client")
        for name in sorted(path.name for path in self.folder.glob("journal-*")):
            self.assertEqual((self.folder / name).read_bytes(), (self.second / name).read_bytes(), name)
        self.compare_worlds(len(batches))
        segments = len(list(self.folder.glob("journal-*")))
        print(f"{dict(kills)} kills, {len(batches)} batches in {segments} segments, clients were told {dict(count)}, seed {self.seed}")

    def compare_one(self, client, calls, outcome, told, one):
        """What a client was told of a batch, and what the journal has of it."""
        with self.subTest(calls):
            if outcome == "done":
                self.assertIsNotNone(one, "an acknowledged batch is in the journal")
                self.assertEqual((one.seq, one.answers), (told["seq"], told["answers"]))
            if outcome in ("refused", "busy"):
                self.assertIsNone(one, f"{told}: nothing was sent")
            if one:
                self.assertEqual((one.who, one.programmer, one.calls), (client.name_, client.number, calls))

    def compare_worlds(self, batches):
        """The dump of the world that was served, and of a new one that was brought up."""
        make_world(self.room / "new.db", FIRST)
        self.assertEqual(program("moo-replay", self.folder, self.room / "new.db")[:2], (0, f"seq {batches + 1}\n"))
        dumps = [said("dump", self.room / file) for file in ("world.db", "new.db")]
        self.assertEqual(dumps[0][0], 0)
        self.assertTrue(dumps[0] == dumps[1], f"the dumps differ, seed {self.seed}")


if __name__ == "__main__":
    unittest.main()
