"""Twenty clients play while moo and the front are killed: nothing acts twice, nothing acknowledged is lost, and the feed misses nothing.

`KILLS` in the environment is another number of kills (12), `SEED` the seed.
"""

import os
import random
import re
import threading
import unittest

from tests.support.journals import accepted_in
from tests.support.operating import KeptService, SECONDS, make_world
from tests.support.service import free_port
from tests.support.web import Front, Kept, RoomTest, add_person, use_web

use_web()

import moo_client  # noqa: E402
from moo_client import Moo, Obj  # noqa: E402
from moo_web.journal.segments import Accepted  # noqa: E402

KILLS = int(os.environ.get("KILLS", 12))
CLIENTS = 20
NAMES = ("wizard", "ada", "ben", "cas")
# #4 to #6 are players. From #7 on each client has an object of its own, which its person owns.
FIRST = 7
PERSON_OF = [3 + place % len(NAMES) for place in range(CLIENTS)]
BATCH = "\n".join([
    "batch as #3", *["create(#1)"] * 3, *[f"set_player_flag(#{number}, 1)" for number in (4, 5, 6)],
    *[f"create(#1, #{number})" for number in PERSON_OF], "end", "",
])  # fmt: skip


class Player(threading.Thread):
    """A client that makes one thing after another under its own object, and counts in that object's name."""

    def __init__(self, url, token, own, is_over):
        super().__init__(daemon=True)
        self.world = Moo(url, token=token, mark=own, patience=SECONDS)
        self.own, self.is_over, self.made, self.lost, self.wrong = own, is_over, 0, 0, None
        self.told = []

    def run(self):
        try:
            while not self.is_over.is_set():
                self.play(f"thing {self.made + 1}")
                self.made += 1
        except Exception as error:  # a thread's own failure is the test's
            self.wrong = repr(error)

    def play(self, name):
        """One batch, in two shapes in turn."""
        named = ["$thing = create(#%d)" % self.own.number, ("set", moo_client.Name("thing"), "name", name), ("set", self.own, "name", name)]
        calls = named if self.made % 2 else [("create", self.own), ("set", self.own, "name", name)]
        try:
            self.told.append(self.world.run(calls)[0])
        except moo_client.AnswersLost:
            self.lost += 1


class Follower(threading.Thread):
    """A client that follows the feed from a number on. `came` are the changes, each with the number before it."""

    def __init__(self, url, token, since):
        super().__init__(daemon=True)
        self.changes, self.number, self.came, self.wrong = Moo(url, token=token, patience=SECONDS).changes(since), since, [], None
        self.moved = threading.Condition()

    def run(self):
        try:
            for change in self.changes:
                with self.moved:
                    self.came.append((self.number, change))
                    self.number = change.seq
                    self.moved.notify_all()
        except Exception as error:  # as above
            self.wrong = repr(error)


class Kills(RoomTest):
    """One run of it."""

    def test_nothing_is_lost_nothing_acts_twice_and_the_feed_misses_nothing(self):
        seed = int(os.environ.get("SEED", random.randrange(1_000_000)))
        chance, is_over = random.Random(seed), threading.Event()
        make_world(self.room / "world.db", BATCH)
        moo, port = KeptService(self.room / "world.db"), free_port()
        self.addCleanup(moo.stop)
        tokens = {number: add_person(self.room / "front", name, number) for number, name in enumerate(NAMES, 3)}
        front = Kept(lambda count: Front(self.room / "front", moo.port, "--rate", 1_000_000, port=port))
        self.addCleanup(front.stop)
        url = f"http://127.0.0.1:{port}/"
        Moo(url, token=tokens[3], patience=SECONDS).seq()
        players = [Player(url, tokens[PERSON_OF[place]], Obj(FIRST + place), is_over) for place in range(CLIENTS)]
        follower = Follower(url, tokens[4], 1)
        for thread in (follower, *players):
            thread.start()
        self.kill(moo, front, players, chance)
        is_over.set()
        for player in players:
            player.join(SECONDS)
            self.assertFalse(player.is_alive(), f"seed {seed}")
            self.assertIsNone(player.wrong, f"seed {seed}")
        self.compare(Moo(url, token=tokens[3], patience=SECONDS), players, seed)
        self.compare_feed(Moo(url, token=tokens[3], patience=SECONDS), follower, seed)
        lost = sum(player.lost for player in players)
        print(f"{KILLS} kills, {sum(player.made for player in players)} batches, {lost} with lost answers, {len(follower.came)} changes, seed {seed}")

    def kill(self, moo, front, players, chance):
        """Kills moo, the front or both, each time after some batches more."""
        kills = 0
        while kills < KILLS and not any(player.wrong for player in players):
            before = sum(player.made for player in players)
            is_over = threading.Event()
            while sum(player.made for player in players) < before + 20 and not any(player.wrong for player in players):
                is_over.wait(0.02)
            is_over.wait(chance.uniform(0, 0.3))
            kind = ("moo", "front", "both")[kills % 3]
            if kind != "front" and moo.is_listening.wait(SECONDS):
                moo.kill()
            if kind != "moo":
                with front.starting:
                    front.front.process.kill()
            kills += 1

    def compare(self, world, players, seed):
        """Each player's object has as many things under it as the player made, the last with its name, and those that were told."""
        for player in players:
            with self.subTest(player.own, seed=seed):
                children, name = world.ask([("children", player.own), ("get", player.own, "name")])
                self.assertEqual((len(children), name), (player.made, f"thing {player.made}" if player.made else ""))
                self.assertLessEqual(set(player.told), set(children))
                self.assertEqual(len(player.told) + player.lost, player.made)

    def compare_feed(self, world, follower, seed):
        """The follower was told of all numbers, and of the objects of each batch as the journal has it."""
        last = world.seq()
        with follower.moved:
            follower.moved.wait_for(lambda: follower.number >= last or follower.wrong, SECONDS)
        self.assertEqual((follower.wrong, follower.number), (None, last), f"seed {seed}")
        of = {one.seq: subjects(one) for one in accepted_in(self.room / "front") if isinstance(one, Accepted)}
        self.assertEqual(sorted(of), list(range(2, last + 1)))
        for before, change in follower.came:
            wanted = set().union(*[of[seq] for seq in range(before + 1, change.seq + 1)])
            self.assertEqual({one.number for one in change.objects}, wanted, f"{before} to {change.seq}, seed {seed}")


def subjects(accepted):
    """The objects of a batch of this test: those that its calls name outside of texts, and those that it made."""
    named = {int(number) for call in accepted.calls for number in re.findall(r"#(\d+)", re.sub(r'"[^"]*"', "", call))}
    return named | {int(answer[1:]) for call, answer in zip(accepted.calls, accepted.answers) if call.startswith("create")}


if __name__ == "__main__":
    unittest.main()
