"""Random batches of all calls on random worlds: each, and then what undoes it, leave the world as it was.

What an undo can't put back is left out of the comparison, and nothing else: counters, the order of definitions and of verbs, numbers of
petitions, and of recycled objects. `UNDOS` in the environment is another number of batches (200), `SEED` the seed.
"""

import os
import pathlib
import random
import tempfile
import unittest

from tests.support.operating import KeptService, make_world
from tests.support.undoing import Generator, asked_for, numbers_in, without_numbers
from tests.support.web import use_web

use_web()

from moolib.batches import Item, resolved  # noqa: E402
from moolib.lines import read_line  # noqa: E402
from moo_web.journal.journal import Journal  # noqa: E402
from moo_web.journal.undoing import LEFT_BY, undone  # noqa: E402
from moo_web.journal.writer import Writer  # noqa: E402
from moo_web.world.door import Door  # noqa: E402

UNDOS = int(os.environ.get("UNDOS", 200))
SEED = int(os.environ.get("SEED", 7))
# So many batches are undone on one world, the last one of them with an object that is recycled.
ON_A_WORLD = 25
LONGEST = 10
WIZARD, BUILDER = 3, 4
# Players, things and a class with children, before the random calls of a world.
FIRST = "\n".join([
    "batch as #3", "create(#1)", "create(#1, #4)", "create(#5)", "create(#5, #4)", "create(#6)", "create(#1, #-1)",
    "set_player_flag(#4, 1)", 'add_property(#5, "size", 1, {#3, "rc"})', 'add_property(#6, "taste", {}, {#4, "r"})',
    'add_property(#4, "ownership_quota", 200, {#3, "r"})', 'set(#5, "f", 1)', 'add_verb(#5, {#3, "rx", "look"}, {"this", "none", "none"})', "end", "",
])  # fmt: skip


class World(unittest.TestCase):
    """A world that moo serves, and its writer and journal."""

    def setUp(self):
        room = tempfile.TemporaryDirectory()
        self.addCleanup(room.cleanup)
        self.room, self.told = pathlib.Path(room.name), []
        self.service = self.journal = None
        self.addCleanup(self.end)

    def begin(self, name="world", text=FIRST):
        """Another world."""
        self.end()
        make_world(self.room / f"{name}.db", text)
        self.service = KeptService(self.room / f"{name}.db")
        self.folder = self.room / name
        self.folder.mkdir()
        self.open()

    def open(self):
        """The front's writer."""
        self.journal = Journal(self.folder, None, self.told.append)
        self.door = Door(self.service.port)
        self.writer = Writer(self.door, self.journal, self.told.append)
        self.writer.start()

    def close(self):
        if self.journal:
            self.writer.end(60)
            self.journal.close()
            self.journal = None

    def end(self):
        self.close()
        if self.service:
            self.service.stop()
            self.service = None

    def ask(self, programmer, calls):
        return self.door.ask(programmer, calls)

    def accepted(self, programmer, calls):
        """The calls without those that are refused, and their answers."""
        while True:
            answer = self.ask(programmer, calls)
            if answer.is_good:
                return calls, answer.said["answers"]
            self.assertGreater(answer.call, 0, answer.said)
            calls = calls[: answer.call - 1] + calls[answer.call :]

    def write(self, programmer, calls):
        """Runs a batch, and gives it as the journal has it."""
        heard = []
        self.writer.listeners.append(heard.append)
        answer = self.writer.write("somebody", programmer, calls)
        self.writer.listeners.remove(heard.append)
        self.assertEqual(answer.status, 200, answer.said)
        return heard[0]

    def undo(self, programmer, batch):
        """Undoes a batch as far as the programmer may. It gives what stays, what was refused, and the names of what was made again."""
        undo = undone(batch)
        lines = [read_line(line) for line in undo.lines]
        items = [Item(line.text, line.name) for line in lines]
        refused = []
        while True:
            calls, answer = resolved(items, {}, lambda some: self.ask(programmer, some))
            if answer.is_good:
                break
            refused.append(f"{items.pop(answer.call - 1).text}: {answer.error}")
        self.write(programmer, calls)
        made = {item.name: text for item, text in zip(items, answer.said["answers"]) if item.name}
        return undo.lasting, refused, {int(text[1:]): int(name.removeprefix("$again")) for name, text in made.items()}

    def dump(self):
        return self.door.tried("GET", "/dump").text


class Batches(World):
    def setUp(self):
        super().setUp()
        self.rng = random.Random(SEED)
        self.counts = {"batches": 0, "calls": 0, "refused": 0}

    def random_calls(self, programmer, count, *names):
        """Random calls that moo accepts from this programmer."""
        generator = Generator(self.rng, self.numbers)
        calls, _ = self.accepted(programmer, [generator.call(*names) for _ in range(count)])
        return calls

    def test_a_batch_and_its_undo(self):
        self.undo_some(WIZARD, UNDOS)
        self.assertEqual(self.counts["refused"], 0)

    def test_of_a_builder(self):
        """What the builder lacks the right to is left, and nothing else is refused."""
        self.undo_some(BUILDER, max(1, UNDOS // 10))

    def undo_some(self, programmer, count):
        """Undoes so many batches, on one world after another."""
        for place in range(count):
            if place % ON_A_WORLD == 0:
                self.begin(f"world{place}")
                self.numbers = numbers_in(self.dump())
                self.write(WIZARD, self.random_calls(WIZARD, 60))
            self.numbers = numbers_in(self.dump()) + [max(numbers_in(self.dump())) + 1]
            self.undo_one(programmer, place % ON_A_WORLD == ON_A_WORLD - 1, place)
            if self.rng.random() < 0.3:
                self.write(WIZARD, self.random_calls(WIZARD, LONGEST))

    def undo_one(self, programmer, is_last, place):
        """Undoes one batch. The last one on a world recycles an object."""
        calls = self.random_calls(programmer, self.rng.randrange(1, LONGEST))
        if is_last:
            goes = self.rng.choice([number for number in self.numbers[:-1] if number not in (WIZARD, BUILDER)])
            calls, _ = self.accepted(programmer, [*calls, f"recycle(#{goes})"])
        before = self.dump()
        if place % 5 == 4 and programmer == WIZARD and not is_last and calls:
            batch = self.granted(calls)
        else:
            batch = self.write(programmer, calls)
        lasting, refused, renamed = self.undo(programmer, batch)
        told = f"{calls} {batch.memory} {lasting} {refused}"
        self.counts["batches"] += 1
        self.counts["refused"] += len(refused)
        if not is_last:
            self.assertEqual([one for one in lasting if one not in LEFT_BY.values()], [], told)
        for one in refused:
            self.assertNotEqual(programmer, WIZARD, told)
            self.assertRegex(one, "E_PERM|E_NACC|E_PROPNF|E_INVIND|E_INVARG", told)
        if not refused:
            self.assertEqual(without_numbers(before, {}), without_numbers(self.dump(), renamed), told)

    def granted(self, calls):
        """The same calls as a builder's petition, and the batch that grants it."""
        asked = self.write(BUILDER, [asked_for(calls)])
        return self.write(WIZARD, [f"grant({asked.answers[0]})"])


if __name__ == "__main__":
    unittest.main()
