"""What the front keeps of a world is shared from one number to the next: after changes made by chance it is what a plain copy would be."""

import random
import unittest
from unittest import mock

from tests.support.web import use_web

use_web()

from moo_web.world import layers, linking, names  # noqa: E402
from moo_web.world.layers import Layered  # noqa: E402
from moo_web.world.linking import links_of, relinked  # noqa: E402
from moo_web.world.names import Names  # noqa: E402

SEED = 20261129
WORDS = "oak Brass silver old lamp Lamp lamps box".split()


class Random(unittest.TestCase):
    def setUp(self):
        for module, name, value in ((layers, "MOST_CHANGES", 12), (names, "MOST_CHANGES", 12), (linking, "BLOCK", 4)):
            patch = mock.patch.object(module, name, value)
            patch.start()
            self.addCleanup(patch.stop)
        self.rng = random.Random(SEED)

    def test_values_by_numbers(self):
        plain = dict.fromkeys(range(20), "first")
        kept, top = Layered(dict(plain)), 20
        for turn in range(300):
            before, was = kept, dict(plain)
            changes = {number: self.rng.choice((None, f"value {turn}")) for number in sorted(self.rng.sample(sorted(plain) or [0], min(3, len(plain))))}
            changes |= {top + more: "new" for more in range(self.rng.randrange(3))}
            top += 3
            kept = kept.changed(changes)
            plain = {number: value for number, value in (plain | changes).items() if value is not None}
            self.assertEqual((list(kept.items()), len(kept)), (list(plain.items()), len(plain)))
            self.assertEqual(list(reversed(kept)), list(reversed(plain)))
            for number in (*changes, top + 1):
                self.assertEqual((number in kept, kept.get(number, "none")), (number in plain, plain.get(number, "none")))
            self.assertEqual(dict(before), was, "what is shared isn't changed")

    def test_links(self):
        plain = {number: self.rng.randrange(4) for number in range(60)}
        links = links_of((of, number) for number, of in plain.items())
        for turn in range(400):
            some = self.rng.sample(range(60 + turn), 5)
            changes = {number: self.rng.choice((None, 0, 0, 1, 2, 3)) for number in some}
            links = relinked(links, [(number, plain.get(number), new) for number, new in changes.items()])
            plain = {number: of for number, of in (plain | changes).items() if of is not None}
            for of in range(5):
                under = sorted(number for number, one in plain.items() if one == of)
                numbers = links.get(of, ())
                self.assertEqual((list(numbers), len(numbers)), (under, len(under)))
                self.assertEqual(of in links, bool(under))
                for part in (slice(3, 9), slice(-5, None), slice(None, 7), slice(2, 30, 3), slice(None, None, -1), slice(9, 3)):
                    self.assertEqual(list(numbers[part]), under[part])
                for place in (0, -1, len(under) // 2) if under else ():
                    self.assertEqual(numbers[place], under[place])
                for number in range(0, 70, 7):
                    self.assertEqual(linking.is_among(numbers, number), number in under)

    def test_names(self):
        plain = {number: f"{self.rng.choice(WORDS)} {self.rng.choice(WORDS)}" for number in range(50)}
        kept = Names.of(plain.items())
        for turn in range(200):
            changes = {self.rng.randrange(70): self.rng.choice((None, "", f"{self.rng.choice(WORDS)} {turn}")) for _ in range(2)}
            plain = {number: name for number, name in (plain | changes).items() if name is not None}
            kept = kept.changed(changes) or Names.of(plain.items())
            for word in ("lamp", "LAMP", "a", "", "s o", "zzz", "p\nl", str(turn)):
                holding = [(name.lower(), number) for number, name in plain.items() if word.lower() in name.lower()]
                wanted = sorted(holding, key=lambda one: (not one[0].startswith(word.lower()), *one))
                self.assertEqual(kept.like(word, 1000), [number for _, number in wanted])
                self.assertEqual(kept.like(word, 3), [number for _, number in wanted][:3])
                self.assertEqual(kept.named(word), [number for name, number in wanted if name == word.lower()])


if __name__ == "__main__":
    unittest.main()
