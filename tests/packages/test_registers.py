"""`.ci/words` and `.ci/refused`, which print what pages would have to list: in a small repository of its own, and of this one."""
from __future__ import annotations

import subprocess
import sys
import tempfile
import unittest
from pathlib import Path

TOP = Path(__file__).resolve().parents[2]
SPECS = """-- About lamps.
use Prelude.{Bool}

-- ---- lamps

-- what gives light,
-- while its wick lasts
pub record Lamp : Type 0 where
  pub wick : Bool

abbrev pub is_lit : Lamp -> Bool
is_lit lamp = lamp.wick

-- a kind of lamp
pub data Kind : Type 0 where
  Oil : Kind
  Gas : Kind
"""
SOURCE = "/// What holds a lamp.\n#[derive(Copy)]\npub struct Holder {\n    pub lamp: Lamp,\n}\n"
LAMP = """crates/moo_lamps/specs/Lamps.antt, line 8:

-- what gives light,
-- while its wick lasts
pub record Lamp : Type 0 where
  pub wick : Bool

"""
HOLDER = "crates/moo_lamps/src/holder.rt, line 3:\n\n/// What holds a lamp.\npub struct Holder {\n    pub lamp: Lamp,\n}\n\n"
LISTED = """
moo_lamps/specs/Lamps.antt
  Lamp: what gives light, while its wick lasts
  is_lit
  Kind: a kind of lamp
"""
PAGE = "# Refused\n\n| promises about | mutants | tried by the gate |\n|---|---|---|\n\nMore.\n"
COUNTED = """# Refused

| promises about | mutants | tried by the gate |
|---|---|---|
| Light | 2 | 1 |
| Smoke | 1 | 0 |
| all together | 3 | 1 |

More.
"""
PRINTED = """
Light

moo_lamps/stays_dark, tried by the gate; refused by `lit` of `light`
    a lamp gives light: a mutant that gives none
moo_rooms/lights_the_next, tried by hand
    a lamp gives light: a mutant that lights the next one

Smoke

moo_lamps/smokes, tried by hand
    no lamp smokes: a mutant that smokes
"""


class Register(unittest.TestCase):
    """A small repository with the scripts."""

    def setUp(self) -> None:
        room = tempfile.TemporaryDirectory()
        self.addCleanup(room.cleanup)
        self.top = Path(room.name)
        for name in ("words", "refused", "definitions.py"):
            self.put(f".ci/{name}", (TOP / ".ci" / name).read_text())

    def put(self, name: str, text: str) -> None:
        """Writes a file."""
        path = self.top / name
        path.parent.mkdir(parents=True, exist_ok=True)
        path.write_text(text)

    def said(self, *words: str) -> tuple[int, str, str]:
        """The status of a script with these words, and what it wrote."""
        ran = subprocess.run([sys.executable, self.top / ".ci" / words[0], *words[1:]], capture_output=True, text=True)
        return ran.returncode, ran.stdout, ran.stderr


class Words(Register):
    """`.ci/words`."""

    def setUp(self) -> None:
        super().setUp()
        self.put("crates/moo_lamps/specs/Lamps.antt", SPECS)
        self.put("crates/moo_lamps/src/holder.rt", SOURCE)

    def test_a_word_with_its_comment(self) -> None:
        self.assertEqual(self.said("words", "Lamp"), (0, LAMP, ""))
        self.assertEqual(self.said("words", "Holder", "Lamp"), (0, HOLDER + LAMP, ""))

    def test_a_word_without_a_comment(self) -> None:
        text = "crates/moo_lamps/specs/Lamps.antt, line 11:\n\nabbrev pub is_lit : Lamp -> Bool\nis_lit lamp = lamp.wick\n\n"
        self.assertEqual(self.said("words", "is_lit"), (0, text, ""))

    def test_a_field_and_a_form_lead_to_their_definition(self) -> None:
        self.assertEqual(self.said("words", "wick"), (0, LAMP, ""))
        status, text, _ = self.said("words", "Gas")
        self.assertEqual((status, text.splitlines()[2]), (0, "-- a kind of lamp"))

    def test_near_words(self) -> None:
        near = ".ci/words: there is no Lump; near it: Lamp\n"
        self.assertEqual(self.said("words", "Lump"), (1, "", near))
        self.assertEqual(self.said("words", "zz"), (1, "", ".ci/words: there is no zz; near it: nothing\n"))
        # What is there is printed all the same.
        self.assertEqual(self.said("words", "Lump", "Lamp"), (1, LAMP, near))

    def test_lists(self) -> None:
        self.put("crates/moo_rooms/specs/Rooms.antt", "pub record Room : Type 0 where\n")
        self.assertEqual(self.said("words", "moo_lamps"), (0, LISTED, ""))
        self.assertEqual(self.said("words"), (0, f"{LISTED}\nmoo_rooms/specs/Rooms.antt\n  Room\n", ""))


class Refused(Register):
    """`.ci/refused`."""

    def setUp(self) -> None:
        super().setUp()
        self.put("mutants/order", "# A line.\n\n# Light\nmoo_lamps/stays_dark\nmoo_rooms/lights_the_next\n\n# Smoke\nmoo_lamps/smokes\n")
        self.put("mutants/gate", "moo_lamps/stays_dark\n")
        head = "# promise: a lamp gives light\n# mutant: gives none\n# refused by: `lit` of `light`\n"
        self.put("mutants/moo_lamps/stays_dark.edit", f"{head}file: a\n")
        self.put("mutants/moo_rooms/lights_the_next.edit", "# mutant: lights the next one\nfile: a\n")
        self.put("mutants/moo_lamps/smokes.edit", "# promise: no lamp smokes\n# mutant: smokes\nfile: a\n")
        self.put("docs/REFUSED.md", PAGE)

    def test_all_and_those_of_a_crate(self) -> None:
        self.assertEqual(self.said("refused"), (0, PRINTED, ""))
        head, text = "\nLight\n\n", "moo_rooms/lights_the_next, tried by hand\n    a lamp gives light: a mutant that lights the next one\n"
        self.assertEqual(self.said("refused", "moo_rooms"), (0, head + text, ""))

    def test_a_crate_without_mutants(self) -> None:
        told = ".ci/refused: no mutant is of moo_doors; some are of moo_lamps, moo_rooms\n"
        self.assertEqual(self.said("refused", "moo_doors"), (1, "", told))

    def test_counts(self) -> None:
        self.assertEqual(self.said("refused", "--check")[0], 1)
        self.assertEqual(self.said("refused", "--count"), (0, "", ""))
        self.assertEqual((self.top / "docs/REFUSED.md").read_text(), COUNTED)
        self.assertEqual(self.said("refused", "--check"), (0, "", ""))

    def test_counts_of_planted_bugs(self) -> None:
        head = "| crate | planted on | functions judged | bugs refused | bugs that stay proved |\n|---|---|---|---|---|\n"
        self.put("docs/REFUSED.md", f"{PAGE}\n{head}| old | | | | |\n\nThe end.\n")
        self.put("crates.txt", "moo_lamps: std\nmoo_rooms: moo_lamps\ntest_rooms: moo_rooms\n")
        self.put("plants/moo_lamps", "# Bugs\n# 2026-11-30: 5 functions judged, 7 refused, 2 stay proved\n\nsrc/a.rt f\n")
        self.assertEqual(self.said("refused", "--count"), (0, "", ""))
        rows = "| `moo_lamps` | 2026-11-30 | 5 | 7 | 2 |\n| the other 1 | not yet | | | |\n"
        self.assertEqual((self.top / "docs/REFUSED.md").read_text(), f"{COUNTED}\n{head}{rows}\nThe end.\n")
        self.put("plants/moo_lamps", "# Bugs\n")
        self.assertEqual(self.said("refused", "--check"), (1, "", ".ci/refused: plants/moo_lamps doesn't tell what was tried\n"))

    def test_an_order_that_does_not_fit(self) -> None:
        order = (self.top / "mutants/order").read_text()
        self.put("mutants/order", f"{order}moo_lamps/smokes\n")
        self.assertEqual(self.said("refused"), (1, "", ".ci/refused: mutants/order has moo_lamps/smokes twice\n"))
        self.put("mutants/order", order.replace("moo_lamps/smokes\n", ""))
        self.assertEqual(self.said("refused"), (1, "", ".ci/refused: mutants/order lacks moo_lamps/smokes\n"))
        self.put("mutants/order", f"{order}moo_lamps/glows\n")
        self.assertEqual(self.said("refused"), (1, "", ".ci/refused: mutants/order names moo_lamps/glows, which isn't there\n"))
        self.put("mutants/order", order)
        self.put("mutants/moo_lamps/smokes.edit", "# promise: no lamp smokes\nfile: a\n")
        said = ".ci/refused: mutants/moo_lamps/smokes.edit has no line '# mutant: '\n"
        self.assertEqual(self.said("refused"), (1, "", said))


class Here(unittest.TestCase):
    """This repository: a reader finds the words of the headline."""

    def test_words_of_the_headline(self) -> None:
        ran = subprocess.run([TOP / ".ci/words", "RunsTwice", "HandsOver", "Chain"], capture_output=True, text=True)
        self.assertEqual((ran.returncode, ran.stderr), (0, ""))
        for file in ("moo_run_laws/specs/Twice.antt", "moo_run_laws/specs/FileRuns.antt", "moo_world/specs/World.antt"):
            self.assertIn(f"crates/{file}, line ", ran.stdout)
