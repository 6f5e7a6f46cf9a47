"""tools/moo-shell at a front that runs: what people do there by their tokens. What a front may answer besides is in test_doors."""

from __future__ import annotations

import os
import pathlib

from tests.support.operating import KeptService, make_world
from tests.support.program import Ended
from tests.support.shell import run_shell
from tests.support.web import Front, RoomTest, add_person

WORLD = """batch as #3
create(#1)
set(#4, "name", "generic box")
set(#4, "f", 1)
set(#4, "r", 1)
add_property(#4, "size", 1, {#3, "rc"})
add_property(#4, "secret", 7, {#3, ""})
create(#1, #-1)
set(#5, "name", "Ada")
set_player_flag(#5, 1)
end
"""
BUILD = """begin
$box = create(#4)
set($box, "name", "red box") // hers
end
get($box, "size")
"""


class AtAFront(RoomTest):
    """A world with its front, the wizard and a builder."""

    def setUp(self) -> None:
        super().setUp()
        self.addCleanup(os.chdir, os.getcwd())
        os.chdir(self.room)
        make_world("world.db", WORLD)
        self.moo = KeptService(self.room / "world.db")
        self.addCleanup(self.moo.stop)
        for name, number in (("wizard", 3), ("ada", 5)):
            pathlib.Path(name).write_text(add_person(self.room / "front", name, number) + "\n")
        self.front = Front(self.room / "front", self.moo.port)
        self.addCleanup(self.front.kill)
        self.assertTrue(self.front.is_listening(), self.front.said())

    def shell(self, name: str, text: str) -> Ended:
        """How a script of a person ends."""
        return run_shell("--web", f"http://127.0.0.1:{self.front.port}/", "--token", name, text=text)

    def test_what_a_builder_does(self) -> None:
        self.assertEqual(self.shell("ada", BUILD), Ended(0, "$box = #6\n0\n1\n", ""))
        shown = self.shell("ada", "\\show #6\n\\tree #4\n\\find RED\n")
        self.assertEqual((shown.status, shown.complaint), (0, ""))
        for line in ('#6 "red box"\n  owner     #5 "Ada"\n', " size = 1 ", '#4 "generic box"\n  #6 "red box"\n'):
            self.assertIn(line, shown.written)
        self.assertIn("secret: E_PERM ", shown.written)
        came = self.shell("ada", "recycle(#4)\n")
        self.assertEqual((came.status, came.written), (1, ""))
        self.assertIn("line 1: refused: recycle(#4): E_PERM, #5 neither owns #4 nor is a wizard", came.complaint)

    def test_nobody_is_somebody_else(self) -> None:
        for line in ("\\as 3\n", "batch as #3\n"):
            came = self.shell("ada", line)
            self.assertEqual(came.status, 1)
            self.assertIn("the front knows by the token who calls", came.complaint)
        self.assertIn("it is forbidden there", self.shell("ada", "\\dump\n").complaint)
        for name, number in (("ada", 5), ("wizard", 3)):
            self.assertEqual(self.shell(name, "me.name\n\\seq\n"), Ended(0, self.shell(name, f"#{number}.name\n\\seq\n").written, ""))
        came = self.shell("ada", "@create #4 named Box\n@rename $new to Chest\n")
        self.assertEqual(came.written, "$new = #6\n0\n0\n")
        self.assertEqual(self.shell("ada", "#6.name\n\\owned\npetitions()\n"), Ended(0, '"Chest"\n#5 "Ada"\n#6 "Chest"\n{}\n', ""))

    def test_a_petition(self) -> None:
        self.assertEqual(self.shell("ada", 'petition({{"set", #4, "size", 2}})\n').written, "1\n")
        came = self.shell("wizard", '\\petitions\ngrant(1)\nget(#4, "size")\n\\dump out.txt\n')
        self.assertEqual(came, Ended(0, 'petition 1 by #5 "Ada"\n    set(#4, "size", 2)\n0\n2\n', ""))
        self.assertTrue(pathlib.Path("out.txt").read_text().startswith("seq 3\ntop #5\n"))

    def test_history(self) -> None:
        self.shell("ada", BUILD)
        self.shell("wizard", 'set(#6, "name", "blue box")\nset(#4, "size", 5)\n')
        came = self.shell("wizard", "\\history #6\n")
        rows = [line.split("  ") for line in came.written.splitlines()]
        self.assertEqual([row[-1] if row[0] else "".join(row) for row in rows], [
            "wizard as #3", 'set(#6, "name", "blue box")', "ada as #5", "create(#4)", 'set(#6, "name", "red box")',
        ])  # fmt: skip
        self.assertIn("/undo/2 undoes it in a browser", self.shell("ada", "\\undo 2\n").complaint)
        self.assertIn("\\history: a front tells it to wizards alone", self.shell("ada", "\\history #6\n").complaint)
