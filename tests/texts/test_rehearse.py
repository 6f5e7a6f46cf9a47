"""Rehearsals: each text of the tests and examples, rehearsed and then run. Both print the same, and the file between them is as it was."""
import ast
import hashlib
from pathlib import Path

from tests.support.cases import ProgramTest
from tests.support.notation import read_scenes
from tests.support.program import TOP, ended
from tests.support.worlds import PETITIONS, accepted, copied, make, remove, run, text_of

FILES = [*sorted(TOP.glob("examples/*.txt")), TOP / "tests/support/tree.txt"]
SOURCES = [*sorted(TOP.glob("tests/*/test_*.py")), TOP / "tests/support/worlds.py"]


def texts():
    """Each text of batches in a file of the tests and examples, in a scene, and in the source of a test, with its name."""
    for path in FILES:
        yield path.name, path.read_text()
    for path in sorted(TOP.glob("tests/scenes/*.txt")):
        for scene in read_scenes(path.read_text()):
            batches = [batch.text().decode() for stretch, _ in scene.stretches() for batch in stretch]
            yield f"{path.stem}: {scene.name}", "".join(batches)
    for path in SOURCES:
        for part in ast.walk(ast.parse(path.read_text())):
            if isinstance(part, ast.Constant) and isinstance(part.value, str) and "batch as #" in part.value:
                yield f"{path.name}, line {part.lineno}", part.value


def held(file):
    """The checksum of a file, and the dump of its world."""
    return hashlib.sha256(Path(file).read_bytes()).hexdigest(), run("dump", file)


def up_to_first(written):
    """The replies up to and with the first that isn't `accepted`, and whether there is one."""
    lines = written.splitlines(keepends=True)
    inside = False
    for place, line in enumerate(lines):
        if inside:
            inside = line != "end\n"
        elif line.startswith("accepted "):
            inside = True
        else:
            return "".join(lines[:place + 1]), True
    return written, False


class Rehearse(ProgramTest):
    limit = 1200

    def setUp(self):
        super().setUp()
        make("new.db")
        make("asked.db", PETITIONS)

    def rehearsed(self, name, world, text, *words):
        """Rehearses a text and runs it, and gives how the run ended."""
        copied(world, "copy.db")
        before = held("copy.db")
        told = ended("rehearse", *words, "copy.db", "-", text=text)
        self.case(f"{name}: the file is as it was", held("copy.db"), before)
        ran = ended("apply", *words, "copy.db", "-", text=text)
        self.case(f"{name}: what is told comes", told, ran)
        return ran

    def test_every_text(self):
        count = 0
        for name, text in texts():
            for world in ("new.db", "asked.db"):
                count += 1
                self.rehearsed(f"{name} on {world}", world, text)
        self.case("there are many", count > 300, True)

    def test_every_text_up_to_its_first_mistake(self):
        """What `--stop` prints is the front of what the whole text prints, and its world is that of the batches that it ran."""
        for name, text in texts():
            whole = copied("new.db", "whole.db")
            written = ended("apply", whole, "-", text=text).written
            front, is_cut = up_to_first(written)
            ran = self.rehearsed(f"{name}, which may stop", "new.db", text, "--stop")
            self.case(f"{name}: up to its first mistake", (ran.written, ran.status), (front, int(is_cut)))
            self.case(
                f"{name}: no batch after it",
                f"seq {front.count('accepted ')}\n",
                run("dump", "copy.db")[1][:len(f"seq {front.count('accepted ')}\n")],
            )

    def test_twice(self):
        text = text_of(["create(#1)"]) * 2
        both = (0, accepted(1, "#4") + accepted(2, "#5"))
        self.case("once", run("rehearse", "new.db", "-", text=text), both)
        self.case("and again", run("rehearse", "new.db", "-", text=text), both)
        self.case("from a file", self.from_file(text), both)
        self.case("and then for good", run("apply", "new.db", "-", text=text), both)
        self.case("in memory", run("rehearse", ":memory:", "-", text=text), both)

    def from_file(self, text):
        Path("batches.txt").write_text(text)
        return run("rehearse", "new.db", "batches.txt")

    def test_batches_see_those_before(self):
        """`ask` judges each batch on the present world, and `rehearse` on what the batches before it leave."""
        text = text_of(["create(#1)"]) + text_of(['set(#4, "name", "Lantern")']) + text_of(['get(#4, "name")'], "#3 at 2")
        self.case(
            "rehearse", run("rehearse", "new.db", "-", text=text), (0, accepted(1, "#4") + accepted(2, "0") + accepted(3, '"Lantern"'))
        )
        self.case("ask", run("ask", "new.db", "-", text=text), (0, accepted(0, "#4") + "refused 1 E_INVIND\n" + "stale 0\n"))

    def test_what_stops_it(self):
        lost = text_of(["create(#9)"])
        kept = text_of(["create(#1)"])
        stops = [
            ("a refused batch", lost, "refused 1 E_PERM\n"),
            ("a line that can't be read", "batch as #3\ncreat(#1)\nend\n", "malformed 2\n"),
            ("another number", text_of([], "#3 at 7"), "stale 1\n"),
            ("an end without a batch", "end\n", "malformed 1\n"),
        ]
        for name, text, reply in stops:
            for word in ("rehearse", "apply"):
                world = copied("new.db", "copy.db")
                came = run(word, "--stop", world, "-", text=kept + text + kept)
                self.case(f"{word} ends at {name}", came, (1, accepted(1, "#4") + reply))
                cut = run(word, "--stop", copied("new.db", "copy.db"), "-", text="batch as #3\n")
                self.case(f"{word} of a text that ends inside a batch", cut, (1, "truncated\n"))
        world = copied("new.db", "copy.db")
        self.case("a first batch that is refused", run("apply", "--stop", world, "-", text=lost + kept), (1, "refused 1 E_PERM\n"))
        self.case("nothing was run", run("check", world), (0, "ok seq 0 objects 4\n"))
        self.case("none that is refused", run("apply", "--stop", world, "-", text=kept * 2), (0, accepted(1, "#4") + accepted(2, "#5")))
        self.case("without the word", run("apply", world, "-", text=lost + kept), (0, "refused 1 E_PERM\n" + accepted(3, "#6")))
        remove(world)

    def test_what_follows_is_not_read(self):
        """Nothing is said of what follows the first mistake, whatever it is."""
        came = ended("apply", "--stop", "new.db", "-", text=text_of(["create(#9)"]) + "\0\0\0")
        wanted = (1, "refused 1 E_PERM\n", "moo: line 2: refused: create(#9): E_PERM, #9 is neither an object nor #-1\n")
        self.case("it ends before", tuple(came), wanted)
