"""Worlds in files: made, changed, opened again, asked, dumped and checked."""
import os
import shutil
from pathlib import Path

from tests.support import dumped
from tests.support.cases import ProgramTest
from tests.support.program import ended
from tests.support.worlds import TREE, accepted, make, run, tables_of, text_of

MADE = text_of(["create(#1)"])
MOVE = text_of(["chparent(#5, #7)", 'get(#6, "b")', 'get(#6, "c")', 'is_clear_property(#6, "c")'])
THREE_BATCHES = TREE + MADE + MOVE
# A fourth batch, which is accepted as the fourth alone.
AT_3 = text_of(["create(#1)"], "#3 at 3")
PETITION = '{{"create", #1, #4}, {"set", #4, "name", "Lantern"}}'


class Files(ProgramTest):
    def test_a_new_world(self):
        made = ended("init", "world.db")
        self.case("a new world is made", made[:2], (0, "created\n"))
        self.case("what succeeds says nothing on standard error", made.complaint, "")
        self.case("a new world is whole", run("check", "world.db"), (0, "ok seq 0 objects 4\n"))
        self.case("the opening world is dumped", run("dump", "world.db"), (0, f"seq 0\ntop #3\n{dumped.OPENING}end\n"))

    def test_who_may_read_a_new_world(self):
        """Both files have mode 0600, whatever the umask lets through: OPERATING says so. A file that is there keeps its mode."""
        self.addCleanup(os.umask, os.umask(0))
        run("init", "first.db")
        Path("world.txt").write_text(run("dump", "first.db")[1])
        for mask in (0, 0o022, 0o077):
            os.umask(mask)
            for words in (("init", f"{mask}.db"), ("load", f"{mask}l.db", "world.txt")):
                run(*words)
                modes = [Path(words[1] + end).stat().st_mode & 0o777 for end in ("", "-wal")]
                self.case(f"{words[0]} with the umask {mask:03o}", modes, [0o600, 0o600])
        os.umask(0)
        Path("shared.db").touch(0o640)
        run("init", "shared.db")
        modes = [Path("shared.db" + end).stat().st_mode & 0o777 for end in ("", "-wal")]
        self.case("an empty file that its group may read", modes, [0o640, 0o640])

    def test_batches(self):
        make("world.db")
        answers = ["#4", "0", "#5", "0", "#6", "0", "#7", "0"]
        self.case("a batch changes the file", run("apply", "world.db", "-", text=TREE), (0, accepted(1, *answers)))
        self.case("it is there when the file is opened again", run("dump", "world.db"), (0, dumped.TREE))
        Path("batches.txt").write_text(MADE)
        self.case("batches are read from a file", run("apply", "world.db", "batches.txt"), (0, accepted(2, "#8")))
        moved = run("apply", "world.db", "-", text=MOVE)
        self.case("a move of a class reaches what is under it", moved, (0, accepted(3, "0", "21", "30", "1")))
        again = run("ask", "world.db", "-", text=text_of(['get(#6, "b")', 'is_clear_property(#6, "c")']))
        self.case("and is there when the file is opened again", again, (0, accepted(3, "21", "1")))
        gone = run("ask", "world.db", "-", text=text_of(['get(#6, "a")']))
        self.case("a property that went with it is gone", gone, (0, "refused 1 E_PROPNF\n"))

    def test_questions_checks_and_dumps(self):
        make("world.db", THREE_BATCHES)
        before = tables_of("world.db")
        self.case("a question says what would come", run("ask", "world.db", "-", text=MADE), (0, accepted(3, "#9")))
        self.case("a question changes no row", tables_of("world.db"), before)
        Path("batches.txt").write_text(MADE)
        self.case("a question is read from a file", run("ask", "world.db", "batches.txt"), (0, accepted(3, "#9")))
        self.case("a check tests the tables", run("check", "world.db"), (0, "ok seq 3 objects 9\n"))
        self.case("a check changes no row", tables_of("world.db"), before)
        run("dump", "world.db")
        self.case("a dump changes no row", tables_of("world.db"), before)

    def test_numbers(self):
        make("world.db", THREE_BATCHES)
        twice = run("apply", "world.db", "-", text=AT_3 * 2)
        self.case("a batch with its number acts once", twice, (0, accepted(4, "#9") + "stale 4\n"))
        self.case("and not again when the file is opened again", run("apply", "world.db", "-", text=AT_3), (0, "stale 4\n"))
        before = tables_of("world.db")
        text = text_of(["create(#1)", "create(#99)"]) + text_of(["creat(#1)"])
        text += text_of(["create(#1)"], "#3 at 1") + "batch as #3\ncreate(#1)\n"
        ran = run("apply", "world.db", "-", text=text)
        self.case("what is refused, malformed or truncated", ran, (0, "refused 2 E_PERM\nmalformed 2\nstale 4\ntruncated\n"))
        self.case("changes no row", tables_of("world.db"), before)

    def test_petitions(self):
        make("world.db", THREE_BATCHES + AT_3)
        asked = run("apply", "world.db", "-", text=text_of([f"petition({PETITION})"], "#4"))
        self.case("a petition is kept", asked, (0, accepted(5, "1")))
        again = run("ask", "world.db", "-", text=text_of(["petitions()"]))
        self.case("it is there when the file is opened again", again, (0, accepted(5, f"{{{{1, #4, {PETITION}}}}}")))
        before = tables_of("world.db")
        refused = run("apply", "world.db", "-", text=text_of(["grant(1)"], "#4"))
        self.case("who may not grant it changes nothing", refused, (0, "refused 1 E_PERM\n"))
        self.case("in any row", tables_of("world.db"), before)
        granted = run("apply", "world.db", "-", text=text_of(["grant(1)", "max_object()", "petitions()"]))
        self.case("it is granted", granted, (0, accepted(6, "0", "#10", "{}")))
        again = run("ask", "world.db", "-", text=text_of(["petitions()", 'get(#4, "name")', 'get(#10, "owner")']))
        self.case("and gone when the file is opened again", again, (0, accepted(6, "{}", '"Lantern"', "#4")))
        asked = run("apply", "world.db", "-", text=text_of(['petition({{"players"}})']))
        self.case("its number isn't given again", asked, (0, accepted(7, "2")))
        shutil.copyfile("world.db", "copy.db")
        self.case("after a run the file alone is the whole world", run("check", "copy.db"), (0, "ok seq 7 objects 11\n"))

    def test_paths(self):
        os.mkdir("a folder")
        self.case("a path may hold blanks", run("init", "a folder/a world.db"), (0, "created\n"))
        self.case("and be opened again", run("check", "a folder/a world.db"), (0, "ok seq 0 objects 4\n"))
        Path("empty.db").touch()
        self.case("an empty file becomes a new world", run("init", "empty.db"), (0, "created\n"))

    def test_memory(self):
        came = [run("apply", ":memory:", "-", text=MADE) for _ in range(2)]
        self.case("a new world in memory is a new one each time", came, [(0, accepted(1, "#4"))] * 2)
        self.case("with no words the input is run on one", run(text=MADE), (0, accepted(1, "#4")))
        self.case("which is no file", os.listdir(), [])
