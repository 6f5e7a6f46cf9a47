"""Files and streams that the program can't use: what it says, and that it changes nothing."""
import os
import shutil
import sqlite3
from contextlib import closing
from pathlib import Path
from subprocess import PIPE

from tests.support.cases import ProgramTest
from tests.support.processes import start
from tests.support.program import MOO, TOP, edit, ended
from tests.support.service import PATIENCE, line_of
from tests.support.worlds import accepted, make, run, tables_of, text_of

MADE = text_of(["create(#1)"])
STORE, READ = (1, "moo: store fault\n"), (1, "moo: read fault\n")
# A text that is long enough to be read as a page of a database.
TEXT = "this is no database, but a text that is long enough to be read as a page of one\n"


class Refusals(ProgramTest):
    def setUp(self):
        super().setUp()
        make("world.db")
        self.before = tables_of("world.db")

    def refused(self, name, ran, wanted, cause):
        """Two cases: what is written, and that the cause is said on standard error."""
        self.case(name, ran[:2], wanted)
        self.case(f"{name}: the cause is said", cause if cause in ran.complaint else ran.complaint, cause)

    def unwritten(self, name, *words, text=MADE):
        """Standard output takes nothing, which is status 1."""
        with open("/dev/full", "wb") as full:
            self.case(name, ended(*words, text=text, output=full).status, 1)

    def test_a_file_with_a_world(self):
        self.refused(
            "a file with a world is none to make one in", ended("init", "world.db"), STORE, "moo: store fault: it has tables already"
        )
        self.case("its rows are as they were", tables_of("world.db"), self.before)

    def test_a_lambdamoo_database(self):
        """It is told from other files by its first line, and nothing is made beside it."""
        held = (TOP / "examples/minimal.db").read_bytes()
        Path("lambda.db").write_bytes(held)
        cause = "moo: lambda.db: a LambdaMOO database: tools/from_lambdamoo.py makes a dump of it for `moo load`"
        Path("dump.txt").write_text(ended("dump", "world.db").written)
        for words in ("check", "dump", "ask -", "rehearse -", "apply -", "init", "load dump.txt", "serve 8099 1"):
            word, *others = words.split()
            self.refused(f"{word} on a LambdaMOO database", ended(word, "lambda.db", *others), STORE, cause)
            self.case(
                f"{word} leaves nothing beside it",
                (sorted(Path().glob("lambda*")), Path("lambda.db").read_bytes()),
                ([Path("lambda.db")], held),
            )
        self.refused("it is no dump", ended("load", "new.db", "lambda.db"), (3, "moo: not a dump, line 1\n"), cause)
        piped = ended("load", ":memory:", "-", text=held.decode("latin-1"))
        self.refused("nor on standard input", piped, (3, "moo: not a dump, line 1\n"), cause.replace("lambda.db: ", ""))

    def test_no_file(self):
        for words in ("apply nothing.db -", "ask nothing.db -", "dump nothing.db", "check nothing.db", "serve nothing.db 8099 1"):
            name = f"no file to {words.split()[0]}"
            self.refused(name, ended(*words.split()), STORE, "moo: store fault: no such file")
        self.case("the file is opened before the batches", run("apply", "nothing.db", "nothing.txt"), STORE)
        self.case("no file was made", [name for name in os.listdir() if name.startswith("nothing")], [])
        self.case("no folder to make one in", run("init", "nowhere/world.db"), STORE)
        os.mkdir("folder")
        self.case("a folder is no file", run("check", "folder"), STORE)
        self.case("and gets no log", os.path.exists("folder-wal"), False)

    def test_a_text(self):
        file = Path("text.db")
        file.write_text(TEXT)
        self.refused("a text is no database", ended("check", "text.db"), STORE, "moo: store fault: not a database of moo")
        self.case("it is as it was", file.read_text(), TEXT)
        self.case("nor a place for one", run("init", "text.db"), STORE)
        self.case("it is as it was then", file.read_text(), TEXT)

    def test_another_database(self):
        edit("other.db", "create table note(text)", "insert into note values ('keep me')")
        refused = ended("apply", "other.db", "-", text=MADE)
        self.refused("another database is none of ours", refused, STORE, "moo: store fault: not a database of moo")
        self.case("nor a place for a world", run("init", "other.db"), STORE)
        self.case("its rows are as they were", tables_of("other.db"), {"note": [("keep me",)]})

    def told_alone(self, file, line):
        """Four cases for each command: status 1 and the line of a store fault, this line on standard error alone, and nothing changed."""
        before = {path: path.read_bytes() for path in Path().glob(f"{file}*")}
        for words in ("check", "dump", "ask -", "rehearse -", "apply -", "init", "serve 8099 1"):
            word, *others = words.split()
            ran = ended(word, file, *others)
            self.case(f"{file}: {word} is refused", ran[:2], STORE)
            self.case(f"{file}: {word} says why", ran.complaint, line)
        after = {path: path.read_bytes() for path in before}
        self.case(f"{file}: it is as it was", after, before)

    def test_auto_vacuum(self):
        """SQLite finds such a file sound, and the way on that is told makes it one of moo's."""
        shutil.copy("world.db", "vacuum.db")
        with closing(sqlite3.connect("vacuum.db", isolation_level=None)) as connection:
            for setting in ("journal_mode = delete", "auto_vacuum = 1"):
                connection.execute(f"PRAGMA {setting}")
            connection.execute("VACUUM")
            self.case("SQLite finds it sound", connection.execute("PRAGMA integrity_check").fetchall(), [("ok",)])
        way_on = "PRAGMA auto_vacuum=0; VACUUM"
        self.told_alone("vacuum.db", f"moo: vacuum.db: has auto_vacuum, which moo doesn't read (sqlite3 vacuum.db '{way_on}')\n")
        with closing(sqlite3.connect("vacuum.db", isolation_level=None)) as connection:
            for statement in way_on.split("; "):
                connection.execute(statement)
        self.case("then it is opened", ended("check", "vacuum.db"), (0, "ok seq 0 objects 4\n", ""))
        self.case("with its rows", tables_of("vacuum.db"), self.before)

    def test_a_hot_journal(self):
        """What a program that was killed in a transaction leaves: SQLite takes the transaction back when it opens the file."""
        with closing(sqlite3.connect("world.db", isolation_level=None)) as connection:
            for setting in ("journal_mode = delete", "cache_size = 1"):
                connection.execute(f"PRAGMA {setting}")
            connection.execute("BEGIN IMMEDIATE")
            connection.execute("CREATE TABLE left_over (x)")
            connection.executemany("INSERT INTO left_over VALUES (randomblob(500))", [()] * 200)
            for end in ("", "-journal"):
                shutil.copy(f"world.db{end}", f"killed.db{end}")
            connection.execute("ROLLBACK")
        self.told_alone("killed.db", "moo: killed.db: another program left killed.db-journal (open it once by sqlite3)\n")
        with closing(sqlite3.connect("killed.db")) as connection:
            connection.execute("SELECT count(*) FROM sqlite_schema").fetchall()
        self.case("SQLite has brought back the rows of before", tables_of("killed.db"), self.before)
        self.case("then it is opened", ended("check", "killed.db"), (0, "ok seq 0 objects 4\n", ""))

    def test_a_file_in_use(self):
        user = start([MOO, "apply", "world.db", "-"], stdin=PIPE, stdout=PIPE)
        user.stdin.write(MADE.encode())
        user.stdin.flush()
        replied = "".join(line_of(user.stdout) for _ in range(3))
        self.assertEqual(replied, accepted(1, "#4"))
        self.refused("a file that is in use is refused", ended("check", "world.db"), STORE, "moo: store fault: in use by another program")
        user.stdin.close()
        user.wait(PATIENCE)
        self.case("and free when its program ends", run("check", "world.db"), (0, "ok seq 1 objects 5\n"))

    def test_no_batches(self):
        for word in ("apply", "ask"):
            name = f"batches that aren't there are a read fault of {word}"
            self.refused(name, ended(word, "world.db", "nothing.txt"), READ, "moo: read fault: no such file of batches")
            self.case(f"a folder of batches is one of {word}", run(word, "world.db", "."), READ)
        self.case("its rows are as they were", tables_of("world.db"), self.before)

    def test_a_full_standard_output(self):
        self.unwritten("a dump that isn't written is a failure", "dump", "world.db")
        self.unwritten("so is a check", "check", "world.db")
        self.unwritten("so is a question", "ask", "world.db", "-")
        self.unwritten("so is help", "--help")
        self.case("its rows are as they were", tables_of("world.db"), self.before)
        self.unwritten("so is a reply", "apply", "world.db", "-")
        self.case("whose batch stands", run("check", "world.db"), (0, "ok seq 1 objects 5\n"))
        self.unwritten("so is a new world", "init", "new.db")
        self.case("which stands", run("check", "new.db"), (0, "ok seq 0 objects 4\n"))
