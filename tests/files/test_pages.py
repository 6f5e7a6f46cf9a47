"""The pages of a new file, and what `init` does to files that are there."""
import sqlite3
from contextlib import closing
from pathlib import Path

from tests.support.cases import ProgramTest
from tests.support.program import ended
from tests.support.worlds import make, run, text_of

NEW = 1024
CHECKED = (0, "ok seq 0 objects 4\n")


def page_size(path):
    """The bytes 16 and 17 of the file: its page size."""
    return int.from_bytes(Path(path).read_bytes()[16:18], "big")


def blank(path, size):
    """A database without tables, with pages of this size, as the machine's own SQLite makes it."""
    with closing(sqlite3.connect(path, isolation_level=None)) as connection:
        connection.execute(f"PRAGMA page_size = {size}")
        connection.execute("CREATE TABLE t (a)")
        connection.execute("DROP TABLE t")
        connection.execute("VACUUM")


class Pages(ProgramTest):
    def test_a_new_file(self):
        make("world.db")
        self.case("a new file has pages of 1,024 bytes", page_size("world.db"), NEW)
        run("apply", "world.db", "-", text=text_of(["create(#1)"]))
        self.case("and keeps them", page_size("world.db"), NEW)
        with closing(sqlite3.connect("world.db")) as connection:
            self.case("SQLite finds it sound", connection.execute("PRAGMA integrity_check").fetchall(), [("ok",)])

    def test_files_that_hold_nothing(self):
        Path("empty.db").write_bytes(b"")
        Path("log.db").write_bytes(b"")
        Path("log.db-wal").write_bytes(b"a log without its file counts for nothing")
        for name in ("empty.db", "log.db"):
            self.case(f"{name}: a world is made", ended("init", name)[:2], (0, "created\n"))
            self.case(f"{name}: its pages are small", page_size(name), NEW)
            self.case(f"{name}: it is whole", run("check", name), CHECKED)

    def test_what_a_stop_leaves(self):
        make("world.db")
        first = Path("world.db").read_bytes()[:100]
        # The first page of a blank database: its header says one page, and the page is a leaf without cells.
        with closing(sqlite3.connect("blank.db", isolation_level=None)):
            blank("blank.db", NEW)
        self.case("pages of 1,024", page_size("blank.db"), NEW)
        for size in (512, 1024, 2048, 4096, 8192):
            name = f"blank{size}.db"
            blank(name, size)
            self.case(f"a blank database of pages of {size}: a world is made", ended("init", name)[:2], (0, "created\n"))
            self.case(f"a blank database of pages of {size}: its pages stay", page_size(name), size)
        self.case("the header is SQLite's", first[:16], b"SQLite format 3\0")

    def test_other_pages_are_told(self):
        """A check and a service say so, other commands don't; the way on of docs/OPERATING.md makes them small."""
        way_on = ("PRAGMA journal_mode = delete", "PRAGMA page_size = {}", "VACUUM")
        for size in (512, 4096, 65536):
            name = f"pages{size}.db"
            make(name)
            with closing(sqlite3.connect(name, isolation_level=None)) as connection:
                for statement in way_on:
                    connection.execute(statement.format(size))
            line = f"moo: {name}: pages of {size} bytes: a batch takes twice as long (OPERATING, 'Pages')\n"
            self.case(f"{size}: a check says so", ended("check", name), (*CHECKED, line))
            self.case(f"{size}: a service says so", ended("serve", name, "8099", "0").complaint, line)
            for words in ("dump", "ask -", "apply -"):
                word, *others = words.split()
                self.case(f"{size}: {word} doesn't", ended(word, name, *others).complaint, "")
            with closing(sqlite3.connect(name, isolation_level=None)) as connection:
                for statement in way_on:
                    connection.execute(statement.format(NEW))
            self.case(f"{size}: then nothing is said", ended("check", name), (*CHECKED, ""))

    def test_files_that_hold_something(self):
        Path("text.db").write_text("no database\n" * 500)
        Path("short.db").write_text("xy")
        with closing(sqlite3.connect("other.db")) as connection:
            connection.execute("CREATE TABLE t (a)")
            connection.commit()
        make("world.db")
        run("apply", "world.db", "-", text=text_of(["create(#1)"]))
        for name in ("text.db", "short.db", "other.db", "world.db"):
            before = Path(name).read_bytes()
            self.case(f"{name}: init refuses it", ended("init", name).status != 0, True)
            self.case(f"{name}: and leaves it as it was", Path(name).read_bytes(), before)
