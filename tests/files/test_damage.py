"""A file that was changed by hand is refused with the kind and the place of the damage, and left as it is."""
import contextlib
import sqlite3

from tests.support.cases import ProgramTest
from tests.support.program import edit
from tests.support.worlds import TREE, accepted, copied, make, read, run, tables_of, text_of

# What is said of a file, and the statements that change it.
DAMAGED = [
    ("damaged bad-head head", "delete from head"),
    ("damaged bad-head head", "update head set top = -2"),
    ("damaged bad-cell #6 p2", "update slot2 set value = '{1,}' where object = 6 and prop = 2"),
    ("damaged past-head #7", "update head set top = 6"),
    ("damaged past-head #-5", "update object set n = -5 where n = 0"),
    ("damaged past-head p3", "update head set next_prop = 3"),
    ("damaged no-parent #6", "update object set parent = 9 where n = 6"),
    ("damaged parent-loop #4", "update object set parent = 6 where n = 4"),
    ("damaged no-place #0", "update object set location = 9 where n = 0"),
    ("damaged place-loop #2", "update object set location = 3 where n = 2"),
    ("damaged no-definer p3", "update prop set definer = 9 where id = 3"),
    ("damaged double-name p2", "update prop set name = 'A' where id = 2"),
    ("damaged strange-slot #7 p1", "insert into slot2 values (7, 1, 3, 4, '')"),
    ("damaged missing-slot #6 p1", "delete from slot2 where object = 6 and prop = 1"),
    ("damaged clear-definer #7 p3", "update slot2 set value = '' where object = 7 and prop = 3"),
    (
        "damaged strange-verb #9 v1", "update head set next_verb = 2",
        "insert into verb values (9, 1, 'look', 3, 'rx', 'this', 'none', 'none')"
    ),
    ("newer version", "update head set version = 3"),
    ("damaged bad-head head", "update head set version = 1"),
    ("damaged bad-cell #6 p2", "update slot2 set bits = 8 where object = 6 and prop = 2"),
    ("damaged past-head r9", "insert into petition values (9, 3, '{{\"max_object\"}}')"),
    ("damaged bad-cell r1", "insert into petition values (1, 3, '{{1}}')"),
    ("damaged bad-cell r0", "insert into petition values (0, 3, '{{\"max_object\"}}')"),
    ("damaged bad-head head", "delete from petition_head"),
    ("damaged bad-head head", "update petition_head set id = 2"),
    ("damaged bad-head head", "insert into petition_head values (2, 1)"),
    ("damaged bad-head head", "update petition_head set next_petition = 0"),
    ("damaged bad-head head", "update petition_head set next_petition = 4294967296"),
    ("newer version", "update head set version = 3", "delete from petition_head"),
]
# What another spelling or another tool leaves isn't damage.
SPELLINGS = ["update object set accept = '{ #1}' where n = 2", "update slot2 set value = ' 021' where object = 6 and prop = 2"]
STRANGE_PETITION = (1, 99, '{ {"sing"} }')
PETITION = ["update petition_head set next_petition = 2", ("insert into petition values (?, ?, ?)", STRANGE_PETITION)]
WHOLE = (0, "ok seq 1 objects 8\n")


def made_again(old_file, new_file):
    """The tables of a file made in their order in another, with their rows."""
    with contextlib.closing(sqlite3.connect(old_file)) as old, contextlib.closing(sqlite3.connect(new_file)) as new:
        for name, text in old.execute("select name, sql from sqlite_schema where type = 'table' order by rowid"):
            new.execute(text)
            for row in old.execute(f"select * from {name}"):
                new.execute(f"insert into {name} values ({', '.join('?' * len(row))})", row)
        new.commit()


def made_by_name(old_file, new_file):
    """The same in the order of their names, as SQLite's own dump of a file makes them."""
    with contextlib.closing(sqlite3.connect(old_file)) as old, contextlib.closing(sqlite3.connect(new_file)) as new:
        new.executescript("\n".join(old.iterdump()))


class Damage(ProgramTest):
    def setUp(self):
        super().setUp()
        make("world.db", TREE)

    def test_damage(self):
        for said, *statements in DAMAGED:
            file = copied("world.db")
            edit(file, *statements)
            before = tables_of(file)
            refused = (3, f"moo: {said}\n")
            name = "; ".join(statements)
            self.case(f"{name} is {said}", run("check", file), refused)
            self.case(f"{name}: again", run("check", file), refused)
            self.case(f"{name}: nothing runs on it", run("apply", file, "-", text=text_of(["max_object()"])), refused)
            self.case(f"{name}: its rows are as they were", tables_of(file), before)

    def test_other_spellings(self):
        edit("world.db", *SPELLINGS)
        self.case("another spelling of a value is none", run("check", "world.db"), WHOLE)
        edit("world.db", *PETITION)
        self.case("nor is a petition of nobody's for what is no call", run("check", "world.db"), WHOLE)
        self.assertEqual(run("apply", "world.db", "-", text=text_of(["chparent(#5, #7)"])), (0, accepted(2, "0")))
        cells, petitions = read("world.db", "select accept from object where n = 2", "select * from petition")
        self.case("a row that a batch leaves keeps its cells", cells, [("{ #1}",)])
        self.case("so does a petition", petitions, [STRANGE_PETITION])

    def test_other_tools(self):
        edit("world.db", *SPELLINGS, *PETITION)
        run("apply", "world.db", "-", text=text_of(["chparent(#5, #7)"]))
        whole = (0, "ok seq 2 objects 8\n")
        edit("world.db", "vacuum")
        self.case("a file that was vacuumed is the same world", run("check", "world.db"), whole)
        made_again("world.db", "again.db")
        made_by_name("world.db", "named.db")
        self.case("so is one whose tables were made again in their order", run("dump", "again.db"), run("dump", "world.db"))
        fault = (1, "moo: store fault\n")
        self.case("one in which they were made by their names isn't", run("check", "named.db"), fault)
        edit("world.db", "analyze")
        self.case("statistics are a table that is none of ours", run("check", "world.db"), fault)
        edit("world.db", "drop table sqlite_stat1")
        self.case("without them it opens again", run("check", "world.db"), whole)
