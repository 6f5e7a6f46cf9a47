"""What the tables of a world hold, as SQLite itself reads them: the rows of new worlds, and those that each call writes."""
import os

from tests.support.cases import ProgramTest
from tests.support.changes import CHANGES, FIVE, FIVE_CALLS, KEPT, OPENING, WORLDS
from tests.support.columns import TABLES, inserted, object_line, thing
from tests.support.program import edit
from tests.support.worlds import accepted, copied, make, read, rows_of, run, text_of

NUMBERS, TEXTS = ("INTEGER", 1, None), ("TEXT", 1, None)
OF_TEXT = {"name", "accept", "bits", "value", "names", "dobj", "prep", "iobj", "calls"}
PAIRED = ("slot", "verb", "slot2")


def file_of(world):
    """The file of a world, which is made if the folder hasn't it yet."""
    file = f"{world}.db"
    if not os.path.exists(file):
        make(file, WORLDS[world][0])
    return file


def copy_of(world):
    return copied(file_of(world))


def type_of(table, column):
    """The rights of a property are a number, and those of a verb letters."""
    return NUMBERS if (table, column) == ("slot2", "bits") or column not in OF_TEXT else TEXTS


def places(file):
    """The places of the rows of the tables with indexes, by their keys: a row that is written again gets another place."""
    slots, verbs = read(file, "select object, prop, rowid from slot2", "select object, id, rowid from verb")
    return {("slot2", *row[:2]): row[2] for row in slots} | {("verb", *row[:2]): row[2] for row in verbs}


def untouched(before, after, gone, come):
    """Of the rows that neither go nor come, those that were written again."""
    named = {(table, *row[:2]) for rows in (gone, come) for table in PAIRED for row in rows.get(table, [])}
    return [key for key, place in after.items() if key not in named and before.get(key) != place]


def changed(rows, head, gone, come):
    """The rows of a world after one more batch."""
    ((_, version, seq, *_),) = rows["head"]
    after = {table: sorted([row for row in rows[table] if row not in gone.get(table, [])] + come.get(table, [])) for table in TABLES}
    return after | {"head": [(1, version, seq + 1, *head)]}


SPELLINGS = [
    "update object set accept = '{ #1}' where n = 2",
    "update object set accept = ' {#4 ,\t#5}' where n = 7",
    "update slot2 set value = ' 010' where object = 4 and prop = 1",
    "update slot2 set value = ' 0021' where object = 6 and prop = 2",
    "update verb set bits = 'DRd' where object = 4 and id = 1",
]


def made_anew(tables, old="", new=""):
    """A copy of a world in which tables were dropped and made again with their rows, the first by its text or one with another word."""
    file = copy_of("verbs")
    made = []
    for table in tables:
        rows, ((text,),) = read(file, f"select * from {table}", f"select sql from sqlite_schema where name = '{table}'")
        if table == tables[0] and old not in text:
            raise AssertionError(f"{old!r} isn't in {text!r}")
        made += [text.replace(old, new, 1) if table == tables[0] else text, *(inserted(table, row) for row in rows)]
    edit(file, *(f"drop table {table}" for table in tables), *made)
    return file


# In the order in which they were made.
FROM_VERB = list(TABLES)[list(TABLES).index("verb") :]


def edited(*statements):
    file = copy_of("verbs")
    edit(file, *statements)
    return file


STRANGE = [
    *((f"without the table {table}", [f"drop table {table}"]) for table in TABLES),
    ("with a table more", ["create table other (n integer primary key) strict"]),
    ("with an index more", ["create index owners on slot2 (owner)"]),
    ("with a view", ["create view players as select n from object where player"]),
    ("with a column more", ["alter table object add column note text not null default ''"]),
    ("with a column less", ["alter table object drop column accept"]),
    ("with a column of another name", ["alter table prop rename column name to title"]),
    ("with a table of another name", ["alter table verb rename to verbs"]),
    ("with the tables of the first version and one of the second", ["drop table petition", "drop table petition_head"]),
]
# The table of verbs and those after it are made anew, with something else in its text.
OTHER_TEXTS = [
    ("which doesn't hold to its types", ") STRICT", ")"),
    ("a column of which may be empty", "names TEXT NOT NULL", "names TEXT"),
    ("a column of which has another type", "iobj TEXT", "iobj ANY"),
    ("a column of which has a default", "prep TEXT NOT NULL", "prep TEXT NOT NULL DEFAULT 'none'"),
    ("a column of which has another order", "names TEXT NOT NULL", "names TEXT NOT NULL COLLATE NOCASE"),
    ("which has another key", "PRIMARY KEY (object, id)", "PRIMARY KEY (id, object)"),
    ("which has no key", ", PRIMARY KEY (object, id)", ""),
    ("which has a check", "owner INTEGER NOT NULL", "owner INTEGER NOT NULL CHECK (owner > 0)"),
    ("which has another key beside it", "PRIMARY KEY (object, id)", "PRIMARY KEY (object, id), UNIQUE (owner, names, id)"),
]


class Tables(ProgramTest):
    def test_schema(self):
        (tables, trees, is_whole) = read(
            file_of("new"),
            "select name, strict, wr from pragma_table_list where schema = 'main' and name not like 'sqlite_%' order by name",
            "select type, name, tbl_name from sqlite_schema order by rootpage",
            "pragma integrity_check",
        )
        self.case("there are eight tables, which hold to their types", tables, [(name, 1, 0) for name in sorted(TABLES)])
        made = [("table", name, name) for name in ("head", "object", "prop", "slot")] + [("index", "sqlite_autoindex_slot_1", "slot")]
        made += [("table", "verb", "verb"), ("index", "sqlite_autoindex_verb_1", "verb")]
        made += [("table", "slot2", "slot2"), ("index", "sqlite_autoindex_slot2_1", "slot2")]
        made += [("table", name, name) for name in ("petition", "petition_head")]
        self.case("they were made in their order, with the indexes of three keys", trees, made)
        self.case("SQLite finds the file whole", is_whole, [("ok",)])
        for table, columns in TABLES.items():
            keys = 2 if table in PAIRED else 1
            wanted = [
                (column, *type_of(table, column), at + 1 if at < keys else 0)
                for at, column in enumerate(columns)
            ]
            found = read(file_of("new"), f"select name, type, \"notnull\", dflt_value, pk from pragma_table_info('{table}')")[0]
            self.case(f"the columns of {table} with their types and key, none of which may be empty", found, wanted)

    def test_worlds(self):
        for world, (_, rows) in WORLDS.items():
            found = rows_of(file_of(world))
            for table in TABLES:
                self.case(f"the world {world} has its rows of {table}", found[table], rows[table])

    def test_changes(self):
        for name, world, calls, answers, head, gone, come in CHANGES:
            before, file = WORLDS[world][1], copy_of(world)
            lacking = [row for table, rows in gone.items() for row in rows if row not in before[table]]
            stood = places(file)
            ran = run("apply", file, "-", text=text_of(calls))
            seq, after = before["head"][0][2] + 1, changed(before, head, gone, come)
            whole = (0, f"ok seq {seq} objects {len(after['object'])}\n")
            came = (lacking, ran, rows_of(file), untouched(stood, places(file), gone, come), run("check", file))
            self.case(name, came, ([], (0, accepted(seq, *answers.split())), after, [], whole))

    def test_kept(self):
        for name, world, command, text, replies in KEPT:
            file = copy_of(world)
            stood = places(file)
            came = (run(command, file, "-", text=text), rows_of(file), places(file))
            self.case(f"{name}: its replies, and each cell as it was", came, ((0, replies), WORLDS[world][1], stood))
        for command, said in [("check", "ok seq 1 objects 8\n"), ("dump", None)]:
            file = copy_of("tree")
            ran = run(command, file)
            self.case(f"a {command} leaves each cell as it was", (ran[0], said or ran[1], rows_of(file)), (0, ran[1], WORLDS["tree"][1]))
        file = copy_of("tree")
        run("apply", file, "-", text=text_of([*FIVE_CALLS, "max_object()"]))
        self.case("the calls of that question change cells where they are run", rows_of(file) == WORLDS["tree"][1], False)

    def test_opened_again(self):
        file = copy_of("new")
        self.case("a new world that is opened again", run("check", file), (0, "ok seq 0 objects 4\n"))
        self.case("and given no text", (run("apply", file, "-"), rows_of(file)), ((0, ""), OPENING))
        file = copy_of("tree")
        self.case("the tree that is opened again", run("check", file), (0, "ok seq 1 objects 8\n"))
        asked = text_of(['get(#6, "a")', 'get(#6, "b")', "max_object()"])
        self.case("is asked", run("ask", file, "-", text=asked), (0, accepted(1, "10", "21", "#7")))
        last = text_of(["chparent(#5, #7)", 'get(#6, "b")', 'get(#6, "c")', 'is_clear_property(#6, "c")'], "#3 at 1")
        self.case("and goes on where it stood", run("apply", file, "-", text=last), (0, accepted(2, "0", "21", "30", "1")))

    def test_questions(self):
        file, made = copy_of("new"), text_of(["create(#1)"])
        self.case("a question is answered with the present number", run("ask", file, "-", text=made), (0, accepted(0, "#4")))
        self.case("which no question raises", run("apply", file, "-", text=text_of(["max_object()"])), (0, accepted(1, "#3")))
        file, at_0 = copy_of("new"), text_of(["create(#1)"], "#3 at 0")
        three = at_0 + at_0 + text_of(["create(#9)"])
        wanted = accepted(1, "#4") + "stale 1\nrefused 1 E_PERM\n"
        self.case("a batch that is accepted, one sent again, and one that is refused", run("apply", file, "-", text=three), (0, wanted))
        self.case(
            "behind them a question at the number", run("ask", file, "-", text=text_of(["create(#4)"], "#3 at 1")), (0, accepted(1, "#5"))
        )
        self.case("the number is the same behind it", run("check", file), (0, "ok seq 1 objects 5\n"))
        self.case("and so is the greatest object", run("ask", file, "-", text=text_of(["max_object()"])), (0, accepted(1, "#4")))

    def test_two_thousand(self):
        """Two thousand descendants of #4, with those that it has, and the slots of a, b and c among them."""
        def counts():
            return read(file, "select prop, count(*) from slot2 group by prop order by prop")[0]

        file = copy_of("tree")
        text = text_of(["create(#6)"] * 1000) + text_of(["create(#6)"] * 999)
        made = accepted(2, *(f"#{number}" for number in range(8, 1008))) + accepted(3, *(f"#{number}" for number in range(1008, 2007)))
        self.case("two thousand descendants are made", run("apply", file, "-", text=text), (0, made))
        self.case("each has its slots", counts(), [(1, 2002), (2, 2001), (3, 1)])
        moved = text_of(["chparent(#5, #7)", 'get(#2006, "b")'])
        before, below = rows_of(file), [5, 6, *range(8, 2007)]
        self.case("they move at once", run("apply", file, "-", text=moved), (0, accepted(4, "0", "21")))
        self.case("with their slots", counts(), [(1, 1), (2, 2001), (3, 2002)])
        gone = {"object": [FIVE], "slot2": [(number, 1, 3, 4, "") for number in below]}
        come = {"object": [thing(5, parent=7)], "slot2": [(number, 3, 3, 4, "") for number in below]}
        self.case("one object and 4,002 slots change, and nothing else", rows_of(file) == changed(before, (2006, 4, 1), gone, come), True)
        self.case("and are a whole world", run("check", file), (0, "ok seq 4 objects 2007\n"))

    def test_spellings(self):
        """Another spelling of a cell isn't damage. It stays until its column changes, and then it is written as moo spells it."""
        file = copy_of("verbs")
        dumped = run("dump", file)[1].replace(object_line(thing(7)), object_line(thing(7, accept="{#4, #5}")))
        edit(file, *SPELLINGS)
        spelled = rows_of(file)
        self.case("other spellings of cells are read as what they spell", run("dump", file), (0, dumped))
        self.case("a batch beside them", run("apply", file, "-", text=text_of(["create(#1)"])), (0, accepted(3, "#8")))
        after = rows_of(file)
        lacking = [row for table in TABLES for row in spelled[table] if table != "head" and row not in after[table]]
        self.case("leaves them as they stand", lacking, [])
        calls = ['set(#2, "r", 1)', 'set(#7, "name", "x")', 'set(#4, "a", 1)', 'set_property_info(#6, "b", {#4, "r"})']
        calls.append('set_verb_args(#4, 1, {"any", "any", "any"})')
        self.case("a batch on their rows", run("apply", file, "-", text=text_of(calls)), (0, accepted(4, *"00000")))
        columns = [
            "select accept from object where n in (2, 7) order by n",
            "select bits, value from slot2 where (object, prop) in ((4, 1), (6, 2)) order by object",
            "select bits, prep from verb where object = 4 and id = 1",
        ]
        stand = [[("{ #1}",), (" {#4 ,\t#5}",)], [(4, "1"), (4, " 0021")], [("DRd", "any")]]
        self.case("writes the columns that change, and leaves the others as they stand", read(file, *columns), stand)
        calls = ["set_accept(#2, {#4})", "set_accept(#7, {})", 'set(#6, "b", 22)', 'set_verb_info(#4, 1, {#3, "r", "look"})']
        self.case("a batch on those columns", run("apply", file, "-", text=text_of(calls)), (0, accepted(5, *"0000")))
        anew = [[("{#4}",), ("{}",)], [(4, "1"), (4, "22")], [("r", "any")]]
        self.case("writes them anew", read(file, *columns), anew)

    def test_spelled_petitions(self):
        """So it is with petitions, whose rows come and go, and never change."""
        file = copy_of("petitions")
        dumped = run("dump", file)
        calls = '{ {"create" ,#1,\t#04},{ "set_player_flag", #4 , 01 } }'
        edit(file, ("update petition set calls = ? where id = 1", (calls,)))
        self.case("another spelling of a petition is read as what it spells", run("dump", file), dumped)
        text = text_of(["create(#1)", 'petition({{"players"}})', "decline(2)"])
        self.case("a batch beside it", run("apply", file, "-", text=text), (0, accepted(3, "#8", "3", "0")))
        self.case("leaves it as it stands", rows_of(file)["petition"], [(1, 4, calls), (3, 3, '{{"players"}}')])
        self.case(
            "and it is granted as it is read",
            run("apply", file, "-", text=text_of(["grant(1)", "is_player(#4)"])),
            (0, accepted(4, "0", "1")),
        )
        self.case("then its row is gone", rows_of(file)["petition"], [(3, 3, '{{"players"}}')])

    def test_strange_tables(self):
        files = [(name, lambda statements=statements: edited(*statements)) for name, statements in STRANGE]
        files += [(f"with a table {name}", lambda change=change: made_anew(FROM_VERB, *change)) for name, *change in OTHER_TEXTS]
        files.append(("with its tables made in another order", lambda: made_anew(["prop"])))
        for name, make_file in files:
            file = make_file()
            there = sorted(read(file, "select type, name, sql from sqlite_schema")[0], key=repr)
            held = [table for kind, table, _ in there if kind == "table"]
            before = read(file, *(f"select * from {table}" for table in held))
            came = [run("check", file), run("apply", file, "-", text=text_of([])), run("init", file)]
            after = sorted(read(file, "select type, name, sql from sqlite_schema")[0], key=repr)
            came.append((after, read(file, *(f"select * from {table}" for table in held))))
            self.case(f"a file {name} is a store fault, and stays as it is", came, [(1, "moo: store fault\n")] * 3 + [(there, before)])
        self.case(
            "one whose last tables were made anew as they were opens", run("check", made_anew(FROM_VERB)), (0, "ok seq 2 objects 8\n")
        )
