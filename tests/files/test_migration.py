"""Files of the first version, made by SQLite itself: they are migrated when they are opened, and the world in them is the same."""
import random
import resource
import signal
import subprocess
import time

from tests.support.cases import ProgramTest
from tests.support.changes import OF_TREE, OF_VERBS, OPENING, WORLDS
from tests.support.columns import OPENING_OBJECTS, first_objects, thing
from tests.support.dumped import TREE
from tests.support.first import first_rows, letters, make_first
from tests.support.processes import start
from tests.support.program import MOO, edit
from tests.support.service import Service, answer, get
from tests.support.worlds import accepted, copied, make, read, rows_of, run, tables_of, text_of

SCHEMA = "select type, name, tbl_name, rootpage > 0, sql from sqlite_schema order by rowid"


def is_first(file, rows):
    """Whether a file is of the first version still, with these rows."""
    return tables_of(file) == {table: sorted(part, key=repr) for table, part in rows.items()}


# Another spelling, and what it is taken over as.
SPELLED = [
    ("update slot set bits = 'CwrR' where object = 6 and prop = 2", (6, 2, 3, 7, "21")),
    ("update slot set bits = 'W' where object = 5 and prop = 1", (5, 1, 3, 2, "")),
    ("update slot set value = '{ #1 ,{\t2}}' where object = 6 and prop = 2", (6, 2, 3, 4, "{#1, {2}}")),
    ("update slot set value = ' 0021' where object = 6 and prop = 2", (6, 2, 3, 4, "21")),
]


# A value as it is written, and as it is printed; none if the slot is clear.
VALUES = [
    ("", None), ("0", "0"), (" 007", "7"), ("-0", "0"), ("2147483648", "2147483648"), ("9223372036854775807", "9223372036854775807"),
    ("-9223372036854775808", "-9223372036854775808"), ("#-1", "#-1"), ("e_perm", "E_PERM"), ('"a\\"b"', '"a\\"b"'), ("{1,{ } }", "{1, {}}"),
]
# The rights of each number from 0 to 7, in some spelling.
RIGHTS = ["", "c", "W", "cw", "rR", "CR", "wr", "CWR"]


# What is told of a file of the first version, and the edits.
REFUSED = [
    ("damaged bad-head head", "delete from head"),
    ("damaged bad-head head", "update head set version = 2"),
    ("damaged bad-head head", "update head set version = 0"),
    ("newer version", "update head set version = 3"),
    ("damaged bad-cell #6 p2", "update slot set bits = 'x' where object = 6 and prop = 2"),
    ("damaged bad-cell #6 p2", "update slot set bits = '4' where object = 6 and prop = 2"),
    ("damaged bad-cell #6 p2", "update slot set value = '{1,}' where object = 6 and prop = 2"),
    ("damaged past-head #7", "update head set top = 6"),
    ("damaged strange-slot #7 p1", "insert into slot values (7, 1, 3, 'r', '')"),
    ("damaged missing-slot #6 p1", "delete from slot where object = 6 and prop = 1"),
    ("damaged clear-definer #7 p3", "update slot set value = '' where object = 7 and prop = 3"),
]


def no_room(file, room):
    """The status of a check and what it says, if no file may be written past so many bytes."""
    def limited():
        resource.setrlimit(resource.RLIMIT_FSIZE, (room, room))

    # Python ignores the signal of the limit, and so has the program to: then its write fails.
    ran = subprocess.run([MOO, "check", file], stdout=subprocess.PIPE, stderr=subprocess.DEVNULL, preexec_fn=limited, restore_signals=False)
    return ran.returncode, ran.stdout.decode()


def descendants(count):
    """The rows of the first version of a world with so many objects under #4, which defines three properties."""
    objects = first_objects([*OPENING_OBJECTS, thing(4), *(thing(5 + at, parent=4) for at in range(count))])
    slots = [(4, number, 3, "rc", f'"{number}"') for number in (1, 2, 3)]
    for number in range(5, 5 + count):
        slots += [(number, 1, 3, "rc", ""), (number, 2, 3, "rc", str(number)), (number, 3, number, "w", '"x"')]
    props = [(1, 4, "a"), (2, 4, "b"), (3, 4, "c")]
    return {"head": [(1, 1, 9, 4 + count, 4, 1)], "object": objects, "prop": props, "slot": slots, "verb": []}
LARGE = descendants(3000)


class Migration(ProgramTest):
    def test_the_tree(self):
        """The worked tree, dumped by its own words; and what is in its file then."""
        rows = first_rows(OF_TREE)
        make_first("tree.db", rows)
        self.case("a file of the first version has five tables", list(tables_of("tree.db")), ["head", "object", "prop", "slot", "verb"])
        self.case("it is dumped as the world that it holds", run("dump", "tree.db"), (0, TREE))
        found = rows_of("tree.db")
        self.case("then it has the rows of the second version", found, OF_TREE)
        self.case("six slots, of which each may be read by all", [row[3] for row in found["slot2"]], [4] * 6)
        self.case("none is left where they were", found["slot"], [])
        self.case("its version is 2", found["head"][0][1], 2)
        self.case(
            "nobody has asked for anything, and the first petition will have the number 1",
            (found["petition"], found["petition_head"]),
            ([], [(1, 1)]),
        )
        self.case("it is dumped the same again", run("dump", "tree.db"), (0, TREE))
        self.case("and is whole", run("check", "tree.db"), (0, "ok seq 1 objects 8\n"))
        last = text_of(["chparent(#5, #7)", 'get(#6, "b")', 'get(#6, "c")', 'is_clear_property(#6, "c")'], "#3 at 1")
        self.case("it goes on where it stood", run("apply", "tree.db", "-", text=last), (0, accepted(2, "0", "21", "30", "1")))
        (is_whole,) = read("tree.db", "pragma integrity_check")
        self.case("SQLite finds the file whole", is_whole, [("ok",)])

    def test_one_schema(self):
        make("new.db")
        make_first("old.db", first_rows(OPENING))
        run("check", "old.db")
        self.case("a world that was taken over has the tables of a new one", read("old.db", SCHEMA), read("new.db", SCHEMA))
        self.case("and the rows of a new one", rows_of("old.db"), OPENING)

    def test_petitions_begin(self):
        """Behind a file's migration residents may ask."""
        make_first("old.db", first_rows(OF_TREE))
        self.case("there is no petition at first", run("ask", "old.db", "-", text=text_of(["petitions()"])), (0, accepted(1, "{}")))
        ran = run(
            "apply", "old.db", "-", text=text_of(['petition({{"create", #1}})', 'petition({{"players"}})'], "#4") + text_of(["grant(1)"])
        )
        self.case("then two are asked for, and one is granted", ran, (0, accepted(2, "1", "2") + accepted(3, "0")))
        found = rows_of("old.db")
        self.case("and they stand in the new tables", (found["petition"], found["petition_head"]), ([(2, 4, '{{"players"}}')], [(1, 3)]))

    def test_each_world(self):
        """The same world, made by batches and taken over, is dumped in the same bytes. The first version has no petitions."""
        for name, (text, rows) in WORLDS.items():
            if rows["petition"]:
                continue
            make("own.db", text)
            make_first("old.db", first_rows(rows))
            wanted = run("dump", "own.db")
            self.case(
                f"the world {name} that was taken over is dumped as the one that was made",
                (run("dump", "old.db"), rows_of("old.db")),
                (wanted, rows),
            )

    def test_each_command(self):
        rows = first_rows(OF_VERBS)
        asked = text_of(['get(#6, "b")', "max_object()"])
        whole = (0, "ok seq 2 objects 8\n")
        for name, command, said in [
            ("check", lambda: run("check", "old.db"), whole),
            ("ask", lambda: run("ask", "old.db", "-", text=asked), (0, accepted(2, "21", "#7"))),
            ("rehearse", lambda: run("rehearse", "old.db", "-", text=asked + asked), (0, accepted(3, "21", "#7") + accepted(4, "21", "#7"))),
            ("dump", lambda: run("dump", "old.db")[0], 0),
            ("apply without a batch", lambda: run("apply", "old.db", "-"), (0, "")),
            (
                "apply of a batch that is refused", lambda: run("apply", "old.db", "-", text=text_of(["create(#9)"])),
                (0, "refused 1 E_PERM\n")
            ),
        ]:
            make_first("old.db", rows)
            self.case(f"{name} opens a file of the first version", command(), said)
            self.case(f"and takes it over: {name}", rows_of("old.db"), OF_VERBS)
        make_first("old.db", rows)
        service = Service(MOO, "old.db", 1)
        self.case("serve opens one too", service.ask(get("/seq")), answer("200 OK", '{"seq":2}'))
        self.case("and serves it", service.end(), (0, "served 1 failed 0\n"))
        self.case("and takes it over", rows_of("old.db"), OF_VERBS)
        make_first("old.db", rows)
        self.case("init refuses one", run("init", "old.db"), (1, "moo: store fault\n"))
        self.case("which stays as it was", is_first("old.db", rows), True)

    def test_spellings(self):
        for statement, row in SPELLED:
            make_first("old.db", first_rows(OF_TREE))
            edit("old.db", statement)
            wanted = sorted(row if row[:2] == other[:2] else other for other in OF_TREE["slot2"])
            came = (run("check", "old.db"), rows_of("old.db")["slot2"])
            self.case(f"{statement}: it is taken over", came, ((0, "ok seq 1 objects 8\n"), wanted))
        make_first("old.db", first_rows(OF_TREE))
        edit("old.db", "update object set accept = '{ #1}' where n = 2")
        run("check", "old.db")
        self.case("a row of an object keeps its cells", read("old.db", "select accept from object where n = 2"), [[("{ #1}",)]])

    def test_every_right_and_value(self):
        """What is clear stays clear, and what is set stays set, a set 0 among them."""
        props = [(1 + at, 4, f"p{at}") for at in range(len(VALUES) * len(RIGHTS))]
        slots, lines, wanted = [], [], []
        for at, (number, _, name) in enumerate(props):
            (written, printed), rights = VALUES[at % len(VALUES)], at // len(VALUES)
            slots += [(4, number, 3, RIGHTS[rights], "1"), (5, number, 7, RIGHTS[rights], written)]
            wanted += [(4, number, 3, rights, "1"), (5, number, 7, rights, printed or "")]
            shown = "0" if printed is None else f"1, {printed}"
            lines.append(f'slot {{#5, #4, "{name}", #7, "{letters(rights)}", {shown}}}')
        objects = first_objects([*OPENING_OBJECTS, thing(4), thing(5, parent=4)])
        make_first("old.db", {"head": [(1, 1, 5, 5, len(props) + 1, 1)], "object": objects, "prop": props, "slot": slots, "verb": []})
        status, dump = run("dump", "old.db")
        shown = [line for line in dump.split("\n") if line.startswith("slot {#5")]
        self.case("every right with every kind of value is dumped", (status, shown), (0, lines))
        self.case("and taken over", rows_of("old.db")["slot2"], sorted(wanted))

    def test_refusals(self):
        for said, statement in REFUSED:
            make_first("old.db", first_rows(OF_TREE))
            edit("old.db", statement)
            before, line = tables_of("old.db"), (3, f"moo: {said}\n")
            came = [
                run("check", "old.db"), run("dump", "old.db"), run("apply", "old.db", "-", text="batch as #3\nend\n"), tables_of("old.db")
            ]
            self.case(f"{statement}: it is refused, and stays of the first version", came, [line, line, line, before])
        for name, statement in [
            ("a table more", "create table other (n integer primary key, m integer) strict"),
            ("another index", "create index owners on slot (owner)")
        ]:
            rows = first_rows(OF_TREE)
            make_first("old.db", rows)
            edit("old.db", statement)
            before = tables_of("old.db")
            self.case(
                f"with {name} it is a store fault, and stays",
                (run("check", "old.db"), tables_of("old.db")),
                ((1, "moo: store fault\n"), before),
            )

    def test_full_disks(self):
        """Behind each limit the file is of the first version, or of the second; whichever it is, it is dumped the same."""
        rows = first_rows(OF_TREE)
        make_first("old.db", rows)
        left = set()
        for room in range(0, 524288, 16384):
            make_first("old.db", rows)
            status, said = no_room("old.db", room)
            tables = len(tables_of("old.db"))
            left.add((status, tables))
            if (status, said) not in [(0, "ok seq 1 objects 8\n"), (1, "moo: store fault\n")] or (status == 0) > (tables == 8):
                self.case(f"a file may grow to {room} bytes", (status, said, tables), None)
            dumped = run("dump", "old.db")
            if dumped != (0, TREE):
                self.case(f"what was found behind a limit of {room} bytes", dumped, (0, TREE))
        self.case("on a disk that is full the file stays of the first version", (1, 5) in left, True)
        self.case("with room enough it is taken over", (0, 8) in left, True)

    def test_a_large_world(self):
        """Ten thousand slots."""
        count = 10000
        objects = first_objects([*OPENING_OBJECTS, thing(4)])
        props = [(number, 4, f"p{number}") for number in range(1, count + 1)]
        slots = [(4, number, 3, "rc", str(number)) for number in range(1, count + 1)]
        make_first("old.db", {"head": [(1, 1, 5, 4, count + 1, 1)], "object": objects, "prop": props, "slot": slots, "verb": []})
        self.case("a world of ten thousand slots is taken over", run("check", "old.db"), (0, "ok seq 5 objects 5\n"))
        self.case("with all of them", rows_of("old.db")["slot2"], [(4, number, 3, 5, str(number)) for number in range(1, count + 1)])

    def test_killed(self):
        """Killed while it takes a file over, the program leaves one version or the other, and the same world."""
        rounds = 20
        make_first("large.db", descendants(3000))
        wanted = run("dump", copied("large.db", "whole.db"))
        began = time.monotonic()
        run("check", copied("large.db", "timed.db"))
        taken = time.monotonic() - began
        chance, wrong = random.Random(1), []
        for _ in range(rounds):
            file = copied("large.db", "killed.db")
            process = start([MOO, "check", file], stdout=subprocess.DEVNULL, stderr=subprocess.DEVNULL)
            time.sleep(chance.random() * taken)
            process.send_signal(signal.SIGKILL)
            process.wait()
            tables = len(tables_of(file))
            if tables not in (5, 8) or run("dump", file) != wanted:
                wrong.append(tables)
        self.case(f"behind each of {rounds} kills it is the same world", wrong, [])

    def test_short_of_memory(self):
        """If memory is refused the file is as it was, or it was migrated before; it opens again all the same."""
        rows = descendants(3000)
        make_first("large.db", rows)
        whole = (0, f"ok seq 9 objects {len(rows['object'])}\n")
        wrong, statuses = [], set()
        for megabytes in range(8, 68, 6):
            file = copied("large.db", "short.db")
            ran = run("check", file, memory=megabytes << 20)
            statuses.add(ran[0])
            if ran not in (whole, (4, "moo: no memory\n"), (1, "moo: store fault\n")) and ran[0] >= 0:
                wrong.append((megabytes, ran))
            if len(tables_of(file)) == 5 and not is_first(file, rows):
                wrong.append((megabytes, "its rows differ"))
            if run("check", file) != whole:
                wrong.append((megabytes, "it doesn't open again"))
        self.case("with little memory it says so, or takes the file over", (wrong, {0, 4} <= statuses), ([], True))
