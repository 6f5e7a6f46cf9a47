"""What batches change in a file: exactly the rows that differ. What is dumped of a world, and what its objects look like."""
import os
import resource
import shutil
import sqlite3
import subprocess
import tempfile

from tests.support.cases import ProgramTest
from tests.support.columns import object_line, thing
from tests.support.dumped import OPENING, TREE
from tests.support.notation import tree
from tests.support.program import MOO, edit, run_bytes
from tests.support.service import PATIENCE, Service, answer, get

# The columns of each table that are its key. The head has one row, and so has that of the petitions.
KEYS = {"head": 0, "object": 1, "prop": 1, "slot2": 2, "verb": 2, "petition": 1, "petition_head": 0}

NEW = "max_object()"
SMALL_TREE = "; ".join(tree().calls)
WEIGHTS = 'add_property(#1, "weight", 7, {#3, "r"}); add_property(#3, "age", 40, {#3, "r"})'
VALUED = '; set(#6, "a", 12); set(#6, "b", {1, #2, "x"})'
ASKED = 'petition({{"create", #1}}); petition({{"max_object"}})'

# Another spelling of each cell that may have one. A row that is written anew has the one that the program prints.
OTHER_SPELLING = [
    "update object set accept = '{ ' || substr(accept, 2) where accept like '{%'",
    "update slot2 set value = '00' || value where value glob '[0-9]*'",
    "update slot2 set value = '{ ' || substr(value, 2) where value like '{%'",
    "update petition set calls = '{ ' || substr(calls, 2)",
]

# What the world is, in calls; the calls of a batch on it; the rows that come (+), go (-) or differ (~); and the greatest number of an
# object, with the next ones of a property and a verb.
CHANGES = [
    ("a batch without calls changes the head alone", NEW, "", "", (3, 1, 1)),
    ("so does one that reads", NEW, "max_object()", "", (3, 1, 1)),
    ("a new object is one change", NEW, "create(#1)", "+object 4", (4, 1, 1)),
    ("one that comes and goes is none, but for its number", NEW, "create(#1); recycle(#4)", "", (4, 1, 1)),
    (
        "the changes of a move are its slots and one link",
        SMALL_TREE,
        "chparent(#5, #7)",
        "~object 5, -slot2 5 1, +slot2 5 3, -slot2 6 1, +slot2 6 3",
        (7, 4, 1),
    ),
    ("a move away and back changes the head alone", SMALL_TREE, "chparent(#5, #7); chparent(#5, #4)", "", (7, 4, 1)),
    ("what is shared with a grandparent stays", SMALL_TREE, "chparent(#6, #4)", "~object 6, -slot2 6 2", (7, 4, 1)),
    ("nothing is written under the present parent", SMALL_TREE, "chparent(#5, #4)", "", (7, 4, 1)),
    (
        "a value is gone behind a move and the way back",
        SMALL_TREE + VALUED,
        "chparent(#5, #7); chparent(#5, #4)",
        "~slot2 6 1",
        (7, 4, 1),
    ),
    (
        "and behind a move by itself",
        SMALL_TREE + VALUED + "; chparent(#5, #7)",
        "chparent(#5, #4)",
        "~object 5, +slot2 5 1, -slot2 5 3, +slot2 6 1, -slot2 6 3",
        (7, 4, 1),
    ),
    (
        "an object goes with all its slots and its own on descendants",
        SMALL_TREE,
        "recycle(#5)",
        "-object 5, ~object 6, -prop 2, -slot2 5 1, -slot2 5 2, -slot2 6 2",
        (7, 4, 1),
    ),
    (
        "an object takes its properties with it",
        WEIGHTS,
        "recycle(#1)",
        "~object 0, -object 1, ~object 2, ~object 3, -prop 1, -slot2 0 1, -slot2 1 1, -slot2 2 1, -slot2 3 1",
        (3, 3, 1),
    ),
    ("another name of a property is one change", SMALL_TREE, 'set_property_info(#4, "a", {#3, "r", "aa"})', "~prop 1", (7, 4, 1)),
    (
        "a new property comes with its slots", SMALL_TREE, 'add_property(#5, "d", 1, {#3, "r"})', "+prop 4, +slot2 5 4, +slot2 6 4",
        (7, 5, 1)
    ),
    ("a value that is set is one change", SMALL_TREE, 'set(#6, "a", 12)', "~slot2 6 1", (7, 4, 1)),
    ("one that is put back is none", SMALL_TREE, 'set(#6, "b", 5); set(#6, "b", 21)', "", (7, 4, 1)),
    ("an equal list is the same value", SMALL_TREE + VALUED, 'set(#6, "b", {}); set(#6, "b", {1, #2, "x"})', "", (7, 4, 1)),
    ("an object isn't its number", SMALL_TREE + VALUED, 'set(#6, "b", {1, 2, "x"})', "~slot2 6 2", (7, 4, 1)),
    ("nor are strings the same in another case", SMALL_TREE + VALUED, 'set(#6, "b", {1, #2, "X"})', "~slot2 6 2", (7, 4, 1)),
    ("a petition is one change, with the number of the next", NEW, 'petition({{"create", #1}})', "+petition 1, ~petition_head", (3, 1, 1)),
    ("one that comes and goes changes that number alone", NEW, 'petition({{"create", #1}}); decline(1)', "~petition_head", (3, 1, 1)),
    ("one that is declined goes alone", ASKED, "decline(2)", "-petition 2", (3, 1, 1)),
    ("one that is granted goes, with what its calls change", ASKED, "grant(1)", "+object 4, -petition 1", (4, 1, 1)),
    ("one whose calls read goes alone", ASKED, "grant(2)", "-petition 2", (3, 1, 1)),
    ("a new petition leaves the others as they stand", ASKED, 'petition({{"max_object"}})', "+petition 3, ~petition_head", (3, 1, 1)),
    ("a new verb is one change", NEW, 'add_verb(#1, {#3, "r", "get"}, {"any", "in", "this"})', "+verb 1 1", (3, 1, 2)),
]


def text_of(calls, programmer="#3"):
    return "\n".join([f"batch as {programmer}", *(calls.split("; ") if calls else []), "end", ""]).encode()


def new_file(file, calls):
    """Makes a file anew, with the world after these calls, which have to be accepted."""
    for end in ("", "-wal"):
        if os.path.exists(file + end):
            os.remove(file + end)
    run_bytes("init", file)
    _, replied = run_bytes("apply", file, "-", text=text_of(calls))
    if not replied.startswith(b"accepted 1\n"):
        raise ValueError(f"no world of {calls}: {replied}")


def rows(file):
    """Every row of every table, by the words of its key. A copy is read, so that the file and its log stay as they are."""
    with tempfile.TemporaryDirectory() as room:
        for end in ("", "-wal"):
            if os.path.exists(file + end):
                shutil.copyfile(file + end, f"{room}/copy{end}")
        connection = sqlite3.connect(f"{room}/copy")
        found = {}
        for table, width in KEYS.items():
            for row in connection.execute(f"select * from {table}"):
                found[" ".join([table, *map(str, row[:width])])] = row
        connection.close()
    return found


def made(file, calls):
    """A file with the world after these calls, in another spelling; its rows."""
    new_file(file, calls)
    edit(file, *OTHER_SPELLING)
    return rows(file)


def differences(before, behind):
    """The keys of the rows that came, went or differ, but for the head."""
    told = []
    for key in sorted((before.keys() | behind.keys()) - {"head"}):
        if before.get(key) != behind.get(key):
            sign = "+" if key not in before else "-" if key not in behind else "~"
            told.append(sign + key)
    return sorted(told)


def heads(file):
    """The number of batches of a file, the greatest one of an object, and the next ones of a property and a verb."""
    return rows(file)["head"][-4:]


# Batches that change nothing, not even the head, and their replies.
UNCHANGED = [
    ("a refused batch", text_of("create(#1); create(#9)"), b"refused 2 E_PERM\n"),
    ("a batch of nobody's", text_of("max_object()", "#9"), b"refused 1 E_PERM\n"),
    ("a stale one", text_of("create(#1)", "#3 at 0"), b"stale 1\n"),
    ("a petition with a call behind it that fails", text_of('petition({{"max_object"}}); recycle(#9)'), b"refused 2 E_INVARG\n"),
    (
        "a grant whose last call fails",
        text_of('petition({{"create", #1}, {"chparent", #5, #7}, {"recycle", #9}}); grant(1)'),
        b"refused 2 E_INVARG\n",
    ),
]


def dumped(calls):
    """What the world after some calls is dumped as."""
    new_file("dump.db", calls)
    return run_bytes("dump", "dump.db")[1].decode()


VERBS = (
    'add_verb(#0, {#3, "dxr", "l*ook say\\"s"}, {"this", "on", "any"}); '
    'add_verb(#0, {#2, "", "stop"}, {"none", "none", "this"}); recycle(#1)'
)
VERB_LINES = f"""{object_line(thing(0, "System Object", parent=-1))}
verb {{#0, "l*ook say\\"s", #3, "rxd", "this", "on top of/on/onto/upon", "any"}}
verb {{#0, "stop", #2, "", "none", "none", "this"}}
object {{#2, """
# #4 is under #7, which is under #5, and #6 under #4: chains that don't go by numbers.
CHAIN = (
    "create(#1); create(#1); create(#4); create(#5); chparent(#4, #7); "
    'add_property(#4, "p4", 4, {#3, ""}); add_property(#5, "p5", 5, {#3, ""}); add_property(#6, "p6", 6, {#3, ""}); '
    'add_property(#7, "p7", 7, {#3, ""}); add_property(#1, "p1", 1, {#3, ""})'
)

# Eleven petitions, of which two are gone again.
ELEVEN = "; ".join([*(f'petition({{{{"valid", #{number}}}}})' for number in range(1, 12)), "decline(5)", "grant(1)"])
ELEVEN_LINES = "".join(f'petition {{{number}, #3, {{{{"valid", #{number}}}}}}}\n' for number in (2, 3, 4, 6, 7, 8, 9, 10, 11))
# Spelled otherwise than it is dumped.
SPELLED = 'petition({ {"SET" ,#1,"name","a \\"b\\\\"},{"move",#04,#-1,{ {007},e_perm}} }); create(#1)'
SPELLED_LINES = object_line(thing(4)) + """
petition {1, #3, {{"SET", #1, "name", "a \\"b\\\\"}, {"move", #4, #-1, {{7}, E_PERM}}}}
end
"""


LIMIT = 1 << 20


def limited():
    resource.setrlimit(resource.RLIMIT_FSIZE, (LIMIT, LIMIT))


def dump_with_room(file, room):
    """The status of a dump into a file that takes so many bytes, and these."""
    with open("front", "wb+") as front:
        # The limit is on where a file may be written. So its place leaves the room, and no limit is near for the database.
        front.seek(LIMIT - room)
        words = [MOO, "dump", file]
        # Python ignores the signal of the limit, and so has the program to: then its write fails.
        ran = subprocess.run(words, stdout=front, stderr=subprocess.DEVNULL, preexec_fn=limited, restore_signals=False, timeout=PATIENCE)
        front.seek(LIMIT - room)
        return ran.returncode, front.read().decode()


# Objects of a new world.
LOOKS = [
    (
        "the root class is seen with its children",
        1,
        "200 OK",
        '{"children":["#0","#2","#3"],"contents":[],"f":1,"location":"#-1","name":"Root Class","owner":"#3","parent":"#-1",'
        '"player":0,"programmer":0,"r":0,"w":0,"wizard":0}',
    ),
    (
        "the room is seen with what is in it",
        2,
        "200 OK",
        '{"children":[],"contents":["#3"],"f":0,"location":"#-1","name":"The First Room","owner":"#3","parent":"#1",'
        '"player":0,"programmer":0,"r":0,"w":0,"wizard":0}',
    ),
    ("no object is seen as none", 4, "404 Not Found", '{"error":"E_INVARG"}'),
]


class Dumps(ProgramTest):
    def test_changed_rows(self):
        for name, world, calls, changes, counters in CHANGES:
            before = made("change.db", world)
            status, replied = run_bytes("apply", "change.db", "-", text=text_of(calls))
            self.case(f"{name}: it is accepted", (status, replied.split(b"\n")[0]), (0, b"accepted 2"))
            self.case(name, differences(before, rows("change.db")), sorted(filter(None, changes.split(", "))))
            self.case(f"{name}: the head", heads("change.db"), (2, *counters))
            self.case(f"{name}: the world is whole", run_bytes("check", "change.db")[0], 0)

    def test_unchanged_rows(self):
        for name, text, reply in UNCHANGED:
            before = made("same.db", SMALL_TREE)
            self.case(f"{name} is refused", run_bytes("apply", "same.db", "-", text=text), (0, reply))
            self.case(f"{name} changes nothing", rows("same.db"), before)
        before = made("same.db", SMALL_TREE)
        asked = run_bytes("ask", "same.db", "-", text=text_of("chparent(#5, #7); create(#1)"))
        self.case("a question says what would come", asked, (0, b"accepted 1\n0\n#8\nend\n"))
        self.case("a question changes nothing", rows("same.db"), before)

    def test_petitions_dumped(self):
        self.case(
            "petitions are dumped behind the objects, by their numbers", dumped(ELEVEN), f"seq 1\ntop #3\n{OPENING}{ELEVEN_LINES}end\n"
        )
        self.case("with their calls as literals", dumped(SPELLED), f"seq 1\ntop #4\n{OPENING}{SPELLED_LINES}")
        run_bytes("apply", "dump.db", "-", text=text_of('petition({{"players"}})', "#4"))
        run_bytes("apply", "dump.db", "-", text=text_of("recycle(#4)"))
        lines = run_bytes("dump", "dump.db")[1].decode().split("\n")
        self.case("and whoever asked, an object or none", lines[-3:], ['petition {2, #4, {{"players"}}}', "end", ""])

    def test_dumps(self):
        self.case("a new world is dumped", run_bytes("dump", ":memory:"), (0, f"seq 0\ntop #3\n{OPENING}end\n".encode()))
        # The slots of #6 are listed by definers up its chain there, which is not the order of their numbers.
        self.case("slots are dumped by definers up the chain", dumped(SMALL_TREE), TREE)
        self.case("verbs are dumped in the order of the directory", VERB_LINES in dumped(VERBS), True)
        slots = [line.split(", ")[1] for line in dumped(CHAIN).split("\n") if line.startswith("slot {#6,")]
        self.case("a chain goes up by parents, and not by numbers", slots, ["#6", "#4", "#7", "#5", "#1"])

    def test_cut_off_dumps(self):
        whole = dumped(f"{SMALL_TREE}; {ASKED}")
        # The last of these ends in the line of a petition.
        for room in (0, 5, 100, 500, len(whole) - 20):
            self.case(f"a dump that is cut off behind {room} bytes is its front", dump_with_room("dump.db", room), (1, whole[:room]))
        self.case("one with room enough is whole", dump_with_room("dump.db", len(whole)), (0, whole))

    def test_looks(self):
        service = Service(MOO, ":memory:", len(LOOKS))
        for name, number, status, body in LOOKS:
            self.case(name, service.ask(get(f"/object/{number}")), answer(status, body))
        self.case("and that was all", service.end(), (0, f"served {len(LOOKS)} failed 0\n"))
