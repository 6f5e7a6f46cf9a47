"""Cells that were edited by hand: which of them can be read, what is said of the others, and of several kinds of damage which is told.

The edits of test_damage aren't tried again.
"""
from tests.support.cases import ProgramTest
from tests.support.columns import FLAGS, inserted, thing
from tests.support.program import edit
from tests.support.worlds import ASKED, VERBS, copied, make, rows_of, run

WHOLE = (0, "ok seq 3 objects 8\n")
# Texts with bytes that no text has are put by their bytes.
NONE = [b"\n", b"\r", b"\x00", b"\x7f", b"\x1f", b"caf\xc3\xa9", b"\xff"]
WIDE = [2147483648, -2147483649, 2**63 - 1, -(2**63)]
PREPOSITIONS = [
    "none", "any", "with/using", "at/to", "in front of", "in/inside/into", "on top of/on/onto/upon", "out of/from inside/from", "over",
    "through",
    "under/underneath/beneath", "behind", "beside", "for/about", "is", "as", "off/off of",
]
VALUES = [
    "", "0", "-0", "007", " 7", "\t7", "9223372036854775807", "-9223372036854775808", "#-2147483648", "#2147483647", "E_PERM", "e_Float",
    '""', '"\\x\\\\\\""', "{}", "{ }",
    "{1 ,2}", "{ 1,{ } }", "{" * 32 + "}" * 32, '"' + "x" * 65535 + '"', "{" + "0," * 5000 + "0}",
]
NO_VALUES = [
    " ", "+1", "-", "- 1", "7 ", "7x", "1 2", "0x10", "1.5", "9223372036854775808", "-9223372036854775809", "#", "# 1", "#2147483648", "E_",
    "E_NOPE", "E_PERMS", '"', '"a', '"\\"',
    '"a" ', "{", "}", "{1", "{,}", "{1,}", "{,1}", "{1 2}", "{}}", "{" * 33 + "}" * 33, '"' + "x" * 65536 + '"', "'a'", "null", '"\u00e9"',
    '"\n"',
]
LISTS = ["", "{}", "{#1}", " {#1}", "{ #1 , #-1 }", "{#99, #2147483647, #99}", "{" + ",".join(["#1"] * 1000) + "}"]
NO_LISTS = [" ", "0", "#1", "{1}", "{#1, 2}", "{{#1}}", "{#1", "{#1} ", "{#2147483648}", "x", "{" + ",".join(["#1"] * 1001) + "}"]
# Calls that a petition may hold: each a list that begins with a string, whatever this names.
ASKS = [
    '{{"players"}}', ' {{"players"}}', '\t{ { "players" } ,{"PLAYERS",#01 , e_perm} }', '{{"sing"}}', '{{""}}', '{{"grant", 1}}',
    '{{"petition", {{"players"}}}}',
    '{{"get", -9223372036854775808, #-2147483648, "\\"", E_FLOAT, {}}}', "{" + ",".join(['{"players"}'] * 64) + "}",
    '{{"get",' + "{" * 28 + "}" * 28 + "}}",
    '{{"players"},{"get",{1,' + "{" * 27 + "}" * 27 + "}}}", '{{"' + "x" * 65535 + '"}}', '{{"get",' + "0," * 5000 + "0}}",
]
NO_ASKS = [
    "", " ", "0", "#4", '"players"', "E_PERM", "{}", "{{}}", '{"players"}', '{"players", #1}', "{{1}}", '{{#1, "valid"}}',
    '{{{"players"}}}', '{{E_PERM}}', '{{"players"}, {}}',
    '{{"players"}, "players"}', '{{"players"}, 1}', '{{"players"},}', '{{"players",}}', '{{"players"}} ', '{{"players"}}x', '{{"players"}',
    '{{"players}}', '{{players}}',
    "{" + ",".join(['{"players"}'] * 65) + "}", '{{"get",' + "{" * 29 + "}" * 29 + "}}", '{{"get",' + "{" * 30 + "}" * 30 + "}}",
    '{{"get",' + "{" * 31 + "}" * 31 + "}}",
    '{{"players"},{"get",{1,' + "{" * 28 + "}" * 28 + "}}}", '{{"' + "x" * 65536 + '"}}', '{{"get", 9223372036854775808}}',
    '{{"get", #2147483648}}', '{{"get", "\n"}}',
]
# The table, the column, the row as SQL and as it is told; values that can be read there, and values that can't.
CELLS = [
    ("head", "id", "1", "head", [1], [0, 2, -1]),
    ("head", "version", "1", "head", [2], [1, 0, -1, -(2**63)]),
    ("head", "seq", "1", "head", [3], [-1, -(2**63)]),
    ("head", "top", "1", "head", [7, 2147483647], [2147483648, -2, 2**63 - 1]),
    ("head", "next_prop", "1", "head", [4, 4294967295], [0, -1, 4294967296]),
    ("head", "next_verb", "1", "head", [4, 4294967295], [0, -1, 4294967296]),
    ("object", "name", "n = 7", "#7", ["", "\t", " ~", "name", "x" * 65535], [*NONE, "x" * 65536]),
    ("object", "owner", "n = 7", "#7", [7, -1, 99, 2147483647, -2147483648], WIDE),
    ("object", "parent", "n = 7", "#7", [-1, 0, 1], WIDE),
    ("object", "location", "n = 7", "#7", [-1, 0, 3], WIDE),
    *(("object", flag, "n = 7", "#7", [0, 1], [2, -1, 2147483648]) for flag in FLAGS),
    ("object", "accept", "n = 7", "#7", LISTS, [*NO_LISTS, *NONE]),
    ("prop", "definer", "id = 3", "p3", [7], WIDE),
    (
        "prop", "name", "id = 3", "p3", ["c", "A", "B", " ", "player", "names", "parent", "x" * 255],
        ["", "x" * 256, "name", "Owner", "LOCATION", "contents", "programmer", "wizard", "r", "W", "f", *NONE],
    ),
    ("slot2", "owner", "object = 6 and prop = 2", "#6 p2", [3, -1, 99, -2147483648], WIDE),
    ("slot2", "bits", "object = 6 and prop = 2", "#6 p2", [0, 1, 2, 3, 4, 5, 6, 7], [-1, 8, 2147483648, 2**63 - 1, -(2**63)]),
    ("slot2", "value", "object = 6 and prop = 2", "#6 p2", VALUES, [*NO_VALUES, *NONE]),
    (
        "verb", "names", "object = 4 and id = 1", "#4 v1", ["x", "\t", " x ", "*", "get take", "x" * 65535],
        ["", " ", "   ", "x" * 65536, *NONE]
    ),
    ("verb", "owner", "object = 4 and id = 1", "#4 v1", [3, -1, 99, -2147483648], WIDE),
    ("verb", "bits", "object = 4 and id = 1", "#4 v1", ["", "r", "w", "x", "d", "rwxd", "DXWR", "ddd"], ["c", "rw ", " ", *NONE]),
    *(
        ("verb", place, "object = 4 and id = 1", "#4 v1", ["this", "any", "none"], ["", "This", "this ", "it", "in"]) for place in (
            "dobj", "iobj"
        )
    ),
    (
        "verb", "prep", "object = 4 and id = 1", "#4 v1", PREPOSITIONS,
        ["", "in", "None", "any ", "using/with", "In/inside/into", "with/using/", "this"]
    ),
    ("petition", "who", "id = 2", "r2", [4, -1, 99, 2147483647, -2147483648], WIDE),
    ("petition", "calls", "id = 2", "r2", ASKS, [*NO_ASKS, *NONE]),
    ("petition_head", "id", "1", "head", [1], [0, 2, -1]),
    ("petition_head", "next_petition", "1", "head", [3, 4294967295], [0, -1, 4294967296, 2**63 - 1, -(2**63)]),
]
# What is told, and the edits.
KEYS = [
    ("bad-cell #2147483648", "update object set n = 2147483648 where n = 0"),
    ("bad-cell #-2147483649", "update object set n = -2147483649 where n = 0"),
    ("bad-cell p0", "update prop set id = 0 where id = 3"),
    ("bad-cell p-1", "update prop set id = -1 where id = 3"),
    ("bad-cell p4294967295", "update prop set id = 4294967295 where id = 3"),
    ("bad-cell p4294967296", "update prop set id = 4294967296 where id = 3"),
    ("bad-cell #-2147483649 p3", "update slot2 set object = -2147483649 where object = 7"),
    ("bad-cell #7 p0", "update slot2 set prop = 0 where object = 7"),
    ("bad-cell #7 p-9223372036854775808", "update slot2 set prop = -9223372036854775808 where object = 7"),
    ("bad-cell #7 p4294967295", "update slot2 set prop = 4294967295 where object = 7"),
    ("bad-cell #9223372036854775807 v3", "update verb set object = 9223372036854775807 where id = 3"),
    ("bad-cell #5 v0", "update verb set id = 0 where id = 3"),
    ("bad-cell #5 v4294967295", "update verb set id = 4294967295 where id = 3"),
    ("bad-cell r0", "update petition set id = 0 where id = 2"),
    ("bad-cell r-1", "update petition set id = -1 where id = 2"),
    ("bad-cell r4294967295", "update petition set id = 4294967295 where id = 2"),
    ("bad-cell r4294967296", "update petition set id = 4294967296 where id = 2"),
    ("bad-cell r-9223372036854775808", "update petition set id = -9223372036854775808 where id = 2"),
    ("past-head #-1", "update object set n = -1 where n = 0"),
    ("past-head #8", "update object set n = 8 where n = 0"),
    ("past-head #-2147483648", "update object set n = -2147483648 where n = 0"),
    ("past-head p4", "update prop set id = 4 where id = 3"),
    ("past-head p4294967294", "update prop set id = 4294967294 where id = 3"),
    ("past-head #5 v4", "update verb set id = 4 where id = 3"),
    ("past-head #0 v12", "update verb set object = 0, id = 12 where id = 3"),
    ("past-head r3", "update petition set id = 3 where id = 2"),
    ("past-head r4294967294", "update petition set id = 4294967294 where id = 2"),
    ("past-head r2", "update petition_head set next_petition = 2"),
    ("no-parent #6", "update object set parent = -2 where n = 6"),
    ("no-parent #0", "update object set parent = 2147483647 where n in (0, 6)"),
    ("parent-loop #7", "update object set parent = 7 where n = 7"),
    ("parent-loop #0", "update object set parent = 5 where n = 0", "update object set parent = 6 where n = 5"),
    ("no-place #0", "update object set location = -2 where n in (0, 7)"),
    ("place-loop #0", "update object set location = 0 where n = 0"),
    (
        "place-loop #3", "update object set location = 6 where n = 3", "update object set location = 7 where n = 6",
        "update object set location = 6 where n = 7"
    ),
    ("no-definer p2", "update prop set definer = -1 where id in (2, 3)"),
    ("no-definer p3", "update prop set definer = -2147483648 where id = 3"),
    ("double-name p2", "update prop set definer = 4, name = 'a' where id = 2"),
    ("double-name p2", "update prop set definer = 6 where id = 1", "update prop set name = 'a' where id = 2"),
    ("double-name p3", "update prop set definer = 1, name = 'B' where id = 3"),
    ("strange-slot #3 p1", "insert into slot2 values (3, 1, 3, 0, '')"),
    ("strange-slot #9 p1", "insert into slot2 values (9, 1, 3, 0, '')"),
    ("strange-slot #-1 p1", "insert into slot2 values (-1, 1, 3, 0, '')"),
    ("strange-slot #6 p50", "insert into slot2 values (6, 50, 3, 0, '')"),
    ("strange-slot #4 p2", "insert into slot2 values (4, 2, 3, 0, ''), (4, 3, 3, 0, '')"),
    ("strange-slot #7 p3", "delete from prop where id = 3"),
    ("missing-slot #4 p1", "delete from slot2"),
    ("missing-slot #5 p2", "delete from slot2 where prop = 2"),
    ("missing-slot #7 p3", "delete from slot2 where object = 7"),
    ("missing-slot #0 p4", "update head set next_prop = 5", "insert into prop values (4, 0, 'd')"),
    ("clear-definer #4 p1", "update slot2 set value = ''"),
    ("clear-definer #5 p2", "update slot2 set value = '' where prop = 2"),
    ("strange-verb #-1 v3", "update verb set object = -1 where id = 3"),
    ("strange-verb #9 v1", "update verb set object = 9"),
]
# Of each kind one edit, in the order in which kinds are told.
IN_ORDER = [
    ("newer version", "update head set version = 3"),
    ("damaged bad-head head", "update head set top = -2"),
    ("damaged bad-cell #6 p2", "update slot2 set value = '{1,}' where object = 6 and prop = 2"),
    ("damaged past-head #7", "update head set top = 6"),
    ("damaged no-parent #6", "update object set parent = 9 where n = 6"),
    ("damaged parent-loop #4", "update object set parent = 6 where n = 4"),
    ("damaged no-place #0", "update object set location = 9 where n = 0"),
    ("damaged place-loop #2", "update object set location = 3 where n = 2"),
    ("damaged no-definer p3", "update prop set definer = 9 where id = 3"),
    ("damaged double-name p2", "update prop set name = 'A' where id = 2"),
    ("damaged strange-slot #7 p1", "insert into slot2 values (7, 1, 3, 4, '')"),
    ("damaged missing-slot #6 p1", "delete from slot2 where object = 6 and prop = 1"),
    ("damaged clear-definer #7 p3", "update slot2 set value = '' where object = 7 and prop = 3"),
    ("damaged strange-verb #9 v1", "insert into verb values (9, 1, 'look', 3, 'rx', 'this', 'none', 'none')"),
]
# What is told if several rows have the same kind of damage, or an edit has something of several kinds.
SEVERAL = [
    (
        "bad-cell #2", "update object set player = 2 where n in (2, 7)", "update prop set name = ''", "update slot2 set bits = 8",
        "update verb set bits = 'c'"
    ),
    ("bad-cell p1", "update prop set name = ''", "update slot2 set bits = 8", "update verb set bits = 'c'"),
    ("bad-cell #4 p1", "update slot2 set bits = 8", "update verb set bits = 'c'"),
    ("bad-cell #4 v2", "update verb set bits = 'c' where id in (2, 3)"),
    ("bad-cell #5 v3", "update verb set bits = 'c' where id = 3", "update petition set calls = ''"),
    ("bad-cell r1", "update petition set calls = ''"),
    ("bad-cell r-7", "update petition set calls = ''", "insert into petition values (-7, 4, '{{\"players\"}}')"),
    ("past-head #7", "update head set top = 6, next_prop = 1, next_verb = 1"),
    ("past-head #0", "update head set top = -1, next_prop = 1, next_verb = 1"),
    ("past-head p1", "update head set next_prop = 1, next_verb = 1"),
    ("past-head #4 v1", "update head set next_verb = 1"),
    ("past-head #4 v2", "update head set next_verb = 2"),
    ("past-head #4 v1", "update head set next_verb = 1", "update petition_head set next_petition = 1"),
    ("past-head r1", "update petition_head set next_petition = 1"),
    ("past-head r2", "update petition_head set next_petition = 2", "update object set parent = 9 where n = 6"),
    ("bad-cell r2", "update petition_head set next_petition = 1", "update petition set who = 2147483648 where id = 2"),
    ("bad-head head", "insert into head values (2, 2, 2, 7, 4, 4)"),
    ("bad-head head", "update head set id = 2, version = 3"),
    ("bad-head head", "insert into head values (2, 3, 2, 7, 4, 4)", "update head set version = 3 where id = 1"),
    ("bad-head head", "delete from petition_head", "update object set name = cast(x'0a' as text)"),
    ("bad-head head", "insert into petition_head values (2, 3)"),
    ("bad-head head", "insert into petition_head values (0, 3)", "update petition set calls = ''"),
    ("bad-head head", "delete from petition_head", "insert into petition_head values (-1, 3)"),
]
# Edits that leave a whole world, and how many objects it has.
HARMLESS = [
    ("the greatest number of batches", 2**63 - 1, 8, "update head set seq = 9223372036854775807"),
    ("no batch", 0, 8, "update head set seq = 0"),
    ("an object without a parent", 3, 8, "update object set parent = -1 where n = 0"),
    ("an object more", 3, 9, "update head set top = 8", inserted("object", thing(8))),
    ("an object less", 3, 7, "delete from object where n = 0"),
    ("no object", 3, 0, "update head set top = -1", *(f"delete from {table}" for table in ("object", "prop", "slot2", "verb"))),
    ("the same name in another branch", 3, 8, "update prop set name = 'a' where id = 3"),
    ("rows that stand in another order", 3, 8, "update slot2 set rowid = -rowid", "update verb set rowid = 9 - rowid"),
    ("no petition", 3, 8, "delete from petition"),
    ("no petition, and the first number", 3, 8, "delete from petition", "update petition_head set next_petition = 1"),
    ("the last petition alone", 3, 8, "delete from petition where id = 1"),
    ("a petition more", 3, 8, "update petition_head set next_petition = 10", "insert into petition values (9, 99, '{{\"sing\"}}')"),
    (
        "the greatest number of a petition", 3, 8, "update petition_head set next_petition = 4294967295",
        "update petition set id = 4294967294 where id = 2"
    ),
    (
        "the greatest numbers", 3, 8,
        "update head set top = 2147483647, next_prop = 4294967295, next_verb = 4294967295", "update prop set id = 4294967294 where id = 3",
        "update slot2 set prop = 4294967294 where prop = 3", "update verb set id = 4294967294 where id = 3",
    ),
]
NEWER = [
    ("a newer version whose counters are none", "update head set version = 3, seq = -1, top = -2, next_prop = 0, next_verb = 0"),
    ("the newest version", "update head set version = 9223372036854775807"),
    ("a newer version of other rows", "update head set version = 3", "delete from object", "update slot2 set bits = 8"),
    (
        "a newer version without the number of the next petition", "update head set version = 3", "delete from petition_head",
        "update petition set calls = ''"
    ),
]


def edited(*statements):
    file = copied("world.db")
    edit(file, *statements)
    return file


def judged(file, said):
    """What is said of a file, and that it stays as it is, beside what should be."""
    before, line = rows_of(file), (3, f"moo: {said}\n")
    came = [run("check", file), run("dump", file), run("apply", file, "-", text="batch as #3\nend\n"), rows_of(file)]
    return came, [line, line, line, before]


def put(table, column, row, value):
    """A statement that puts a value into a cell."""
    where = f"rowid = {row}" if row.isdigit() else row
    return f"update {table} set {column} = {'?' if isinstance(value, int) else 'cast(? as text)'} where {where}", (value,)


class Cells(ProgramTest):
    def setUp(self):
        super().setUp()
        make("world.db", VERBS + ASKED)

    def test_single_cells(self):
        for table, column, row, key, good, bad in CELLS:
            wrong = [value for value in good if run("check", edited(put(table, column, row, value))) != WHOLE]
            self.case(f"{len(good)} cells that can be read as {column} of {table}", wrong, [])
            kind = "bad-head" if key == "head" else "bad-cell"
            said = (3, f"moo: damaged {kind} {key}\n")
            wrong = [value for value in bad if run("check", edited(put(table, column, row, value))) != said]
            self.case(f"{len(bad)} that can't be {column} of {table}, each of which is {kind} {key}", wrong, [])

    def test_keys(self):
        for said, *statements in KEYS + SEVERAL:
            self.case(f"damaged {said}: {'; '.join(statements)}", *judged(edited(*statements), f"damaged {said}"))

    def test_order(self):
        for at, (said, _) in enumerate(IN_ORDER):
            statements = [statement for _, statement in reversed(IN_ORDER[at:])]
            self.case(f"{said}, before {len(statements) - 1} kinds that come behind it", *judged(edited(*statements), said))

    def test_harmless(self):
        for name, seq, objects, *statements in HARMLESS:
            self.case(f"{name} is no damage", run("check", edited(*statements)), (0, f"ok seq {seq} objects {objects}\n"))
        for name, *statements in NEWER:
            self.case(name, *judged(edited(*statements), "newer version"))
