"""Batches, and the rows that each has to change: for test_tables. The head of a changed world is given, and of each table the rows that go
and the rows that come; a row that is replaced does both. Nothing else may be written."""
from __future__ import annotations

from tests.support.columns import OPENING_OBJECTS, Row, thing
from tests.support.worlds import PETITIONS, TREE, VERBS, Tables

# The table that is made, and neither read nor written after that; and those of petitions if nobody has asked yet.
UNREAD: Tables = {"slot": []}
NONE_ASKED: Tables = {"petition": [], "petition_head": [(1, 1)]}
OPENING: Tables = UNREAD | NONE_ASKED | {
    "head": [(1, 2, 0, 3, 1, 1)],
    "object": OPENING_OBJECTS,
    "prop": [],
    "slot2": [],
    "verb": [],
}
OF_TREE: Tables = UNREAD | NONE_ASKED | {
    "head": [(1, 2, 1, 7, 4, 1)],
    "object": OPENING["object"] + [thing(4), thing(5, parent=4), thing(6, parent=5), thing(7)],
    "prop": [(1, 4, "a"), (2, 5, "b"), (3, 7, "c")],
    "slot2": [(4, 1, 3, 4, "10"), (5, 1, 3, 4, ""), (5, 2, 3, 4, "20"), (6, 1, 3, 4, ""), (6, 2, 3, 4, "21"), (7, 3, 3, 4, "30")],
    "verb": [],
}
GET_TAKE: Row = (4, 1, "get take", 3, "rd", "any", "in/inside/into", "this")
LOOK: Row = (4, 2, "l*ook", 3, "rwx", "this", "none", "none")
PUT: Row = (5, 3, "put", 3, "", "any", "any", "any")
OF_VERBS: Tables = OF_TREE | {"head": [(1, 2, 2, 7, 4, 4)], "verb": [GET_TAKE, LOOK, PUT]}
TO_CREATE: Row = (1, 4, '{{"create", #1, #4}, {"set_player_flag", #4, 1}}')
TO_SET: Row = (2, 4, '{{"set", #6, "b", {22, "x\\"y"}}}')
OF_PETITIONS: Tables = OF_TREE | {"head": [(1, 2, 2, 7, 4, 1)], "petition": [TO_CREATE, TO_SET], "petition_head": [(1, 3)]}
QUOTA = """batch as #3
add_property(#3, "ownership_quota", 2, {#3, ""})
move(#2, #0)
end
"""
OF_QUOTA: Tables = OPENING | {
    "head": [(1, 2, 1, 3, 2, 1)],
    "object": [thing(2, "The First Room", location=0, accept="{#1}") if row[0] == 2 else row for row in OPENING["object"]],
    "prop": [(1, 3, "ownership_quota")],
    "slot2": [(3, 1, 3, 0, "2")],
}
# The worlds that batches begin with: the text that makes one, and its rows.
WORLDS: dict[str, tuple[str, Tables]] = {
    "new": ("", OPENING), "tree": (TREE, OF_TREE), "verbs": (VERBS, OF_VERBS), "quota": (QUOTA, OF_QUOTA),
    "petitions": (PETITIONS, OF_PETITIONS),
}

FOUR, FIVE, SIX, SEVEN = OF_TREE["object"][4:]
A4, A5, B5, A6, B6, C7 = OF_TREE["slot2"]
# What is shown, the world, the calls, their answers; the last three numbers of the next head, and the rows that go and that come.
CHANGES: list[tuple[str, str, list[str], str, tuple[int, int, int], Tables, Tables]] = [
    (
        "a batch that was accepted is in the tables",
        "new", ["create(#1)", 'set(#4, "name", "Lantern")'], "#4 0", (4, 1, 1),
        {}, {"object": [thing(4, "Lantern")]},
    ),
    ("no call changes the head alone", "tree", [], "", (7, 4, 1), {}, {}),
    ("so do calls that read", "tree", ["max_object()", 'get(#6, "b")', "children(#4)"], "#7 21 {#5}", (7, 4, 1), {}, {}),
    (
        "a change of parent changes one object and four slots",
        "tree", ["chparent(#5, #7)"], "0", (7, 4, 1),
        {"object": [FIVE], "slot2": [A5, A6]},
        {"object": [thing(5, parent=7)], "slot2": [(5, 3, 3, 4, ""), (6, 3, 3, 4, "")]},
    ),
    ("a move there and back changes the head alone", "tree", ["chparent(#5, #7)", "chparent(#5, #4)"], "0 0", (7, 4, 1), {}, {}),
    ("so does a move to where it is", "tree", ["chparent(#5, #4)", "move(#5, #-1)"], "0 0", (7, 4, 1), {}, {}),
    (
        "a move to no parent takes what was inherited",
        "tree", ["chparent(#6, #-1)"], "0", (7, 4, 1),
        {"object": [SIX], "slot2": [A6, B6]}, {"object": [thing(6, parent=-1)]},
    ),
    (
        "a new object has its slots",
        "tree", ["create(#6)"], "#8", (8, 4, 1),
        {}, {"object": [thing(8, parent=6)], "slot2": [(8, 1, 3, 4, ""), (8, 2, 3, 4, "")]},
    ),
    ("an object that came and went leaves its number", "tree", ["create(#6)", "recycle(#8)"], "#8 0", (8, 4, 1), {}, {}),
    ("one owns itself", "new", ["create(#1, #-1)"], "#4", (4, 1, 1), {}, {"object": [thing(4, owner=4)]}),
    (
        "an object that goes takes its properties and slots, and its child moves up",
        "tree", ["recycle(#5)"], "0", (7, 4, 1),
        {"object": [FIVE, SIX], "prop": [(2, 5, "b")], "slot2": [A5, B5, B6]}, {"object": [thing(6, parent=4)]},
    ),
    ("it takes its verbs", "verbs", ["recycle(#5)"], "0", (7, 4, 4),
        {"object": [FIVE, SIX], "prop": [(2, 5, "b")], "slot2": [A5, B5, B6], "verb": [PUT]}, {"object": [thing(6, parent=4)]},
    ),
    (
        "what lay in it lies nowhere",
        "quota", ["recycle(#0)"], "0", (3, 2, 1),
        {"object": [thing(0, "System Object"), thing(2, "The First Room", location=0, accept="{#1}")], "slot2": [(3, 1, 3, 0, "2")]},
        {"object": [thing(2, "The First Room", accept="{#1}")], "slot2": [(3, 1, 3, 0, "3")]},
    ),
    (
        "a quota goes down by each object that is made",
        "quota", ["create(#1)", "create(#4)"], "#4 #5", (5, 2, 1),
        {"slot2": [(3, 1, 3, 0, "2")]}, {"object": [thing(4), thing(5, parent=4)], "slot2": [(3, 1, 3, 0, "0")]},
    ),
    (
        "a name is set", "tree", ['set(#4, "name", "Lan\ttern \\"x\\"")'], "0", (7, 4, 1), {"object": [FOUR]},
        {"object": [thing(4, 'Lan\ttern "x"')]}
    ),
    ("a name that it has changes the head alone", "tree", ['set(#4, "name", "")', 'set(#6, "b", 21)'], "0 0", (7, 4, 1), {}, {}),
    ("an owner is set", "tree", ['set(#4, "owner", #5)'], "0", (7, 4, 1), {"object": [FOUR]}, {"object": [thing(4, owner=5)]}),
    ("a place is changed", "tree", ["move(#4, #2)"], "0", (7, 4, 1), {"object": [FOUR]}, {"object": [thing(4, location=2)]}),
    ("a player is marked", "tree", ["set_player_flag(#4, 1)"], "0", (7, 4, 1), {"object": [FOUR]}, {"object": [thing(4, player=1)]}),
    *(
        (
            f"the mark {flag} is set", "tree", [f'set(#4, "{flag}", 1)'], "0", (7, 4, 1), {"object": [FOUR]},
            {"object": [thing(4, "", **{flag: 1})]}
        )
        for flag in ("programmer", "wizard", "r", "w", "f")
    ),
    (
        "an accept list is set", "tree", ["set_accept(#4, {#1,#5})"], "0", (7, 4, 1), {"object": [FOUR]},
        {"object": [thing(4, accept="{#1, #5}")]}
    ),
    ("an empty one is a list too", "tree", ["set_accept(#4, {})"], "0", (7, 4, 1), {"object": [FOUR]}, {"object": [thing(4, accept="{}")]}),
    (
        "an accept list is taken away",
        "new", ["set_accept(#2, 0)"], "0", (3, 1, 1),
        {"object": [thing(2, "The First Room", accept="{#1}")]}, {"object": [thing(2, "The First Room")]},
    ),
    (
        "a value is set, as the literal that is printed",
        "tree", ['set(#6, "A", {1,{"x\\"y",#4} , e_perm,-7})'], "0", (7, 4, 1),
        {"slot2": [A6]}, {"slot2": [(6, 1, 3, 4, '{1, {"x\\"y", #4}, E_PERM, -7}')]},
    ),
    (
        "slots that are there change between new ones and after them",
        "tree", ['add_property(#4, "d", 1, {#3, "r"})', 'set(#6, "b", 22)', 'set(#7, "c", 31)'], "0 0 0", (7, 5, 1),
        {"slot2": [B6, C7]},
        {"prop": [(4, 4, "d")], "slot2": [(4, 4, 3, 4, "1"), (5, 4, 3, 4, ""), (6, 2, 3, 4, "22"), (6, 4, 3, 4, ""), (7, 3, 3, 4, "31")]},
    ),
    (
        "a verb that is there changes after a new one",
        "verbs", ['add_verb(#4, {#3, "", "drop"}, {"none", "none", "none"})', 'set_verb_args(#5, 1, {"this", "any", "any"})'], "0 0",
        (7, 4, 5),
        {"verb": [PUT]}, {"verb": [(4, 4, "drop", 3, "", "none", "none", "none"), (5, 3, "put", 3, "", "this", "any", "any")]},
    ),
    ("a slot is cleared", "tree", ['clear_property(#6, "b")'], "0", (7, 4, 1), {"slot2": [B6]}, {"slot2": [(6, 2, 3, 4, "")]}),
    (
        "a new property has a slot on all that is under it, which its letter c gives to the owner there",
        "tree", ['set(#6, "owner", #4)', 'add_property(#4, "d", "t", {#5, "CWR"})'], "0 0", (7, 5, 1),
        {"object": [SIX]},
        {
            "object": [thing(6, parent=5, owner=4)], "prop": [(4, 4, "d")],
            "slot2": [(4, 4, 5, 7, '"t"'), (5, 4, 3, 7, ""), (6, 4, 4, 7, "")],
        },
    ),
    (
        "without that letter its owner is the property's",
        "tree", ['add_property(#5, "d", 0, {#7, ""})'], "0", (7, 5, 1),
        {}, {"prop": [(4, 5, "d")], "slot2": [(5, 4, 7, 0, "0"), (6, 4, 7, 0, "")]},
    ),
    (
        "a property that came and went leaves its number", "tree", ['add_property(#4, "d", 1, {#3, ""})', 'delete_property(#4, "d")'],
        "0 0", (7, 5, 1), {}, {}
    ),
    (
        "a property that goes takes its slots",
        "tree", ['delete_property(#5, "B")'], "0", (7, 4, 1), {"prop": [(2, 5, "b")], "slot2": [B5, B6]}, {},
    ),
    (
        "a property of another name keeps its number",
        "tree", ['set_property_info(#4, "a", {#3, "rw", "A2"})'], "0", (7, 4, 1),
        {"prop": [(1, 4, "a")], "slot2": [A4]}, {"prop": [(1, 4, "A2")], "slot2": [(4, 1, 3, 6, "10")]},
    ),
    (
        "the owner and the letters of a slot are set",
        "tree", ['set_property_info(#6, "b", {#5, "c"})'], "0", (7, 4, 1), {"slot2": [B6]}, {"slot2": [(6, 2, 5, 1, "21")]},
    ),
    (
        "a new verb has its number, and its preposition as the whole set",
        "tree", ['add_verb(#4, {#3, "dr", "get take"}, {"any", "in", "this"})'], "0", (7, 4, 2),
        {}, {"verb": [(4, 1, "get take", 3, "rd", "any", "in/inside/into", "this")]},
    ),
    (
        "a verb that came and went leaves its number", "verbs",
        ['add_verb(#6, {#3, "", "x"}, {"none", "none", "none"})', "delete_verb(#6, 1)"], "0 0", (7, 4, 5), {}, {}
    ),
    (
        "the names, the owner and the letters of a verb are set",
        "verbs", ['set_verb_info(#4, 1, {#5, "xw", "give"})'], "0", (7, 4, 4),
        {"verb": [GET_TAKE]}, {"verb": [(4, 1, "give", 5, "wx", "any", "in/inside/into", "this")]},
    ),
    (
        "so is what it takes",
        "verbs", ['set_verb_args(#4, "look", {"none", "Upon", "ANY"})'], "0", (7, 4, 4),
        {"verb": [LOOK]}, {"verb": [(4, 2, "l*ook", 3, "rwx", "none", "on top of/on/onto/upon", "any")]},
    ),
    ("a verb that goes leaves the others their numbers", "verbs", ["delete_verb(#4, 1)"], "0", (7, 4, 4), {"verb": [GET_TAKE]}, {}),
    (
        "a petition is a row, with its calls as the literal that is printed, and the next one's number rises",
        "tree", ['petition({ {"Create",#1,#04},{"valid",{"x\\"y" ,e_perm,-7}} })'], "1", (7, 4, 1),
        {"petition_head": [(1, 1)]},
        {"petition": [(1, 3, '{{"Create", #1, #4}, {"valid", {"x\\"y", E_PERM, -7}}}')], "petition_head": [(1, 2)]},
    ),
    (
        "each petition has its row",
        "petitions", ['petition({{"players"}})', 'petition({{"max_object"}})'], "3 4", (7, 4, 1),
        {"petition_head": [(1, 3)]},
        {"petition": [(3, 3, '{{"players"}}'), (4, 3, '{{"max_object"}}')], "petition_head": [(1, 5)]},
    ),
    (
        "a grant takes its petition's row away, and leaves the number; its calls change what they change by themselves",
        "petitions", ["grant(1)"], "0", (8, 4, 1),
        {"petition": [TO_CREATE], "object": [FOUR]},
        {"object": [thing(4, player=1), thing(8, owner=4)]},
    ),
    (
        "two grants take two",
        "petitions", ["grant(2)", "grant(1)"], "0 0", (8, 4, 1),
        {"petition": [TO_CREATE, TO_SET], "object": [FOUR], "slot2": [B6]},
        {
            "object": [thing(4, player=1), thing(8, owner=4)],
            "slot2": [(6, 2, 3, 4, '{22, "x\\"y"}')],
        },
    ),
    ("a petition that is declined goes alone", "petitions", ["decline(1)"], "0", (7, 4, 1), {"petition": [TO_CREATE]}, {}),
    (
        "the last of them leaves its number too", "petitions", ["decline(2)", "decline(1)"], "0 0", (7, 4, 1),
        {"petition": [TO_CREATE, TO_SET]}, {}
    ),
    (
        "a petition that came and went leaves its number",
        "tree", ['petition({{"players"}})', "decline(1)"], "1 0", (7, 4, 1), {"petition_head": [(1, 1)]}, {"petition_head": [(1, 2)]},
    ),
    (
        "so does one that is granted in its own batch",
        "tree", ['petition({{"move", #4, #2}})', "grant(1)"], "1 0", (7, 4, 1),
        {"object": [FOUR], "petition_head": [(1, 1)]}, {"object": [thing(4, location=2)], "petition_head": [(1, 2)]},
    ),
    ("calls on the world leave the petitions", "petitions", ["create(#1)", "recycle(#4)"], "#8 0", (8, 4, 1),
        {"object": [FOUR, FIVE], "prop": [(1, 4, "a")], "slot2": [A4, A5, A6]}, {"object": [thing(5), thing(8)]},
    ),
    (
        "of each table a row goes, one is replaced and one comes",
        "verbs",
        [
            'set(#4, "name", "Origin")', "recycle(#7)", "create(#4)", 'set_property_info(#4, "a", {#3, "r", "hue"})',
            'add_property(#6, "d", {}, {#3, "w"})',
            'set(#6, "b", 22)', 'set_verb_info(#4, 2, {#3, "rx", "drop"})', "delete_verb(#4, 1)",
            'add_verb(#8, {#3, "r", "light"}, {"this", "none", "any"})',
        ],
        "0 0 #8 0 0 0 0 0 0", (8, 5, 5),
        {"object": [FOUR, SEVEN], "prop": [(1, 4, "a"), (3, 7, "c")], "slot2": [B6, C7], "verb": [GET_TAKE, LOOK]},
        {
            "object": [thing(4, "Origin"), thing(8, parent=4)], "prop": [(1, 4, "hue"), (4, 6, "d")],
            "slot2": [(6, 2, 3, 4, "22"), (6, 4, 3, 2, "{}"), (8, 1, 3, 4, "")],
            "verb": [(4, 2, "drop", 3, "rx", "this", "none", "none"), (8, 4, "light", 3, "r", "this", "none", "any")],
        },
    ),
]

FIVE_CALLS = ["create(#6)", 'set(#8, "b", 5)', "chparent(#5, #7)", "recycle(#6)"]
# What is shown, the world, the command, the text and its replies. No row of any table may change.
KEPT = [
    (
        "a batch that is refused, on a new world",
        "new", "apply", 'batch as #3\ncreate(#1)\nset(#4, "name", "Lantern")\ncreate(#9)\nend\n', "refused 3 E_PERM\n",
    ),
    (
        "a batch that is refused after calls that changed all", "tree", "apply",
        "\n".join(["batch as #3", *FIVE_CALLS, "create(#99)", "end\n"]), "refused 5 E_PERM\n"
    ),
    (
        "a question of the same", "tree", "ask", "\n".join(["batch as #3", *FIVE_CALLS, "max_object()", "end\n"]),
        "accepted 1\n#8\n0\n0\n0\n#8\nend\n"
    ),
    (
        "a grant that is refused after calls that changed all",
        "petitions", "apply",
        'batch as #3\npetition({{"create", #6}, {"chparent", #5, #7}, {"recycle", #6}, {"recycle", #6}})\ngrant(2)\ngrant(3)\nend\n',
        "refused 3 E_INVARG\n",
    ),
    (
        "a question of grants", "petitions", "ask", "batch as #3\ngrant(2)\ngrant(1)\npetitions()\nmax_object()\nend\n",
        "accepted 2\n0\n0\n{}\n#8\nend\n"
    ),
    (
        "a petition that is refused", "petitions", "apply", 'batch as #4\npetition({{"players"}})\npetition({{"grant", 1}})\nend\n',
        "refused 2 E_INVARG\n"
    ),
    (
        "two questions, of which none sees the other's petition",
        "tree", "ask", 'batch as #3\npetition({{"players"}})\nend\nbatch as #3\ngrant(1)\nend\n',
        "accepted 1\n1\nend\nrefused 1 E_INVARG\n",
    ),
    ("a question of one", "petitions", "ask", 'batch as #4\npetition({{"players"}})\nend\n', "accepted 2\n3\nend\n"),
    (
        "a batch of another number", "tree", "apply", "batch as #3 at 0\ncreate(#1)\nend\nbatch as #3 at 2\ncreate(#1)\nend\n",
        "stale 1\nstale 1\n"
    ),
    ("a batch that can't be read", "tree", "apply", "batch as #3\ncreate(#1)\ncreat(#1)\nend\n", "malformed 3\n"),
    ("a batch without its end", "tree", "apply", "batch as #3\ncreate(#1)\n", "truncated\n"),
    ("no text", "tree", "apply", "", ""),
    ("questions that can't be read", "tree", "ask", "batch as #3\nnope\nend\nbatch as #3\n", "malformed 2\ntruncated\n"),
]
