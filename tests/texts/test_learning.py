"""What a call tells a programmer beyond what they may read: each thing that CALLS lists, by two worlds that differ in it alone.

In each row the reads that would show the difference are refused in both worlds, and a call that the programmer may make is answered otherwise.
Random worlds that are alike, with none of these differences, are those of tests/requests/test_alike.py.
"""

from __future__ import annotations

from typing import NamedTuple

from tests.support.cases import ProgramTest
from tests.support.program import edit
from tests.support.worlds import make, run, text_of

# #4 is the programmer, #5 is somebody else, and both own themselves. #6 and #7 are the wizard's; all may make objects under #6.
PEOPLE = text_of(["create(#1, #-1)", "create(#1, #-1)", "create(#1)", 'set(#6, "f", 1)', "create(#1)"])
ASKED = 'petition({{"players"}})'


class Teller(NamedTuple):
    """What is told; what a wizard does in the one world and in the other; what is refused in both, and how; and what is asked, with the last reply
    in each world."""

    name: str
    one: list[str]
    other: list[str]
    refused: list[tuple[str, str]]
    asked: list[list[str]]
    replies: tuple[str, str]


def values(*calls: str) -> tuple[list[str], list[str]]:
    """Calls with a value left open, which is 0 in the one world and 1000 in the other."""
    return [call.replace("VALUE", "0") for call in calls], [call.replace("VALUE", "1000") for call in calls]


def hides(*slots: str) -> list[tuple[str, str]]:
    """These may not be read."""
    return [(f"get({slot})", "E_PERM") for slot in slots]


SECRET = '"secret"'
UNLISTED = [("properties(#5)", "E_PERM"), ("verbs(#5)", "E_PERM")]
NOTHING = ["valid(#1)"]
# What a call tells of what the programmer may not read.
TOLD = [
    Teller(
        "E_QUOTA: whether one's quota is used up",
        *values('add_property(#4, "ownership_quota", VALUE, {#3, ""})'),
        hides('#4, "ownership_quota"'), [["create(#1)"]], ("refused E_QUOTA", "#8"),
    ),
    Teller(
        "E_QUOTA: whether the value of a property that one may rename is an integer above 0",
        *values(
            "chparent(#4, #7)", 'add_property(#7, "secret", 0, {#3, "w"})', 'set(#4, "secret", VALUE)',
            'set_property_info(#4, "secret", {#3, ""})',
        ),
        hides(f"#4, {SECRET}"),
        [['set_property_info(#7, "secret", {#3, "w", "ownership_quota"})'], ["create(#1)"]], ("refused E_QUOTA", "#8"),
    ),
    Teller(
        "E_QUOTA: the same of what an object reads under which one puts oneself",
        *values('add_property(#6, "ownership_quota", VALUE, {#3, ""})'),
        hides('#6, "ownership_quota"'), [["chparent(#4, #6)"], ["create(#1)"]], ("refused E_QUOTA", "#8"),
    ),
    Teller(
        "E_PROPNF: whether an object has a property of a name, which one may not list",
        NOTHING, ['add_property(#5, "secret", 1, {#5, ""})'],
        UNLISTED, [['get(#5, "secret")']], ("refused E_PROPNF", "refused E_PERM"),
    ),
    Teller(
        "E_INVARG of add_property: whether an object above or below defines the name",
        ["chparent(#5, #4)"], ["chparent(#5, #4)", 'add_property(#5, "secret", 1, {#5, ""})'],
        UNLISTED, [['add_property(#4, "secret", 1, {#4, ""})']], ("0", "refused E_INVARG"),
    ),
    Teller(
        "E_INVARG of set_property_info with a new name: the same",
        ["chparent(#5, #4)", 'add_property(#4, "own", 1, {#4, ""})'],
        ["chparent(#5, #4)", 'add_property(#4, "own", 1, {#4, ""})', 'add_property(#5, "secret", 1, {#5, ""})'],
        UNLISTED, [['set_property_info(#4, "own", {#4, "", "secret"})']], ("0", "refused E_INVARG"),
    ),
    Teller(
        "E_INVARG of chparent: whether both sides define a name",
        ['add_property(#4, "own", 1, {#4, ""})'], ['add_property(#4, "own", 1, {#4, ""})', 'add_property(#6, "own", 1, {#3, ""})'],
        [("properties(#6)", "E_PERM")], [["chparent(#4, #6)"]], ("0", "refused E_INVARG"),
    ),
    Teller(
        "E_VERBNF: whether an object has a verb of a name, which one may not list",
        NOTHING, ['add_verb(#5, {#5, "", "look"}, {"any", "any", "any"})'],
        UNLISTED, [['verb_info(#5, "look")']], ("refused E_VERBNF", "refused E_PERM"),
    ),
    Teller(
        "E_VERBNF: how many verbs an object has",
        NOTHING, ['add_verb(#5, {#5, "", "look"}, {"any", "any", "any"})'],
        UNLISTED, [["verb_args(#5, 1)"]], ("refused E_VERBNF", "refused E_PERM"),
    ),
    Teller(
        "E_INVARG of decline: whether a petition of a number is there",
        [ASKED, "decline(1)"], [ASKED], [], [["decline(1)"]], ("refused E_INVARG", "refused E_PERM"),
    ),
    Teller("petition: how many petitions were made", [ASKED, "decline(1)"], NOTHING, [], [[ASKED]], ("2", "1")),
    Teller(
        "max_object: how many objects were made, also if they are recycled",
        ["create(#1)", "recycle(#8)"], NOTHING, [], [["max_object()"]], ("#8", "#7"),
    ),
]  # fmt: skip
# How a programmer comes to read what they may not read at first.
COMES = [
    Teller(
        "a value with c, by a child of one's own",
        *values('add_property(#6, "secret", VALUE, {#3, "c"})'),
        hides(f"#6, {SECRET}"), [["create(#6)"], ['get(#8, "secret")']], ("0", "1000"),
    ),
    Teller(
        "a value with c, by an object of one's own that is put below",
        *values('add_property(#6, "secret", VALUE, {#3, "c"})'),
        hides(f"#6, {SECRET}"), [["chparent(#4, #6)"], ['get(#4, "secret")']], ("0", "1000"),
    ),
    Teller(
        "a value with w, by an r that one gives it",
        *values('add_property(#7, "secret", VALUE, {#3, "w"})'),
        hides(f"#7, {SECRET}"), [['set_property_info(#7, "secret", {#3, "rw"})'], ['get(#7, "secret")']], ("0", "1000"),
    ),
    Teller(
        "a value above a slot that one may write, by clearing that",
        *values(
            "chparent(#5, #7)", 'add_property(#7, "secret", VALUE, {#3, ""})', 'set(#5, "secret", 5)',
            'set_property_info(#5, "secret", {#3, "rw"})',
        ),
        hides(f"#7, {SECRET}"), [['clear_property(#5, "secret")'], ['get(#5, "secret")']], ("0", "1000"),
    ),
    Teller(
        "a value above an object of one's own, by recycling that",
        *values(
            "create(#7, #4)", "create(#8)", 'add_property(#7, "secret", VALUE, {#3, ""})', 'set(#8, "secret", 5)',
            'set_property_info(#9, "secret", {#3, "r"})',
        ),
        hides(f"#7, {SECRET}", f"#8, {SECRET}"), [["recycle(#8)"], ['get(#9, "secret")']], ("0", "1000"),
    ),
    Teller(
        "a value of an object under which one may put one's own, which has a clear slot to read",
        *values(
            "chparent(#6, #7)", "create(#7, #4)", 'add_property(#7, "secret", 5, {#3, ""})', 'set(#6, "secret", VALUE)',
            'set_property_info(#8, "secret", {#3, "r"})',
        ),
        hides(f"#6, {SECRET}"), [["chparent(#8, #6)"], ['get(#8, "secret")']], ("0", "1000"),
    ),
]  # fmt: skip


def last(written: str) -> str:
    """The last answer of a text, or `refused` with the error of its last batch."""
    *_, line, end = [""] + written.splitlines()
    return line if end == "end" else f"refused {end.split()[-1]}"


class Learning(ProgramTest):
    def world(self, file: str, calls: list[str]) -> None:
        """A world of these people, and what a wizard did in it."""
        make(file, PEOPLE + text_of(calls))

    def told(self, teller: Teller) -> None:
        """What may not be read is refused in both worlds, and what is asked is answered otherwise in each."""
        for file, calls, wanted in (("one.db", teller.one, teller.replies[0]), ("other.db", teller.other, teller.replies[1])):
            self.world(file, calls)
            for call, error in teller.refused:
                self.case(f"{teller.name}: {call} in {file}", run("ask", file, "-", text=text_of([call], "#4"))[1], f"refused 1 {error}\n")
            asked = "".join(text_of(batch, "#4") for batch in teller.asked)
            self.case(f"{teller.name}: {file}", last(run("apply", file, "-", text=asked)[1]), wanted)

    def test_told(self):
        for teller in TOLD:
            self.told(teller)

    def test_comes_to_read(self):
        for teller in COMES:
            self.told(teller)

    def test_numbers_used_up(self):
        """`full` tells that all numbers of properties, verbs or petitions were given."""
        rows = [
            ("properties", "update head set next_prop = 4294967295", 'add_property(#4, "own", 1, {#4, ""})', "0"),
            ("verbs", "update head set next_verb = 4294967295", 'add_verb(#4, {#4, "", "own"}, {"any", "any", "any"})', "0"),
            ("petitions", "update petition_head set next_petition = 4294967295", ASKED, "1"),
        ]
        for name, change, call, answer in rows:
            self.world("one.db", NOTHING)
            self.case(f"{name}: one is left", last(run("ask", "one.db", "-", text=text_of([call], "#4"))[1]), answer)
            edit("one.db", change)
            self.case(f"{name}: none is left", run("ask", "one.db", "-", text=text_of([call], "#4"))[1], "full 1\n")

    def test_accepted_batches(self):
        """The number of a reply tells how many batches of anybody were accepted."""
        for file, more in (("one.db", 0), ("other.db", 3)):
            make(file, PEOPLE + text_of(NOTHING) * more)
            self.case(f"an answer in {file}", run("ask", file, "-", text=text_of([], "#4"))[1], f"accepted {1 + more}\nend\n")
            self.case(f"another number in {file}", run("ask", file, "-", text=text_of([], "#4 at 9"))[1], f"stale {1 + more}\n")
