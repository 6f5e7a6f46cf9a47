"""What two dumps show: whether their worlds are alike to a programmer, and in how many lines they differ all the same.

A dump writes each value in one way, so that two values are the same if their texts are.
"""

from __future__ import annotations

import re
from typing import Iterator, NamedTuple, Optional

STRING = r'"(?:[^"\\]|\\.)*"'
# A number, a name, an owner and a parent; an object, a definer, a name, an owner, perms, and a value if there is one; an object, names, an owner
# and perms; a number and who made it.
OBJECT = re.compile(rf"object \{{#(-?\d+), {STRING}, #-?\d+, #(-?\d+),")
SLOT = re.compile(rf"slot \{{#(-?\d+), #(-?\d+), ({STRING}), #(-?\d+), \"([rwc]*)\", [01](?:, (.*))?\}}")
VERB = re.compile(rf"verb \{{(#-?\d+, {STRING}), #(-?\d+), \"([rwxd]*)\",")
PETITION = re.compile(r"petition \{(\d+), #(-?\d+),")


class SlotLine(NamedTuple):
    """A slot: where it is and what it is of, its owner, its perms, and its value; None if it is clear."""

    object: int
    of: tuple[str, str]
    owner: int
    perms: str
    value: Optional[str]


def read_slot(line: str) -> SlotLine:
    """A line of a slot."""
    found = SLOT.fullmatch(line)
    assert found, line
    return SlotLine(int(found[1]), (found[2], found[3]), int(found[4]), found[5], found[6])


class Dump:
    """A dump, read: its lines, the parents of objects, and its slots by their lines."""

    def __init__(self, text: str) -> None:
        self.lines = text.splitlines()
        self.parents = {int(found[1]): int(found[2]) for found in map(OBJECT.match, self.lines) if found}
        self.slots = {line: read_slot(line) for line in self.lines if line.startswith("slot ")}
        self.at = {(slot.object, slot.of): slot for slot in self.slots.values()}

    def read(self, slot: SlotLine) -> str:
        """What a slot reads: its value, or that of the nearest ancestor that has one."""
        while slot.value is None:
            slot = self.at[self.parents[slot.object], slot.of]
        return slot.value


def differences(programmer: int, one: Dump, other: Dump) -> Iterator[str]:
    """Where two dumps aren't alike to somebody who isn't a wizard."""
    if len(one.lines) != len(other.lines):
        yield f"{len(one.lines)} lines and {len(other.lines)}"
        return
    for line, twin in zip(one.lines, other.lines):
        if line.startswith("slot ") and twin.startswith("slot "):
            is_alike = slots_alike(programmer, one, other, (one.slots[line], other.slots[twin]))
        else:
            is_alike = line == twin or is_secret(programmer, line, twin)
        if not is_alike:
            yield f"{line} / {twin}"


def slots_alike(programmer: int, one: Dump, other: Dump, both: tuple[SlotLine, SlotLine]) -> bool:
    """Whether two slots are the same, and read the same, but for what the programmer may not read."""
    slot, twin = both
    if slot[:2] != twin[:2]:
        return False
    if any(each.owner == programmer or "r" in each.perms for each in both):
        return slot[2:4] == twin[2:4] and (slot.value is None) == (twin.value is None) and one.read(slot) == other.read(twin)
    return ("w" in slot.perms) == ("w" in twin.perms)


def is_secret(programmer: int, line: str, twin: str) -> bool:
    """Whether two lines are of one verb that the programmer may neither read nor write, or of one petition of others."""
    verbs = VERB.match(line), VERB.match(twin)
    if verbs[0] and verbs[1]:
        return verbs[0][1] == verbs[1][1] and not any(found and (int(found[2]) == programmer or {"r", "w"} & {*found[3]}) for found in verbs)
    petitions = PETITION.match(line), PETITION.match(twin)
    if petitions[0] and petitions[1]:
        return petitions[0][1] == petitions[1][1] and str(programmer) not in (petitions[0][2], petitions[1][2])
    return False


def hidden(one: Dump, other: Dump) -> int:
    """In how many lines two dumps differ."""
    return sum(line != twin for line, twin in zip(one.lines, other.lines))
