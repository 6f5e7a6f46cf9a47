"""Accept lists, made of verbs `accept` that only say yes or no or name classes.

    return 1;                                               what is under the objects without a parent: anything
    return 0;                                               nothing; so does a verb without a program
    return isa(args[1], $thing) || args[1] == #7;           what is under #0.thing, and #7

An object with another verb `accept` accepts nothing, so that nothing comes in which the verb would keep out. Remarks, and a name for the
first argument, may come before the `return`.
"""

from __future__ import annotations

import re
from collections.abc import Mapping
from typing import Optional

from lambdamoo.database import Database, Verb
from lambdamoo.links import owed_to_each
from lambdamoo.losses import OTHER_ACCEPTS, Losses
from lambdamoo.words import NOTHING, VERB_RIGHTS
from moolib.slots import matches

LONGEST_LIST = 1000
REMARK = re.compile(r'\s*"(?:[^"\\]|\\.)*"\s*;')
NAMING = re.compile(r"\s*(?:([A-Za-z_]\w*)\s*=\s*args\[1\]|\{\s*([A-Za-z_]\w*)\s*(?:,\s*@\w+\s*)?\}\s*=\s*args)\s*;")
RETURN = re.compile(r"\s*return\b\s*([^;]*?)\s*;\s*")
THING = r"#(\d{1,10})|\$(\w+)"


class Accepting:
    """The accept lists of a database, by the numbers of objects: `lists` has the literal of each."""

    def __init__(self, database: Database, losses: Losses) -> None:
        self.things = database.things
        self.parents = [thing.parent for thing in self.things.values()]
        self.names = self.names_of_zero(database)
        self.lists: dict[int, str] = {}
        for number, thing in self.things.items():
            place = next((place for place, verb in enumerate(thing.verbs) if self.is_asked(verb)), None)
            if place is None:
                continue
            found = self.accepted(" ".join(database.programs.get((number, place), ())))
            if found is None or len(found) > LONGEST_LIST:
                losses.note(OTHER_ACCEPTS, f"#{number}:{place}, line {thing.verbs[place].line}")
                found = []
            self.lists[number] = "{" + ", ".join(f"#{each}" for each in found) + "}"

    @staticmethod
    def is_asked(verb: Verb) -> bool:
        """Whether LambdaMOO's `move` calls a verb: one that has `x`, under a name that matches `accept`."""
        return bool(verb.rights & VERB_RIGHTS["x"]) and any(matches(name, "accept") for name in verb.names.split(" ") if name)

    @staticmethod
    def names_of_zero(database: Database) -> Mapping[str, str]:
        """The properties of #0 that `$name` stands for, in small letters, with their literals."""
        zero = database.things.get(0)
        if zero is None:
            return {}
        parents = {number: thing.parent for number, thing in database.things.items()}
        owed = owed_to_each(parents, {number: thing.defines for number, thing in database.things.items()})[0]
        return {name.lower(): value for name, (value, _, _) in zip(owed, zero.values) if value is not None}

    def accepted(self, code: str) -> Optional[list[int]]:
        """The objects that a program accepts, with what is under them; None if it does more."""
        place, given = 0, [r"args\[1\]"]
        while True:
            remark, naming = REMARK.match(code, place), NAMING.match(code, place)
            if naming:
                given.append(naming[1] or naming[2])
            found = remark or naming
            if not found:
                break
            place = found.end()
        if not code[place:].strip():
            return []
        returned = RETURN.fullmatch(code, place)
        if not returned:
            return None
        answer = returned[1] or "0"
        if re.fullmatch(r"-?\d+", answer):
            return [number for number, thing in self.things.items() if thing.parent == NOTHING] if int(answer) else []
        classes = [self.named(part.strip(), "|".join(given)) for part in answer.split("||")]
        return None if None in classes else [each for each in dict.fromkeys(classes) if each is not None]

    def named(self, part: str, given: str) -> Optional[int]:
        """The object that a part of an answer names; None if the part does more."""
        isa = re.fullmatch(rf"(?:\$(?:object_utils|ou):)?isa\(\s*(?:{given})\s*,\s*(?:{THING})\s*\)", part)
        same = re.fullmatch(rf"(?:{given})\s*==\s*(?:{THING})", part)
        found = isa or same
        if not found:
            return None
        literal = f"#{found[1]}" if found[1] else self.names.get(found[2].lower(), "")
        number = int(literal[1:]) if re.fullmatch(r"#\d+", literal) else NOTHING
        # A list takes what is under an object too, and `==` only that itself.
        return number if number in self.things and not (same and number in self.parents) else None
