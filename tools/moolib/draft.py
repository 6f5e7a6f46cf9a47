"""A draft of a world: what its objects, slots and verbs are before each call of a batch, and what that call makes of them.

    draft = Draft(facts, programmer)
    draft.slot(4, "colour")             Slot(3, "rc", "green")
    draft.run(Call.read('set(#4, "colour", "red")'))
    draft.slot(4, "colour")             Slot(3, "rc", "red")

It is of batches that moo accepts: what a call would be refused for isn't looked at. What was there before the batch is read from facts
when it is wanted. A slot is kept with the moments at which it changed, so that what a new object has can be worked out later.
"""

from __future__ import annotations

import collections
from typing import Any, Callable, Optional, Sequence

from moolib.calls import Call
from moolib.facts import Facts
from moolib.slots import (
    BITS, MARKS, PROPERTY_LETTERS, SETTABLE, VERB_LETTERS, Fresh, Slot, State, Verb, is_true, letters_of, matches, number_of, slot_calls,
)  # fmt: skip
from moolib.values import GREATEST_INTEGER, Obj, Value

NOTHING = -1
QUOTA = "ownership_quota"
PETITIONS = "petitions()"


class Draft:
    """The world of the facts, as the calls that were run have left it. `programmer` is who runs them."""

    def __init__(self, facts: Facts, programmer: int) -> None:
        self.facts, self.programmer = facts, programmer
        # The moment: how many calls were run.
        self.now = 0
        self.marks: dict[tuple[int, str], list[tuple[int, Any]]] = {}
        self.slots: dict[tuple[int, str], list[tuple[int, State]]] = {}
        # By an object and the name of a property, the name that it got.
        self.renames: dict[tuple[int, str], str] = {}
        # The objects that were made, each with its parent then and the moment; and those that are gone.
        self.made: dict[int, tuple[int, int]] = {}
        self.gone: set[int] = set()
        # How often the quota of an owner was counted up or down.
        self.charges: collections.Counter[int] = collections.Counter()
        self.definitions: dict[int, list[str]] = {}
        self.under: dict[int, set[int]] = {}
        self.verbs: dict[int, list[Verb]] = {}
        self.petitions: dict[int, list[Call]] = {}
        self.effects: dict[str, Callable[..., None]] = {
            "create": self.create, "chparent": self.chparent, "recycle": self.recycle, "move": self.move, "set": self.set,
            "set_player_flag": self.set_player_flag, "set_accept": self.set_accept, "add_property": self.add_property,
            "delete_property": self.delete_property, "set_property_info": self.set_property_info, "clear_property": self.clear_property,
            "add_verb": self.add_verb, "delete_verb": self.delete_verb, "set_verb_info": self.set_verb_info,
            "set_verb_args": self.set_verb_args,
        }  # fmt: skip

    # What is there

    def mark(self, number: int, key: str, moment: Optional[int] = None) -> Any:
        """What an object has by this name of `MARKS`, at a moment, or now. The numbers of objects are plain ones."""
        for since, value in reversed(self.marks.get((number, key), ())):
            if moment is None or since <= moment:
                return value
        value = self.facts.value(MARKS[key].format(number))
        return value.number if isinstance(value, Obj) else value

    def is_there(self, number: int) -> bool:
        """Whether there is such an object."""
        if number < 0 or number in self.gone:
            return False
        return number in self.made or self.facts.value(f"valid(#{number})") == 1

    def slot(self, number: int, name: str, moment: Optional[int] = None) -> Optional[Slot]:
        """A property on an object, at a moment, or now; None if there is none."""
        for since, state in reversed(self.slots.get((number, name.lower()), ())):
            if moment is None or since <= moment:
                return self.fresh(number, name, state.origin, since) if isinstance(state, Fresh) else state
        if number in self.made:
            origin, since = self.made[number]
            return self.fresh(number, name, origin, since)
        return self.first_slot(number, name)

    def fresh(self, number: int, name: str, origin: int, moment: int) -> Optional[Slot]:
        """A slot that came from this object at a moment."""
        of = self.slot(origin, name, moment) if origin >= 0 else None
        if of is None:
            return None
        return Slot(self.mark(number, "owner", moment) if "c" in of.perms else of.owner, of.perms, None)

    def first_slot(self, number: int, name: str) -> Optional[Slot]:
        """A property on an object before the batch."""
        info, clear, value = map(self.facts.value, slot_calls(number, name))
        return Slot(info[0].number, letters_of(info[1], PROPERTY_LETTERS), None if clear else value) if info else None

    def value(self, number: int, name: str) -> Optional[Value]:
        """What a property reads as on an object now; None if there is none."""
        while (slot := self.slot(number, name)) is not None:
            if slot.value is not None:
                return slot.value
            number = self.mark(number, "parent")
        return None

    def defined(self, number: int) -> list[str]:
        """The properties that an object defines now."""
        if number not in self.definitions:
            names = [] if number in self.made else self.facts.value(f"properties(#{number})")
            self.definitions[number] = list(names or ())
        return self.definitions[number]

    def chain(self, number: int) -> list[int]:
        """An object and its ancestors now, from it up."""
        found: list[int] = []
        while number >= 0:
            found.append(number)
            number = self.mark(number, "parent")
        return found

    def children(self, number: int) -> set[int]:
        """The children of an object now."""
        if number not in self.under:
            first = [] if number in self.made else self.facts.value(f"children(#{number})") or []
            self.under[number] = {child.number for child in first}
        return self.under[number]

    def subtree(self, number: int) -> list[int]:
        """An object and all that is under it now, level by level."""
        found: list[int] = []
        level = [number]
        while level:
            found += level
            self.facts.read(f"children(#{one})" for one in level if one not in self.under and one not in self.made)
            level = sorted(child for one in level for child in self.children(one))
        return found

    def contents(self, number: int) -> list[int]:
        """What is in an object now, ascending."""
        first = [] if number in self.made else self.facts.value(f'get(#{number}, "contents")') or []
        moved = {one for (one, key) in self.marks if key == "location"}
        found = {each.number for each in first} - moved | {one for one in moved if self.mark(one, "location") == number}
        return sorted(found - self.gone)

    def directory(self, number: int) -> list[Verb]:
        """The verbs of an object now, in their order."""
        if number not in self.verbs:
            names = [] if number in self.made else self.facts.value(f"verbs(#{number})")
            self.verbs[number] = [Verb(each, place) for place, each in enumerate(names or (), 1)]
        return self.verbs[number]

    def verb(self, number: int, which: Value) -> Verb:
        """The verb that a number or a word names on an object, with all that it has."""
        directory = self.directory(number)
        if isinstance(which, int):
            verb = directory[which - 1]
        else:
            verb = next(each for each in directory if any(matches(name, str(which)) for name in each.names.split(" ") if name))
        return self.whole(number, verb)

    def whole(self, number: int, verb: Verb) -> Verb:
        """A verb after what wasn't read of it yet is."""
        if verb.info is None:
            info = self.facts.value(f"verb_info(#{number}, {verb.place})")
            verb.info = info[0].number, letters_of(info[1], VERB_LETTERS)
        if verb.args is None:
            verb.args = tuple(self.facts.value(f"verb_args(#{number}, {verb.place})"))
        return verb

    def left_behind(self, number: int, parent: int) -> list[str]:
        """The properties that an object and all under it lose if it gets this parent."""
        kept = self.chain(parent)
        return [name for one in self.chain(number)[1:] if one not in kept for name in self.defined(one)]

    # What calls do

    def run(self, call: Call, answer: str = "") -> None:
        """Does a call, which answers this."""
        self.now += 1
        if call.name == "petition":
            self.petitions[int(answer) if answer.isdigit() else NOTHING] = call.asked
        if call.name == "create":
            made = call.made(answer)
            self.create(self.next_number() if made is None else made, *call.values)
        elif call.name in self.effects:
            self.effects[call.name](number_of(call.values[0]), *call.values[1:])

    def asked_in(self, petition: int) -> list[Call]:
        """The calls of a petition."""
        if petition not in self.petitions:
            for number, _, calls in self.facts.value(PETITIONS) or ():
                self.petitions.setdefault(number, [Call.of(call) for call in calls])
        return self.petitions.get(petition, [])

    def next_number(self) -> int:
        """The number of the next object that is made."""
        return max([number_of(self.facts.value("max_object()")), *self.made]) + 1

    def put_mark(self, number: int, key: str, value: Any) -> None:
        """Changes what an object has by this name of `MARKS`."""
        self.marks.setdefault((number, key), []).append((self.now, value))

    def put_slot(self, number: int, name: str, state: State) -> None:
        """Changes a slot."""
        self.slots.setdefault((number, name.lower()), []).append((self.now, state))

    def put_value(self, number: int, name: str, value: Optional[Value]) -> None:
        """Gives a slot a value of its own, or clears it."""
        slot = self.slot(number, name)
        if slot:
            self.put_slot(number, name, slot._replace(value=value))

    def charge(self, owner: int, amount: int) -> None:
        """Changes a quota, if there is one."""
        quota = self.value(owner, QUOTA) if self.is_there(owner) else None
        if isinstance(quota, int) and quota + amount <= GREATEST_INTEGER:
            self.put_value(owner, QUOTA, quota + amount)
            self.charges[owner] += 1

    def put_under(self, number: int, parent: int) -> None:
        """Gives an object another parent."""
        former = self.mark(number, "parent")
        if former >= 0:
            self.children(former).discard(number)
        if parent >= 0:
            self.children(parent).add(number)
        self.put_mark(number, "parent", parent)

    def create(self, number: int, parent: Value, owner: Optional[Value] = None) -> None:
        """A new object."""
        given = self.programmer if owner is None else number_of(owner)
        self.made[number] = number_of(parent), self.now
        first: dict[str, Any] = {"owner": number if given < 0 else given, "name": "", "location": NOTHING, "accept": 0}
        for key, value in {**first, **dict.fromkeys(BITS, 0), "parent": number_of(parent)}.items():
            self.put_mark(number, key, value)
        if number_of(parent) >= 0:
            self.children(number_of(parent)).add(number)
        if given >= 0:
            self.charge(given, -1)

    def chparent(self, number: int, parent: Value) -> None:
        """Another parent."""
        to = number_of(parent)
        lost, above = self.left_behind(number, to), self.chain(number)
        gained = [name for one in self.chain(to) if one not in above for name in self.defined(one)]
        for one in self.subtree(number):
            for name in lost:
                self.put_slot(one, name, None)
            for name in gained:
                self.put_slot(one, name, Fresh(to))
        self.put_under(number, to)

    def recycle(self, number: int) -> None:
        """An object goes."""
        owner, parent = self.mark(number, "owner"), self.mark(number, "parent")
        for name in [name for one in self.chain(number) for name in self.defined(one)]:
            self.put_slot(number, name, None)
        for one in self.subtree(number)[1:]:
            for name in self.defined(number):
                self.put_slot(one, name, None)
        for child in list(self.children(number)):
            self.put_under(child, parent)
        for one in self.contents(number):
            self.put_mark(one, "location", NOTHING)
        if parent >= 0:
            self.children(parent).discard(number)
        self.gone.add(number)
        self.charge(owner, 1)

    def move(self, number: int, to: Value) -> None:
        """Another place."""
        self.put_mark(number, "location", number_of(to))

    def set(self, number: int, name: str, value: Value) -> None:
        """Another value of a property."""
        key = name.lower()
        if key in SETTABLE:
            self.put_mark(number, key, number_of(value) if key == "owner" else value if key == "name" else is_true(value))
        else:
            self.put_value(number, name, value)

    def set_player_flag(self, number: int, value: Value) -> None:
        """The mark of a player."""
        self.put_mark(number, "player", is_true(value))

    def set_accept(self, number: int, value: Value) -> None:
        """Another accept list."""
        self.put_mark(number, "accept", value)

    def add_property(self, number: int, name: str, value: Value, info: Sequence[Value]) -> None:
        """A new property."""
        for one in self.subtree(number)[1:]:
            self.put_slot(one, name, Fresh(number))
        self.put_slot(number, name, Slot(number_of(info[0]), letters_of(str(info[1]), PROPERTY_LETTERS), value))
        self.defined(number).append(name)

    def delete_property(self, number: int, name: str) -> None:
        """A property goes."""
        for one in self.subtree(number):
            self.put_slot(one, name, None)
        self.definitions[number] = [each for each in self.defined(number) if each.lower() != name.lower()]

    def set_property_info(self, number: int, name: str, info: Sequence[Value]) -> None:
        """Another owner, other letters and perhaps another name of a property."""
        slot = self.slot(number, name)
        assert slot
        self.put_slot(number, name, Slot(number_of(info[0]), letters_of(str(info[1]), PROPERTY_LETTERS), slot.value))
        if len(info) == 3:
            renamed = str(info[2])
            for one in self.subtree(number):
                state = self.slot(one, name)
                self.put_slot(one, name, None)
                self.put_slot(one, renamed, state)
                self.renames[one, name.lower()] = renamed.lower()
            self.definitions[number] = [renamed if each.lower() == name.lower() else each for each in self.defined(number)]

    def clear_property(self, number: int, name: str) -> None:
        """A slot is cleared."""
        self.put_value(number, name, None)

    def add_verb(self, number: int, info: Sequence[Value], args: Sequence[Value]) -> None:
        """A new verb, which is the last one."""
        verb = Verb(str(info[2]), 0, (number_of(info[0]), letters_of(str(info[1]), VERB_LETTERS)), tuple(map(str, args)))
        self.directory(number).append(verb)

    def delete_verb(self, number: int, which: Value) -> None:
        """A verb goes."""
        self.directory(number).remove(self.verb(number, which))

    def set_verb_info(self, number: int, which: Value, info: Sequence[Value]) -> None:
        """Another owner, other letters and names of a verb."""
        verb = self.verb(number, which)
        verb.names, verb.info = str(info[2]), (number_of(info[0]), letters_of(str(info[1]), VERB_LETTERS))

    def set_verb_args(self, number: int, which: Value, args: Sequence[Value]) -> None:
        """Other arguments of a verb."""
        self.verb(number, which).args = tuple(map(str, args))
