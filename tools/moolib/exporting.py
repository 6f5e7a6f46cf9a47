"""A class with all that inherits from it, or a room with all that is in it, as a script for moo-shell that makes the same in another world.

    exported = exported_by(facts, person, 26, "children")
    exported.text           the script
    exported.left_out       ["secret of generic apple: you may not read it"]

It has what the person may read. What belongs to the person belongs to who runs the script, `$me`; other objects that it names are at its
beginning, with their numbers. What isn't in it is said in comments.
"""

from __future__ import annotations

import collections
from collections.abc import Iterator
from typing import Any, NamedTuple, Optional

from moolib.calls import objects_in
from moolib.facts import Facts
from moolib.scripts import ObjectNames, calls_in_batches
from moolib.service import MOST_CALLS
from moolib.slots import MARKS, PROPERTY_LETTERS, VERB_LETTERS, letters_of, slot_calls
from moolib.values import Obj, Value, written

NOTHING = -1
MOST_OBJECTS = 2000
# What is exported with an object: the call that tells what is next to it, and words for that.
WITH = {"children": ("children(#{})", "what inherits from it"), "contents": ('get(#{}, "contents")', "what is in it")}
WHY = "you may not read it"


class TooManyObjects(Exception):
    """There are more objects than a script makes."""


class Exported(NamedTuple):
    """A script: its text, how many objects it makes, by how many calls, and what isn't in it."""

    text: str
    objects: int
    calls: int
    left_out: list[str]


class Rights(NamedTuple):
    """Whose a property is on an object, and its letters."""

    owner: int
    letters: str


def exported_by(facts: Facts, person: int, first: int, what: str, told: str = "") -> Exported:
    """The script that makes an object with its `children` or `contents`. `told` is said of the world in its first line.

    `TooManyObjects`; what `Facts.read` raises comes through.
    """
    return Export(facts, person, first, what).script(told)


class Export:
    """One export, by a person, as far as that person may read the world."""

    def __init__(self, facts: Facts, person: int, first: int, what: str) -> None:
        self.facts, self.person, self.first, self.what = facts, person, first, what
        self.left_out: dict[str, None] = {}
        self.unread: collections.Counter[str] = collections.Counter()
        self.numbers = self.gathered()
        facts.read(mark.format(number) for number in [*self.numbers, person] for mark in MARKS.values())
        self.read_up({*self.numbers, *(self.linked(number, "location") for number in self.numbers)} - {NOTHING})
        self.is_wizard = facts.value(MARKS["wizard"].format(person)) == 1
        self.order = list(self.ordered())
        self.inside = set(self.order)
        self.names = ObjectNames(person, self.own_name)
        for number in self.order:
            self.names.add(number)
        self.above = {number: self.chain(number) for number in self.order}
        every = dict.fromkeys(one for number in self.order for one in self.above[number])
        facts.read(call for one in every for call in (f"properties(#{one})", f"verbs(#{one})"))
        self.defined = {one: facts.value(f"properties(#{one})") for one in every}
        facts.read(call for number in self.order for _, name in self.properties(number) for call in slot_calls(number, name))
        self.read_outside()
        self.read_names()
        # Whose each object is when it is made, and after all are.
        self.owners: dict[int, int] = {}
        self.given: dict[int, int] = {}

    # What is there

    def mark(self, number: int, key: str) -> Value:
        """What an object has by this name of `MARKS`."""
        value: Value = self.facts.value(MARKS[key].format(number))
        return value

    def linked(self, number: int, key: str) -> int:
        """The number of the object that is this mark of another one."""
        value = self.mark(number, key)
        return value.number if isinstance(value, Obj) else NOTHING

    def gathered(self) -> list[int]:
        """The objects that are made. A player isn't made anew, nor what is next to it."""
        call, found, level = WITH[self.what][0], list[int](), [self.first]
        while level:
            wanted = (call, MARKS["player"], MARKS["name"])
            self.facts.read(text.format(number) for number in level for text in wanted)
            players = [number for number in level if number != self.first and self.mark(number, "player") == 1]
            for number in players:
                self.leave_out(f"{self.named(number)} is a player, and isn't made anew, nor {WITH[self.what][1]}")
            kept = [number for number in level if number not in players]
            found += kept
            if len(found) > MOST_OBJECTS:
                raise TooManyObjects
            level = [one.number for number in kept for one in self.facts.value(call.format(number)) or []]
        return found

    def ordered(self) -> Iterator[int]:
        """The objects, each after its parent if that is made too."""
        left = dict.fromkeys(self.numbers)
        for number in self.numbers:
            chain = []
            while number in left:
                del left[number]
                chain.append(number)
                number = self.linked(number, "parent")
            yield from reversed(chain)

    def read_up(self, level: set[int]) -> None:
        """Reads the parents of objects up to the roots, and what these accept."""
        while level:
            self.facts.read(MARKS[key].format(number) for number in sorted(level) for key in ("parent", "accept"))
            level = {self.linked(number, "parent") for number in level} - {NOTHING}

    def chain(self, number: int) -> list[int]:
        """An object and its ancestors, from it up."""
        found = []
        while number >= 0:
            found.append(number)
            number = self.linked(number, "parent")
        return found

    def properties(self, number: int) -> list[tuple[int, str]]:
        """The properties on an object, each after the object that defines it, as far as they may be listed."""
        return [(one, name) for one in self.above[number] for name in self.defined[one] or ()]

    def read_outside(self) -> None:
        """Reads what the parents that aren't made have, and whether the owners are there."""
        parents = {self.linked(number, "parent") for number in self.order} - self.inside - {NOTHING}
        self.facts.read(slot_calls(one, name)[0] for one in parents for above in self.chain(one) for name in self.defined[above] or ())
        owners = {self.linked(number, "owner") for number in self.order}
        owners |= {info.owner for number in self.order for _, name in self.properties(number) if (info := self.rights(number, name))}
        owners |= {info[0].number for info in self.verb_infos() if info}
        self.facts.read(f"valid(#{owner})" for owner in sorted(owners))

    def verb_infos(self) -> list[Any]:
        """What is told of the verbs, after they were read."""
        places = [(number, place) for number in self.order for place in range(1, len(self.facts.value(f"verbs(#{number})") or ()) + 1)]
        self.facts.read(f"{call}(#{number}, {place})" for number, place in places for call in ("verb_info", "verb_args"))
        return [self.facts.value(f"verb_info(#{number}, {place})") for number, place in places]

    def read_names(self) -> None:
        """Reads the names of all objects that may be in the script."""
        mentioned = {number for value in self.facts.known.values() if value is not None for number in objects_in([value])}
        self.facts.read(MARKS["name"].format(number) for number in sorted(mentioned) if number >= 0)

    def rights(self, number: int, name: str) -> Optional[Rights]:
        """Whose a property is on an object, and its letters; None if they may not be read."""
        info = self.facts.value(slot_calls(number, name)[0])
        return Rights(info[0].number, letters_of(info[1], PROPERTY_LETTERS)) if info else None

    # What isn't in the script

    def named(self, number: int) -> str:
        """An object as people know it."""
        name = self.own_name(number)
        return f"{name} #{number}" if name else f"#{number}"

    def own_name(self, number: int) -> Optional[str]:
        """The name that an object has; None if it isn't there."""
        name: Optional[str] = self.facts.value(MARKS["name"].format(number))
        return name

    def known_as(self, number: int) -> str:
        """The name of an object that the script doesn't make, for a remark."""
        name = self.own_name(number)
        return "there is no such object" if name is None else name or "unnamed"

    def leave_out(self, why: str) -> None:
        """Notes that something isn't in the script."""
        self.left_out[why] = None

    def may_give(self, owner: int, what: str) -> int:
        """Whose something becomes: an owner's, if who exports may give it away and the owner is there; else one's own, which is noted."""
        if owner == self.person or (self.is_wizard and (owner in self.inside or self.facts.value(f"valid(#{owner})") == 1)):
            return owner
        is_there = self.facts.value(f"valid(#{owner})") == 1
        self.leave_out(f"{what} belongs to {self.named(owner) if is_there else f'#{owner}, which is gone'}: it becomes yours")
        return self.person

    # The script

    def script(self, told: str) -> Exported:
        """The whole script."""
        calls = [*self.created(), *self.marked(), *self.added(), *self.inherited(), *self.verbs(), *self.placed()]
        count = len(self.order)
        self.leave_out_unread()
        how = "moo-shell -f FILE world.db makes the same again, and so does the page 'A batch of calls' of a front."
        if len(calls) > MOST_CALLS:
            how = f"moo-shell -f FILE world.db makes the same again. The page 'Batch' takes {MOST_CALLS:,} calls at most, and this has {len(calls):,}."
        lines = [
            f"// {self.named(self.first)} and {WITH[self.what][1]}: {count} object{'' if count == 1 else 's'}{told}.",
            f"// {how} $me is who does it.",
            *(("// What differs, or isn't in it:", *(f"//   {why}" for why in self.left_out)) if self.left_out else ()),
        ]  # fmt: skip
        if self.names.outside:
            lines += ["// These objects have to be there, with the properties that are set below. If they have other numbers, write those here."]
            lines += [f"{name} = #{number}  // {self.known_as(number)}" for number, name in self.names.outside.items()]
        return Exported("\n".join([*lines, "", *calls_in_batches(calls)]) + "\n", count, len(calls), list(self.left_out))

    def leave_out_unread(self) -> None:
        """Notes what may not be read, by names."""
        for name, count in self.unread.items():
            self.leave_out(f"{name}, on {count} of the objects: {WHY}")

    def it(self, number: int) -> str:
        """An object as the script writes it."""
        return self.names.of(number)

    def created(self) -> Iterator[str]:
        """The calls that make the objects. An object whose owner isn't made yet belongs to who makes it for a while."""
        late = []
        for number in self.order:
            owner = self.owner_of(number)
            is_late = owner in self.inside and owner not in self.given and owner != number
            late += [(number, owner)] if is_late else []
            self.given[number], self.owners[number] = owner, self.person if is_late else owner
            given = {self.person: "", number: ", #-1"}.get(self.owners[number], f", {self.it(self.owners[number])}")
            yield f"{self.it(number)} = create({self.it(self.linked(number, 'parent'))}{given})"
        for number, owner in late:
            yield f'set({self.it(number)}, "owner", {self.it(owner)})'

    def owner_of(self, number: int) -> int:
        """Whose an object becomes."""
        owner = self.linked(number, "owner")
        if owner != number:
            return self.may_give(owner, self.named(number))
        if not self.is_wizard:
            self.leave_out(f"{self.named(number)} belongs to itself: it becomes yours")
        return number if self.is_wizard else self.person

    def marked(self) -> Iterator[str]:
        """The names, the marks and what is accepted."""
        for number in self.order:
            if name := self.mark(number, "name"):
                yield f'set({self.it(number)}, "name", {written(name)})'
            for bit in ("r", "w", "f", "programmer", "wizard"):
                if self.mark(number, bit) and (bit in "rwf" or self.is_wizard):
                    yield f'set({self.it(number)}, "{bit}", 1)'
                elif self.mark(number, bit):
                    self.leave_out(f"the mark {bit} of {self.named(number)}: a wizard gives it")
            if self.mark(number, "player") and self.is_wizard:
                yield f"set_player_flag({self.it(number)}, 1)"
            elif self.mark(number, "player"):
                self.leave_out(f"{self.named(number)} is a player: a wizard makes it one")
            if isinstance(accept := self.mark(number, "accept"), list):
                yield f"set_accept({self.it(number)}, {self.names.text(accept)})"

    def added(self) -> Iterator[str]:
        """The properties that the objects define."""
        for number in self.order:
            if self.defined[number] is None:
                self.leave_out(f"what {self.named(number)} defines: you may not list it")
            for name in self.defined[number] or ():
                rights, value = self.rights(number, name), self.facts.value(slot_calls(number, name)[2])
                if rights is None or value is None:
                    self.unread[name] += 1
                    continue
                owner = self.may_give(rights.owner, f"{name} of {self.named(number)}")
                given = f"{{{self.it(owner)}, {written(rights.letters)}}}"
                yield f"add_property({self.it(number)}, {written(name)}, {self.names.text(value)}, {given})"

    def inherited(self) -> Iterator[str]:
        """What the objects have of the properties that are defined above them."""
        fresh: dict[tuple[int, str], Optional[Rights]] = {}
        for number in self.order:
            for definer, name in self.properties(number):
                if definer != number:
                    yield from self.slot(number, definer, name, fresh)
        for one in dict.fromkeys(above for number in self.order for above in self.above[number] if above not in self.inside):
            if self.defined[one] is None:
                self.leave_out(f"what {self.named(one)} defines: you may not list it, so values of that aren't here")

    def slot(self, number: int, definer: int, name: str, fresh: dict[tuple[int, str], Optional[Rights]]) -> Iterator[str]:
        """What an object has of a property. `fresh` gets what it would have without more calls."""
        is_defined = self.rights(definer, name) is not None if definer in self.inside else True
        before = fresh[(number, name)] = self.fresh(number, definer, name, fresh)
        rights, clear, value = self.rights(number, name), *(self.facts.value(call) for call in slot_calls(number, name)[1:])
        if rights is None or not is_defined or (clear == 0 and value is None):
            self.unread[name] += 1
            return
        where = f"{self.it(number)}, {written(name)}"
        is_own = before is None or self.is_wizard or before.owner == self.person
        if clear == 0 and (is_own or (before and "w" in before.letters)):
            yield f"set({where}, {self.names.text(value)})"
        elif clear == 0:
            self.leave_out(f"{name} of {self.named(number)}: it belongs to {self.named(before.owner) if before else 'somebody else'} there")
        # Whose it is isn't another's than it would be, unless a wizard gives it away.
        after = rights._replace(owner=self.may_give(rights.owner, f"{name} of {self.named(number)}"))
        if before is not None and after != before and (self.is_wizard or (is_own and after.owner == before.owner)):
            yield f"set_property_info({where}, {{{self.it(after.owner)}, {written(after.letters)}}})"
        elif before is not None and after != before:
            self.leave_out(f"the rights of {name} of {self.named(number)}: they are {after.letters or 'none'} here")

    def fresh(self, number: int, definer: int, name: str, known: dict[tuple[int, str], Optional[Rights]]) -> Optional[Rights]:
        """What an object has of a property before the script changes it; None, if that can't be known."""
        if definer in self.inside:
            rights = self.rights(definer, name)
            owner = self.may_give(rights.owner, f"{name} of {self.named(definer)}") if rights else NOTHING
            return rights and Rights(self.given[number] if "c" in rights.letters else owner, rights.letters)
        parent = self.linked(number, "parent")
        above = known.get((parent, name)) if parent in self.inside else self.rights(parent, name)
        return above and Rights(self.owners[number] if "c" in above.letters else above.owner, above.letters)

    def verbs(self) -> Iterator[str]:
        """The verbs, in their order."""
        for number in self.order:
            names = self.facts.value(f"verbs(#{number})")
            if names is None:
                self.leave_out(f"the verbs of {self.named(number)}: you may not list them")
            for place, each in enumerate(names or (), 1):
                info, args = (self.facts.value(f"{call}(#{number}, {place})") for call in ("verb_info", "verb_args"))
                if info is None or args is None:
                    self.leave_out(f'the verb "{each}" of {self.named(number)}: {WHY}')
                    continue
                owner = self.may_give(info[0].number, f'the verb "{each}" of {self.named(number)}')
                given = f"{{{self.it(owner)}, {written(letters_of(info[1], VERB_LETTERS))}, {written(info[2])}}}"
                yield f"add_verb({self.it(number)}, {given}, {written(args)})"

    def placed(self) -> Iterator[str]:
        """Where the objects are."""
        for number in self.order:
            place = self.linked(number, "location")
            if place == NOTHING:
                continue
            if self.is_wizard or self.is_accepted(number, place):
                yield f"move({self.it(number)}, {self.it(place)})"
            else:
                self.leave_out(f"{self.named(number)} is in {self.named(place)}, which doesn't accept it: a wizard puts it there")

    def is_accepted(self, number: int, place: int) -> bool:
        """Whether a place accepts an object."""
        for one in self.chain(place):
            accept = self.mark(one, "accept")
            if isinstance(accept, list):
                return any(isinstance(each, Obj) and each.number in self.above[number] for each in accept)
        return False
