"""Random worlds that are alike to a programmer: the same but for what the manual lets this programmer not see.

`drawn` makes a world of a dozen objects, and `other_than` a second one. What may differ in it:

- a slot that the programmer may neither read nor write, nor any slot of its name below it, nor come by one (`can_differ`): its value, its
  owner, and whether it is clear; its `c` too, if the programmer can put no object under it;
- a verb that the programmer may neither read nor write: its owner, `x` and `d`, and its arguments;
- a petition of somebody else: who made it, and its calls;
- how many properties and verbs were made and are gone.

Objects, the names of properties and verbs, and numbers are the same in both.
"""

from __future__ import annotations

import copy
import dataclasses
from random import Random
from typing import Iterator, Optional

QUOTA = "ownership_quota"
NAMES = ("a", "b", "colour", "Glow", "secret", QUOTA)
BITS = ("r", "w", "f", "programmer")
WIZARD = 3
ARGS = ('{"this", "none", "none"}', '{"any", "with", "this"}', '{"none", "in front of", "any"}', '{"any", "any", "any"}')
# The greatest number of properties, and of verbs, that were made before and are gone.
GONE = 3
VERBS = ("look l*ook", "get take", "put", "foo*bar", "g*", "open")


@dataclasses.dataclass
class Slot:
    """A slot: its owner, its perms, and the literal of its value; None if it is clear."""

    owner: int
    perms: str
    value: Optional[str]


@dataclasses.dataclass
class Definition:
    """A property: the object that defines it, its name, and its slot on that object and each one below."""

    definer: int
    name: str
    slots: dict[int, Slot]


@dataclasses.dataclass
class Verb:
    """A verb of an object."""

    object: int
    names: str
    owner: int
    perms: str
    args: str


@dataclasses.dataclass
class Petition:
    """A petition: who makes it, and the literal of its calls."""

    who: int
    calls: str


@dataclasses.dataclass
class Thing:
    """An object: its owner, parent, place, bits, and the literal of its accept list, or 0."""

    owner: int
    parent: int
    location: int
    bits: dict[str, int]
    accept: str


@dataclasses.dataclass
class Plot:
    """A dozen objects of a world, by their numbers, and what is on them. `others` are people who aren't wizards, as `programmer`, who is asked
    about, isn't either."""

    things: dict[int, Thing]
    programmer: int
    others: list[int]
    wizard: int
    definitions: list[Definition] = dataclasses.field(default_factory=list)
    verbs: list[Verb] = dataclasses.field(default_factory=list)
    petitions: list[Petition] = dataclasses.field(default_factory=list)
    gone: int = 0

    def chain(self, number: int) -> list[int]:
        """An object and its ancestors, as far as they are of this plot."""
        found = []
        while number in self.things:
            found.append(number)
            number = self.things[number].parent
        return found

    def under(self, number: int) -> list[int]:
        """An object and all under it."""
        return [each for each in self.things if number in self.chain(each)]

    def twin(self) -> Plot:
        """The same plot, whose slots, verbs and petitions may be changed."""
        definitions = [Definition(each.definer, each.name, {at: copy.copy(slot) for at, slot in each.slots.items()}) for each in self.definitions]
        verbs, petitions = [copy.copy(verb) for verb in self.verbs], [copy.copy(petition) for petition in self.petitions]
        return dataclasses.replace(self, definitions=definitions, verbs=verbs, petitions=petitions)

    def strangers(self) -> list[int]:
        """Whoever may own something that isn't the programmer's."""
        return [*self.others, self.wizard, WIZARD]


def literal(random: Random, plot: Plot) -> str:
    """A value."""
    return random.choice(["0", "1", "-7", '""', '"moss"', '"say \\"hi\\""', "E_PERM", "{}", '{1, {#2, "a"}}', f"#{random.choice([*plot.things])}"])


def quota(random: Random) -> str:
    """A quota: none is left, or many are, or it is another value than an integer."""
    return random.choice([str(-1000 - random.randrange(100)), str(1000 + random.randrange(100)), '"none"', "{3}", "2"])


def like_quota(random: Random, value: str) -> str:
    """Another quota that lets as many objects be made, as far as anybody tries."""
    if not value.lstrip("-").isdigit():
        return random.choice(['"many"', "{}", "#3"])
    if abs(int(value)) < 1000:
        return value
    return str(int(value) + (random.randrange(1, 100) if int(value) > 0 else -random.randrange(1, 100)))


def letters(random: Random, those: str) -> str:
    """Some of these letters."""
    return "".join(letter for letter in those if random.random() < 0.4)


def drawn(random: Random, top: int) -> Plot:
    """A plot of a world whose objects have numbers up to `top`."""
    numbers = range(top + 1, top + random.randrange(8, 13))
    programmer, one, two, wizard = random.sample(numbers, 4)
    owners = [programmer, programmer, one, two, wizard, WIZARD]
    things = {}
    for number in numbers:
        before = [*range(top + 1, number)]
        bits = {bit: int(random.random() < 0.3) for bit in BITS}
        bits["wizard"] = int(number == wizard)
        bits["player"] = int(number in (programmer, one, two, wizard) and random.random() < 0.8)
        parent = random.choice([1, -1, *before, *before])
        accept = random.choice(["0", "0", "{#1}", f"{{#{random.choice(numbers)}}}", "{}"])
        things[number] = Thing(random.choice(owners), parent, random.choice([-1, 2, *before]), bits, accept)
    plot = Plot(things, programmer, [one, two], wizard)
    for name in NAMES:
        define(random, plot, name)
    plot.verbs = [drawn_verb(random, plot) for _ in range(random.randrange(3, 8))]
    plot.petitions = [drawn_petition(random, plot) for _ in range(random.randrange(2, 6))]
    return plot


def define(random: Random, plot: Plot, name: str) -> None:
    """Puts a property of a name on up to two objects, so that no chain has it twice. On some no slot is the programmer's, to be read or written."""
    for _ in range(random.randrange(1, 3)):
        definer = random.choice([*plot.things])
        taken = {each for found in plot.definitions if found.name == name for each in found.slots}
        if taken & {*plot.under(definer), *plot.chain(definer)}:
            continue
        is_secret, some = random.random() < 0.6, "c" if random.random() < 0.5 else ""
        found = Definition(definer, name, {})
        for each in plot.under(definer):
            owners = plot.strangers() if is_secret else [*plot.strangers(), plot.programmer, plot.programmer]
            value = None if each != definer and random.random() < 0.5 else quota(random) if name == QUOTA else literal(random, plot)
            found.slots[each] = Slot(random.choice(owners), letters(random, some if is_secret else "rwc"), value)
        plot.definitions.append(found)


def drawn_verb(random: Random, plot: Plot) -> Verb:
    """A verb on an object."""
    owner = random.choice([*plot.strangers(), plot.programmer])
    return Verb(random.choice([*plot.things]), random.choice(VERBS), owner, letters(random, "rwxd"), random.choice(ARGS))


def drawn_petition(random: Random, plot: Plot) -> Petition:
    """A petition of somebody, the wizard too."""
    one = random.choice([*plot.things])
    calls = ['{{"create", #1}}', '{{"set", #%d, "name", "Ada"}}' % one, '{{"recycle", #%d}, {"sing"}}' % one, '{{"move", #%d, #2}}' % one]
    calls[2:3] = ['{{"recycle", #%d}, {"players"}}' % one]
    return Petition(random.choice([plot.programmer, *plot.others, plot.wizard]), random.choice(calls))


def is_open(plot: Plot, slot: Slot) -> bool:
    """Whether the programmer may read or write a slot. Who may write one may give it an `r`."""
    return slot.owner == plot.programmer or "r" in slot.perms or "w" in slot.perms


def has_inlet(plot: Plot, number: int) -> bool:
    """Whether the programmer can put an object under this one: it, or one under it, is fertile or the programmer's."""
    return any(plot.things[each].bits["f"] or plot.things[each].owner == plot.programmer for each in plot.under(number))


def can_differ(plot: Plot, found: Definition, number: int) -> bool:
    """Whether the programmer can neither read what this slot holds nor come to read it: no slot of it on this object and those under it is open
    to them; and if they can put an object there, none anywhere is, or would be theirs by `c` on a child of their own."""
    if any(is_open(plot, found.slots[each]) for each in plot.under(number)):
        return False
    return not has_inlet(plot, number) or not any(is_open(plot, slot) or "c" in slot.perms for slot in found.slots.values())


def feeds_quota(plot: Plot, found: Definition, number: int) -> bool:
    """Whether this slot may be, or become, the quota of the programmer: E_QUOTA tells of it. The name is that of quotas, or the programmer may
    change it; and the programmer's object is under this one, or they can put it there."""
    if found.name != QUOTA and not is_open(plot, found.slots[found.definer]):
        return False
    can_move = any(plot.things[each].owner == plot.programmer for each in plot.chain(plot.programmer))
    return plot.programmer in plot.under(number) or (can_move and has_inlet(plot, number))


def other_than(random: Random, plot: Plot) -> tuple[Plot, list[str]]:
    """A plot that is alike to the programmer, and of what kind each difference is."""
    other = plot.twin()
    kinds: list[str] = []
    other.gone = random.choice([0, 1, GONE])
    for found, twin in zip(plot.definitions, other.definitions):
        for number, slot in found.slots.items():
            if can_differ(plot, found, number) and random.random() < 0.7:
                kinds += change_slot(random, plot, (found, number), twin.slots[number], slot)
    for verb in other.verbs:
        if verb.owner != plot.programmer and not {"r", "w"} & {*verb.perms} and random.random() < 0.7:
            verb.owner, verb.perms, verb.args = random.choice(plot.strangers()), letters(random, "xd"), random.choice(ARGS)
            kinds.append("verb")
    for petition in other.petitions:
        if petition.who != plot.programmer and random.random() < 0.7:
            drawn_one = drawn_petition(random, plot)
            petition.calls = drawn_one.calls
            if drawn_one.who != plot.programmer:
                petition.who = drawn_one.who
            kinds.append("petition")
    return other, kinds


def change_slot(random: Random, plot: Plot, at: tuple[Definition, int], twin: Slot, slot: Slot) -> Iterator[str]:
    """Makes a slot of the second world another one, and tells of what kind the difference is."""
    found, number = at
    if feeds_quota(plot, found, number):
        if found.name == QUOTA and slot.value is not None:
            twin.value = like_quota(random, slot.value)
            yield "quota"
        return
    if random.random() < 0.3:
        twin.owner = random.choice(plot.strangers())
        yield "owner"
    if random.random() < 0.3 and not has_inlet(plot, number):
        twin.perms = letters(random, "c")
        yield "c"
    twin.value = None if number != found.definer and random.random() < 0.3 else quota(random) if found.name == QUOTA else literal(random, plot)
    yield "clear" if (twin.value is None) != (slot.value is None) else "value"


def readable(random: Random, plot: Plot) -> Optional[Plot]:
    """A plot that isn't alike to the programmer: a value that they may read is another one. None if there is none."""
    other = plot.twin()
    slots = [slot for found in other.definitions for slot in found.slots.values() if slot.value is not None]
    seen = [slot for slot in slots if slot.owner == plot.programmer or "r" in slot.perms]
    if not seen:
        return None
    random.choice(seen).value = '"another"'
    return other


def making(plot: Plot) -> str:
    """The batches that make a plot: as many lines for the one as for the other of two that are alike."""
    calls = [*going(plot.gone), *(f"create(#{thing.parent})" for thing in plot.things.values())]
    for number, thing in plot.things.items():
        calls.append(f'set(#{number}, "name", "Thing {number}")')
        calls += [f'set(#{number}, "{bit}", {value})' for bit, value in thing.bits.items() if bit != "player"]
        calls.append(f"set_accept(#{number}, {thing.accept})")
        calls.append(f"move(#{number}, #{thing.location})")
        calls.append(f"set_player_flag(#{number}, {thing.bits['player']})")
        calls.append(f'set(#{number}, "owner", #{thing.owner})')
    for found in plot.definitions:
        calls += list(defining(found))
    calls += [f'add_verb(#{verb.object}, {{#{verb.owner}, "{verb.perms}", "{verb.names}"}}, {verb.args})' for verb in plot.verbs]
    batches = [(WIZARD, calls), *((petition.who, [f"petition({petition.calls})"]) for petition in plot.petitions)]
    return "".join(f"batch as #{who}\n" + "".join(f"{call}\n" for call in lines) + "end\n" for who, lines in batches)


def going(count: int) -> Iterator[str]:
    """The calls that make so many properties and verbs, and delete them; or as many others with the same answers."""
    made = ['add_property(#0, "gone", 0, {#3, ""})', 'delete_property(#0, "gone")']
    made += ['add_verb(#0, {#3, "", "gone"}, {"any", "any", "any"})', 'delete_verb(#0, "gone")']
    for place in range(GONE):
        yield from made if place < count else ["set_accept(#0, 0)"] * len(made)


def defining(found: Definition) -> Iterator[str]:
    """The calls that make a property and each of its slots."""
    first = found.slots[found.definer]
    yield f'add_property(#{found.definer}, "{found.name}", {first.value}, {{#{first.owner}, "{first.perms}"}})'
    for number, slot in found.slots.items():
        if number != found.definer:
            named = f'#{number}, "{found.name}"'
            yield f'set_property_info({named}, {{#{slot.owner}, "{slot.perms}"}})'
            yield f"clear_property({named})" if slot.value is None else f"set({named}, {slot.value})"
