"""What a world holds: objects by pages, answers call by call, and all of one object.

A service that has the routes `/each` and `/objects` is asked by these. One that hasn't them is asked by batches of reading calls (`/ask`).
"""

from __future__ import annotations

import dataclasses
from typing import Any, Optional

from moo_shell.door import Door
from moolib.errors import Failed
from moolib.handles import written_call
from moolib.service import Answer, Said
from moolib.slots import BITS
from moolib.values import written

PIECE = 1000
# How many of its children and of its contents are shown of an object.
MOST_NEAR = 50
# How many objects are told that a name may mean.
MOST_TOLD = 10
# The facts of an object that a batch of reading calls asks for, with the field of each.
FACTS = {"name": 'get({}, "name")', "parent": "parent({})", "location": 'get({}, "location")', "owner": 'get({}, "owner")', "f": 'get({}, "f")'}
# Properties by which an object is known, that are looked for where names may not be listed.
USUAL = ("description", "exits", "aliases")


@dataclasses.dataclass(frozen=True)
class Thing:
    """What everybody may know of an object. `f` is whether anybody may make objects under it."""

    number: int
    name: str
    parent: int
    location: int
    owner: int
    f: bool = False


@dataclasses.dataclass(frozen=True)
class Slot:
    """A property on an object: its value or an error, its owner and perms if they may be read, who defines it, and where the value is from.

    `definer` is None if an ancestor does whose properties may not be listed. `source` is the object that holds the value, which is None if
    that may not be read.
    """

    name: str
    value: Said
    info: Said
    definer: Optional[int]
    source: Optional[int]


@dataclasses.dataclass(frozen=True)
class Whole:
    """All of an object that may be read.

    `children` and `contents` are the first ones, and beside them is how many more there are. `accepts` are the accept lists of the object
    and its ancestors, 0 for each that has none. `hidden` are those of them whose properties may not be listed, and `verbs` is None if the
    object's verbs may not be.
    """

    thing: Thing
    bits: list[str]
    chain: list[Thing]
    accepts: list[tuple[int, Said]]
    children: list[Thing]
    more_children: int
    contents: list[Thing]
    more_contents: int
    slots: list[Slot]
    hidden: list[int]
    verbs: Optional[list[tuple[str, Said, Said]]]


def shown_name(number: int) -> str:
    """An object as it is written."""
    return f"#{number}"


class World:
    """Asks about a world through a door, in the name of a programmer."""

    def __init__(self, door: Door) -> None:
        self.door = door
        self.who = 3
        self.has_objects: Optional[bool] = None
        self.person: Optional[int] = None

    def caller(self) -> int:
        """The number of who calls. A front knows it by the token: there a petition is tried, which isn't made, and names who makes it."""
        if self.door.can_name:
            return self.who
        if self.person is None:
            reply = self.door.ask(self.who, ['petition({{"valid", #0}})', "petitions()"], None)
            if not reply.is_good:
                raise Failed("$me has no value: the front doesn't say who calls; $me = #5 gives it one")
            made, petitions = map(Said, reply.said["answers"])
            self.person = next(who.number for number, who, _ in petitions.value if number == made.value)
        return self.person

    def each(self, calls: list[str]) -> list[Said]:
        """What each call alone would answer. The calls have to be reading ones."""
        answers: list[Said] = []
        for begin in range(0, len(calls), PIECE):
            answers += self.piece(calls[begin : begin + PIECE])
        return answers

    def piece(self, calls: list[str]) -> list[Said]:
        """The same of at most as many calls as a request takes."""
        said = self.door.alone(self.who, calls)
        if isinstance(said, Answer):
            raise refusal(said)
        return said

    def caller_in_words(self) -> str:
        """Who calls, in words, for the first line of a prompt."""
        try:
            who = self.caller()
            said = self.built_in(who)
        except Failed:
            return f"as #{self.who}, which isn't an object: \\as N names another programmer" if self.door.can_name else "as the person of the token"
        kind = "a wizard" if said["wizard"] else "a player" if said["player"] else "not a player"
        return f'as #{who} "{said["name"]}", {kind}'

    def things(self) -> dict[int, Thing]:
        """What everybody may know of each object, ascending."""
        found: Optional[dict[int, Thing]] = None
        if self.has_objects is not False:
            found = self.things_by_pages()
            self.has_objects = found is not None
        return self.things_by_asking() if found is None else found

    def number_named(self, name: str) -> int:
        """The number of the object of this name, in any case, or of the only one with it in its name. `Failed`: there is none, or several."""
        things = list(self.things().values())
        found = [thing for thing in things if thing.name.lower() == name.lower()]
        found = found or [thing for thing in things if name.lower() in thing.name.lower()]
        if len(found) == 1:
            return found[0].number
        if found:
            which = ", ".join(f"{shown_name(thing.number)} {written(thing.name)}" for thing in found[:MOST_TOLD])
            more = f" and {len(found) - MOST_TOLD} more" if len(found) > MOST_TOLD else ""
            raise Failed(f"{name} may be {which}{more}")
        raise Failed(f"{name} isn't an object: none has this name; #5 is one, or a name such as $hall that stands for one")

    def things_by_pages(self) -> Optional[dict[int, Thing]]:
        """The same by the route for it; None if the service has none."""
        found: dict[int, Thing] = {}
        begin = 0
        while True:
            reply = self.door.tried("GET", f"/objects/{begin}")
            if reply.is_missing:
                return None
            said = good(reply)
            for each in said["objects"]:
                thing = thing_of(each)
                found[thing.number] = thing
            if said["next"] is None:
                return found
            begin = number_of(said["next"])

    def things_by_asking(self) -> dict[int, Thing]:
        """The same by batches."""
        (last,) = self.each(["max_object()"])
        if not last.is_good:
            raise Failed(f"max_object(): {last.text}: #{self.who} isn't an object of this world")
        numbers = range(last.value.number + 1)
        valid = self.each([f"valid(#{number})" for number in numbers])
        return self.things_of([number for number, answer in zip(numbers, valid) if answer.text == "1"])

    def things_of(self, numbers: list[int]) -> dict[int, Thing]:
        """What everybody may know of these objects; those that aren't objects are left out."""
        calls = [call.format(shown_name(number)) for number in numbers for call in FACTS.values()]
        answers = self.each(calls)
        found = {}
        for place, number in enumerate(numbers):
            facts = answers[place * len(FACTS) : (place + 1) * len(FACTS)]
            if all(fact.is_good for fact in facts):
                values = dict(zip(FACTS, (fact.value for fact in facts)))
                places = {key: values[key].number for key in ("parent", "location", "owner")}
                found[number] = Thing(number=number, name=values["name"], f=bool(values["f"]), **places)
        return found

    def built_in(self, number: int) -> dict[str, Any]:
        """What is built in of an object, as the service tells it."""
        reply = self.door.tried("GET", f"/object/{number}")
        if not reply.is_good:
            raise Failed(f"#{number} isn't an object")
        return {**reply.said, "number": shown_name(number)}

    def chain(self, number: int) -> list[Thing]:
        """The ancestors of an object, from its parent up."""
        found = []
        above = number_of(self.built_in(number)["parent"])
        while above >= 0:
            said = self.built_in(above)
            found.append(thing_of(said))
            above = number_of(said["parent"])
        return found

    def properties(self, number: int) -> list[str]:
        """The names of all properties of an object that may be listed, those that it inherits after its own."""
        above = [number, *(thing.number for thing in self.chain(number))]
        return [name for names in self.each([f"properties(#{each})" for each in above]) for name in names.value or []]

    def verbs(self, number: int) -> list[str]:
        """The names of the verbs of an object itself, if they may be listed."""
        (answer,) = self.each([f"verbs(#{number})"])
        return answer.value or []

    def whole(self, number: int) -> Whole:
        """All of an object that may be read."""
        said = self.built_in(number)
        chain = self.chain(number)
        above = [number, *(thing.number for thing in chain)]
        verbs, *accepts = self.each([f"verbs(#{number})", *(f"accept_list(#{each})" for each in above)])
        children, contents = ([number_of(each) for each in said[key]] for key in ("children", "contents"))
        near = self.things_of([*children[:MOST_NEAR], *contents[:MOST_NEAR]])
        slots, hidden = self.slots(number, above)
        return Whole(
            thing=thing_of(said),
            bits=[bit for bit in BITS if said.get(bit)],
            chain=chain,
            accepts=list(zip(above, accepts)),
            children=[near[each] for each in children[:MOST_NEAR] if each in near],
            more_children=max(len(children) - MOST_NEAR, 0),
            contents=[near[each] for each in contents[:MOST_NEAR] if each in near],
            more_contents=max(len(contents) - MOST_NEAR, 0),
            slots=slots,
            hidden=hidden,
            verbs=self.verb_rows(number, verbs.value) if verbs.is_good else None,
        )

    def verb_rows(self, number: int, names: list[str]) -> list[tuple[str, Said, Said]]:
        """The verbs of an object: names, what `verb_info` answers, and what `verb_args` does."""
        places = range(1, len(names) + 1)
        answers = self.each([f"{call}(#{number}, {place})" for place in places for call in ("verb_info", "verb_args")])
        return [(name, answers[2 * place], answers[2 * place + 1]) for place, name in enumerate(names)]

    def slots(self, number: int, above: list[int]) -> tuple[list[Slot], list[int]]:
        """The properties of an object, those that its ancestors define first, and the ancestors whose properties may not be listed."""
        lists = self.each([f"properties(#{definer})" for definer in above])
        defined: list[tuple[Optional[int], str]] = [(definer, name) for definer, names in zip(above, lists) for name in names.value or []]
        hidden = [definer for definer, names in zip(above, lists) if not names.is_good]
        listed = {name for _, name in defined}
        defined += [(None, name) for name in USUAL if hidden and name not in listed]
        calls = ("get", "property_info", "is_clear_property")
        answers = self.each([f"{call}(#{number}, {written(name)})" for _, name in defined for call in calls])
        rows = [answers[begin : begin + len(calls)] for begin in range(0, len(answers), len(calls))]
        clear = [name for (_, name), row in zip(defined, rows) if row[2].text == "1"]
        sources = self.sources(clear, above)
        slots = [
            Slot(name, value, info, definer, sources.get(name) if is_clear.text == "1" else number)
            for (definer, name), (value, info, is_clear) in zip(defined, rows)
            if definer is not None or value.is_good
        ]
        return slots, hidden

    def sources(self, names: list[str], above: list[int]) -> dict[str, int]:
        """For each property that is clear on an object: the ancestor that holds its value, if that may be known."""
        found: dict[str, int] = {}
        left = names
        for ancestor in above[1:]:
            answers = self.each([f"is_clear_property(#{ancestor}, {written(name)})" for name in left])
            found.update({name: ancestor for name, answer in zip(left, answers) if answer.text == "0"})
            left = [name for name, answer in zip(left, answers) if answer.text == "1"]
        return found

    def petitions(self) -> list[tuple[int, int, list[str]]]:
        """The petitions that may be seen: the number of each, who made it, and its calls as they are written."""
        (answer,) = self.each(["petitions()"])
        if not answer.is_good:
            raise Failed(f"petitions(): {answer.text}")
        return [(number, who.number, [written_call(call) for call in calls]) for number, who, calls in answer.value]


def good(reply: Answer) -> dict[str, Any]:
    """What an answer says; any but a good one is a failure."""
    if not reply.is_good:
        raise refusal(reply)
    return reply.said


def refusal(reply: Answer) -> Failed:
    """What an answer other than a good one says."""
    return Failed(reply.why or reply.error or f"the service answers {reply.status}")


def number_of(text: str) -> int:
    """The number of an object that a service writes as `#4`."""
    return int(text.lstrip("#"))


def thing_of(said: dict[str, Any]) -> Thing:
    """What everybody may know of an object, as a service tells it."""
    places = {key: number_of(said[key]) for key in ("number", "parent", "location", "owner")}
    return Thing(name=said["name"], f=bool(said.get("f")), **places)
