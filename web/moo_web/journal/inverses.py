"""What undoes a call, worked out on a draft of the world before it.

Verbs are kept by what they are until all calls of the batch were run: `Backwards` then gives each the place that it has when the batch is
undone from its last call to its first.
"""

from __future__ import annotations

from typing import Iterable, Iterator, NamedTuple, Optional, Union

from moolib.calls import Call, call_text
from moolib.values import Obj, Value

from moolib.draft import NOTHING, QUOTA, Draft
from moolib.slots import SETTABLE, Slot, Verb, slot_calls


class VerbOn(NamedTuple):
    """In place of a verb's number: that verb of an object."""

    number: int
    verb: Verb


class UndoingCall(NamedTuple):
    """A call that undoes something."""

    name: str
    given: tuple[Union[Value, VerbOn], ...]


class Inverses:
    """What undoes calls, each on the draft as it is before that call."""

    def __init__(self, draft: Draft) -> None:
        self.draft = draft
        # Owners that are gone, in whose place the steps have others.
        self.gone: set[int] = set()

    def of(self, call: Call, answer: str) -> Optional[list[UndoingCall]]:
        """What undoes this call, which answers this; None if nothing does."""
        if call.is_reading:
            return []
        undone = getattr(self, f"of_{call.name}", None)
        if undone is None:
            return None
        steps: Optional[list[UndoingCall]] = undone(call, answer)
        return steps

    # Objects

    def of_create(self, call: Call, answer: str) -> list[UndoingCall]:
        """The new object goes; and a quota that was inherited is so again."""
        number, draft = call.made(answer), self.draft
        owner = draft.programmer if len(call.values) == 1 else number_or_nothing(call.values[1])
        made = Obj(draft.next_number() if number is None else number)
        return [UndoingCall("recycle", (made,)), *self.quota_steps(owner)]

    def quota_steps(self, owner: int) -> list[UndoingCall]:
        """What makes an owner inherit a quota again, after it was counted up and down, if that is so now."""
        slot = self.draft.slot(owner, QUOTA) if self.draft.is_there(owner) else None
        if slot is None or slot.value is not None or not isinstance(self.draft.value(owner, QUOTA), int):
            return []
        return [UndoingCall("clear_property", (Obj(owner), QUOTA))]

    def of_move(self, call: Call, _: str) -> list[UndoingCall]:
        """It goes back."""
        return [UndoingCall("move", (call.values[0], Obj(self.draft.mark(number_or_nothing(call.values[0]), "location"))))]

    def of_set_player_flag(self, call: Call, _: str) -> list[UndoingCall]:
        """The mark as it was."""
        return [UndoingCall("set_player_flag", (call.values[0], self.draft.mark(number_or_nothing(call.values[0]), "player")))]

    def of_set_accept(self, call: Call, _: str) -> list[UndoingCall]:
        """The list as it was, or none."""
        return [UndoingCall("set_accept", (call.values[0], self.draft.mark(number_or_nothing(call.values[0]), "accept")))]

    def of_chparent(self, call: Call, _: str) -> list[UndoingCall]:
        """The former parent, and the slots that were lost."""
        number, draft = number_or_nothing(call.values[0]), self.draft
        former = draft.mark(number, "parent")
        names = draft.left_behind(number, number_or_nothing(call.values[1]))
        pairs = [(one, name) for one in draft.subtree(number) for name in names] if names else []
        return [UndoingCall("chparent", (call.values[0], Obj(former))), *self.put_back(pairs, former)]

    # Properties

    def of_set(self, call: Call, _: str) -> Optional[list[UndoingCall]]:
        """The value as it was."""
        number, name = number_or_nothing(call.values[0]), str(call.values[1])
        if name.lower() in SETTABLE:
            value = self.draft.mark(number, name.lower())
            if name.lower() != "owner":
                return [UndoingCall("set", (call.values[0], name.lower(), value))]
            return [UndoingCall("set", (call.values[0], "owner", Obj(value)))] if self.draft.is_there(value) else None
        slot = self.draft.slot(number, name)
        return [value_step(number, name, slot)] if slot else None

    def of_clear_property(self, call: Call, _: str) -> Optional[list[UndoingCall]]:
        """The value as it was, if there was one."""
        slot = self.draft.slot(number_or_nothing(call.values[0]), str(call.values[1]))
        if slot is None or slot.value is None:
            return None if slot is None else []
        return [value_step(number_or_nothing(call.values[0]), str(call.values[1]), slot)]

    def of_add_property(self, call: Call, _: str) -> list[UndoingCall]:
        """It goes."""
        return [UndoingCall("delete_property", call.values[:2])]

    def of_delete_property(self, call: Call, _: str) -> Optional[list[UndoingCall]]:
        """The property again, and what it was on all that is under the object."""
        number, draft = number_or_nothing(call.values[0]), self.draft
        name = next((each for each in draft.defined(number) if each.lower() == str(call.values[1]).lower()), None)
        slot = draft.slot(number, name) if name else None
        if name is None or slot is None or slot.value is None:
            return None
        owner = Obj(self.living(slot.owner, draft.mark(number, "owner")))
        pairs = [(one, name) for one in draft.subtree(number)[1:]]
        return [UndoingCall("add_property", (Obj(number), name, slot.value, [owner, slot.perms])), *self.put_back(pairs, number)]

    def of_set_property_info(self, call: Call, _: str) -> Optional[list[UndoingCall]]:
        """The owner, the letters and the name as they were."""
        number, given = number_or_nothing(call.values[0]), call.values[2]
        name = str(call.values[1])
        slot = self.draft.slot(number, name)
        if slot is None or not isinstance(given, list):
            return None
        info: list[Value] = [Obj(self.living(slot.owner, number_or_nothing(given[0]))), slot.perms]
        if len(given) < 3:
            return [UndoingCall("set_property_info", (Obj(number), name, info))]
        spelled = next((each for each in self.draft.defined(number) if each.lower() == name.lower()), name)
        return [UndoingCall("set_property_info", (Obj(number), given[2], [*info, spelled]))]

    def put_back(self, pairs: list[tuple[int, str]], origin: int) -> list[UndoingCall]:
        """What gives slots that come anew from an object what they have now."""
        self.draft.facts.read(self.slots_to_read(pairs))
        return [step for number, name in pairs for step in self.slot_steps(number, name, origin)]

    def slots_to_read(self, pairs: list[tuple[int, str]]) -> Iterator[str]:
        """What is asked for these slots, and for the owners of their objects."""
        draft = self.draft
        for number, name in pairs:
            if number not in draft.made and (number, name.lower()) not in draft.slots:
                yield from slot_calls(number, name)
            if number not in draft.made and (number, "owner") not in draft.marks:
                yield f'get(#{number}, "owner")'

    def slot_steps(self, number: int, name: str, origin: int) -> list[UndoingCall]:
        """What gives a slot that comes anew from an object what it has now."""
        slot, of = self.draft.slot(number, name), self.draft.slot(origin, name)
        if slot is None or of is None:
            return []
        steps = [] if slot.value is None else [value_step(number, name, slot)]
        fresh = self.draft.mark(number, "owner") if "c" in of.perms else of.owner
        owner = self.living(slot.owner, fresh)
        if (owner, slot.perms) != (fresh, of.perms):
            steps.append(UndoingCall("set_property_info", (Obj(number), name, [Obj(owner), slot.perms])))
        return steps

    def living(self, owner: int, other: int) -> int:
        """An owner; another, if that one is gone, so that nothing can be given to it."""
        if self.draft.is_there(owner):
            return owner
        if owner != other:
            self.gone.add(owner)
        return other

    # Verbs

    def of_add_verb(self, call: Call, _: str) -> list[UndoingCall]:
        """It goes: `added_verb`, once the call was run."""
        self.draft.directory(number_or_nothing(call.values[0]))
        return []

    def added_verb(self, call: Call) -> UndoingCall:
        """What takes away the verb that a call has just added."""
        number = number_or_nothing(call.values[0])
        return UndoingCall("delete_verb", (Obj(number), VerbOn(number, self.draft.directory(number)[-1])))

    def of_delete_verb(self, call: Call, _: str) -> list[UndoingCall]:
        """The verb again, as the last one."""
        number = number_or_nothing(call.values[0])
        verb = self.draft.verb(number, call.values[1])
        info = self.info_of(verb, self.draft.mark(number, "owner"))
        return [UndoingCall("add_verb", (Obj(number), info, list(verb.args or ()), VerbOn(number, verb)))]

    def of_set_verb_info(self, call: Call, _: str) -> Optional[list[UndoingCall]]:
        """The owner, the letters and the names as they were."""
        number, given = number_or_nothing(call.values[0]), call.values[2]
        if not isinstance(given, list):
            return None
        verb = self.draft.verb(number, call.values[1])
        return [UndoingCall("set_verb_info", (Obj(number), VerbOn(number, verb), self.info_of(verb, number_or_nothing(given[0]))))]

    def of_set_verb_args(self, call: Call, _: str) -> list[UndoingCall]:
        """The arguments as they were."""
        number = number_or_nothing(call.values[0])
        verb = self.draft.verb(number, call.values[1])
        return [UndoingCall("set_verb_args", (Obj(number), VerbOn(number, verb), list(verb.args or ())))]

    def info_of(self, verb: Verb, other: int) -> list[Value]:
        """The owner, the letters and the names of a verb. If the owner is gone it is another one."""
        assert verb.info
        return [Obj(self.living(verb.info[0], other)), verb.info[1], verb.names]

    # Petitions

    def of_petition(self, _: Call, answer: str) -> list[UndoingCall]:
        """It goes."""
        return [UndoingCall("decline", (int(answer),))]


def number_or_nothing(value: Value) -> int:
    """The number of an object; -1 of another value."""
    return value.number if isinstance(value, Obj) else NOTHING


def value_step(number: int, name: str, slot: Slot) -> UndoingCall:
    """What gives a slot the value that it has now, or clears it."""
    if slot.value is None:
        return UndoingCall("clear_property", (Obj(number), name))
    return UndoingCall("set", (Obj(number), name, slot.value))


class Backwards:
    """The steps that undo a batch, as calls. It is given the last call's first, with the draft after all of them."""

    def __init__(self, draft: Draft) -> None:
        self.draft = draft
        self.verbs: dict[int, list[Verb]] = {}

    def texts(self, steps: Iterable[UndoingCall]) -> list[str]:
        """The calls that these steps are."""
        return [self.text(step) for step in steps]

    def text(self, step: UndoingCall) -> str:
        """The call that a step is."""
        verb = next((each for each in step.given if isinstance(each, VerbOn)), None)
        if verb is None:
            return call_text(step.name, step.given)
        verbs = self.verbs.setdefault(verb.number, list(self.draft.directory(verb.number)))
        if step.name == "add_verb":
            verbs.append(verb.verb)
            return call_text(step.name, step.given[:-1])
        place = verbs.index(verb.verb) + 1
        if step.name == "delete_verb":
            verbs.remove(verb.verb)
        return call_text(step.name, tuple(place if each is verb else each for each in step.given))
