"""What makes an object again that is recycled, as far as that can be: another one, with the same properties, in its place.

The calls name it by the number that it had; the first one makes it. Who undoes the batch puts the new number in that one's place.
"""

from __future__ import annotations

from moolib.calls import call_text
from moolib.values import Obj, Value

from moo_web.journal.inverses import Inverses, UndoingCall
from moolib.draft import NOTHING, Draft
from moolib.slots import BITS


def remade(inverses: Inverses, number: int) -> list[str]:
    """The calls that make an object again, as it is before it goes."""
    draft = inverses.draft
    steps = [
        *made(draft, number), *defined(inverses, number), *inherited(inverses, number), *verbs(inverses, number),
        *rejoined(inverses, number), *inverses.quota_steps(draft.mark(number, "owner")),
    ]  # fmt: skip
    return [call_text(step.name, step.given) for step in steps]


def made(draft: Draft, number: int) -> list[UndoingCall]:
    """The object itself: its parent, owner, name and marks, and what it accepts."""
    it, owner = Obj(number), draft.mark(number, "owner")
    given: tuple[Value, ...] = ()
    if owner != draft.programmer and draft.is_there(owner):
        given = (Obj(NOTHING if owner == number else owner),)
    steps = [UndoingCall("create", (Obj(draft.mark(number, "parent")), *given))]
    if name := draft.mark(number, "name"):
        steps.append(UndoingCall("set", (it, "name", name)))
    bits = [bit for bit in BITS if draft.mark(number, bit)]
    steps += [UndoingCall("set_player_flag", (it, 1)) if bit == "player" else UndoingCall("set", (it, bit, 1)) for bit in bits]
    accept = draft.mark(number, "accept")
    return steps if accept == 0 else [*steps, UndoingCall("set_accept", (it, accept))]


def defined(inverses: Inverses, number: int) -> list[UndoingCall]:
    """The properties that it defines."""
    draft = inverses.draft
    found = [(name, draft.slot(number, name)) for name in draft.defined(number)]
    return [
        UndoingCall("add_property", (Obj(number), name, slot.value, [Obj(inverses.living(slot.owner, draft.programmer)), slot.perms]))
        for name, slot in found if slot and slot.value is not None
    ]  # fmt: skip


def inherited(inverses: Inverses, number: int) -> list[UndoingCall]:
    """What it is of the properties that are defined above it."""
    draft = inverses.draft
    parent = draft.mark(number, "parent")
    pairs = [(number, name) for one in draft.chain(number)[1:] for name in draft.defined(one)]
    return inverses.put_back(pairs, parent) if parent != NOTHING else []


def verbs(inverses: Inverses, number: int) -> list[UndoingCall]:
    """Its verbs, in their order."""
    draft = inverses.draft
    whole = [draft.whole(number, verb) for verb in draft.directory(number)]
    return [UndoingCall("add_verb", (Obj(number), inverses.info_of(verb, draft.programmer), list(verb.args or ()))) for verb in whole]


def rejoined(inverses: Inverses, number: int) -> list[UndoingCall]:
    """Its place, its children with the slots that they lost, and its contents."""
    draft, it = inverses.draft, Obj(number)
    place = draft.mark(number, "location")
    steps = [UndoingCall("move", (it, Obj(place)))] if place != NOTHING else []
    steps += [UndoingCall("chparent", (Obj(child), it)) for child in sorted(draft.children(number))]
    pairs = [(one, name) for one in draft.subtree(number)[1:] for name in draft.defined(number)]
    return [*steps, *inverses.put_back(pairs, number), *(UndoingCall("move", (Obj(one), it)) for one in draft.contents(number))]
