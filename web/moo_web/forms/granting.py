"""What granting petitions would do, for a wizard: the previews of all petitions of a page, with few requests.

Each is the one that `Previews.of` makes of `grant(N)` alone, so that a button beside it does what was seen.
"""

from __future__ import annotations

from collections.abc import Callable, Sequence
from typing import NamedTuple

from moolib.calls import LOSING, OF_VERBS, Call, read_or_none
from moolib.draft import PETITIONS, QUOTA
from moolib.facts import Facts
from moolib.losses import Losses
from moolib.service import Said
from moolib.slots import first_calls, slot_calls
from moolib.values import Obj

from moo_web.forms.petitions import Petition
from moo_web.forms.previewing import BatchRefusal, Change, Preview
from moo_web.forms.questions import Before, befores_of
from moo_web.world.gathering import Gathering
from moo_web.world.public import public_fact
from moo_web.world.things import World

Asking = Callable[[list[str]], list[Said]]
TOP = "max_object()"
# So many verbs of an object, and so many objects above one, are asked for at once.
MOST_VERBS, MOST_ABOVE = 8, 8


class PetitionOutcome(NamedTuple):
    """What granting a petition would do, and what declining it would; None for who may not."""

    grant: Preview | None = None
    decline: Preview | None = None


def outcomes_of(asked: Asking, wizard: int, told: Said, petitions: Sequence[Petition], world: World) -> list[PetitionOutcome]:
    """What granting and declining each of these would do to this world. `asked` asks for facts of it as the wizard.

    `told` is what `petitions()` answers. What `asked` raises comes through.
    """
    gathering = Gathering(asked)
    gathering.known[PETITIONS] = told
    return gathering.all([Granting(gathering.said, wizard, one, world).outcome for one in petitions])


def ends_of(asked: Asking, petitions: Sequence[Petition], seq: int) -> dict[int, PetitionOutcome]:
    """What declining each would do, by their numbers."""
    calls = [end_of(one) for one in petitions]
    answers = asked(calls) if calls else []
    return {one.number: PetitionOutcome(None, single(call, said, seq)) for one, call, said in zip(petitions, calls, answers)}


def end_of(petition: Petition) -> str:
    """The call that declines a petition. Nothing is lost by it."""
    return f"decline({petition.number})"


def single(call: str, said: Said, seq: int, inner: tuple[Change, ...] = (), losses: Losses = Losses()) -> Preview:
    """The preview of a batch of one call, which answers so by itself."""
    if said.is_good:
        return Preview(seq, (Change(call, said.text),), None, inner, losses)
    return Preview(seq, (Change(call, ""),), BatchRefusal(1, said.text, said.why), inner)


class Granting:
    """How the preview of one grant is made."""

    def __init__(self, asked: Asking, wizard: int, petition: Petition, world: World) -> None:
        self.asked, self.wizard, self.petition, self.world, self.seq = asked, wizard, petition, world, world.seq
        self.calls = [each for each in map(read_or_none, petition.calls) if each]

    def outcome(self) -> PetitionOutcome:
        """The previews of the grant, and of declining it."""
        call, end = f"grant({self.petition.number})", end_of(self.petition)
        befores = befores_of(self.petition.calls)
        wanted = list(dict.fromkeys([call, end, *(before.call for each in befores for before in each), TOP, *self.likely()]))
        given = dict(zip(wanted, self.asked(wanted)))
        inner = inner_changes(self.petition.calls, befores, given, given[call].is_good)
        losses = self.losses(call, given[call]) if given[call].is_good else Losses()
        return PetitionOutcome(single(call, given[call], self.seq, inner, losses), single(end, given[end], self.seq))

    def losses(self, call: str, said: Said) -> Losses:
        """What it would destroy. A wizard may read all of it."""
        facts = Facts(self.facts)
        return Losses.of(facts, facts, self.wizard, [call], [said.text])

    def facts(self, calls: list[str]) -> list[Said]:
        """What these calls answer: what is public without asking."""
        public = {call: fact for call in calls if (fact := public_fact(self.world, call)) is not None}
        asked = [call for call in calls if call not in public]
        given = public | dict(zip(asked, self.asked(asked) if asked else ()))
        return [given[call] for call in calls]

    def likely(self) -> list[str]:
        """What will most likely be asked for, so that it is asked for at once: `Draft` asks for one thing after another."""
        found = first_calls(self.calls)
        for call in self.calls:
            for number in {*call.objects, self.wizard} if not call.is_reading else ():
                found += self.likely_of(number, call)
        return [text for text in found if public_fact(self.world, text) is None]

    def likely_of(self, number: int, call: Call) -> list[str]:
        """The same of one object that a call is about, or whose owner's quota it changes."""
        thing, found = self.world.things.get(number), list[str]()
        if thing is None:
            return found
        if call.name in LOSING:
            found += [f"properties(#{above.number})" for above in self.world.chain(number)]
        if call.name in OF_VERBS and number == call.subject:
            found += [f"{what}(#{number}, {place})" for place in range(1, MOST_VERBS + 1) for what in ("verb_info", "verb_args")]
        if call.name in ("create", "recycle"):
            owners = {number, thing.owner} & self.world.things.keys()
            found += [text for owner in owners for above in self.world.chain(owner)[:MOST_ABOVE] for text in slot_calls(above.number, QUOTA)]
        return found


def inner_changes(calls: list[str], befores: list[list[Before]], given: dict[str, Said], is_done: bool) -> tuple[Change, ...]:
    """The calls of a petition with what is there before each, and with the numbers of the objects that they make, if they are done."""
    top = given[TOP].value
    made = top.number if isinstance(top, Obj) else 0
    changes = []
    for text, reads in zip(calls, befores):
        call = read_or_none(text)
        is_new = call is not None and call.makes == "object"
        made += is_new
        changes.append(Change(text, answer_of(call, made, is_done), tuple((before, given[before.call]) for before in reads)))
    return tuple(changes)


def answer_of(call: Call | None, made: int, is_done: bool) -> str:
    """What a call of a petition answers, which a grant doesn't tell: the number of the object that it makes. What it reads isn't known."""
    if not is_done or call is None or call.is_reading:
        return ""
    return f"#{made}" if call.makes == "object" else "0"
