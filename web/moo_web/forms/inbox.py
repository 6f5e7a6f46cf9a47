"""The pages of petitions: a wizard's inbox with what granting each would do, what an owner is asked for, one's own, and one by itself."""

from __future__ import annotations

import dataclasses
from typing import Any, Callable, Optional

from markupsafe import Markup
from moolib.batches import Item
from moolib.calls import read_or_none
from moolib.draft import PETITIONS
from moolib.service import Said

from moo_web.app import Reply
from moo_web.forms.excuses import Excuse
from moo_web.forms.granting import PetitionOutcome, ends_of, outcomes_of
from moo_web.forms.handlers import excuse_of, values_before
from moo_web.forms.owners import Visible, of_others, owners_asked, visible
from moo_web.forms.petitions import Petition, petitions_in
from moo_web.forms.previewing import Preview
from moo_web.forms.previews import Previews
from moo_web.journal.history import History
from moo_web.journal.notes import LONGEST_WORDS
from moo_web.journal.talks import Talk, decided_of, talks_of
from moo_web.pages.batches import readable
from moo_web.pages.pages import Visit
from moo_web.pages.sentences import is_grave, preview_link, told
from moo_web.paths import whole_number
from moo_web.world.door import TooLong

ON_A_PAGE = 10
MOST_DECIDED = 10


@dataclasses.dataclass(frozen=True)
class PetitionRow:
    """A petition as a person sees it: its calls, what was said of it, the owners who are asked, and what they can do about it.

    `grant` is what granting it would do, for a wizard, in words too (`told`). `decline` is None for who may not end it. `accept` is what its
    calls would do by the rights of an owner who is asked: it is made for the page of one petition alone.
    """

    petition: Petition
    seen: Visible
    talk: Optional[Talk]
    owners: list[int]
    decline: Preview | None = None
    grant: Preview | None = None
    accept: Preview | None = None
    excuse: Excuse | None = None
    told: Callable[[str], Markup] | None = None

    @property
    def is_asked(self) -> bool:
        """Whether the person is asked as an owner, and sees any of it."""
        return self.decline is None

    @property
    def is_over(self) -> bool:
        """Whether an owner has done what it asks for, so that nothing is left to be done."""
        return self.talk is not None and self.talk.done_by is not None


class PetitionPages:
    """What these pages do."""

    def __init__(self, previews: Previews, history: History) -> None:
        self.previews, self.history = previews, history

    # The list

    def inbox(self, visit: Visit) -> Reply:
        """The petitions that the person may see, the oldest first."""
        first, of = (whole_number(visit.fields.get(key, "")) or 0 for key in ("after", "of"))
        of = of if visit.is_wizard else 0
        try:
            listed, told_all = self.listed(visit, of)
        except TooLong:
            return self.too_long(visit, of)
        found = [one for one in listed if one.number > first]
        rows = self.rows(visit, found[:ON_A_PAGE], None if of else told_all)
        return visit.page(
            "forms/petitions.html", rows=rows, more=len(found) - len(rows), last=rows[-1].petition.number if rows else 0, first=first,
            of=of or None, decided=[] if first or of else decided_of(self.history, visit.name, MOST_DECIDED), **self.words(visit),
        )  # fmt: skip

    def listed(self, visit: Visit, of: int = 0) -> tuple[list[Petition], Said]:
        """The open petitions that a person may see: all, or their own and those about what is theirs; or those of one player alone.

        They come with what `petitions()` answers. `TooLong`: they are too long to be shown together.
        """
        (said,) = self.previews.questions.read(of, [PETITIONS], visit.world.seq) if of else visit.said([PETITIONS])
        others = [] if visit.is_wizard else of_others(visit, self.previews.overseeing)
        return sorted([*petitions_in(said), *others]), said

    def rows(self, visit: Visit, petitions: list[Petition], said: Optional[Said]) -> list[PetitionRow]:
        """These petitions with what can be done about each. Without what `petitions()` answers none can be granted: no preview is made."""
        ask_for_all(visit, petitions)
        talks = talks_of(self.history, [one.number for one in petitions])
        outcomes = self.outcomes(visit, petitions, said)
        return [petition_row(visit, one, talks.get(one.number), outcomes.get(one.number, PetitionOutcome())) for one in petitions]

    @staticmethod
    def outcomes(visit: Visit, petitions: list[Petition], said: Optional[Said]) -> dict[int, PetitionOutcome]:
        """What the person could do about these petitions, by their numbers."""
        if visit.is_wizard and said is not None:
            found = outcomes_of(visit.said, visit.number, said, petitions, visit.world)
            return {one.number: outcome for one, outcome in zip(petitions, found)}
        mine = [one for one in petitions if visit.is_wizard or one.who == visit.number]
        return ends_of(visit.said, mine, visit.world.seq)

    @staticmethod
    def too_long(visit: Visit, of: int) -> Reply:
        """What is said of petitions that can't be shown together. A wizard is led to those of each player."""
        players = [visit.world.things[number] for number in visit.world.with_bit("player")] if visit.is_wizard and not of else []
        return visit.page("forms/too_long.html", 413, players=players, of=of or None)

    # One petition

    def one(self, visit: Visit, number: int) -> Reply:
        """One petition: open, or how it ended. It isn't there for those whom it doesn't concern."""
        try:
            listed, said = self.listed(visit)
        except TooLong:
            return self.too_long(visit, 0)
        if found := [one for one in listed if one.number == number]:
            (row,) = self.rows(visit, found, said)
            return self.page_of(visit, self.with_acceptance(visit, row))
        talk = talks_of(self.history, [number]).get(number)
        if talk is None or talk.ended is None or not (visit.is_wizard or talk.asked.who.lower() == visit.name.lower()):
            return visit.refused("not found", 404)
        calls = list(map(str, talk.calls))
        return visit.page("forms/decided.html", talk=talk, calls=calls, **self.words(visit))

    def page_of(self, visit: Visit, row: PetitionRow, status: int = 200, wrong: str = "", typed: str = "") -> Reply:
        """The page of an open petition. `wrong` is what is wrong with the words that were typed."""
        return visit.page("forms/petition.html", status, row=row, wrong=wrong, typed=typed, **self.words(visit))

    def with_acceptance(self, visit: Visit, row: PetitionRow) -> PetitionRow:
        """The same for an owner who is asked, with what its calls would do by their own rights, if they may see all of them."""
        if not row.is_asked or row.seen.hidden or row.is_over:
            return row
        accept = self.previews.of(visit.session.person, items_of_petition(row.petition))
        link = preview_link(visit.link, [(change.call, change.answer) for change in accept.changes])
        return dataclasses.replace(row, accept=accept, excuse=excuse_of(None, accept), told=lambda call: told(call, link))

    @staticmethod
    def words(visit: Visit) -> dict[str, Any]:
        """What the templates of these pages use."""
        return {"told": lambda call: told(call, visit.link), "is_grave": is_grave, "values": values_before, "longest": LONGEST_WORDS}

    # Quotas

    def quotas(self, visit: Visit) -> Reply:
        """How many objects each player may make, for wizards."""
        if not visit.is_wizard:
            return visit.refused("forbidden", 403)
        players = [visit.world.things[number] for number in visit.world.with_bit("player")]
        answers = visit.answers([f'get(#{thing.number}, "ownership_quota")' for thing in players])
        owned = visit.world.owned
        rows = [
            (thing, answer if isinstance(answer, int) else None, len(owned.get(thing.number, ()))) for thing, answer in zip(players, answers)
        ]
        return visit.page("forms/quotas.html", rows=rows)


def petition_row(visit: Visit, petition: Petition, talk: Optional[Talk], outcome: PetitionOutcome) -> PetitionRow:
    """A petition with what the person could do about it."""
    seen, grant = visible(visit, petition), outcome.grant
    is_same = talk is not None and (talk.asked.programmer, list(map(str, talk.calls))) == (petition.who, petition.calls)
    # After a world was loaded from a dump a number may be given again. Who may read none of the calls reads no word about them either.
    if not is_same or not seen.calls:
        talk = None
    owners = [] if seen.hidden else owners_asked(visit, petition.calls, petition.who)
    row = PetitionRow(petition, seen, talk, owners, outcome.decline, grant)
    if grant is None:
        return row
    link = preview_link(visit.link, [(change.call, change.answer) for change in grant.inner])
    return dataclasses.replace(row, excuse=excuse_of(None, grant), told=lambda call: told(call, link))


def ask_for_all(visit: Visit, petitions: list[Petition]) -> None:
    """Asks at once what tells which calls of these petitions a person may read."""
    if not visit.is_wizard:
        readable(visit, [read_or_none(text) for one in petitions if one.who != visit.number for text in one.calls])


def items_of_petition(petition: Petition) -> list[Item]:
    """The calls of a petition as a batch."""
    return [Item(call) for call in petition.calls]
