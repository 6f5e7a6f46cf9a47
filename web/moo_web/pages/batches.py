"""What a batch of the journal did, as one person may know it: sentences with the names of then, and values before and after.

Who made a batch, and a wizard, sees all of its calls. The owners of objects that it names see each call that they could read: what moo
answers to their own number decides. A value that was there before is shown to those who may read its property now.
"""

from __future__ import annotations

import functools
import time
from typing import Any, Iterable, NamedTuple, Optional, Sequence

from markupsafe import Markup, escape
from moolib.calls import OF_VERBS, Call, read_or_none
from moolib.service import MOST_CALLS
from moolib.slots import SETTABLE
from moolib.values import Obj, Value, read, written

from moo_web.journal.aspects import Aspect, aspect_of
from moo_web.journal.history import Batches, History, call_about
from moo_web.journal.segments import Accepted
from moo_web.journal.undoing import undone
from moo_web.forms.input import clipped
from moo_web.forms.unread import is_of_value, readable_lines
from moo_web.pages.links import link_named, name_shown
from moo_web.pages.pages import Visit
from moo_web.pages.sentences import LONGEST_OF_MANY, Link, in_words, told_call
from moo_web.pages.words import REPLIES
from moo_web.world.asking import Refusal, batch_asked
from moo_web.world.door import QUESTION_SECONDS, Answer

OF_PROPERTIES = ("set", "clear_property", "set_property_info", "delete_property", "add_property")
NOBODYS = ("petition",)
# So many calls of a petition are told in a line.
FEW = 3
# So many calls of a batch are in a list of batches.
MOST_IN_LIST = 15
# So many batches are looked through for the values of a property.
MOST_IN_TIME = 100
SOON = 1.0
INHERITED = Markup('<span class="dim">what it inherits</span>')
GONE = Markup('<span class="dim">gone</span>')


class Difference(NamedTuple):
    """A value before and after: of which object, what it is, and both as they are shown."""

    of: Markup
    what: str
    old: Markup
    new: Markup


class CallRow(NamedTuple):
    """A call as it is shown: in words if it has some, its text, its answer, and what it changed. `asked` are the calls that a grant did."""

    call: str
    words: Markup
    answer: Optional[str]
    differences: list[Difference]
    asked: list[Markup]
    asked_by: str


class Told(NamedTuple):
    """A batch as it is shown: its rows, how many calls and values the person may not read, and the objects that it made and is about."""

    rows: list[CallRow]
    hidden: int
    unread: int
    is_own: bool
    made: list[int]
    about: list[int]


class ListedBatch(NamedTuple):
    """A batch in a line of a list: a sentence, how many more calls it has, and the first calls in words, if they are unfolded and several."""

    words: Markup
    more: int
    all: list[Markup] = []


def is_about(call: Optional[Call], answer: str, number: Optional[int]) -> bool:
    """Whether a call names an object, or makes it; of no object every call is."""
    return number is None or call is not None and (number in call.objects or call.made(answer) == number)


class Telling:
    """How one batch is told to one person."""

    def __init__(self, visit: Visit, history: History, batch: Accepted) -> None:
        self.visit, self.history, self.batch = visit, history, batch
        self.is_own = visit.is_wizard or batch.who.lower() == visit.name.lower()
        self.link = link_then(visit, batch)
        self.unread = 0

    @functools.cached_property
    def calls(self) -> list[Optional[Call]]:
        """The calls of the batch; None for one that can't be read."""
        return [read_or_none(text) for text in self.batch.calls]

    def told(self) -> Told:
        """The batch as it is shown."""
        shown = [True] * len(self.calls) if self.is_own else readable(self.visit, self.calls)
        rows = [self.row(place) for place, is_shown in enumerate(shown) if is_shown]
        made = [number for call, (_, answer) in zip(self.calls, self.batch.answered) if call and (number := call.made(answer)) is not None]
        subjects = [call.subject for call in self.calls if call and not call.makes == "object" and not call.is_reading]
        about = [number for number in dict.fromkeys([*made, *subjects]) if number is not None and number in self.visit.world.things]
        return Told(rows, shown.count(False), self.unread, self.is_own, made, about)

    def row(self, place: int) -> CallRow:
        """The call at a place."""
        call, text, answers = self.calls[place], self.batch.calls[place], self.batch.answers or []
        asked, who = self.asked_by(call)
        if not self.is_own:
            asked = [each for each, is_shown in zip(asked, readable(self.visit, list(asked))) if is_shown]
        before = self.batch.memory.before[place] if self.batch.memory else None
        differences = self.differences(asked or ([call] if call else []), before or [])
        answer = answers[place] if self.is_own and place < len(answers) else None
        done = [told_call(each, self.link) or escape(str(each)) for each in asked]
        return CallRow(text, in_words(text, self.link), answer, differences, done, who)

    def line(self, number: Optional[int]) -> ListedBatch:
        """The batch in a line of a list: its first call about an object, or of no object its first one, among those that may be read."""
        text = call_about(self.batch, number) if self.is_own else self.readable_about(number)
        more = len(self.batch.calls) - 1
        if not text:
            return ListedBatch(self.without_call() if self.is_own else Markup("something that you may not read"), more)
        call = read_or_none(text)
        asked, who = self.asked_by(call)
        words = self.sentence(text, call) + self.reason
        if asked:
            done = [each for each, is_shown in zip(asked, readable(self.visit, list(asked))) if self.is_own or is_shown]
            inner = Markup(" ").join(told_call(each, self.link) or escape(str(each)) for each in done[:FEW])
            words += Markup(" <span class='dim'>{}’s petition:</span> {}{}").format(who, inner, " …" if len(done) > FEW else "")
        return ListedBatch(words, more)

    def unfolded(self, number: Optional[int]) -> ListedBatch:
        """The same with its first calls in words, if it has several and any may be read."""
        line = self.line(number)
        return line._replace(all=self.first_sentences()) if line.more > 0 else line

    @property
    def count(self) -> int:
        """How many calls of it the person may read."""
        return len(self.batch.calls) if self.is_own else sum(readable(self.visit, self.calls))

    @property
    def reason(self) -> Markup:
        """The words that came with it, for who made it and for wizards."""
        words = self.batch.note.words if self.is_own else ""
        return Markup(" <q>{}</q>").format(clipped(words)) if words else Markup()

    def without_call(self) -> Markup:
        """A batch that has no call: an answer to a petition, or nothing."""
        note = self.batch.note
        return Markup("Petition {} is answered: {}{}").format(note.petition, REPLIES[note.says], self.reason) if note.says else Markup("no call")

    def sentence(self, text: str, call: Optional[Call]) -> Markup:
        """A call of this text in words, or as it is written."""
        words = told_call(call, self.link) if call and len(text) <= LONGEST_OF_MANY else Markup()
        return words or Markup('<span class="code">{}</span>').format(self.visit.call(text, 300))

    def first_sentences(self) -> list[Markup]:
        """The first calls that the person may read."""
        if self.is_own:
            return [self.sentence(text, read_or_none(text)) for text in self.batch.calls[:MOST_IN_LIST]]
        calls = zip(self.batch.calls, self.calls, readable(self.visit, self.calls))
        shown = [(text, call) for text, call, is_shown in calls if is_shown]
        return [self.sentence(text, call) for text, call in shown[:MOST_IN_LIST]]

    def readable_about(self, number: Optional[int]) -> str:
        """The first call about an object that the person may read, else the first one that they may; empty if there is none."""
        places = [place for place, is_shown in enumerate(readable(self.visit, self.calls)) if is_shown]
        answered = self.batch.answered
        about = [place for place in places if is_about(self.calls[place], answered[place][1], number)]
        if number is None:
            owned = {self.visit.number, *self.visit.world.owned.get(self.visit.number, ())}
            about = [place for place in places if (call := self.calls[place]) and call.objects & owned]
        return self.batch.calls[(about or places)[0]] if places else ""

    def asked_by(self, call: Optional[Call]) -> tuple[list[Call], str]:
        """The calls that a grant did, and whose petition it was."""
        petition = self.history.petition(call.petition) if call and call.name == "grant" and call.petition is not None else None
        return (list(petition.asked), petition.who) if petition else ([], "")

    def differences(self, calls: Iterable[Call], before: list[str]) -> list[Difference]:
        """The values before and after these calls."""
        after = {aspect.key: aspect for call in calls if (aspect := aspect_of(call))}
        were = [aspect for text in before if (call := read_or_none(text)) and (aspect := aspect_of(call, is_undoing=True))]
        changed = [aspect for aspect in were if aspect.key not in after or after[aspect.key].value != aspect.value]
        may = self.may_read(changed)
        self.unread += may.count(False)
        return [self.difference(aspect, after.get(aspect.key)) for aspect, is_read in zip(changed, may) if is_read]

    def difference(self, was: Aspect, now: Optional[Aspect]) -> Difference:
        """A value before and after. Without a call that gave it another one it is gone."""
        old = INHERITED if was.value is None else self.value(was.value)
        if now is None or now.value is None:
            is_cleared = any(call and call.name == "clear_property" and call.subject == was.number for call in self.calls)
            return Difference(self.link(was.number), was.what, old, INHERITED if is_cleared else GONE)
        return Difference(self.link(was.number), was.what, old, self.value(now.value))

    def value(self, text: str) -> Markup:
        """A value as it is written, cut."""
        return self.visit.call(text, 300)

    def may_read(self, aspects: list[Aspect]) -> list[bool]:
        """Which of these the person may read now."""
        if self.visit.is_wizard:
            return [True] * len(aspects)
        tests = [info_call(aspect.number, aspect.of_property) if aspect.of_property else "" for aspect in aspects]
        answers = self.visit.answers([test for test in tests if test])
        given = dict(zip([test for test in tests if test], answers))
        lost = self.could_read() if any(isinstance(answer, Refusal) and answer.error == "E_PROPNF" for answer in answers) else set()
        verbs = [aspect.by != "set_verb_info" or is_open_verb(self.visit, read(aspect.value or "{}")) for aspect in aspects]
        may = [not test or not isinstance(given[test], Refusal) or aspect.key in lost for test, aspect in zip(tests, aspects)]
        return [is_good and is_open for is_good, is_open in zip(may, verbs)]

    def could_read(self) -> set[tuple[int, str]]:
        """The lost values that who made the batch could read: those that it would have again if it was undone."""
        if not self.is_own:
            return set()
        def ask(calls: list[str]) -> Answer:
            return batch_asked(self.visit.asker.door, self.visit.number, calls, self.visit.world.seq, time.monotonic() + QUESTION_SECONDS)

        lines = readable_lines(undone(self.batch).lines[:MOST_CALLS], self.visit.number, ask)
        found = (aspect_of(call, is_undoing=True) for line in lines if is_of_value(line) and (call := read_or_none(line)))
        return {aspect.key for aspect in found if aspect}


def info_call(number: int, name: str) -> str:
    """The call that tells whether somebody may read a property."""
    return f"property_info(#{number}, {written(name)})"


def test_of(visit: Visit, call: Optional[Call]) -> Optional[str]:
    """The call that somebody may make who may read this one. None: nobody; empty: everybody."""
    if call is None or call.is_reading or call.name in NOBODYS:
        return None
    is_property = call.name in OF_PROPERTIES and len(call.values) > 1 and isinstance(call.values[1], str)
    if is_property and not (call.name == "set" and str(call.values[1]).lower() in SETTABLE):
        thing = visit.world.things.get(call.subject or -1)
        if call.name == "delete_property" and thing and thing.owner == visit.number:
            return ""
        info = call.values[2] if call.name == "set_property_info" else None
        name = info[2] if isinstance(info, list) and len(info) == 3 else call.values[1]
        return info_call(call.subject or 0, str(name))
    return of_verb(visit, call) if call.name in OF_VERBS else ""


def of_verb(visit: Visit, call: Call) -> Optional[str]:
    """The same of a call about a verb: its rights have to let somebody read it, and the object list it."""
    if call.name in ("add_verb", "set_verb_info"):
        return f"verbs(#{call.subject})" if is_open_verb(visit, call.values[1 if call.name == "add_verb" else 2]) else None
    if call.name == "set_verb_args":
        return f"verb_info(#{call.subject}, {written(call.values[1])})"
    return f"verbs(#{call.subject})"


def is_open_verb(visit: Visit, info: Value) -> bool:
    """Whether somebody may read a verb of this owner and with these rights."""
    return isinstance(info, list) and len(info) > 1 and (info[0] == Obj(visit.number) or "r" in str(info[1]).lower())


def readable(visit: Visit, calls: list[Any]) -> list[bool]:
    """Which calls of somebody else's the person may read."""
    tests = [test_of(visit, call) for call in calls]
    asked = [test for test in tests if test]
    given = dict(zip(asked, visit.answers(asked)))
    return [test is not None and (not test or not isinstance(given[test], Refusal)) for test in tests]


def ask_ahead(visit: Visit, batches: Iterable[Accepted]) -> None:
    """Asks at once what tells which calls of these batches a person may read."""
    if not visit.is_wizard:
        others = [batch for batch in batches if batch.who.lower() != visit.name.lower()]
        readable(visit, [read_or_none(text) for batch in others for text in batch.calls])


def link_then(visit: Visit, batch: Accepted) -> Link:
    """The links of a batch, with the names that its objects had before it."""
    names = batch.memory.names if batch.memory else {}

    def link(number: int) -> Markup:
        name, thing = names.get(f"#{number}"), visit.world.things.get(number)
        if name is None or thing and thing.name == name:
            return visit.link(number)
        if thing is None:
            return Markup('<span class="gone">{}</span>&nbsp;<span class="n">#{}</span>').format(name_shown(name), number)
        return link_named(number, name)

    return link


class InTime(NamedTuple):
    """A value that a property got: by which batch, the value before, and that after."""

    batch: Accepted
    old: Optional[Markup]
    new: Markup


def in_time(visit: Visit, history: History, number: int, name: str) -> list[InTime]:
    """The values that a property of an object got in the last batches that name the object, the newest first."""
    found = history.found(None, number, MOST_IN_TIME, patience=SOON)
    return [one for batch in found.batches for one in reversed(values_in_batch(Telling(visit, history, batch), number, name))] if found else []


def values_in_batch(telling: Telling, number: int, name: str) -> list[InTime]:
    """The values that one batch gave a property of an object, each with what was there before."""
    batch, key = telling.batch, (number, name.lower())
    values = []
    for place, call in enumerate(telling.calls):
        after = [aspect_of(each) for each in telling.asked_by(call)[0] or ([call] if call else [])]
        texts = (batch.memory.before[place] if batch.memory else None) or []
        before = [aspect_of(each, is_undoing=True) for each in map(read_or_none, texts) if each]
        was = next((each for each in before if each and each.key == key), None)
        now = next((each for each in after if each and each.key == key), None)
        if was or now:
            old = None if was is None else INHERITED if was.value is None else telling.value(was.value)
            is_cleared = call is not None and call.name == "clear_property"
            new = telling.value(now.value) if now and now.value is not None else INHERITED if is_cleared else GONE
            values.append(InTime(batch, old, new))
    return values


def concerns(visit: Visit, history: History, batch: Accepted) -> bool:
    """Whether a person may see a batch: as who made it, as a wizard, or since an object of theirs is in it."""
    if visit.is_wizard or batch.who.lower() == visit.name.lower():
        return True
    things = visit.world.things
    is_of_theirs = any(number == visit.number or number in things and things[number].owner == visit.number for number in history.named(batch))
    return is_of_theirs and has_readable(visit, history, batch)


def has_readable(visit: Visit, history: History, batch: Accepted) -> bool:
    """Whether a person may read any call of somebody else's batch, of a petition that it grants too."""
    calls = [read_or_none(text) for text in batch.calls]
    granted = [each for call in calls if call and call.name == "grant" for each in asked_in(history, call)]
    return any(readable(visit, [call for call in calls if call and call.name != "grant"])) or any(readable(visit, granted))


def asked_in(history: History, call: Call) -> Sequence[Call]:
    """The calls of the petition that a call grants."""
    petition = history.petition(call.petition) if call.petition is not None else None
    return petition.asked if petition else ()


def without_unreadable(visit: Visit, history: History, found: Optional[Batches]) -> Optional[Batches]:
    """Some batches without those of others of which a person may read no call."""
    if found is None or visit.is_wizard:
        return found
    ask_ahead(visit, found.batches)
    own = visit.name.lower()
    kept = [(place, batch) for place, batch in found.places if batch.who.lower() == own or has_readable(visit, history, batch)]
    return found._replace(places=kept, total=found.total - len(found.places) + len(kept))
