"""Batches that act at most once though answers are lost, and that don't disturb those of other clients: by a mark.

    marked = MarkedBatches(service, Obj(5), "mark")
    marked.run(3, ['set(#6, "name", "Inn")'], Patience(60))

The mark is a property on an object of the client's own. Its name ends with 128 bits of chance. The first call of each batch gives it
another name, so a copy of a batch that has acted is refused at its first call, whatever else has changed in the world. The number of the
world isn't asked for, and a batch is one request.

If an answer was lost and a copy is refused so, the batch has acted if the mark has the name that the batch gave it. Calls but `create`,
`petition` and those that read answer 0, so these answers are known. Otherwise `AnswersLost` says that the batch has acted.
"""

from __future__ import annotations

import re
import secrets
from typing import NamedTuple, Optional

from moolib.calls import CHANGING, MAKING, call_name, call_text
from moolib.errors import AnswersLost, MooError, NoMark, Stale, Unreachable, Unsure
from moolib.raising import good, raise_refusal
from moolib.service import Answer, Patience, Service
from moolib.values import Obj, Value, read

# Calls whose answer isn't always 0, of those that change something.
TELLING = frozenset({"create", "petition"})
assert TELLING < CHANGING and TELLING < set(MAKING)


class MarkName(NamedTuple):
    """The mark as it is now: the name of the property, and its owner."""

    name: str
    owner: Obj


def sure_answers(calls: list[str]) -> Optional[list[str]]:
    """The answers of calls that have acted, if they can be no others."""
    names = set(map(call_name, calls))
    return ["0"] * len(calls) if names <= CHANGING - TELLING else None


class MarkedBatches:
    """Runs batches at a service, one at a time, each at most once, by the mark on this object. No other client may use the mark meanwhile.

    `is_shared` lets every programmer of the world rename the mark, so that batches of all of them can begin with it.
    """

    def __init__(self, service: Service, place: Obj, name: str, is_shared: bool) -> None:
        self.service, self.place, self.name = service, place, name
        self.perms = "rw" if is_shared else "r"
        self.held: Optional[MarkName] = None

    def run(
        self, who: Optional[int], calls: list[str], patience: Patience, at: Optional[int] = None, expected: Optional[list[str]] = None
    ) -> list[str]:  # fmt: skip
        """The answers of a batch. With `at` it acts only on the world of that number, and `expected` are the answers that it gives there.

        `Unsure`: it isn't known whether it has acted. `AnswersLost`: it has. `Unreachable`: it hasn't, and won't.
        """
        while True:
            held, seq = (self.held, 0) if self.held else self.found(who, patience)
            self.held = None
            if held is None and at is None:
                self.make(who, seq, patience)
                continue
            new = MarkName(self.new_name(), held.owner if held else self.owner(who, patience))
            answer, was_lost = self.sent(who, held, new, calls, at, patience)
            if answer.is_good:
                self.held = new
                return list(answer.said["answers"][1:])
            if was_lost and self.has_acted(who, answer, held, new, patience):
                return self.found_answers(calls, new, expected)
            if not is_gone(answer):
                self.refuse(answer, held)
            if patience.is_over:
                raise Unreachable(f"another client uses the mark on {self.place}")
            self.service.rest(patience.pause())

    def sent(
        self, who: Optional[int], held: Optional[MarkName], new: MarkName, calls: list[str], at: Optional[int], patience: Patience
    ) -> tuple[Answer, bool]:  # fmt: skip
        """The answer to a batch that renames the mark first, or makes it, and whether one was lost before."""
        return self.service.settled(who, [self.renaming(held, new) if held else self.making(new), *calls], at, patience)

    def renaming(self, held: MarkName, new: MarkName) -> str:
        """The call that gives the mark another name."""
        return call_text("set_property_info", (self.place, held.name, [held.owner, self.perms, new.name]))

    def making(self, new: MarkName) -> str:
        """The call that makes a mark. Without `at` a copy of it that comes late would make it again."""
        return call_text("add_property", (self.place, new.name, 0, [new.owner, self.perms]))

    def has_acted(self, who: Optional[int], answer: Answer, held: Optional[MarkName], new: MarkName, patience: Patience) -> bool:
        """Whether a batch has acted whose answer was lost, and a copy of which was refused so. If it hasn't, no copy of it will.

        `Unsure`: nothing tells.
        """
        if not is_gone(answer) and answer.error != "stale":
            # A copy that is still on its way would act, unless the mark has another name by then.
            other = MarkName(self.new_name(), new.owner)
            try:
                answer, _ = self.sent(who, held, other, [], None, Patience(self.service.patience))
            except MooError:
                raise Unsure from None
            if answer.is_good or self.is_there(who, other, patience):
                self.held = other
                return False
        if self.is_there(who, new, patience):
            self.held = new
            return True
        if answer.error == "stale":
            return False
        raise Unsure

    def found_answers(self, calls: list[str], new: MarkName, expected: Optional[list[str]]) -> list[str]:
        """The answers of a batch that has acted. `AnswersLost`: they aren't known."""
        answers = expected or sure_answers(calls) or self.service.answers_by(new.name)
        if answers is None or len(answers) < len(calls):
            raise AnswersLost(new.name)
        return answers[len(answers) - len(calls) :]

    def refuse(self, answer: Answer, held: Optional[MarkName]) -> None:
        """Raises what a refusal says, its calls counted without the one for the mark."""
        self.held = self.held or held
        if answer.error == "stale":
            raise Stale(answer.said["seq"])
        if answer.call == 1 and answer.error.startswith("E_"):
            self.held = None
            raise NoMark(f"the mark on {self.place} can't be renamed: {answer.why or answer.error}")
        raise_refusal(answer, 1)

    # The mark itself

    def new_name(self) -> str:
        """A name that the mark never had."""
        return f"{self.name}-{secrets.token_hex(16)}"

    def is_there(self, who: Optional[int], held: MarkName, patience: Patience) -> bool:
        """Whether the mark has this name. `Unsure`: nobody answers that in time."""
        try:
            answer = self.service.ask(who, [call_text("property_info", (self.place, held.name))], None, max(patience.left, 1.0))
        except MooError:
            raise Unsure from None
        if answer.is_good or answer.error == "E_PROPNF":
            return answer.is_good
        raise Unsure

    def found(self, who: Optional[int], patience: Patience) -> tuple[Optional[MarkName], int]:
        """The mark that is there from an earlier run, if there is one, and the number of the world.

        A property of the plain name, such as `mark`, is taken for a mark that had no batch yet.
        """
        is_mark = re.compile(rf"{re.escape(self.name)}-[0-9a-f]{{32}}")
        value, seq = self.read(who, call_text("properties", (self.place,)), patience)
        names = listed(value)
        marks = [name for name in names if is_mark.fullmatch(name)] or [name for name in names if name == self.name]
        if not marks:
            return None, seq
        info, _ = self.read(who, call_text("property_info", (self.place, marks[0])), patience)
        return MarkName(marks[0], owner_of(info)), seq

    def read(self, who: Optional[int], call: str, patience: Patience) -> tuple[Value, int]:
        """What a call answers that reads something of the mark, and the number of the world. `NoMark`: it is refused."""
        answer = self.service.ask(who, [call], None, patience.left)
        if answer.call == 1:
            raise NoMark(f"{self.place} can't hold a mark: {answer.why or answer.error}")
        said = good(answer).said
        return read(said["answers"][0]), int(said["seq"])

    def make(self, who: Optional[int], at: int, patience: Patience) -> None:
        """Makes a mark in the world of this number, unless the world moves on. `NoMark`: it can't be made there by this programmer."""
        new = MarkName(self.new_name(), self.owner(who, patience))
        answer, _ = self.service.settled(who, [self.making(new)], at, patience)
        if answer.error == "stale":
            if patience.is_over:
                raise Stale(answer.said["seq"])
            self.service.rest(patience.pause())
        elif answer.call == 1:
            raise NoMark(f"no mark can be made on {self.place}: {answer.why or answer.error}")
        else:
            good(answer)


    def owner(self, who: Optional[int], patience: Patience) -> Obj:
        """Whose the mark will be. Without a programmer that is the owner of its object, who is taken for the person of the token."""
        return Obj(who) if who is not None else owner_of([self.read(who, call_text("get", (self.place, "owner")), patience)[0]])


def is_gone(answer: Answer) -> bool:
    """Whether a batch was refused since the mark hasn't the name that it had."""
    return answer.call == 1 and answer.error == "E_PROPNF"


def listed(value: Value) -> list[str]:
    """The strings of a list."""
    return [one for one in value if isinstance(one, str)] if isinstance(value, list) else []


def owner_of(value: Value) -> Obj:
    """The owner that an info begins with. `NoMark`: it doesn't."""
    first = value[0] if isinstance(value, list) and value else None
    if not isinstance(first, Obj):
        raise NoMark("the owner of the mark can't be read")
    return first
