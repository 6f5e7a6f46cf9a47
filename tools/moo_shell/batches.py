"""Batches with names at a door: asked, or run, at most once."""

from __future__ import annotations

import dataclasses
from collections.abc import Iterable, Mapping
from typing import Optional

from moo_shell.door import PATIENCE, Door
from moo_shell.losing import told_losses
from moo_shell.manual import Manual
from moo_shell.meant import signs_advice
from moolib import errors
from moolib.batches import Item, local_names, resolved, written_calls
from moolib.calls import READING, call_name
from moolib.errors import Failed, Stale
from moolib.lines import did_you_mean, hint, strange_letter
from moolib.service import MOST_CALLS, Answer, Patience


@dataclasses.dataclass(frozen=True)
class Done:
    """The answers of a batch, and the number of the world after it."""

    answers: list[str]
    seq: int


class Refused(Failed):
    """A batch that was refused, with the call that it was refused at, counted from 1; 0 if it is the batch itself."""

    def __init__(self, reason: str, call: int, error: str, place: Optional[tuple[str, int]]) -> None:
        super().__init__(reason, place)
        self.call, self.error = call, error


class Unsure(Failed):
    """An answer was lost: the batch has become the number after `at`, or it hasn't."""

    def __init__(self, at: int) -> None:
        super().__init__(
            f"the answer was lost: the batch has become number {at + 1}, or it hasn't and something else has; "
            "look at the world before you go on"
        )
        self.at = at


def only_reads(items: Iterable[Item]) -> bool:
    """Whether there are calls, and none of them changes anything."""
    names = [call_name(item.text) for item in items]
    return bool(names) and all(name in READING for name in names)


def stale(moved: Stale, at: int) -> Refused:
    """Why a batch that is for the world of a number isn't done on one of another."""
    return Refused(f"the world has the number {moved.seq} and not {at}", 0, "stale", None)


class Batches:
    """Runs batches through a door, and asks them."""

    def __init__(self, door: Door, manual: Manual) -> None:
        self.door, self.manual = door, manual
        self.seq: Optional[int] = None

    def run(self, items: list[Item], who: int, names: Mapping[str, str], at: Optional[int] = None) -> Done:
        """Runs a batch, at most once. With `at` it acts only on the world of that number."""
        self.test_length(items)
        waiting = Patience(PATIENCE)
        while True:
            try:
                calls, seq = self.prepared(items, who, names, at)
                return self.sent(items, calls, who, seq)
            except Stale as moved:
                self.seq = moved.seq
                if at is not None:
                    raise stale(moved, at) from None
                if waiting.is_over:
                    raise Failed("others write all the time: the batch found no moment") from None
            self.door.rest(waiting.pause())

    def ask(self, items: list[Item], who: int, names: Mapping[str, str], at: Optional[int] = None) -> Done:
        """What a batch would answer; nothing changes. With `at` it is asked of the world of that number alone."""
        self.test_length(items)
        while True:
            try:
                calls, answer = self.prepared_to_ask(items, who, names, at)
            except Stale as moved:
                if at is not None:
                    raise stale(moved, at) from None
                continue
            return self.done(items, calls, answer)

    def losses(self, items: list[Item], who: int, names: Mapping[str, str], done: Done, is_script: bool) -> list[str]:
        """What a batch would destroy or replace that was asked and would be answered so, in lines."""
        calls = written_calls(items, names, dict(enumerate(done.answers)))
        return told_losses(self.door, who, calls, done.answers, done.seq, is_script)

    @staticmethod
    def test_length(items: list[Item]) -> None:
        """A batch isn't longer than a service takes."""
        if len(items) > MOST_CALLS:
            raise Failed(f"a batch has at most {MOST_CALLS} calls, and this one has {len(items)}", items[MOST_CALLS].place)

    def prepared(self, items: list[Item], who: int, names: Mapping[str, str], at: Optional[int]) -> tuple[list[str], int]:
        """The calls of a batch, and the number of the world that they are for."""
        if at is None and self.seq is None:
            self.seq = self.door.seq()
        seq = self.seq if at is None else at
        assert seq is not None
        if not local_names(items):
            return written_calls(items, names, {}), seq
        calls, answer = resolved(items, names, lambda some: self.asked(who, some, seq))
        if not answer.is_good:
            raise self.refusal(items, calls, answer)
        return calls, seq

    def prepared_to_ask(self, items: list[Item], who: int, names: Mapping[str, str], at: Optional[int]) -> tuple[list[str], Answer]:
        """The calls of a batch that is only asked, and what they would answer."""
        if local_names(items):
            seq = self.door.seq() if at is None else at
            return resolved(items, names, lambda some: self.asked(who, some, seq))
        calls = written_calls(items, names, {})
        return calls, self.asked(who, calls, at)

    def asked(self, who: int, calls: list[str], at: Optional[int]) -> Answer:
        """What calls would answer. `Stale`: the world has another number than `at`."""
        answer = self.door.ask(who, calls, at)
        if answer.error == "stale":
            raise Stale(int(answer.said["seq"]))
        return answer

    def sent(self, items: list[Item], calls: list[str], who: int, at: int) -> Done:
        """Sends a batch for the world of a number, until its answer comes."""
        try:
            answer, was_lost = self.door.settled(who, calls, at, Patience(PATIENCE))
        except errors.Unreachable as error:
            raise Failed(str(error)) from None
        except errors.Unsure:
            raise Unsure(at) from None
        if answer.error == "stale":
            self.seq = int(answer.said["seq"])
            raise Unsure(at) if was_lost else Stale(self.seq)
        return self.done(items, calls, answer)

    def done(self, items: list[Item], calls: list[str], answer: Answer) -> Done:
        """What a service has answered to a batch. `Refused`: it has refused it."""
        if not answer.is_good:
            raise self.refusal(items, calls, answer)
        self.seq = int(answer.said["seq"])
        return Done(answer.said["answers"], self.seq)

    def refusal(self, items: list[Item], calls: list[str], answer: Answer) -> Refused:
        """Why a batch was refused, by the service's words, or else by those of the help."""
        call = answer.call
        item = items[call - 1] if 0 < call <= len(items) else None
        text = calls[call - 1] if 0 < call <= len(calls) else ""
        why = (answer.why or self.own_why(answer, text)).replace(" (see LAMBDAMOO)", ": moo reckons nothing, and \\help calls lists the calls")
        if text.startswith("#") and answer.error == "malformed" and "//" not in why:
            why += "; a comment begins with //"
        if strange_letter(text) and strange_letter(text) not in why:
            why += f": '{strange_letter(text)}'"
        why += signs_advice(text, why) if answer.error == "malformed" else ""
        kind = answer.error if answer.error in ("malformed", "full") else "refused"
        return Refused(f"{kind}: {why}", call, answer.error, item.place if item else None)

    def own_why(self, answer: Answer, text: str) -> str:
        """Why, in words of the shell's own, for a service that gives none."""
        shown = text if len(text) <= 200 else text[:198] + ".."
        if answer.error == "malformed":
            return hint(text) or self.unknown_call(text) or f"{shown} isn't a call with values: \\help values"
        if answer.error == "full":
            return f"{shown}: no number is left for what the call makes"
        if answer.error == "too large":
            return "the batch is too long for a service: make two of it"
        if not answer.error.startswith("E_"):
            return answer.error or f"the answer is {answer.status}"
        means = self.manual.reasons.get(answer.error, "")
        return f"{shown}: {answer.error}{', ' + means if means else ''}"

    def unknown_call(self, text: str) -> str:
        """That a line names no call, if it doesn't."""
        name = call_name(text)
        if not self.manual.calls or name in self.manual.calls:
            return ""
        return f"'{name}' names no call{did_you_mean(name, self.manual.calls)}"
