"""What a service's answers raise, and the words for errors: one table of each.

`Refused` and its kinds say how a batch ended; `NoService`, `LostAnswer` and `TooLong` say what became of one request.
"""

from __future__ import annotations

import contextlib
from collections.abc import Iterator
from typing import Optional


class MooError(Exception):
    """What any answer but a good one raises. `why` is a sentence of the service that says the cause, or None if it says none."""

    why: Optional[str] = None


class Refused(MooError):
    """A call failed, and nothing changed. `call` is its number, from 1 on; None if an object was looked at."""

    def __init__(self, call: Optional[int] = None, why: Optional[str] = None) -> None:
        place = f"call {call}: {type(self).__name__}" if call else type(self).__name__
        super().__init__(f"{place}: {why}" if why else place)
        self.call = call
        self.why = why


class E_NONE(Refused):
    """No error."""


class E_TYPE(Refused):
    """Type mismatch."""


class E_DIV(Refused):
    """Division by zero."""


class E_PERM(Refused):
    """Permission denied."""


class E_PROPNF(Refused):
    """Property not found."""


class E_VERBNF(Refused):
    """Verb not found."""


class E_VARNF(Refused):
    """Variable not found."""


class E_INVIND(Refused):
    """Invalid indirection."""


class E_RECMOVE(Refused):
    """Recursive move."""


class E_MAXREC(Refused):
    """Too many verb calls."""


class E_RANGE(Refused):
    """Range error."""


class E_ARGS(Refused):
    """Incorrect number of arguments."""


class E_NACC(Refused):
    """Move refused by destination."""


class E_INVARG(Refused):
    """Invalid argument."""


class E_QUOTA(Refused):
    """Resource limit exceeded."""


class E_FLOAT(Refused):
    """Floating-point arithmetic error."""


class Full(Refused):
    """A call found no number left for what it makes."""


class Malformed(Refused):
    """A call can't be read."""


class BadRequest(MooError):
    """The service doesn't take the request: this client is wrong, or it isn't `moo serve`."""

    def __init__(self, said: str, why: Optional[str] = None) -> None:
        super().__init__(f"{said}: {why}" if why else said)
        self.why = why


class Unauthorized(BadRequest):
    """The front doesn't know the token."""


class Forbidden(BadRequest):
    """The person of the token may not do this at the front."""


class Gap(BadRequest):
    """The front has stopped writing: an operator is needed. Nothing was sent."""


class Gone(BadRequest):
    """The feed begins at the number `seq`: what changed before isn't known. Read the world again, and follow from its present number."""

    def __init__(self, seq: int) -> None:
        super().__init__(f"the feed begins at number {seq}")
        self.seq = seq


class NoMemory(MooError):
    """The service's memory ran out; nothing changed."""


class Stale(MooError):
    """The world has another number than the `at` that was given; the batch hasn't acted. `seq` is that number."""

    def __init__(self, seq: int) -> None:
        super().__init__(f"the world has the number {seq}")
        self.seq = seq


class Unreachable(MooError):
    """The service couldn't be reached in time; the batch hasn't acted."""


class Unsure(MooError):
    """An answer was lost: the batch has acted or not, and nothing here tells which. Its number would be `at` + 1, if it was sent for `at`."""

    def __init__(self, at: Optional[int] = None) -> None:
        super().__init__("it isn't known whether the batch " + ("has acted" if at is None else f"became number {at + 1}"))
        self.at = at


class AnswersLost(MooError):
    """The batch has acted, once, and its answers were lost. `mark` is the name that the client's mark got by it."""

    def __init__(self, mark: str) -> None:
        super().__init__("the batch has acted, and its answers were lost")
        self.mark = mark


class NoMark(MooError):
    """The mark of a client can't be made, read or renamed: the batch hasn't acted."""


class NoService(MooError):
    """Nothing was sent, or the service did nothing with it: the request hasn't acted, and may be sent again, after so many seconds."""

    after = 0.0


class LostAnswer(MooError):
    """A request was sent, perhaps not whole, and no whole answer came: it has acted or not."""


class Stranger(LostAnswer):
    """The answer is of another shape than moo's: another program has the port."""


class TooLong(MooError):
    """The answer is longer than is taken."""


class Failed(MooError):
    """Why a line that somebody wrote, or what a program was told, wasn't done. `place` is the file and the line that it is about, if that
    isn't the line that is being done.

    `status` is what a script ends with: 1, or what the program `moo` ended with. `afterword` is what is told in lines after it.
    """

    def __init__(self, reason: str, place: Optional[tuple[str, int]] = None, status: int = 1) -> None:
        super().__init__(reason)
        self.reason, self.place, self.status = reason, place, status
        self.afterword = ""

    def __str__(self) -> str:
        return f"{self.place[0]}: line {self.place[1]}: {self.reason}" if self.place else self.reason


@contextlib.contextmanager
def failing(what: object) -> Iterator[None]:
    """In here an error of the system is a `Failed` instead: what it is about, and why."""
    try:
        yield
    except OSError as error:
        raise Failed(f"{what}: {error.strerror}") from None


REFUSALS = {kind.__name__: kind for kind in Refused.__subclasses__() if kind.__name__.startswith("E_")}
# What the manual calls each error.
MANUAL = {name: str(kind.__doc__).rstrip(".") for name, kind in REFUSALS.items()}
REFUSALS.update(full=Full, malformed=Malformed)

# An error in a sentence for people: by the call and the error, or by the error alone.
WORDS = {
    "E_PERM": "You have no right to do this here.",
    "E_INVARG": "Something in it can’t be used here.",
    "E_INVIND": "There is no such object.",
    "E_PROPNF": "The object has no property of that name.",
    "E_VERBNF": "The object has no such verb, a word to type.",
    "E_ARGS": "The call has too many values, or too few.",
    "E_TYPE": "A value is of another kind than the call takes.",
    "E_QUOTA": "The quota of the new object’s owner is used up.",
    "E_RECMOVE": "The object would be inside itself, or under itself.",
    "E_NACC": "The place doesn’t accept it.",
    "full": "No number is left for what it makes.",
    "malformed": "This can’t be read as a call.",
    "too large": "It is too long: make two batches of it.",
    "nomemory": "moo had no memory left for it. Nothing changed.",
    "too much": "This is too much for one request: make several of it, one after another.",
    "create E_PERM": "The parent isn’t fertile and isn’t yours: not everybody may make objects of it. Or the owner isn’t you.",
    "create E_QUOTA": "The quota is used up: no more objects may be made for this owner. A wizard can raise it.",
    "chparent E_PERM": "Only its owner may give it another parent, and that has to be the owner’s, or one of which everybody may make objects (fertile).",
    "chparent E_INVARG": "One of the two isn’t an object, or both sides define a property of the same name.",
    "chparent E_RECMOVE": "The new parent is the object itself, or is under it.",
    "move E_PERM": "Only its owner may move it.",
    "move E_RECMOVE": "The place is the object itself, or is inside it.",
    "recycle E_PERM": "Only its owner may recycle it.",
    "set E_PERM": "You may not write this.",
    "set E_TYPE": "A value of this kind can’t be there.",
    "add_property E_INVARG": "The name is taken or can’t be one, or the owner isn’t an object.",
    "add_property E_PERM": "Only its owner may add a property to it, and the property’s owner has to be you.",
    "delete_property E_PROPNF": "The object doesn’t define this property. Delete it on the object that does.",
    "clear_property E_INVARG": "The object defines this property itself, so there is nothing above it to read.",
    "set_property_info E_INVARG": "The owner isn’t an object, or the new name is taken or can’t be one.",
    "add_verb E_INVARG": "The names, the owner or the arguments can’t be used.",
    "set_player_flag E_PERM": "Only a wizard may do this.",
    "grant E_PERM": "Only a wizard may grant.",
    "grant E_INVARG": "It can’t be granted as it is, or it is gone already.",
    "decline E_INVARG": "It is gone already: somebody has granted or declined it.",
    "decline E_PERM": "Only a wizard may decline it, and who made it.",
}
# Why a service or a front didn't do what was asked for, at a prompt.
TROUBLES = {
    "busy": "the front is busy",
    "too many": "the front has had too many requests",
    "unauthorized": "the front doesn't know this token",
    "forbidden": "it is forbidden there",
    "gap": "the front has stopped writing: an operator is needed",
    "nomemory": "the service's memory ran out, and nothing changed",
    "closed": "the service's store has failed: it has to be started again, and nothing changed",
}


def is_too_much(error: str, why: str) -> bool:
    """Whether a service ended one request because that was too much work for one (`moo serve --ticks`): its memory isn't short."""
    return error == "nomemory" and "--ticks" in why


def words_for(call: str, error: str) -> str:
    """An error of a call of this name in a sentence for people; empty if there is none."""
    return WORDS.get(f"{call} {error}", WORDS.get(error, ""))
