"""A client of `moo serve`, of the standard library and the package `moolib` beside it.

    from moo_client import Moo, Obj, E_PERM

    world = Moo(8080)
    lantern, _ = world.run([("create", Obj(1)), 'set(#2, "name", "The Hall")'], as_=3)
    world.run([("set", lantern, "name", "Lantern")], as_=3)
    try:
        world.run([("recycle", Obj(2))], as_=lantern)
    except E_PERM as error:
        print(error.call, error.why)

A call is a text, as on a line of a batch, or its name and what it is given. Values are integers, strings, lists, `Obj(4)` for #4 and
`ErrorValue("E_PERM")` for an error. Each answer comes back as such a value.

**A batch acts once, though connections break**, if the client has a mark of its own, and any number of clients can write side by side:

    world = Moo(8080, mark=Obj(9))

#9 is an object that no other client marks, and that the programmer of the first batch may add a property to. Each batch begins with a call
that gives this property a new name, so a copy of it that comes later is refused. It is sent until an answer comes: one request, if none is
lost. If the answer was lost and the batch had acted, `run` gives the answers if they can be no others; otherwise it raises `AnswersLost`.
`mark=(Obj(9), "door")` calls the property `door-..` in place of `mark-..`, for a second client with the same object.

Without a mark `run` first asks what the batch would answer, and sends it with the number of the world in `at`. Each batch of anybody else
in between makes that stale, so this is for few clients. `alone=True` says that nobody else writes. Without it `run` raises `Unsure` if an
answer was lost and the world has moved on.

**Names.** A handle stands for the answer of an earlier call of the same batch:

    with world.batch(as_=3) as batch:
        room = batch.add("create", Obj(1))
        batch.add("set", room, "name", "Inn")
    print(room.value)

In texts, `$room = create(#1)` and then `set($room, "name", "Inn")` do the same.

**At a front**, for the person of a token, who needs no `as_`:

    world = Moo("https://moo.example.org/", token=TOKEN)
    for change in world.changes():
        print(change.seq, change.objects)
"""

from __future__ import annotations

from moolib.client import Moo, read_shown
from moolib.errors import (
    E_ARGS, E_DIV, E_FLOAT, E_INVARG, E_INVIND, E_MAXREC, E_NACC, E_NONE, E_PERM, E_PROPNF, E_QUOTA, E_RANGE, E_RECMOVE, E_TYPE, E_VARNF,
    E_VERBNF, REFUSALS, AnswersLost, BadRequest, Forbidden, Full, Gap, Gone, LostAnswer, Malformed, MooError, NoMark, NoMemory, NoService,
    Refused, Stale, Unauthorized, Unreachable, Unsure,
)  # fmt: skip
from moolib.feed import Change
from moolib.handles import Batch, Handle, written_call
from moolib.names import NoName
from moolib.service import FIRST_PAUSE, LONGEST_BODY, LONGEST_PAUSE
from moolib.values import ErrorValue, Name, Obj, read, written

__all__ = [
    "Moo", "Obj", "ErrorValue", "MooError", "Refused", "Full", "Stale", "Malformed", "BadRequest", "NoMemory", "Unreachable", "Unsure",
    "E_NONE", "E_TYPE", "E_DIV", "E_PERM", "E_PROPNF", "E_VERBNF", "E_VARNF", "E_INVIND", "E_RECMOVE", "E_MAXREC", "E_RANGE", "E_ARGS",
    "E_NACC", "E_INVARG", "E_QUOTA", "E_FLOAT", "LostAnswer", "NoService", "REFUSALS", "FIRST_PAUSE", "LONGEST_BODY", "LONGEST_PAUSE",
    "read", "read_shown", "written", "written_call", "AnswersLost", "NoMark", "Forbidden", "Unauthorized", "Gap", "Gone", "NoName",
    "Batch", "Handle", "Name", "Change",
]  # fmt: skip
