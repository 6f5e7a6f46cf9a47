"""What a client raises for a service's answer that isn't a good one."""

from __future__ import annotations

from typing import NoReturn

from moolib.errors import REFUSALS, BadRequest, Forbidden, Gap, NoMemory, Stale, Unauthorized
from moolib.service import Answer

# What a front says of who asks, and of itself.
OF_FRONTS = {"unauthorized": Unauthorized, "forbidden": Forbidden, "gap": Gap}


def good(answer: Answer) -> Answer:
    """A good answer. What another one says is raised."""
    return answer if answer.is_good else raise_refusal(answer)


def raise_refusal(answer: Answer, before: int = 0) -> NoReturn:
    """Raises what an answer other than a good one says. `before` is how many of the calls that were sent aren't counted."""
    error, why = answer.error, answer.why or None
    if error == "stale":
        raise Stale(answer.said["seq"])
    if error in REFUSALS:
        raise REFUSALS[error](answer.call - before if answer.call else None, why)
    if error == "nomemory":
        raise NoMemory(why or "the service's memory ran out")
    raise OF_FRONTS.get(error, BadRequest)(f"{answer.status}: {error}", why)
