"""What an object accepts: the list that counts, and whose it is."""

from __future__ import annotations

from typing import NamedTuple, Optional

from moolib.values import Obj

from moo_web.pages.pages import Visit


class Accepting(NamedTuple):
    """The objects that something accepts, with what is under them, and the object whose list this is; None: there is no list."""

    numbers: list[int]
    source: Optional[int]


def accept_calls(chain: list[int]) -> list[str]:
    """What is asked for the lists of a chain."""
    return [f"accept_list(#{one})" for one in chain]


def accepting(visit: Visit, number: int) -> Accepting:
    """The list of an object, or of its nearest ancestor that has one."""
    chain = [thing.number for thing in visit.world.chain(number)]
    for one, accepts in zip(chain, visit.answers(accept_calls(chain))):
        if isinstance(accepts, list):
            return Accepting([each.number for each in accepts if isinstance(each, Obj)], one)
    return Accepting([], None)
