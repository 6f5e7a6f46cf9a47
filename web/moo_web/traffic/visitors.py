"""For whom something is done at this moment: each request has its visitor, and each thread that works for one knows whose it is.

    with visiting(Visitor("192.0.2.1", "ada")):
        door.asked(..)              # waits for ada's turn, and is counted as hers
"""

from __future__ import annotations

import contextlib
import contextvars
from typing import Callable, Iterator, NamedTuple


def never() -> bool:
    """Of somebody who isn't gone."""
    return False


class Visitor(NamedTuple):
    """Somebody at an address, and the person if that is known. `is_gone` says whether nobody waits for the answer any more.

    With `is_first` no turn is waited for.
    """

    address: str = ""
    person: str = ""
    is_gone: Callable[[], bool] = never
    is_first: bool = False


# The front itself.
NOBODY = Visitor()
PRESENT = contextvars.ContextVar("PRESENT", default=NOBODY)


def present() -> Visitor:
    """For whom this thread works."""
    return PRESENT.get()


@contextlib.contextmanager
def visiting(visitor: Visitor) -> Iterator[None]:
    """Works for this visitor."""
    mark = PRESENT.set(visitor)
    try:
        yield
    finally:
        PRESENT.reset(mark)
