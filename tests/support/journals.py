"""The journal of a front, as its files have it."""

from __future__ import annotations

import pathlib
from typing import Any, Iterator

from tests.support.web import use_web

use_web()

from moo_web.journal.segments import Accepted, Outcomes, Reading  # noqa: E402


def accepted_in(folder: pathlib.Path) -> Iterator[Accepted | dict[str, Any]]:
    """Each accepted batch of a journal in its order, and each `base` and `gap` between them, as an object.

    It reads what is whole by now, also while a front writes. `Damaged`: a sum is wrong.
    """
    outcomes = Outcomes()
    for line in Reading(folder).lines():
        if (told := outcomes.take(line)) is not None:
            yield told
