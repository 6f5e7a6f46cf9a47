"""The lines about accounts that a front writes into its log, kept in a list."""

from __future__ import annotations

from typing import Any, Callable
from unittest import mock

from tests.support.web import use_web

use_web()

from moo_web.people.audit import auditing  # noqa: E402
from moo_web.programs import Teller  # noqa: E402


def audited(people: Any, count: Callable[[str], None] = lambda event: None) -> list[str]:
    """The list to which the lines about these people are added from now on. `count` is given what each is about."""
    lines: list[str] = []
    tell = mock.Mock(spec=Teller, side_effect=lines.append)
    tell.always = lines.append
    people.audit = auditing(tell, count)
    return lines
