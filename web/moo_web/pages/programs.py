"""The page of the interface for programs, which everybody may read."""

from __future__ import annotations

import re

from markupsafe import Markup, escape

from moolib.errors import REFUSALS, WORDS

from moo_web.app import Reply, Request
from moo_web.interface.interface import CAUSES, ROUTES
from moo_web.pages.pages import Pages

QUOTED = re.compile("`([^`]*)`")


def programs_page(pages: Pages, request: Request) -> Reply:
    """The routes and the errors."""
    openapi = next(route.path for route in ROUTES if route.is_open)
    refusals = [(code, WORDS[code]) for code in sorted(REFUSALS) if code.startswith("E_") and code in WORDS]
    return pages.made(
        "pages/programs.html", 200, request, routes=ROUTES, causes=CAUSES, refusals=refusals, openapi=openapi, marked_up=marked_up
    )  # fmt: skip


def marked_up(text: str) -> Markup:
    """A text with what is between backquotes as code."""
    parts = QUOTED.split(text)
    return Markup("").join(
        Markup("<code>{}</code>").format(part) if place % 2 else escape(part.replace("'", "’")) for place, part in enumerate(parts)
    )
