"""Objects, values and calls as they are shown: with links, and whole texts cut to a length."""

from __future__ import annotations

import functools
from typing import Any

from markupsafe import Markup, escape
from moolib.values import cut_at_objects, written

from moo_web.pages.glossary import named
from moo_web.paths import url_for
from moo_web.world.things import World, shortened

LONGEST_VALUE = 1200
# More than the calls and answers of a batch have that are kept.
WHOLE = 1 << 22
# So many links are kept, each of at most some 500 bytes.
MOST_KEPT = 1 << 13
UNNAMED = Markup('<i class="dim">unnamed</i>')


def name_shown(name: str) -> Markup:
    """A name as it is shown, cut; `unnamed` if it is blank."""
    return escape(shortened(name)) if name.strip() else UNNAMED


def link_named(number: int, name: str) -> Markup:
    """The link to an object that is there, by this name."""
    return kept_link(number, shortened(name) if name.strip() else "")


@functools.lru_cache(MOST_KEPT)
def kept_link(number: int, name: str) -> Markup:
    """The same of a name that is cut already, or empty. A page has hundreds of links, and the next page mostly the same ones."""
    # This is ten times as fast as the form that escapes by itself. A number has nothing to escape.
    return Markup(f'<a href="{url_for("object", number=number)}">{name_shown(name)}</a>&nbsp;<span class="n">#{number}</span>')


def link(world: World, number: int, nothing: str = "nothing") -> Markup:
    """An object as a link with its name and number. One that isn't there is struck through; `nothing` is written for #-1."""
    thing = world.things.get(number)
    if thing is None:
        shown = ("gone", f"#{number}") if number >= 0 else ("dim", nothing)
        return Markup('<span class="{}">{}</span>').format(*shown)
    return link_named(number, thing.name)


def text(given: str, longest: int = LONGEST_VALUE) -> Markup:
    """A text without quotes. After so many letters it is cut, and says so."""
    return escape(given) if len(given) <= longest else escape(given[:longest]) + cut_after(len(given))


def cut_after(length: int) -> Markup:
    """What is said of something cut."""
    return Markup(' <span class="dim">… {} letters in all</span>').format(f"{length:,}")


def value(world: World, given: Any, longest: int = LONGEST_VALUE) -> Markup:
    """A value as it is written in a call, its objects as links."""
    return call(world, written(given), longest)


def call(world: World, text: str, longest: int = LONGEST_VALUE) -> Markup:
    """A call or a value, its objects as links. After so many letters it is cut, and says so."""
    shown, left = Markup(), longest
    for place, piece in enumerate(cut_at_objects(text)):
        if left <= 0:
            break
        # What is between two pieces may begin with # too.
        if place % 2 and piece.startswith("#") and int(piece[1:]) in world.things:
            shown += link(world, int(piece[1:]))
            left -= len(piece) + len(world.things[int(piece[1:])].name)
        elif place % 2 and piece == "#-1":
            shown += named(piece)
            left -= len(piece)
        else:
            shown += escape(piece[:left])
            left -= len(piece)
    if left < 0 or len(text) > longest:
        shown += cut_after(len(text))
    return shown
