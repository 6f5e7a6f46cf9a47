"""The words of a world that a newcomer doesn't know, each with a line that explains it, and how pages show such a word.

    term("batch")            a link to the line on the page about this place, which is its title too
    named("#-1")             the same without a link, where none fits
"""

from __future__ import annotations

import functools
from typing import NamedTuple

from markupsafe import Markup

from moo_web.paths import url_for


class Term(NamedTuple):
    """A word, what it means, and the manual's word for it, if that is another one."""

    word: str
    means: str
    manual: str = ""


GLOSSARY = {
    one.word: one for one in (
        Term("object", "all that there is: a room, a thing, a person. Each has a number, such as #4, and a name", "object"),
        Term("class", "an object of which others are made: they have what it has. Its name often begins with ‘generic’", "generic object"),
        Term("generic", "in a name: a model, of which others are made"),
        Term("parent", "the object from which another one has what it doesn’t have of its own", "parent"),
        Term("owner", "whose an object is: who may change it", "owner"),
        Term("property", "something that is known of an object, such as its description: a name, and a value", "property"),
        Term("verb", "a word that people could type at an object, such as ‘get lamp’. It is kept for other programs: nothing here runs it", "verb"),
        Term("place", "an object in which others may be", "location"),
        Term("exit", "a way from one place to another"),
        Term("player", "an object as which a person acts here", "player"),
        Term("wizard", "somebody who looks after the world, and may do everything", "wizard"),
        Term("batch", "some changes that are done together: all of them, or none"),
        Term("call", "one change, or one question, as it is written: move(#8, #2)"),
        Term("petition", "what somebody asks for who may not do it: the owners and the wizards read it, and decide"),
        Term("quota", "how many more objects somebody may make", "ownership_quota"),
        Term("marks", "what everybody may do with an object: see what it has, change what it has, make others of it", "r, w, f"),
        Term("readable", "everybody may list what an object has: its properties and verbs", "r"),
        Term("writable", "everybody may add to what an object has, and take away from it", "w"),
        Term("fertile", "everybody may make objects of it, which have what it has", "f"),
        Term("rights", "what others may do with a property: read it (r), write it (w); and with c, who owns a child owns it there", "r, w, c"),
        Term("World number", "how often the world has changed: it grows by one with each batch"),
        Term("#-1", "nothing: the number of no object"),
        Term("error", "why something was refused, in the words of the manual, such as E_PERM: you may not do it"),
    )
}  # fmt: skip
# So many of the words that are shown are kept as they are written in a page.
MOST_KEPT = 256
LETTERS = {"r": "everybody may read it", "w": "everybody may write it", "c": "who owns a child owns it there"}


def title_of(word: str) -> str:
    """What a word means, with the manual's word beside it."""
    one = GLOSSARY[word]
    return one.means + (f" ({one.manual} in the manual)" if one.manual and one.manual != one.word else "")


def anchor_of(word: str) -> str:
    """The name of a word's line on the page about this place."""
    return "word-" + "".join(letter if letter.isalnum() else "-" for letter in word.lower())


@functools.lru_cache(MOST_KEPT)
def term(word: str, shown: str = "") -> Markup:
    """A word as a link to what it means, which is its title too. `shown` is how it is written here, if not as it is."""
    address = f"{url_for('about')}#{anchor_of(word)}"
    return Markup('<a class="term" href="{}" title="{}">{}</a>').format(address, title_of(word), shown or word)


@functools.lru_cache(MOST_KEPT)
def named(word: str, shown: str = "") -> Markup:
    """A word with what it means as its title."""
    return Markup('<abbr title="{}">{}</abbr>').format(title_of(word), shown or word)


@functools.lru_cache(MOST_KEPT)
def rights(letters: str) -> Markup:
    """The rights of a property or a verb, with what they mean as their title."""
    means = ", ".join(LETTERS[letter] for letter in letters.lower() if letter in LETTERS)
    return Markup('<abbr class="code" title="{}">{}</abbr>').format(means or "only its owner may read and write it", letters or "–")
