"""Calls in plain words: what each does, with its objects as links."""

from __future__ import annotations

import re
from collections.abc import Sequence
from typing import Any, Callable

from markupsafe import Markup, escape
from moolib.calls import Call, read_or_none
from moolib.draft import QUOTA
from moolib.values import Obj, Value, written

from moo_web.forms.input import clipped
from moo_web.pages.glossary import LETTERS

Link = Callable[[int], Markup]
# So many calls of a petition are told one by one.
FEW = 3
LONGEST_OF_MANY = 1000
# By the name of a call: a sentence for its values, `{0}` being the first, and `{0.link}` an object that is linked.
SENTENCES = {
    "create": "A new object is made under {0}.",
    "chparent": "{0} inherits from {1}.",
    "recycle": "{0} is recycled: it is gone for good.",
    "move": "{0} goes into {1}.",
    "set_accept": "{0} accepts {1}, and what is under that.",
    "set": "The property {1} of {0} becomes {2}.",
    "add_property": "{0}, and all under it, get a property {1} with the value {2}.",
    "delete_property": "{0}, and all under it, lose the property {1} with its values.",
    "set_property_info": "The property {1} of {0} gets the owner and the rights: {2}.",
    "clear_property": "The property {1} of {0} reads its parent’s value again.",
    "add_verb": "{0} gets a verb, a word to type: {1}, {2}.",
    "delete_verb": "{0} loses the verb {1}, a word to type.",
    "set_verb_info": "The owner, rights and names of the verb {1}, a word to type, of {0} become {2}.",
    "set_verb_args": "The arguments of the verb {1}, a word to type, of {0} become {2}.",
    "petition": "A wizard is asked for {0}.",
    "grant": "Petition {0} is granted.",
    "decline": "Petition {0} is gone.",
}
# The same of `set` for built-in properties, by their names; with what isn't true after a stroke.
BUILT_IN = {
    "name": "{0} is called {2}.|{0} has no name any more.",
    "owner": "{0} is given to {2}.",
    "wizard": "{0} becomes a wizard, who has every right.|{0} isn’t a wizard any more.",
    "programmer": "{0} gets the mark of a programmer, at which nothing looks.|{0} loses the mark of a programmer.",
    "r": "Everybody may list what {0} has.|Others may not list what {0} has any more.",
    "w": "Everybody may add to what {0} has, and take away from it.|Others may not add to what {0} has any more, or take away from it.",
    "f": "Everybody may make objects under {0}.|Others may not make objects under {0} any more.",
}


def preview_link(link: Link, calls: Sequence[tuple[str, str]]) -> Link:
    """The links of a preview, in which the objects that its calls make aren't there yet. Each call comes with its answer."""
    made = {call.made(answer) for call, answer in ((read_or_none(text), answer) for text, answer in calls) if call}
    new = Markup('<b>the new object</b> <span class="n">#{}</span>')
    return lambda number: new.format(number) if number in made else link(number)


def is_grave(text: str) -> bool:
    """Whether a call gives rights away, or destroys something."""
    call = read_or_none(text)
    return call is not None and call.is_grave


def value_in_words(value: Any, link: Link) -> Markup:
    """A value in a sentence: an object as a link, a text in quotes."""
    if isinstance(value, Obj):
        return link(value.number) if value.number >= 0 else Markup("nothing")
    if isinstance(value, list):
        elements = Markup(", ").join(value_in_words(each, link) for each in value[:20])
        return Markup("{") + elements + Markup(" …}" if len(value) > 20 else "}")
    if isinstance(value, str):
        return Markup(f"“{escape(clipped(value))}”")
    return escape(written(value))


def rights_in_words(given: Value, link: Link) -> Markup:
    """The owner and rights that a property gets, with the manual's letters beside them."""
    if not isinstance(given, list) or len(given) < 2 or not isinstance(given[1], str):
        return value_in_words(given, link)
    letters = [letter for letter in given[1].lower() if letter in LETTERS]
    means = ", ".join(LETTERS[letter] for letter in letters) or "nobody else may read or write it"
    name = Markup("; it is called “{}” then").format(clipped(str(given[2]))) if len(given) > 2 else ""
    return Markup("{}; {} ({}){}").format(value_in_words(given[0], link), means, given[1] or "no letter", name)


def sentence_of(call: Call) -> str:
    """The sentence for a call."""
    name, given = call.name, list(call.values)
    if name in ("set", "add_property") and len(given) > 2 and str(given[1]).lower() == QUOTA and isinstance(given[2], int):
        return "{0} may make {2} more objects: the property {1} says so."
    if name == "set" and len(given) == 3 and isinstance(given[1], str) and given[1].lower() in BUILT_IN:
        good, _, other = BUILT_IN[given[1].lower()].partition("|")
        return good if given[2] not in (0, "", []) or not other else other
    if name == "set_player_flag" and len(given) == 2:
        return "{0} becomes a player." if given[1] not in (0, "", []) else "{0} isn’t a player any more."
    if name == "move" and given[1:] == [Obj(-1)]:
        return "{0} goes out of where it is, to nowhere."
    if name == "set_accept" and given[1:] == [0]:
        return "{0} accepts what its parent does."
    if name == "set_accept" and given[1:] == [[]]:
        return "{0} accepts nothing."
    if name == "create" and given[1:] == [Obj(-1)]:
        return "A new object is made under {0}, and owns itself."
    if name == "create" and len(given) == 2:
        return "A new object is made under {0}, for {1}."
    return SENTENCES.get(name, "")


def told_petition(calls: list[Any], asked: list[Call], link: Link) -> Markup:
    """A petition in plain words: its calls, if they are few and have words."""
    if 0 < len(calls) == len(asked) <= FEW and all(each.name != "petition" for each in asked):
        sentences = [told_call(each, link) for each in asked]
        if all(sentences):
            return Markup("A wizard is asked for this: {}").format(Markup(" ").join(sentences))
    return Markup("A wizard is asked for {} call{}.").format(len(calls), "" if len(calls) == 1 else "s")


def told(text: str, link: Link) -> Markup:
    """A call in plain words; empty if there are none for it, or if it isn't a call."""
    call = read_or_none(text)
    return told_call(call, link) if call else Markup()


def told_call(call: Call, link: Link) -> Markup:
    """A call that was read in plain words; empty if there are none for it."""
    sentence, given = sentence_of(call), call.values
    if not sentence or sentence.count("{2}") > len(given) - 2 > -1 or sentence.count("{1}") > len(given) - 1 or not given:
        return Markup()
    if call.name == "petition" and isinstance(given[0], list):
        return told_petition(given[0], call.asked, link)
    in_order = [value_in_words(value, link) for value in given]
    if call.name == "set_property_info" and len(given) > 2:
        in_order[2] = rights_in_words(given[2], link)
    # All of them are escaped, so that this needn't be the form that escapes by itself.
    words = sentence.format(*in_order)
    # A text that ends as a sentence does needs no second full stop.
    return Markup(re.sub(r"^<b>the", "<b>The", re.sub(r"([.!?]”)\.$", r"\1", words)))


def in_words(call: str, link: Link) -> Markup:
    """The same of a call among many; empty too if it is long."""
    return told(call, link) if len(call) <= LONGEST_OF_MANY else Markup()
