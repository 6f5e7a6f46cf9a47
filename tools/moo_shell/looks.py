"""What the shell shows of objects, as texts."""

from __future__ import annotations

import textwrap
from collections.abc import Callable, Iterable, Mapping
from typing import Optional

from moo_shell.world import Slot, Thing, Whole
from moolib.errors import Failed
from moolib.service import Said
from moolib.values import Obj, written

Things = Mapping[int, Thing]


def titled(thing: Thing) -> str:
    """An object with its name: `#4 "Lantern"`."""
    return f"#{thing.number} {written(thing.name)}"


def named(number: int, things: Things) -> str:
    """The object of a number, with its name if that is known."""
    thing = things.get(number)
    return titled(thing) if thing else f"#{number}"


def mentioned(whole: Whole) -> set[int]:
    """The objects whose names are shown beside those of an object."""
    found = {whole.thing.owner, whole.thing.location}
    for _, answer in whole.accepts:
        value = answer.value
        found.update(each.number for each in value or [] if isinstance(each, Obj))
    return found


def clipped(text: str, width: Optional[int]) -> str:
    """A text that is cut at the width of the terminal, if there is one."""
    return text if width is None or len(text) <= width else text[: max(width - 2, 10)] + ".."


def field(name: str, text: str, width: Optional[int]) -> str:
    """A line about an object; on a terminal a long one is broken."""
    line = f"  {name:<9} {text}"
    if width is None or len(line) <= width:
        return line
    return textwrap.fill(line, width, subsequent_indent=" " * 12, break_on_hyphens=False)


def listed(things: Iterable[Thing], more: int = 0) -> str:
    """Objects with their names, and how many more there are."""
    return ", ".join(map(titled, things)) + (f" and {more} more" if more else "")


def shown_accepts(whole: Whole, things: Things) -> str:
    """What an object accepts, and by whose list."""
    for number, answer in whole.accepts:
        value = answer.value
        if isinstance(value, list):
            kinds = ", ".join(named(each.number, things) if isinstance(each, Obj) else str(each) for each in value)
            by = "" if number == whole.thing.number else f" (the list of #{number})"
            under = f" and what is under {'it' if len(value) == 1 else 'them'}" if kinds else ""
            return f"{kinds or 'nothing'}{under}{by}"
    return "nothing (no accept list)"


def shown_info(answer: Said) -> str:
    """The owner and the perms that a call of `.._info` answers: `#3 "rc"`."""
    value = answer.value
    return f"{value[0]} {written(value[1])}" if isinstance(value, list) and len(value) >= 2 else answer.text


def shown_slot(slot: Slot, number: int) -> tuple[str, str]:
    """A property: its name with its value, and where both are from."""
    origin = "defined here" if slot.definer == number else "defined above" if slot.definer is None else f"defined on #{slot.definer}"
    if slot.source is None:
        inherited = ", inherited" if slot.value.is_good else ""
    else:
        inherited = "" if slot.source == number else f", the value of #{slot.source}"
    sign = " = " if slot.value.is_good else ": "
    return f"{slot.name}{sign}{slot.value.text}", f"({origin}{inherited}; {shown_info(slot.info)})"


def shown_slots(whole: Whole, width: Optional[int]) -> list[str]:
    """The lines about the properties of an object."""
    rows = [shown_slot(slot, whole.thing.number) for slot in whole.slots]
    longest = max((len(text) for text, _ in rows if len(text) <= 48), default=0)
    room = None if width is None else max(width - 4, 20)
    lines = []
    for text, origin in rows:
        space = None if room is None else room - len(origin) - 2
        lines.append(f"    {clipped(text, space):<{longest}}  {origin}")
    for number in whole.hidden:
        lines.append(f"    (the properties that #{number} defines may not be listed)")
    return lines


def shown_verbs(whole: Whole) -> list[str]:
    """The lines about the verbs of an object."""
    if whole.verbs is None:
        return ["  verbs     may not be listed"]
    lines = []
    for place, (names, info, args) in enumerate(whole.verbs, 1):
        value = args.value
        words = " ".join(map(str, value)) if isinstance(value, list) else args.text
        lines.append(f"    {place}  {names}  ({words}; {shown_info(info)})")
    return ["  verbs", *lines] if lines else []


def shown(whole: Whole, things: Things, width: Optional[int] = None) -> str:
    """All of an object."""
    thing = whole.thing
    lines = [titled(thing), field("owner", named(thing.owner, things), width)]
    lines.append(field("parents", listed(whole.chain) or "none", width))
    lines.append(field("place", named(thing.location, things) if thing.location >= 0 else "nowhere", width))
    lines.append(field("flags", " ".join(whole.bits) or "none", width))
    lines.append(field("accepts", shown_accepts(whole, things), width))
    if whole.children:
        lines.append(field("children", listed(whole.children, whole.more_children), width))
    if whole.contents:
        lines.append(field("contents", listed(whole.contents, whole.more_contents), width))
    slots = shown_slots(whole, width)
    return "\n".join([*lines, *(["  properties", *slots] if slots else []), *shown_verbs(whole)])


def indented(roots: list[int], below: Mapping[int, list[int]], text: Callable[[int], str]) -> list[str]:
    """A line for each object and for all that is below it, each level two letters further in."""
    lines = []
    left = [(number, 0) for number in reversed(roots)]
    while left:
        number, depth = left.pop()
        lines.append("  " * depth + text(number))
        left += [(each, depth + 1) for each in reversed(below.get(number, []))]
    return lines


def owned(things: Things, owner: int) -> str:
    """The objects of an owner, and where each is."""
    return "\n".join(placed(things[number], things) for number in sorted(things) if things[number].owner == owner)


def placed(thing: Thing, things: Things) -> str:
    """An object with its name, and where it is."""
    return f"{titled(thing)}{f'  in {named(thing.location, things)}' if thing.location >= 0 else ''}"


def groups(things: Things, field_name: str) -> dict[int, list[int]]:
    """The objects by their parent, or by their location; ascending."""
    found: dict[int, list[int]] = {}
    for number in sorted(things):
        found.setdefault(getattr(things[number], field_name), []).append(number)
    return found


def root_of(number: Optional[int], things: Things) -> Optional[int]:
    """The object that a picture begins at, which has to be one."""
    if number is not None and number not in things:
        raise Failed(f"#{number} isn't an object")
    return number


def tree(things: Things, number: Optional[int] = None) -> str:
    """The objects by their parents, from one down, or all."""
    below = groups(things, "parent")
    root = root_of(number, things)
    return "\n".join(indented(below.get(-1, []) if root is None else [root], below, lambda each: named(each, things)))


def classes(things: Things, word: str = "") -> str:
    """The objects that others are under or may be made under, with a word in their names, and how many are under each."""
    below = groups(things, "parent")
    under: dict[int, int] = {}
    order = list(below.get(-1, []))
    for number in order:
        order += below.get(number, [])
    for number in reversed(order):
        under[number] = sum(1 + under[each] for each in below.get(number, []))
    lines = []
    for number in sorted(order):
        if (below.get(number) or things[number].f) and word.lower() in things[number].name.lower():
            fertile = "; anybody may make objects under it" if things[number].f else ""
            lines.append(f"{named(number, things)}  {under[number]} under it{fertile}")
    return "\n".join(lines)


def places(things: Things, number: Optional[int] = None) -> str:
    """The objects by where they are, from one down, or all. Of those that are nowhere and hold nothing there is the count alone."""
    inside = groups(things, "location")
    root = root_of(number, things)
    if root is not None:
        return "\n".join(indented([root], inside, lambda each: named(each, things)))
    outer = [each for each in inside.get(-1, []) if each in inside]
    lines = indented(outer, inside, lambda each: named(each, things))
    rest = len(inside.get(-1, [])) - len(outer)
    return "\n".join([*lines, f"({rest} objects are nowhere and hold nothing)"])


def found(things: Things, word: str) -> str:
    """The objects with a word in their name, in any case, and where each is."""
    return "\n".join(placed(things[number], things) for number in sorted(things) if word.lower() in things[number].name.lower())


def shown_petitions(petitions: list[tuple[int, int, list[str]]], things: Things) -> str:
    """Petitions, each with its calls as they are written."""
    lines = []
    for number, who, calls in petitions:
        lines += [f"petition {number} by {named(who, things)}", *(f"    {call}" for call in calls)]
    return "\n".join(lines)
