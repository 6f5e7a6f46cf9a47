"""The commands of LambdaMOO for builders, and the lines of the shell that do the same.

    @describe here as "A dry fountain."     $here.description = "A dry fountain."
    @chmod #5.light r                       set_property_info(#5, "light", {#3, "r"})
"""

from __future__ import annotations

import contextlib
import re
from collections.abc import Callable
from typing import NamedTuple, Union

from moo_shell.naming import is_value
from moolib.errors import Failed
from moolib.lines import hint, strange_letter, unquoted
from moolib.values import NoValue, Value, read, written


class Known(NamedTuple):
    """What the session knows.

    `thing` is an object, as people name it, as calls name it; `read` is what a reading call answers, and `new` the name for what is made.
    `is_shown` is whether the lines are shown, so that what they leave out is told; a script leaves nothing out.
    """

    thing: Callable[[str], str]
    read: Callable[[str], str]
    new: str = "$new"
    is_shown: bool = True

    def value(self, call: str) -> list[Value]:
        """The list that a reading call answers."""
        found = read(self.read(call))
        if not isinstance(found, list):
            raise Failed(f"{call} isn't a list: {written(found)}")
        return found


# The lines for a command: a text with places for what the command names, or a function of that.
Lines = Union[str, Callable[["re.Match[str]", Known], "list[str]"]]


class Command(NamedTuple):
    """A command: an example of it, and its forms, each with its lines. The first form that fits is the one."""

    example: str
    forms: tuple[tuple[str, Lines], ...]


THING = r"(?P<thing>.+?)"
PROPERTY = r"(?P<thing>.+?)\.(?P<property>[A-Za-z_]\w*)"
VERB = r'(?P<thing>[^:]+):(?:"(?P<verbs>[^"]+)"|(?P<verb>\S+))'
# Two objects, with `to` between them, or without it if the second one is a number or a name.
TO = r"(?:\s+to\s+|\s+(?=[#$]|here$|me$))(?P<other>.+)"
# What is said beside the calls on verbs, on quotas, and for an object whose class has no aliases.
HEADERS = "// moo keeps this header and runs no verb"
NUMBERED = "// a number bounds how many; nothing else does"
NO_ALIASES = "// without aliases: {0} has no such property, and @property {0}.aliases {{}} rc adds it"
PERMS = r"\s+(?P<perms>[-+!]?[A-Za-z]*|\"\")"


def text_of(text: str) -> str:
    """A text that may be in quotes, as a string of LambdaMOO is."""
    try:
        value = read(text)
    except NoValue:
        if len(text) > 1 and text.startswith('"') and text.endswith('"'):
            raise Failed(f'{text} isn\'t one text: in a text " is written \\"') from None
        return unquoted(text)
    return value if isinstance(value, str) else text.strip()


def texts(text: str) -> list[str]:
    """A name with its aliases, as LambdaMOO has them: `"Lamp",lantern` or `Lamp:lamp,lantern`."""
    if is_value(text):
        return [text_of(text)]
    first, _, others = text.partition(":") if ":" in text else text.partition(",")
    return [unquoted(each) for each in (first, *others.split(",")) if each.strip()]


def create(found: re.Match[str], known: Known) -> list[str]:
    """An object of a class, with its name and aliases."""
    kind = known.thing(found["thing"])
    return [f"{known.new} = create({kind})", *name_lines(known.new, texts(found["text"] or ""), kind, known)]


def name_lines(thing: str, names: list[str], kind: str, known: Known) -> list[str]:
    """The lines that give an object its name, and aliases if its class has that property. `kind` is the class, or the object itself."""
    lines = [f"{thing}.name = {written(names[0])}"] if names else []
    if len(names) < 2:
        return lines
    if known.is_shown and lacks(known, kind, "aliases"):
        return [f"{lines[0]} {NO_ALIASES.format(kind)}"]
    return [*lines, f"{thing}.aliases = {written(names)}"]


def lacks(known: Known, thing: str, name: str) -> bool:
    """Whether an object has no property of this name."""
    try:
        known.read(f"get({thing}, {written(name)})")
    except Failed as failed:
        return "E_PROPNF" in failed.reason
    return False


def chown(found: re.Match[str], known: Known) -> list[str]:
    """The lines that give an object another owner, and its properties with a `c` too, as LambdaMOO's core does."""
    thing, owner = known.thing(found["thing"]), known.thing(found["other"])
    lines = [f"{thing}.owner = {owner}"]
    above = thing
    # Who may not read that may not change the owner either, and is told so by the first line.
    with contextlib.suppress(Failed):
        while above != "#-1":
            for name in map(str, known.value(f"properties({above})")):
                _, perms, *_ = known.value(f"property_info({thing}, {written(name)})")
                if "c" in str(perms):
                    lines.append(f"set_property_info({thing}, {written(name)}, {{{owner}, {written(perms)}}})")
            above = known.read(f"parent({above})")
    return lines


def rename(found: re.Match[str], known: Known) -> list[str]:
    """The lines that give an object another name, and aliases."""
    thing = known.thing(found["thing"])
    return name_lines(thing, texts(found["text"]), thing, known)


def exits_of(place: str, known: Known, more: list[tuple[str, str]]) -> str:
    """The line that gives a place more exits: the name of each, and the object to which it leads."""
    former = exits(place, known)
    for name, _ in more:
        if name in leading(former):
            raise Failed(f"{place} has an exit {written(name)} already, to {leading(former)[name]}; {place}.exits = {{..}} sets them")
    return f"{place}.exits = {{{', '.join([*map(written, former), *(f'{{{written(name)}, {to}}}' for name, to in more)])}}}"


def exits(place: str, known: Known) -> list[Value]:
    """The exits of a place. `Failed`: it has no such property."""
    try:
        return known.value(f'get({place}, "exits")')
    except Failed as failed:
        way = f"@property {place}.exits {{}} rc adds it, or to all rooms @property #5.exits {{}} rc to their class #5"
        raise Failed(f"{failed.reason}; {way}") from None


def leading(value: list[Value]) -> dict[str, str]:
    """The names of exits, and where each leads."""
    return {str(each[0]): written(each[1]) for each in value if isinstance(each, list) and len(each) > 1}


def go(found: re.Match[str], known: Known) -> list[str]:
    """The call that goes to an object, or by the exit of this name."""
    try:
        ways = leading(exits("$here", known))
    except Failed:
        ways = {}
    return [f"move($me, {ways.get(found['thing']) or known.thing(found['thing'])})"]


def dig(found: re.Match[str], known: Known) -> list[str]:
    """A room as this one, the exits that lead to it, and those that lead back. With the number of an object the exits alone."""
    there, _, back = (found["ways"] or "").partition("|")
    names, names_back = texts(there), texts(back)
    is_made = not re.fullmatch(r"[#$]\S+", found["text"])
    place = known.new if is_made else known.thing(found["text"])
    lines = []
    if is_made:
        lines = [f"{place} = create({class_of_rooms(known)})", f"{place}.name = {written(text_of(found['text']))}"]
    if names:
        lines.append(exits_of("$here", known, [(name, place) for name in names]))
    if names_back and is_made:
        lines.append(f"{place}.exits = {{{', '.join(f'{{{written(name)}, $here}}' for name in names_back)}}}")
    elif names_back:
        lines.append(exits_of(place, known, [(name, "$here") for name in names_back]))
    return lines


def class_of_rooms(known: Known) -> str:
    """The class of the place where the caller is; nowhere it is `$room`."""
    try:
        return known.read("parent($here)")
    except Failed:
        return "$room"


def changed(perms: str, given: str) -> str:
    """The letters of perms after `+r`, `-r`, `!r`, or the letters alone."""
    letters = given.strip('"+-!')
    if given.startswith("+"):
        return perms + "".join(each for each in letters if each not in perms)
    return "".join(each for each in perms if each not in letters) if given.startswith(("-", "!")) else letters


def verbs_in(found: re.Match[str]) -> str:
    """The verb that a command names, as calls name it."""
    return written(found["verbs"] or found["verb"])


def info_line(found: re.Match[str], known: Known, perms: str = "", owner: str = "", name: str = "") -> list[str]:
    """The line that gives a property or a verb other perms, another owner or another name; what isn't given stays."""
    what, text = ("verb", verbs_in(found)) if "verb" in found.re.groupindex else ("property", written(found["property"]))
    thing = known.thing(found["thing"])
    former = known.value(f"{what}_info({thing}, {text})")
    kept = changed(str(former[1]), perms) if perms else str(former[1])
    rest: list[Value] = [name] if name else former[2:]
    values = [owner or written(former[0]), written(kept), *map(written, rest)]
    return [f"set_{what}_info({thing}, {text}, {{{', '.join(values)}}})"]


def flags(found: re.Match[str], known: Known) -> list[str]:
    """The lines that set the flags r, w and f of an object."""
    thing, given = known.thing(found["thing"]), found["perms"]
    letters = given.strip('"+-!')
    if given.startswith(("+", "-", "!")):
        return [f"{thing}.{letter} = {int(given.startswith('+'))}" for letter in letters]
    return [f"{thing}.{letter} = {int(letter in letters)}" for letter in "rwf"]


def add_property(found: re.Match[str], known: Known) -> list[str]:
    """A property with its value, perms and owner: 0, rc and the caller if they aren't given."""
    value = (found["given"] or "").strip() or "0"
    words: list[str] = []
    while not is_value(value):
        value, _, last = value.rpartition(" ")
        words.insert(0, last)
        if not value:
            raise Failed(f"{' '.join(words)} isn't a value and then perms: {COMMANDS['property'].example}")
    perms, owner = [*words, *["rc", "me"][len(words) :]][:2]
    thing = known.thing(found["thing"])
    return [f"add_property({thing}, {written(found['property'])}, {value}, {{{known.thing(owner)}, {written(unquoted(perms))}}})"]


def add_verb(found: re.Match[str], known: Known) -> list[str]:
    """A verb with its arguments, perms and owner."""
    words = (found["given"] or "").split()
    given = [*words[:3], "none", "none", "none"][:3]
    perms, owner = [*words[3:], *["rxd" if given == ["this", "none", "this"] else "rd", "me"][max(len(words) - 3, 0) :]][:2]
    names = verbs_in(found)
    thing = known.thing(found["thing"])
    return [f"add_verb({thing}, {{{known.thing(owner)}, {written(unquoted(perms))}, {names}}}, {written(given)}) {HEADERS}"]


def args_of_verb(found: re.Match[str], known: Known) -> list[str]:
    """The arguments of a verb; those that aren't given stay."""
    thing, text = known.thing(found["thing"]), verbs_in(found)
    words: list[Value] = [*found["given"].split()]
    return [f"set_verb_args({thing}, {text}, {written([*words, *known.value(f'verb_args({thing}, {text})')[len(words):]][:3])})"]


def header(found: re.Match[str], known: Known) -> list[str]:
    """The calls that tell the header of a verb."""
    thing, text = known.thing(found["thing"]), verbs_in(found)
    return [f"verb_info({thing}, {text})", f"verb_args({thing}, {text}) {HEADERS}"]


def quota(found: re.Match[str], known: Known) -> list[str]:
    """How many objects somebody may make still, or that number set."""
    thing = known.thing(found["thing"] or "me")
    if lacks(known, thing, "ownership_quota"):
        raise Failed('nothing is bounded here: @property #1.ownership_quota "" "" makes quotas, and @quota #18 is 5 one')
    return [f"{thing}.ownership_quota{' = ' + found['value'] if found['value'] else ''} {NUMBERED}"]


def owned(found: re.Match[str], known: Known) -> list[str]:
    """What somebody owns."""
    return [f"\\owned {known.thing(found['thing'] or 'me')}"]


MOVED = ((rf"{THING}{TO}", "move({thing}, {other})"),)
WENT = ((THING, go),)
DESCRIBED = ((rf"{THING}\s+as\s+(?P<text>.+)", "{thing}.description = {text}"),)
SET = ((rf"{PROPERTY}\s+(?:to\s+)?(?P<value>\S.*)", "{thing}.{property} = {value}"),)
ADDED = ((rf"{PROPERTY}(?P<given>\s.*)?", add_property),)
GONE = ((PROPERTY, 'delete_property({thing}, "{property}")'),)
CLEARED = ((PROPERTY, 'clear_property({thing}, "{property}")'),)
OWNED = ((rf"(?:{THING})?", owned),)
SHOWN = ((THING, "\\show {thing}"),)
COMMANDS = {
    "create": Command('@create #1 named "Lamp"', ((rf"{THING}(?:\s+(?:named|called)\s+(?P<text>.+))?", create),)),
    "dig": Command('@dig north|south to "Attic"', ((r"(?:(?P<ways>\S+)\s+to\s+)?(?P<text>.+)", dig),)),
    "describe": Command('@describe here as "A dry fountain."', DESCRIBED),
    "rename": Command('@rename #5 to "Inn"', (
        (rf"{VERB}\s+to\s+(?P<text>.+)", lambda found, known: info_line(found, known, name=text_of(found["text"]))),
        (rf"{PROPERTY}\s+to\s+(?P<text>.+)", lambda found, known: info_line(found, known, name=text_of(found["text"]))),
        (rf"{THING}\s+to\s+(?P<text>.+)", rename),
    )),
    "set": Command("@set #5.light to 3", SET),
    "move": Command("@move #5 to here", MOVED),
    "go": Command("@go #7", WENT),
    "recycle": Command("@recycle #5", ((THING, "recycle({thing})"),)),
    "chparent": Command("@chparent #5 to #6", ((rf"{THING}{TO}", "chparent({thing}, {other})"),)),
    "property": Command('@property #5.light 0 "rc"', ADDED),
    "rmproperty": Command("@rmproperty #5.light", GONE),
    "clearproperty": Command("@clearproperty #5.light", CLEARED),
    "chmod": Command("@chmod #5.light +r", (
        (rf"{VERB}{PERMS}", lambda found, known: info_line(found, known, perms=found["perms"])),
        (rf"{PROPERTY}{PERMS}", lambda found, known: info_line(found, known, perms=found["perms"])),
        (rf"{THING}{PERMS}", flags),
    )),
    "chown": Command("@chown #5 to #3", (
        (rf"{VERB}{TO}", lambda found, known: info_line(found, known, owner=known.thing(found["other"]))),
        (rf"{PROPERTY}{TO}", lambda found, known: info_line(found, known, owner=known.thing(found["other"]))),
        (rf"{THING}{TO}", chown),
    )),
    "verb": Command("@verb #5:look this none none", ((rf"{VERB}(?P<given>\s.*)?", add_verb),)),
    "rmverb": Command("@rmverb #5:look", (
        (VERB, lambda found, known: [f"delete_verb({known.thing(found['thing'])}, {verbs_in(found)})"]),
    )),
    "args": Command("@args #5:look this none none", ((rf"{VERB}(?P<given>\s.+)", args_of_verb),)),
    "list": Command("@list #5:look", ((rf"{VERB}(?:\s.*)?", header),)),
    "verbs": Command("@verbs #5", ((THING, "verbs({thing})"),)),
    "properties": Command("@properties #5", ((THING, "properties({thing})"),)),
    "kids": Command("@kids #1", ((THING, "\\tree {thing}"),)),
    "parents": Command("@parents #5", SHOWN),
    "show": Command("@show #5.light", ((VERB, header), (PROPERTY, "{thing}.{property}"), (rf"{THING}[.,:; ]*", "\\show {thing}"))),
    "contents": Command("@contents here", ((THING, "\\places {thing}"),)),
    "dump": Command("@dump #5", ((r"(?P<thing>.+?)(?:\s+with\s.*)?", "\\show {thing}"),)),
    "audit": Command("@audit me", OWNED),
    "quota": Command("@quota #18 is 5", ((rf"(?:{THING})?(?:\s+(?:is|to)\s+(?:public\s+)?(?P<value>-?\d+))?", quota),)),
    "programmer": Command("@programmer #5", ((THING, "{thing}.programmer = 1"),)),
    "toad": Command("@toad #5", ((THING, "set_player_flag({thing}, 0)"),)),
}  # fmt: skip
OTHER_WORDS = {
    "desc": "describe", "setprop": "set", "teleport": "move", "goto": "go", "join": "go", "prop": "property", "rmprop": "rmproperty",
    "clearprop": "clearproperty", "clearp": "clearproperty", "props": "properties", "owned": "audit", "locations": "parents", "rec": "recycle",
    "ancestors": "parents", "display": "show", "examine": "show", "exam": "show", "ex": "show", "d": "show",
}  # fmt: skip


def command_of(text: str) -> tuple[str, str]:
    """The word of a command of LambdaMOO without its `@`, and what it is given; two empty texts for another line."""
    found = re.fullmatch(r"@([A-Za-z][\w-]*)(?:\s+(.*))?", text.strip(), re.DOTALL)
    word = found[1].lower() if found else ""
    return OTHER_WORDS.get(word, word), (found[2] or "").strip() if found else ""


def building_lines(text: str, known: Known) -> list[str]:
    """The lines of the shell that a command of LambdaMOO is; none, if the text isn't a command that is known. `Failed`: its form is another."""
    word, given = command_of(text)
    if word not in COMMANDS:
        return []
    for form, lines in COMMANDS[word].forms:
        found = re.fullmatch(form, given, re.IGNORECASE | re.DOTALL)
        if found:
            return lines_of(found, lines, known)
    raise Failed(f"@{word} is written as {COMMANDS[word].example}")


def lines_of(found: re.Match[str], lines: Lines, known: Known) -> list[str]:
    """The lines for a command of this form."""
    try:
        if not isinstance(lines, str):
            return lines(found, known)
        said = {name: value or "" for name, value in found.groupdict().items()}
        for name in ("thing", "other"):
            if name in said:
                said[name] = known.thing(said[name])
        if "text" in said:
            said["text"] = written(text_of(said["text"]))
        return [lines.format(**said)]
    except ValueError as error:
        raise Failed(hint(found.string) if strange_letter(found.string) else str(error)) from None


def help_on_commands(word: str = "") -> str:
    """The command of this word, or all of them, as help lists them; nothing for another word."""
    wanted = command_of(word)[0]
    return "\n".join(f"  {command.example}" for name, command in COMMANDS.items() if not word or name == wanted)
