"""What is meant by a line as people write it who come from LambdaMOO, psql or sqlite3; and advice on what can't be done."""

from __future__ import annotations

import re
from collections.abc import Callable, Collection
from typing import Optional

from moo_shell.elsewhere import NO_VERBS, of_lambdamoo, of_psql, of_sql
from moolib.begun import known_name
from moolib.calls import NAMES, call_name
from moolib.lines import Line, pieces, read_line
from moolib.values import written

# What a reading call answers, as it is written.
Read = Callable[[str], str]

THING = r"(?:\$[A-Za-z_]\w*|#-?\d+)"
ALONE = re.compile(THING)
PROPERTY = re.compile(rf"({THING})((?:\.[A-Za-z_]\w*)+)(?:\s*=(?!=)\s*(\S.*))?", re.DOTALL)
ASSIGNED = re.compile(r"([A-Za-z_]\w*)\s*=(?!=)\s*(\S.*)", re.DOTALL)
# A name without its `$`, with a property of what it stands for.
BARE = re.compile(r"[A-Za-z_]\w*\.[A-Za-z_]")
VERB = re.compile(rf"(?:{THING}|[A-Za-z_]\w*):\w+.*", re.DOTALL)
# What LambdaMOO is asked to reckon.
EVALUATED = re.compile(r"(?:eval|return)\s+(.*)", re.IGNORECASE | re.DOTALL)
WORD = re.compile(r"[@.]?([A-Za-z]+)(?:\s+(.*))?", re.DOTALL)

# An expression that moo would have to reckon; and in the words of moo what isn't a value, and the word with which it begins.
SUM = re.compile(
    r'(?:-?\d+|"(?:[^"\\]|\\.)*"|[#$]\w+(?:\.\w+)*|\{.*\})\s*[-+*/%<>=?[]|(?:for|if|while|fork|try|return)\b', re.DOTALL
)
RECKONS = "moo reckons nothing: a line is a call, or a property as #5.name"
NO_SUMS = "; a call isn't a value of another one: $x = CALL gives its answer a name"
NO_VALUE = re.compile(r"(?:.*: )?'(([A-Za-z]\w*)[^']*)' isn't a value")
# What ends a line of psql; and a word of the shell after a call.
GO = re.compile(r"(?<=\S)\s*\\gx?\s*$")
LATE_WORD = re.compile(r'([^"]*\S)\s+\\(\w+)(.*)', re.DOTALL)
# Words of other prompts that end a batch or drop it, and the word of the shell for each.
BATCH_WORDS = {"commit": "end", "rollback": "abandon", "abort": "abandon"}
SHOWING = ("look", "examine", "exam", "display")
# Words for objects, and the name of each; those of the second line stand alone.
OWN_WORDS = {"me": "$me", "player": "$me", "here": "$here"}
ALONE_WORDS = {**OWN_WORDS, "look": "$here", "l": "$here"}
CARRIED = ("inventory", "inv", "i")


def meant(text: str, words: Collection[str], read: Read) -> Line:
    """What a line says. `words` are those of the shell.

    A line of other prompts is read as the line of the shell that does the same: a property as `get` or `set`, a word without its `\\` as that
    word, `x = 5` as `$x = 5`, `x.name` as `$x.name`. An object or a name alone is a line of the kind `alone`. `Failed`: an object of a chain can't be read.
    """
    line = read_line(text if text.lstrip().startswith("\\") else GO.sub("", text))
    if line.kind == "value":
        found = PROPERTY.fullmatch(line.text)
        return Line("call", property_call(found, read), line.name) if found and not found[3] else line
    if line.kind != "call" or line.name or call_name(line.text):
        return line
    reckoned = EVALUATED.fullmatch(line.text)
    if reckoned and not reckoned[1].startswith("="):
        return meant(reckoned[1], words, read)
    return of_expression(line.text, read) or of_word(line.text, words, read) or line


def of_expression(text: str, read: Read) -> Optional[Line]:
    """The line that an object, a name, a property or an assignment is; None if the text is none of them."""
    if ALONE.fullmatch(text):
        return Line("alone", text)
    if text.lower() in ALONE_WORDS:
        return Line("alone", ALONE_WORDS[text.lower()])
    if text.lower() in CARRIED:
        return Line("command", "$me", word="places")
    found = PROPERTY.fullmatch(text)
    if found:
        return Line("call", property_call(found, read))
    given = ASSIGNED.fullmatch(text)
    if given:
        return meant(f"${given[1]} = {given[2]}", (), read)
    if BARE.match(text):
        first, _, rest = text.partition(".")
        whole = f"{OWN_WORDS.get(first.lower(), f'${first}')}.{rest}"
        return of_expression(whole, read) if PROPERTY.fullmatch(whole) else None
    return None


def property_call(found: re.Match[str], read: Read) -> str:
    """The call that reads or sets the property of an expression, such as `#5.name` or `#5.location.name = "Inn"`."""
    thing, (*path, name) = found[1], found[2][1:].split(".")
    for each in path:
        thing = read(f"get({thing}, {written(each)})")
    if found[3] is None:
        return f"get({thing}, {written(name)})"
    value = PROPERTY.fullmatch(found[3].strip())
    given = read(property_call(value, read)) if value and value[3] is None else found[3]
    return f"set({thing}, {written(name)}, {given})"


def of_word(text: str, words: Collection[str], read: Read) -> Optional[Line]:
    """The word of the shell that a line is without its `\\`; None if it isn't one."""
    found = WORD.fullmatch(text)
    if not found:
        return None
    word, given = found[1].lower(), found[2] or ""
    if word in SHOWING and given:
        word, given = "show", re.sub(r"^at\s+", "", given)
    if word == "show":
        given = given.rstrip(".,:; ")
        asked = of_expression(given, read)
        if asked and asked.kind == "call" and call_name(asked.text) == "get":
            return asked
    if word in BATCH_WORDS and not given:
        return Line("end") if BATCH_WORDS[word] == "end" else Line("command", word=BATCH_WORDS[word])
    return Line("command", given, word=word) if len(word) > 1 and word in words else None


def advice(text: str) -> str:
    """What to write for a line that isn't a call and can't be done as it is; or nothing."""
    first = text.partition(" ")[0].lower()
    if first in ("begin", "end"):
        return f"`{first}` stands alone on its line"
    if first == "batch":
        return "`batch as #3` begins a batch of #3"
    late = LATE_WORD.fullmatch(text)
    if late:
        return of_psql(late[2]) or f"a word of the shell begins its line: \\{late[2]}{late[3]} {late[1]}"
    if re.fullmatch(r":[A-Za-z]\w*", text):
        return f"a name is written ${text[1:]}, and nobody plays at this prompt"
    return of_lambdamoo(text) or of_sql(text) or expression_advice(text)


def signs_advice(text: str, why: str) -> str:
    """How texts, petitions and comments are written, for a call that is malformed for this reason; or nothing."""
    outside = "".join(piece for kind, piece in pieces(text) if kind == "other")
    found = NO_VALUE.match(why)
    word, inner = (found[2], call_name(found[1])) if found else ("", "")
    told = ""
    if word.lower() in OWN_WORDS:
        told = f"; in a call it is {OWN_WORDS[word.lower()]}"
    elif inner in NAMES:
        told = '; a call in a petition is a list, as petition({{"set", #4, "name", "Ada"}})' if call_name(text) == "petition" else NO_SUMS
    elif "'" in outside or word and not inner:
        quoted = None if word else re.search(r"'([^'\"]+)'", outside)
        told = f'; a text is in double quotes, as "{quoted[1] if quoted else word or "Inn"}", and an object is a number, as #5'
    named = re.search(r"(?<![\w:]):([A-Za-z]\w*)", outside)
    told += f"; a name is written ${named[1]}" if named else ""
    return told + ("; a comment begins with // and ends with its line" if "/*" in outside else "")


def expression_advice(text: str) -> str:
    """What to write for an expression of LambdaMOO that is more than a property; or nothing."""
    if VERB.fullmatch(text):
        return NO_VERBS
    if "/*" in text:
        return "a comment begins with // and ends with its line"
    if SUM.match(text):
        return RECKONS
    name = known_name(text)
    if name:
        return f"{name} is a call, and its values are in brackets: \\help {name}"
    found = re.match(rf"({THING})\.([A-Za-z_]\w*)(\s*:=)?", text)
    if found and found[3]:
        return f'a property is set by {found[1]}.{found[2]} = "Inn"'
    return f'a property is read by get({found[1]}, "{found[2]}")' if found else ""
