"""The answers of `\\help`. What it says of calls, values and errors is the program's own help."""

from __future__ import annotations

import re
import textwrap
from collections.abc import Iterator, Mapping
from typing import Optional

from moo_shell.building import help_on_commands
from moo_shell.elsewhere import of_lambdamoo, of_psql, of_sql
from moo_shell.manual import Manual
from moolib.calls import call_name
from moolib.errors import Failed
from moolib.lines import did_you_mean

WIDTH = 79

LINES = """\
A line is
  create(#1)            a call, a batch of its own: it acts whole or not at all
  get(#1, "name")       a call that only reads: it changes nothing, nor the number
  $hall = create(#1)    a call, and $hall stands for its answer from then on
  #5.name, #5.name = "Inn"    a property is read, or set
  #5, $hall, show Inn   an object is shown
  $price = 12           a name for a value
  begin .. end          the calls between them are one batch: all act, or none
  include FILE          the lines of a file
  // words, -- words    a comment, also after a call
  @describe #5 as ..    a command of LambdaMOO: \\help lambdamoo
A call goes on over several lines until it is closed; `;` parts several calls.
  \\WORD                 one of these words:"""

TOPICS = {
    "batches": """\
`begin` opens a batch, each line after it is a call, and `end` sends it. It
acts whole or not at all: if a call is refused nothing has changed. A call may
use the name of an earlier one's answer in the same batch:

  begin
  $hall = create(#1)
  set($hall, "name", "The Hall")
  end

\\ask alone tries the batch so far, \\list shows it, \\undo drops its last call,
\\abandon or Ctrl-C drops all of it. If it is refused, \\fix CALL sends it again
with CALL in the place of the call that was refused.
A text for `moo apply` is read too: `batch as #3` begins a batch of #3, with
`at M` for the world of number M alone.""",
    "names": """\
A name is a $ and letters, digits or _, as $hall. `$hall = create(#1)` gives it
the answer of a call, `$hall = #5` a value. It stands for that value in calls,
also in lists, but not in texts. Large and small letters differ. \\names lists
the names. They last for the session; \\names FILE, or --names FILE, keeps them
in a file. A name that the session hasn't is a property of #0, as in LambdaMOO:
$room is #0.room. $me is the programmer who calls, but at a front.""",
    "scripts": """\
`moo-shell -f build.moo world.db` does the lines of a file as if they were
typed. It stops at the first line that is refused, with its file, its line and
the reason; what came before it stays. With --dry-run it does all of it on a
copy of the world, says what it would make, and changes nothing. `include FILE`
reads FILE from the folder of the file that it is written in.

A script that stopped says from which line it goes on when it is mended:
`--from-line 9 -f build.moo`. The lines before are not done again; their names
are in build.moo.stopped. --single makes one batch of all calls, 1,000 at most.
`-c CALL` does a call in place of a script.""",
    "classes": """\
A class is an object that others are made under. They inherit its properties,
until a property is set on one of them:

  $lamp = create(#1)
  add_property($lamp, "light", 0, {#3, "rc"})  // owner, perms: \\help rights
  set($lamp, "f", 1)                 // anybody may make objects under it
  $mine = create($lamp)
  set($mine, "light", 1)""",
    "places": """\
Anything can be a place. A place takes what its accept list names, and all that
is under that; or what the list of its nearest ancestor that has one names. A
wizard's move needs no list.

  $hall = create(#1)
  set_accept($hall, {#1})            // whatever is under #1
  move(#3, $hall)                    // \\places shows who is where""",
    "people": """\
A builder is an object that calls: \\as N makes the calls that follow those of
#N. A quota bounds how many objects one may own. Its property is made once for a
world, and only an integer in it bounds anything:

  add_property(#1, "ownership_quota", "", {#3, ""})
  $ada = create(#1, #-1)             // the owner #-1: it owns itself
  set_player_flag($ada, 1)
  set($ada, "ownership_quota", 5)

Each create lowers the owner's quota by 1, each recycle gives 1 back. At 0 a
create is refused: E_QUOTA.""",
    "petitions": """\
Who may not do something asks a wizard for it. The calls are written as lists:

  petition({{"set", #4, "name", "Ada"}, {"move", #4, #2}})

\\petitions shows them with their numbers, `\\ask grant(1)` tries what a grant
would do, and `grant(1)` or `decline(1)` ends one.""",
}
TOPICS["psql"] = """\
There is no SQL. These are as in psql, or nearly so:

  \\d #5, \\d                 shows an object; lists the classes, as \\dt
  BEGIN, COMMIT, ROLLBACK   a batch, which acts whole or not at all
  -c CALL, -f FILE, -1, -q  words of the command line
  \\set x 5                  $x is 5 from then on; it is written $x, and not :x
  \\i FILE, \\o FILE, \\e, \\s, \\p, \\r, \\g, \\watch 5 LINE, \\timing, \\!, \\l, \\q
A call is done at Enter, also without `;`. A script always stops at the first
line that is refused, with status 1. A text is in double quotes: "It's open".

In place of SELECT: \\show #5, \\tree #5, \\find WORD, #5.name. Of INSERT:
create(#1). Of UPDATE: #5.name = "Inn". Of DELETE: recycle(#5). Of ALTER TABLE:
add_property(#5, "light", 0, {#3, "rc"}). Of EXPLAIN: \\ask CALL."""
TOPICS["lambdamoo"] = f"""\
Commands of LambdaMOO are done by the calls that do the same. The prompt shows
them first. `me` is who calls, `here` is the place of that, and an object may
be named by its number, its name, or $name. `;` and `eval` before a line mean
nothing. No verb runs: moo keeps their headers alone.

{help_on_commands()}"""
ASIDE = {"rights": "PERMS", "values": "Values", "calls": "Calls", "errors": "Why a call"}


def overview(manual: Manual, commands: Mapping[str, tuple[str, str]]) -> str:
    """What `\\help` alone says."""
    rows = [f"  \\{f'{name} {given}'.strip():<16}" for name, (given, _) in commands.items()]
    told = [
        textwrap.fill(does, WIDTH, initial_indent=f"{row} ", subsequent_indent=" " * 20) for row, (_, does) in zip(rows, commands.values())
    ]
    calls = textwrap.fill(", ".join(sorted(manual.calls)), WIDTH, initial_indent="  ", subsequent_indent="  ")
    values = [manual.part("Values")] if manual.parts else []
    about = ["Calls (\\help create tells one, \\help calls all):", calls]
    if not manual.calls:
        about = ["There is no help on calls: no program moo is here."]
    return "\n".join([LINES, *told, "", *about, *([""] + values if values else [])])


def help_on(manual: Manual, commands: Mapping[str, tuple[str, str]], word: str) -> str:
    """What `\\help WORD` says."""
    is_of_psql = word.strip().startswith("\\")
    word = word.strip().lstrip("\\")
    word = call_name(word) or word
    elsewhere = (of_psql(word),) if is_of_psql else (help_on_commands(word), of_lambdamoo(word), of_sql(word))
    found = [told for told in elsewhere if told]
    if word.lower() in commands:
        given, does = commands[word.lower()]
        found.append(f"  \\{f'{word.lower()} {given}'.strip()}   {does}")
    if word.lower() in TOPICS:
        found.append(TOPICS[word.lower()])
    if word.lower() in ASIDE and manual.part(ASIDE[word.lower()]):
        found.append(manual.part(ASIDE[word.lower()]))
    if manual.about(word):
        found.append(str(manual.about(word)))
    found = found or [told for told in (help_on_commands(f"@{word}"),) if told]
    if not found:
        known = [*commands, *TOPICS, *ASIDE, *manual.calls, *manual.reasons]
        raise Failed(f"there is no help on {word}{did_you_mean(word, known) or where_else(manual, word)}")
    return "\n\n".join(found)


def where_else(manual: Manual, word: str) -> str:
    """The topics in which a word is, or the list of what there is."""
    texts = {**TOPICS, **{name: manual.part(begins) for name, begins in ASIDE.items()}}
    found = [f"\\help {name}" for name, text in texts.items() if re.search(rf"\b{re.escape(word)}", text, re.IGNORECASE)]
    return f"; the word is in {' and '.join(found[:3])}" if found else "; \\help lists what there is"


def hanging(line: str) -> int:
    """Where the words of an entry begin: after its last wide gap, or else a little further in than the line."""
    gaps = [found.end() for found in re.finditer(r"(?<=\S)\s{2,}(?=\S)", line)]
    return gaps[-1] if gaps else len(line) - len(line.lstrip()) + 4


def paragraphs(text: str) -> Iterator[str]:
    """A text as lines of any length: an entry with those that go on with it, a paragraph, or an empty line.

    A line that ends with a sentence is taken for the end of a paragraph.
    """
    last = ""
    for line in text.splitlines():
        is_prose = line[:1].strip() and last[-1:] not in (".", ":")
        if last and (line.startswith(" " * 8) if last.startswith(" ") else is_prose):
            last = f"{last} {line.strip()}"
            continue
        if last:
            yield last
        last = line
        if not line:
            yield ""
    if last:
        yield last


def fitted(text: str, width: Optional[int]) -> str:
    """A text that is broken between words if it has a line that is longer than the terminal's. None: there is no terminal."""
    if width is None or all(len(line) <= width for line in text.splitlines()):
        return text
    lines = []
    for paragraph in paragraphs(text):
        indent = min(hanging(paragraph), width // 2) if paragraph.startswith(" ") else 0
        lines.append(textwrap.fill(paragraph, width, subsequent_indent=" " * indent, break_on_hyphens=False))
    return "\n".join(lines)
