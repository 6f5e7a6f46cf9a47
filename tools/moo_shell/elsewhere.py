"""What to write for a line of LambdaMOO or of SQL, and for a `\\` word or an option of psql, that the shell hasn't."""

from __future__ import annotations

import re

from moo_shell.building import COMMANDS, command_of
from moolib.calls import NAMES

NO_VERBS = "moo keeps the headers of verbs and runs none: the game is a program beside it"
PLAYED = "nobody plays at this prompt: @move #5 to me takes a thing, @go #7 or @go north goes to a place, and a program of yours lets people play"
# What to write for a command of LambdaMOO that isn't done.
SENTENCES = {
    "program": NO_VERBS,
    "copy": NO_VERBS,
    "who": "nobody is connected to a world of moo; players() lists the players, and \\places shows where they are",
    "password": "accounts are the front's: /people there, or moo-people",
    "newplayer": "set_player_flag(#5, 1) makes #5 a player; an account is made by the front, at /people, or by moo-people",
    "addalias": '#5.aliases = {"lamp", "light"} sets them, and @property #1.aliases {} rc makes that property',
    "lock": "set_accept(#7, {#5}) says what a place takes: #5 and what is under it",
    "edit": '#5.description = "Dull." sets a property, and \\e edits that line',
    "exits": "`here.exits` tells them, and @dig north|south to #7 makes them, if the class has that property",
    "home": "#5.home = #7 sets one, if the class has that property, and @move #5 to #7 moves anything",
    "check": "\\ask CALL tells what a call would answer, as \\ask chparent(#5, #6)",
    "shutdown": "who runs the service ends it; what was answered is on the disk",
    "mail": "there is no mail; petition({{\"set\", #5, \"f\", 1}}) asks a wizard to do something",
}
SAME = {
    "make-player": "newplayer", "rmalias": "addalias", "unlock": "lock", "notedit": "edit", "ways": "exits", "entrances": "exits",
    "add-exit": "exits", "addexit": "exits", "dump-database": "shutdown", "gripe": "mail", "send": "mail", "news": "mail",
    "where": "who", "users": "who", "boot": "who", "shout": "who", "sethome": "home", "eject": "home", "check-property": "check", "check-chparent": "check", "check-prop": "check", "check-p": "check",
}  # fmt: skip
# Words and signs with which people play a game.
PLAYING = re.compile(
    r"(?:say|emote|page|whisper|get|take|drop|put|give|wear|open|close|home|go|walk|north|south|east|west|up|down|[nsewud])(?:\s.*)?|[\":]\w[^\"]*",
    re.IGNORECASE | re.DOTALL,
)

# What to write for a statement of SQL.
SQL = {
    "select": "#5.name reads a property, \\show #5 shows an object, \\tree #5 lists what is under one, and \\find WORD finds objects by their names",
    "insert": "$thing = create(#1) makes an object",
    "update": '#5.name = "Inn" sets a property',
    "delete": "recycle(#5) takes an object away",
    "truncate": "recycle(#5) takes an object away",
    "alter": 'add_property(#5, "light", 0, {#3, "rc"}) adds a property',
    "explain": "\\ask CALL tells what a call would answer",
    "savepoint": "\\undo drops the last call of the open batch",
    "release": "`end` sends the open batch",
    "start": "`begin` opens a batch, and `end` sends it",
    "with": "\\find WORD finds objects by their names",
    "values": "a value alone on a line is shown",
    "table": "\\show #5 shows an object with its properties, and \\tree #5 lists what is under one",
    "describe": "\\show #5 shows an object with its properties, and @describe #5 as .. sets its description",
    "desc": "\\show #5 shows an object with its properties, and @describe #5 as .. sets its description",
    "revoke": 'set_property_info(#5, "light", {#3, ""}) says who may read a property',
    "copy": "\\dump FILE writes the whole world, and \\i FILE does the calls of a file",
    "vacuum": "after the service has ended, `sqlite3 FILE VACUUM` makes the file smaller",
    "analyze": "nothing has to be done for speed",
    "replace": '#5.name = "Inn" sets a property',
    "listen": "\\watch LINE does a line that only reads again and again",
    ".tables": "\\classes lists the objects that others are under",
    ".schema": "\\show #5 shows an object with its properties",
}
# Words that are SQL only with one of these after them.
WITH_KIND = re.compile(r"(create|drop|grant|table|set|show)\s+(?:table|view|index|schema|database|role|user|select|insert|update|all|\w+\s+to)\b.*", re.I | re.S)
KINDS = {
    "drop": "recycle(#5) takes an object away",
    "create": "an object made under another is what a row of a table is: $thing = create(#1)",
    "grant": 'set_property_info(#5, "light", {#3, "r"}) says who may read a property',
}

ONE_WAY = "answers are shown one way; without a terminal they are bare, one on a line"
NO_BRANCHES = "a script has no branches: a program with tools/moo_client.py has"
SHOWN = "\\show #5 shows an object, and \\classes lists those that others are under"
# What to write for a `\\` word of psql.
PSQL = {
    "c": "another world is for another moo-shell, and \\as N names another programmer",
    "connect": "another world is for another moo-shell, and \\as N names another programmer",
    "du": "players() lists the players",
    "df": "\\help calls lists the calls",
    "dp": "\\show #5 tells the perms of each property",
    "z": "\\show #5 tells the perms of each property",
    "dv": SHOWN,
    "di": SHOWN,
    "x": "\\show #5 always has a line for each property",
    "unset": "a name can get another value: $x = 5",
    "g": "a line is done at Enter",
    "gx": "a line is done at Enter",
    "gset": "$x = CALL gives the answer a name",
    "gexec": "\\include FILE does the lines of a file",
    "w": "\\s FILE writes the lines that were typed, and \\e has the open batch in an editor",
    "copy": "\\dump FILE writes the whole world, and \\i FILE does the calls of a file",
    "pset": f"{ONE_WAY}; PAGER=cat moo-shell has no pager",
    "a": ONE_WAY,
    "t": ONE_WAY,
    "f": ONE_WAY,
    "encoding": "texts are printing ASCII and tabs",
    "errverbose": "\\help E_PERM tells what an error means",
    "if": NO_BRANCHES,
    "elif": NO_BRANCHES,
    "else": NO_BRANCHES,
    "endif": NO_BRANCHES,
    "prompt": "$x = 5 gives a name to a value",
    "getenv": "$x = 5 gives a name to a value",
    "cd": "paths begin at the folder in which the shell began",
    "password": "accounts are the front's: /people there, or moo-people",
    "sf": NO_VERBS,
    "ef": NO_VERBS,
    "warn": "\\echo TEXT writes a line",
    "qecho": "\\echo TEXT writes a line, to the file of \\o too",
}
BARE = "answers of a script are bare already, one on a line; -q -c '$x = #5.name; \\echo $x' writes a text without its quotes"
STOPS = "a script always stops at the first line that is refused, with status 1"
# What to write for an option of psql.
OPTIONS = {
    "-A": BARE,
    "-t": BARE,
    "-X": "there is no file of settings",
    "-d": "the world is FILE, without a letter before it",
    "-U": "--as N names who calls",
    "-W": "--token FILE has the token for --web",
    "-w": "--token FILE has the token for --web",
    "-l": "a shell has one world",
    "-o": "\\o FILE writes answers to a file, or > FILE after the command",
    "-v": "-c '$x = 5' before the other words gives a name to a value",
    "-e": "standard error names the line that is refused",
    "-a": "standard error names the line that is refused",
    "-E": "standard error names the line that is refused",
    "-n": "a line is edited at a terminal alone",
    "-P": f"{ONE_WAY}; PAGER=cat moo-shell has no pager",
    "-x": "\\show #5 always has a line for each property",
    "-F": BARE,
    "-R": BARE,
    "-z": BARE,
    "-0": BARE,
    "-H": BARE,
    "-L": "\\o FILE writes answers to a file",
    "-b": "standard error names the line that is refused",
    "-s": "\\ask CALL tells what a call would answer, and --dry-run what a script would do",
    "--csv": BARE,
}
# The same options in whole words.
WHOLE = {
    "--dbname": "-d", "--username": "-U", "--password": "-W", "--no-password": "-w", "--list": "-l", "--output": "-o", "--variable": "-v",
    "--set": "-v",
    "--echo-all": "-a", "--echo-queries": "-e", "--echo-errors": "-b", "--no-align": "-A", "--tuples-only": "-t", "--no-psqlrc": "-X", "--html": "-H",
    "--field-separator": "-F", "--log-file": "-L", "--single-step": "-s",
    "--echo-hidden": "-E", "--no-readline": "-n", "--pset": "-P", "--expanded": "-x", "--record-separator": "-R",
}  # fmt: skip


def of_lambdamoo(text: str) -> str:
    """What to write for a command of LambdaMOO, or a line of who plays. Another line gives an empty text."""
    word, _ = command_of(text)
    if not word:
        return PLAYED if PLAYING.fullmatch(text.strip()) and not WITH_KIND.fullmatch(text) else ""
    told = SENTENCES.get(SAME.get(word, word))
    if told:
        return f"@{word} is LambdaMOO's; here {told}"
    if word in NAMES:
        return f"{word} is a call, and its values are in brackets: \\help {word}"
    return "" if word in COMMANDS else f"@{word} isn't one of the commands of LambdaMOO that the shell does: \\help lambdamoo lists them"


def of_sql(text: str) -> str:
    """What to write for a statement of SQL. Another line gives an empty text."""
    first = text.split(None, 1)[0].lower() if text.strip() else ""
    with_kind = WITH_KIND.fullmatch(text)
    told = KINDS.get(with_kind[1].lower(), "\\help lists what there is") if with_kind else SQL.get(first, "")
    return f"moo has no SQL; {told}" if told else ""


def of_psql(word: str) -> str:
    """What to write for a `\\` word of psql, with or without its `+` or `S`. Another word gives an empty text."""
    return PSQL.get(word) or PSQL.get(word.rstrip("+")) or (SHOWN if re.fullmatch(r"d[a-z]{1,3}[+]?", word) else "")


def of_bundles(words: list[str]) -> str:
    """The same for options of one letter that are written as one word, as `-qAt`, which begins with some of the shell's that take no value."""
    bundles = (re.fullmatch(r"-[q1]+([A-Za-z0])[A-Za-z01]*", word) for word in words)
    return of_options([f"-{found[1]}" for found in bundles if found])


def of_options(words: list[str]) -> str:
    """What to write for the first of some options that is psql's. Others give an empty text."""
    if any("ON_ERROR_STOP" in word for word in words):
        return f"ON_ERROR_STOP: {STOPS}"
    for word in words:
        option = word.partition("=")[0] if word.startswith("--") else word[:2]
        told = OPTIONS.get(WHOLE.get(option, option))
        if told:
            return f"{option}: {told}"
    return ""
