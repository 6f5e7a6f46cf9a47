"""The `\\` words of the shell."""

from __future__ import annotations

import dataclasses
import os
import re
import subprocess
import sys
from collections.abc import Callable
from pathlib import Path
from typing import Optional

from moo_shell import building, including, looks
from moo_shell.batches import Refused
from moo_shell.editing import edit
from moo_shell.elsewhere import STOPS, of_psql
from moo_shell.exporting import export, new_file, put
from moo_shell.files import history_file, write_new
from moo_shell.meant import meant
from moo_shell.naming import is_value
from moo_shell.helping import ASIDE, TOPICS, fitted, help_on, overview
from moo_shell.history import history
from moo_shell.service import OwnService
from moo_shell.session import Session
from moo_shell.watching import watch
from moo_shell.ways import how_to_undo
from moolib.batches import Item
from moolib.errors import TROUBLES, Failed, failing
from moolib.lines import Line, counted, did_you_mean, filled, names_in, unquoted
from moolib.values import written


@dataclasses.dataclass(frozen=True)
class Command:
    """A `\\` word: what it is given, what it does in a sentence, and the function that does it."""

    given: str
    does: str
    run: Callable[[Session, str], None]


def object_or_none(session: Session, text: str) -> Optional[int]:
    """The object that a word is given, if it is given one."""
    return session.number(text) if text else None


def show(session: Session, text: str) -> None:
    """All of an object."""
    whole = session.world.whole(session.number(text))
    things = session.world.things_of(sorted(number for number in looks.mentioned(whole) if number >= 0))
    session.output.show(looks.shown(whole, things, session.output.width()))


def tree(session: Session, text: str) -> None:
    """The objects by their parents."""
    session.output.show(looks.tree(session.world.things(), object_or_none(session, text)))


def places(session: Session, text: str) -> None:
    """The objects by where they are."""
    session.output.show(looks.places(session.world.things(), object_or_none(session, text)))


def find(session: Session, text: str) -> None:
    """The objects with a word in their names."""
    if not text:
        raise Failed("\\find WORD: which word?")
    found = looks.found(session.world.things(), unquoted(text).strip("*"))
    session.output.show(found or f"no name has {unquoted(text)}")


def owned(session: Session, text: str) -> None:
    """The objects of an owner."""
    number = session.number(text or "me")
    session.output.show(looks.owned(session.world.things(), number) or f"#{number} owns nothing")


def echo(session: Session, text: str) -> None:
    """A text, with the values of names outside of quotes."""
    session.output.show(unquoted(filled(text, session.values(names_in(text)))))
    of_psql_names = [word for word in re.findall(r"(?<!\S):([A-Za-z_]\w*)", text) if f"${word}" in session.names]
    if of_psql_names:
        session.output.note(f"a name is written ${of_psql_names[0]}")


def conninfo(session: Session, _: str) -> None:
    """Which world this is, its number, and who calls."""
    session.output.show(f"{session.door.where()}: number {session.door.seq()}, {session.world.caller_in_words()}")


def set_name(session: Session, text: str) -> None:
    """A name for a value, as psql writes it: `\\set x 5`."""
    name, _, value = text.partition(" ")
    if not value.strip():
        names(session, "")
        return
    if name in SETTINGS:
        raise Failed(SETTINGS[name])
    value = value.strip()
    quoted = re.fullmatch(r"'(.*)'|([A-Za-z][\w .-]*)", value)
    if quoted and not is_value(value):
        value = written(quoted[2] or quoted[1].replace("''", "'"))
    session.take_value(Line("value", value, f"${name.lstrip('$')}"))


def system(session: Session, text: str) -> None:
    """A command of the system, or a shell of it."""
    if session.is_copy:
        session.output.note("it isn't run: this is a copy of the world")
        return
    sys.stdout.flush()
    subprocess.run(["sh", "-c", text] if text else [os.environ.get("SHELL", "sh")])


def classes(session: Session, text: str) -> None:
    """The objects that others are under."""
    session.output.show(looks.classes(session.world.things(), unquoted(text).strip("*")) or f"no class has {unquoted(text)} in its name")


def show_history(session: Session, text: str) -> None:
    """What was done with an object."""
    session.output.show(history(session.door, session.number(text)))


def typed(session: Session, text: str) -> None:
    """The lines that were typed, or a new file with them."""
    if text and session.is_copy:
        session.output.note(f"{text} isn't written: this is a copy of the world")
        return
    try:
        lines = history_file().read_text()
        if text:
            write_new(Path(unquoted(text)).expanduser(), lines)
    except OSError as error:
        raise Failed(f"{error.filename}: {error.strerror}") from None
    if not text:
        session.output.show(lines.rstrip("\n") or "no line was typed yet")


def timing(session: Session, text: str) -> None:
    """Whether the time of each line is told."""
    if text.lower() not in ("", "on", "off"):
        raise Failed("\\timing [on|off]")
    session.has_timing = not session.has_timing if not text else text.lower() == "on"
    session.output.note(f"timing is {'on' if session.has_timing else 'off'}")


def output(session: Session, text: str) -> None:
    """Answers to a file, or to standard output again."""
    if text and session.is_copy:
        session.output.note(f"{text} isn't written: this is a copy of the world")
        return
    with failing(text):
        session.output.send_to(text)


def petitions(session: Session, _: str) -> None:
    """The petitions that may be seen."""
    found = session.world.petitions()
    things = session.world.things_of(sorted({who for _, who, _ in found}))
    session.output.show(looks.shown_petitions(found, things) or "there are no petitions")


def call_in(session: Session, text: str, what: str) -> Item:
    """The call that a word is given. `Failed`: it isn't one, and this is what is wanted."""
    line = meant(text, (), session.read)
    if line.kind != "call":
        raise Failed(what)
    session.test_call(line.text)
    return Item(line.text, line.name, session.place)


def ask(session: Session, text: str) -> None:
    """What a call would answer, or the open batch so far."""
    if text:
        items, who = [call_in(session, text, "\\ask CALL: a call is tried, as \\ask create(#1)")], session.who
        if session.open is not None:
            items, who = [*session.open, *items], session.open_who
    elif session.open is not None:
        items, who = session.open, session.open_who
    else:
        raise Failed("\\ask CALL: which call?")
    try:
        done = session.ask(items, who)
    except Refused as refused:
        at = f"call {refused.call}, " if len(items) > 1 and refused.call else ""
        session.output.show(f"would be {at}{session.with_help(refused, items).reason}")
        return
    rows = list(zip(items, done.answers))[-1 if text else 0 :]
    if session.is_script:
        session.output.show("\n".join(answer for _, answer in rows))
    else:
        session.output.show("\n".join(f"{answer}  {session.output.dim('would answer ' + item.text)}" for item, answer in rows))
    for told in session.batches.losses(items, who, session.values_for(items), done, session.is_script):
        session.output.note(told)


def names(session: Session, text: str) -> None:
    """The names; with a file they are kept in it."""
    if text:
        if session.is_copy:
            raise Failed("this is a copy of the world: its names aren't kept")
        session.keep_names(Path(unquoted(text)).expanduser())
        session.output.note(f"names are kept in {session.file_of_names}")
        return
    objects = [session.number(value) for value in session.names.values() if value.startswith("#")]
    things = session.world.things_of(sorted({number for number in objects if number >= 0}))
    rows = []
    for name, value in sorted(session.names.items()):
        rows.append(f"{name} = {looks.named(int(value[1:]), things) if value.startswith('#') else value}")
    session.output.show("\n".join(rows) or "there are no names yet: $hall = create(#1) makes one")


def as_number(session: Session, text: str) -> None:
    """Another programmer for the calls that follow."""
    if not session.door.can_name:
        raise Failed("the front knows by the token who calls: \\as can't name another programmer")
    if session.open or (session.open is not None and not session.is_single):
        raise Failed("a batch is open: it is of one programmer")
    if not text:
        session.output.show(session.world.caller_in_words())
        return
    number = session.number(text)
    session.world.built_in(number)
    session.world.who = number
    if session.is_single:
        session.open_who = number
    if not session.is_script:
        session.output.note(session.world.caller_in_words())


def seq(session: Session, _: str) -> None:
    """The number of accepted batches."""
    session.batches.seq = session.door.seq()
    session.output.show(str(session.batches.seq))


def dump(session: Session, text: str) -> None:
    """The dump of the world, to a new file or to the terminal."""
    path = new_file(text)
    put(session, path, dump_of(session))


def dump_of(session: Session) -> str:
    """The dump of the world, by the service's route, or by the program if the service is the shell's own and has no such route."""
    try:
        reply = session.door.tried("GET", "/dump")
    except Failed as failed:
        wizards = "; a front gives the whole world to wizards alone" if failed.reason == TROUBLES["forbidden"] else ""
        raise Failed(f"\\dump: {failed.reason}{wizards}") from None
    if reply.is_good:
        return reply.text
    if not reply.is_missing:
        raise Failed(f"{session.door.where()} gives no dump: {reply.error}")
    if isinstance(session.door, OwnService):
        return session.door.dump()
    raise Failed("this service has no dump: `moo dump FILE` makes one when the service has ended")


def include(session: Session, text: str) -> None:
    """The lines of another file."""
    including.include(session, unquoted(text))


def show_help(session: Session, text: str) -> None:
    """The overview, or what help says about a word."""
    is_all = text.lower() in ("", "commands", "options", "variables")
    if text.startswith("\\"):
        text = "\\" + ALIASES.get(text[1:].lower(), text[1:])
    told = overview(session.manual, COMMANDS_BY_HELP) if is_all else help_on(session.manual, COMMANDS_BY_HELP, text)
    session.output.show(fitted(told, session.output.width()))


def list_batch(session: Session, _: str) -> None:
    """The calls of the open batch."""
    if session.open is None:
        raise Failed("no batch is open: `begin` opens one")
    rows = [f"{number}  {item.name + ' = ' if item.name else ''}{item.text}" for number, item in enumerate(session.open, 1)]
    session.output.show("\n".join(rows) or "no calls yet")


def undo(session: Session, text: str) -> None:
    """Drops the last call of the open batch."""
    if session.open is None:
        raise Failed(how_to_undo(session, text))
    if not session.open:
        raise Failed("no call of an open batch is there to drop")
    session.output.note(f"dropped: {session.open.pop().text}")


def fix(session: Session, text: str) -> None:
    """Sends a batch that was refused again, with another call in the place of the refused one."""
    if session.open is not None:
        raise Failed("a batch is open: \\abandon drops it")
    session.fix(call_in(session, text, "\\fix CALL: the call that takes the place of the refused one"))


def abandon(session: Session, _: str) -> None:
    """Drops the open batch."""
    if session.open is None:
        raise Failed("no batch is open")
    session.output.note(f"the batch is dropped, with {counted(session.abandon(), 'call')}; nothing was sent")


def leave(session: Session, _: str) -> None:
    """Ends the session."""
    session.is_over = True


COMMANDS = {
    "show": Command("#5", "all of an object: owner, parents, place, flags, properties with their values and origins, verbs", show),
    "tree": Command("[#1]", "the objects by their parents", tree),
    "places": Command("[#2]", "the objects by where they are", places),
    "find": Command("WORD", "the objects with a word in their names", find),
    "owned": Command("[#3]", "the objects of an owner, or one's own", owned),
    "classes": Command("[WORD]", "the objects that others are under, and how many are under each", classes),
    "history": Command("#5", "through a front: the last batches that named an object, or made it", show_history),
    "petitions": Command("", "the petitions: all of them for a wizard, else one's own", petitions),
    "ask": Command("CALL", "what a call would answer, and what would be lost; nothing changes. In a batch without a CALL: the batch so far", ask),
    "as": Command("N", "the calls that follow are those of programmer #N", as_number),
    "names": Command("[FILE]", "the names and what they stand for; with FILE they are kept in it from now on", names),
    "seq": Command("", "the number of accepted batches", seq),
    "dump": Command("[FILE]", "the whole world as a text, for `moo load`; FILE must be new", dump),
    "export": Command("#5 children|contents [FILE]", "a class with what inherits from it, or a room with what is in it, as a script that makes the same; FILE must be new", export),
    "include": Command("FILE", "does the lines of a file, up to the first that is refused", include),
    "list": Command("", "the calls of the open batch", list_batch),
    "undo": Command("", "drops the last call of the open batch", undo),
    "abandon": Command("", "drops the open batch; so does Ctrl-C", abandon),
    "fix": Command("CALL", "sends the batch that was refused again, with CALL in the place of the refused call", fix),
    "e": Command("", "the open batch, the refused one or the last call in an editor; it is done when that ends", edit),
    "o": Command("[FILE]", "answers go to the end of FILE from now on, or with |COMMAND to a command; without FILE they are shown again", output),
    "s": Command("[FILE]", "the lines that were typed; with FILE they are written to it, which must be new", typed),
    "echo": Command("TEXT", "writes a text; names outside of quotes are their values", echo),
    "watch": Command("[i=2] [c=N] [LINE]", "does a line that only reads every 2 seconds, N times or until Ctrl-C", watch),
    "conninfo": Command("", "which world this is, its number, and who calls", conninfo),
    "!": Command("[COMMAND]", "runs a command of the system, or a shell of it", system),
    "timing": Command("[on|off]", "tells how long each line takes", timing),
    "help": Command("[WORD]", f"this, or help on a call, an error, or one of: {', '.join([*TOPICS, *ASIDE])}", show_help),
    "quit": Command("", "ends the shell; so does Ctrl-D", leave),
}
# What psql sets, and how it is here.
SETTINGS = {
    "AUTOCOMMIT": "a call is a batch of its own, and `begin` opens one of several",
    "ON_ERROR_STOP": STOPS,
}
# Words of other prompts.
ALIASES = {
    "exit": "quit", "q": "quit", "h": "help", "?": "help", "edit": "e", "output": "o", "out": "o", "i": "include", "ir": "include",
    "d": "show", "d+": "show", "dt": "classes", "dt+": "classes", "dn": "classes", "l": "conninfo", "l+": "conninfo", "p": "list", "print": "list", "r": "abandon", "reset": "abandon",
}  # fmt: skip
COMMANDS_BY_HELP = {name: (command.given, command.does) for name, command in COMMANDS.items()}


def run_command(session: Session, word: str, text: str) -> None:
    """Does a `\\` word with what it is given."""
    if word == "set":
        set_name(session, text)
        return
    word = ALIASES.get(word, word) if text or word not in ("d", "d+") else "classes"
    if word not in COMMANDS:
        if of_psql(word):
            raise Failed(f"\\{word} isn't a word of the shell: {of_psql(word)}")
        like = f" (did you mean @{word}?)" if word in building.COMMANDS else did_you_mean("\\" + word, ["\\" + name for name in COMMANDS])
        raise Failed(f"\\{word} isn't a word of the shell{like}; \\help lists them")
    COMMANDS[word].run(session, text)
