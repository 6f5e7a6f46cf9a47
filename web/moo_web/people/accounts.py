"""The program `moo-people`: the accounts of a front."""

from __future__ import annotations

import argparse
import datetime
import getpass
import sqlite3
import sys
from pathlib import Path
from typing import Callable

from moolib import __version__
from moolib.errors import Failed

from moo_web.people.audit import audit_to_system
from moo_web.people.checking import checked
from moo_web.people.file import Wrong
from moo_web.people.people import People
from moo_web.people.tokens import MOST_DAYS, Terms
from moo_web.programs import PEOPLE_FILE, number_word, object_number, only_ours, own_folder, port_number
from moo_web.world.door import Door

USAGE = """moo-people FOLDER add NAME NUMBER [--moo-port M] [--any]
       moo-people FOLDER passwd | disable | enable | remove NAME
       moo-people FOLDER renumber NAME NUMBER
       moo-people FOLDER token NAME [--label TEXT] [--days N] [--read-only]
       moo-people FOLDER untoken NAME [--label TEXT]
       moo-people FOLDER tokens NAME
       moo-people FOLDER list
       moo-people FOLDER check PORT"""
MORE = """
FOLDER is that of moo-web, which may run meanwhile. A new password is asked for at a terminal; otherwise it is the first line of standard
input. NUMBER is the object as which the person acts. `tokens` prints a line for each token: label, since, until, last use, with tabs between;
`-` is never. `check` prints for each account that isn't disabled the object that the world at PORT of `moo serve` has, and its name. Exit
status: 0 done, 1 it can't be done, or `check` found an object that isn't there or isn't a player, 2 the words are wrong.
"""
SHORT = 8


def read_words(words: list[str]) -> argparse.Namespace:
    """What the command line says."""
    parser = argparse.ArgumentParser(prog="moo-people", usage=USAGE, description="The people of a front.", epilog=MORE)
    parser.add_argument("--version", action="version", version=f"%(prog)s {__version__}")
    parser.add_argument("folder", metavar="FOLDER")
    commands = parser.add_subparsers(dest="command", required=True, metavar="COMMAND", prog="moo-people FOLDER")

    def command(name: str, told: str, usage: str = "NAME") -> argparse.ArgumentParser:
        made: argparse.ArgumentParser = commands.add_parser(name, help=told, usage=f"moo-people FOLDER {name} {usage}".rstrip())
        if usage.startswith("NAME"):
            made.add_argument("name", metavar="NAME")
        return made

    adding = command("add", "a new person, with the number of their object", "NAME NUMBER [--moo-port M] [--any]")
    adding.add_argument("number", metavar="NUMBER", type=object_number)
    told = "refuse a number that isn't a player's in the world at this port of `moo serve`"
    adding.add_argument("--moo-port", metavar="M", type=port_number, help=told)
    adding.add_argument("--any", action="store_true", help="take any number all the same")
    command("passwd", "a new password, which ends the person's sessions")
    command("disable", "keep a person out: ends sessions and tokens")
    command("enable", "let a person in again")
    command("remove", "remove a person; the name may be given again")
    numbering = command("renumber", "another object, as which the person acts", "NAME NUMBER")
    numbering.add_argument("number", metavar="NUMBER", type=object_number)
    token = command("token", "print a new token for programs, of which only a hash is kept", "NAME [--label TEXT] [--days N] [--read-only]")
    token.add_argument("--label", metavar="TEXT", default="", help="what the token is for")
    token.add_argument("--days", metavar="N", type=day_count, help="it ends after so many days")
    token.add_argument("--read-only", action="store_true", help="it can't send batches")
    ending = command("untoken", "end all tokens of a person, or those with a label", "NAME [--label TEXT]")
    ending.add_argument("--label", metavar="TEXT", help="end the tokens with this label alone")
    command("tokens", "the tokens of a person")
    command("list", "everybody", "")
    checking = command("check", "hold the accounts against the world", "PORT")
    checking.add_argument("port", metavar="PORT", type=port_number)
    return parser.parse_args(words)


def day_count(text: str) -> int:
    """How many days: at least one."""
    return number_word(text, 1, MOST_DAYS, f"a number of days from 1 to {MOST_DAYS}")


def file_of(said: argparse.Namespace) -> Path:
    """The file of accounts. `Failed`: there is none, and nobody is to be added."""
    if said.command == "add":
        return own_folder(said.folder) / PEOPLE_FILE
    file = Path(said.folder) / PEOPLE_FILE
    if not file.is_file():
        raise Failed(f"{file} isn't there: the first person is made by 'add'")
    return file


def read_password() -> str:
    """The password that is typed twice at a terminal, or else the first line of standard input. `Failed`: there is none."""
    if not sys.stdin.isatty():
        password = sys.stdin.readline().rstrip("\r\n")
    else:
        password = getpass.getpass("password: ")
        if getpass.getpass("once more: ") != password:
            raise Failed("these are two passwords")
    if not password:
        raise Failed("no password was given")
    if len(password) < SHORT:
        print(f"moo-people: a password of fewer than {SHORT} letters is easily guessed", file=sys.stderr)
    return password


def add(people: People, said: argparse.Namespace) -> None:
    """A new person. `Wrong`, `Failed`: it can't be, or the number isn't a player's."""
    people.test_new(said.name)
    if said.moo_port is not None and not said.any:
        found = checked(said.name, said.number, Door(said.moo_port))
        if not found.is_good:
            raise Failed(f"{found.text}: give the number of a player, or --any")
    people.add(said.name, said.number, read_password())


def list_people(people: People, said: argparse.Namespace) -> None:
    """Prints everybody, a line each."""
    for one in people.all():
        state = "disabled" if one.is_disabled else f"{one.sessions} sessions, {one.tokens} tokens"
        print(f"{one.name} #{one.number} {state}")


def list_tokens(people: People, said: argparse.Namespace) -> None:
    """Prints the tokens of a person, a line each. `Wrong`: nobody has the name."""
    for one in people.tokens.of(said.name):
        print(one.label, *map(moment_or_dash, (one.made, one.until, one.used)), sep="\t")


def moment_or_dash(seconds: float | None) -> str:
    """A moment in UTC, as `2026-11-29T12:00:00Z`, or `-`."""
    if seconds is None:
        return "-"
    return f"{datetime.datetime.fromtimestamp(seconds, datetime.timezone.utc):%Y-%m-%dT%H:%M:%SZ}"


def end_tokens(people: People, said: argparse.Namespace) -> None:
    """Ends tokens of a person: all, or those with a label. `Wrong`: nobody has the name, or no token the label."""
    if said.label is None:
        people.tokens.end_all(said.name)
    else:
        people.tokens.end(said.name, said.label)


def check_people(people: People, said: argparse.Namespace) -> None:
    """Prints what the world has for each account. `Failed`: of some it has no player."""
    door = Door(said.port)
    found = [checked(one.name, one.number, door) for one in people.all() if not one.is_disabled]
    for one in found:
        print(one.text)
    bad = sum(not one.is_good for one in found)
    if bad:
        raise Failed(f"{bad} of {len(found)} accounts have no player: disable them, or make them anew")


# What each command does.
COMMANDS: dict[str, Callable[[People, argparse.Namespace], object]] = {
    "add": add,
    "passwd": lambda people, said: people.set_password(said.name, read_password()),
    "disable": lambda people, said: people.disable(said.name),
    "enable": lambda people, said: people.enable(said.name),
    "remove": lambda people, said: people.remove(said.name),
    "renumber": lambda people, said: people.renumber(said.name, said.number),
    "token": lambda people, said: print(people.tokens.make(said.name, Terms(said.label, said.days, said.read_only))),
    "untoken": end_tokens,
    "tokens": list_tokens,
    "list": list_people,
    "check": check_people,
}


def main() -> None:
    """Runs the program with the words of the command line."""
    said = read_words(sys.argv[1:])
    only_ours()
    try:
        people = People(file_of(said))
        people.audit = audit_to_system("moo-people")
        COMMANDS[said.command](people, said)
    except (Wrong, Failed, OSError, sqlite3.Error) as error:
        sys.exit(f"moo-people: {error}")
    except KeyboardInterrupt:
        sys.exit(130)
