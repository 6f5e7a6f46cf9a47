"""The command line of `moo-shell`, and what it starts."""

from __future__ import annotations

import argparse
import contextlib
import getpass
import os
import signal
import subprocess
import sys
import tempfile
from pathlib import Path
from typing import NoReturn, Optional

from moo_shell.batches import Unsure
from moo_shell.commands import COMMANDS, dump_of, run_command
from moo_shell.door import Door, Front
from moo_shell.elsewhere import of_bundles, of_options
from moo_shell.files import copy_world, load_copy
from moo_shell.manual import manual_of
from moo_shell.prompt import Prompt
from moo_shell.resuming import starts_of
from moo_shell.script import Script, go_on, greatest, run_scripts, would_make
from moo_shell.service import OwnService, find_program, look_at
from moo_shell.session import Session
from moo_shell.told import Output
from moolib.errors import Failed, failing

USAGE = """moo-shell [-c CALL | -f SCRIPT].. [OPTION].. FILE
       moo-shell [-c CALL | -f SCRIPT].. [OPTION].. --port PORT
       moo-shell [-c CALL | -f SCRIPT].. [OPTION].. --web URL"""
INTERRUPTED = 130
# The seconds for which a service is tried at the beginning: it may be between two runs, or not be there at all.
SHORTEST_PATIENCE = 4.0


def words_parser() -> argparse.ArgumentParser:
    """The words of the command line."""
    parser = argparse.ArgumentParser(
        prog="moo-shell",
        usage=USAGE,
        description="A prompt for a world of moo, and a reader of scripts. \\help at the prompt tells the rest.",
    )
    parser.add_argument("-?", action="help", help=argparse.SUPPRESS)
    parser.add_argument("world", metavar="FILE", nargs="?", help="the database file; the shell runs a service of its own on it")
    parser.add_argument("-p", "--port", type=int, metavar="PORT", help="a service that runs on this machine already")
    parser.add_argument("--web", metavar="URL", help="a front of moo; the token is that of --token, MOO_TOKEN, or asked for")
    parser.add_argument("--token", metavar="FILE", type=Path, help="the file that holds the token for --web")
    parser.add_argument("--as", dest="who", metavar="N", help="the number of the programmer who calls (3)")
    parser.add_argument(
        "-c", "--call", dest="scripts", metavar="CALL", action="append", type=Script.of_call, help="do a call, or several with ; between them, and end"
    )
    parser.add_argument(
        "-f", "--file", dest="scripts", metavar="SCRIPT", action="append", type=Script.of_file, help="do the lines of SCRIPT and end"
    )
    parser.add_argument("-1", "--single", "--single-transaction", action="store_true", help="make one batch of all: all of it acts, or none")
    parser.add_argument("--from-line", dest="starts", metavar="N", type=starts_of, help="begin at line N of the first SCRIPT")
    parser.add_argument("--dry-run", action="store_true", help="do all on a copy, say what it would make, and change nothing")
    parser.add_argument("-q", "--quiet", action="store_true", help="write no answers of calls")
    parser.add_argument("--names", metavar="FILE", type=Path, help="keep the names in FILE")
    parser.add_argument("-V", "--version", action="store_true", help="write the version of the program moo and end")
    parser.add_argument("--moo", metavar="PROGRAM", help="the program moo, which serves FILE and gives help")
    return parser


def read_words(words: list[str]) -> argparse.Namespace:
    """What the command line says."""
    parser = words_parser()
    if of_bundles(words):
        parser.error(of_bundles(words))
    said, others = parser.parse_known_args(words)
    if others:
        parser.error(of_options(others) or f"unrecognized arguments: {' '.join(others)}")
    given = [each for each in (said.world, said.port, said.web) if each is not None]
    if said.version:
        return said
    if len(given) != 1:
        parser.error("FILE, --port and --web each name a world: give one" if given else "one of FILE, --port PORT and --web URL is wanted")
    if said.port is not None and not 0 < said.port < 65536:
        parser.error("PORT must be from 1 to 65535")
    if said.who is not None and said.web:
        parser.error("--as can't be used with --web: the front knows by the token who calls")
    if said.who is not None and not said.who.lstrip("#").isdigit():
        parser.error("--as N: N is the number of an object, as 3")
    said.who = 3 if said.who is None else int(said.who.lstrip("#"))
    said.scripts = said.scripts or []
    if said.starts and not (said.scripts and said.scripts[0].file not in ("", "-")):
        parser.error("--from-line N wants -f SCRIPT, which is a file")
    return said


def token_of(said: argparse.Namespace) -> str:
    """The token for a front: from its file, from MOO_TOKEN, or asked for at the terminal. It is never a word of the command line."""
    if said.token:
        with failing(said.token):
            return str(said.token.read_text()).strip()
    token = os.environ.get("MOO_TOKEN", "").strip()
    if not token and sys.stdin.isatty():
        token = getpass.getpass("token: ").strip()
    if not token:
        raise Failed("--web wants a token: in a file that --token names, or in MOO_TOKEN")
    return token


def needed(program: Optional[str]) -> str:
    """The program, which has to be there."""
    if not program:
        raise Failed("the program moo isn't here: --moo PROGRAM names it")
    return program


def served(stack: contextlib.ExitStack, program: str, file: str) -> OwnService:
    """A service of the shell's own, that ends with the shell."""
    service = OwnService(program, file)
    stack.callback(service.end)
    return service


def opened(stack: contextlib.ExitStack, said: argparse.Namespace, program: Optional[str]) -> Door:
    """The door to the world, or with --dry-run to a copy of it."""
    if said.world is not None and not (said.dry_run and said.world != ":memory:"):
        return served(stack, needed(program), said.world)
    if said.world is not None:
        look_at(said.world)
        folder = Path(stack.enter_context(tempfile.TemporaryDirectory(prefix="moo-shell-")))
        return served(stack, needed(program), str(copy_world(Path(said.world), folder)))
    door = Front(said.web, token_of(said)) if said.web else Door(said.port)
    door.seq(SHORTEST_PATIENCE)
    if not said.dry_run:
        return door
    if said.web:
        raise Failed("--dry-run wants the whole world, and a front doesn't say who calls: use it with FILE or --port")
    folder = Path(stack.enter_context(tempfile.TemporaryDirectory(prefix="moo-shell-")))
    dump = dump_of(Session(door, manual_of(None), Output(), run_command, COMMANDS))
    return served(stack, needed(program), str(load_copy(needed(program), dump, folder)))


def run(said: argparse.Namespace) -> None:
    """Opens the world, and does scripts or what is typed."""
    program = find_program(said.moo)
    if said.version:
        subprocess.run([needed(program), "--version"], check=True)
        return
    with contextlib.ExitStack() as stack:
        is_typed = not said.scripts and sys.stdin.isatty()
        door = opened(stack, said, program)
        output = Output(said.quiet)
        stack.callback(output.send_to, "")
        session = Session(door, manual_of(program), output, run_command, COMMANDS, is_script=not is_typed, is_copy=said.dry_run)
        session.world.who = said.who
        if said.names:
            session.keep_names(said.names)
        if said.starts:
            go_on(session, said.scripts[0].file, said.starts)
        before = greatest(session) if said.dry_run else None
        try:
            if is_typed:
                greet(session, said)
                Prompt(session).run()
            else:
                run_scripts(session, said.scripts or [Script.of_file("-")], said.single)
        except BaseException as error:
            if isinstance(error, Failed) and not is_typed:
                error.afterword = "\n".join(filter(None, (what_stays(session, isinstance(error, Unsure)), error.afterword)))
            with contextlib.suppress(Failed):
                session.save_names()
            raise
        session.save_names()
        if said.dry_run:
            session.output.show(would_make(session, before) + "\nnothing was changed")


def greet(session: Session, said: argparse.Namespace) -> None:
    """The first line of a prompt."""
    copy = "a copy of " if said.dry_run else ""
    world = said.world or said.web or f"port {said.port}"
    session.output.note(f"{copy}{world}: number {session.door.seq()}, {session.world.caller_in_words()}. \\help helps, Ctrl-D ends.")


def what_stays(session: Session, is_unsure: bool) -> str:
    """What a script that stopped has done, in words. If it is unsure whether its last batch has acted, no more is said than is known."""
    if session.is_copy:
        return "nothing was changed: it was a copy"
    if session.accepted == 1:
        return "1 batch before it was accepted, and stays"
    if session.accepted or is_unsure:
        return f"{session.accepted} batches before it were accepted, and stay" if session.accepted else ""
    return "nothing was changed"


def stop(number: int, _frame: object) -> NoReturn:
    """What a signal does: the shell ends, and its service with it."""
    sys.exit(128 + number)


def main() -> None:
    """Runs the shell. Its status is 0 if all was done, 1 if not, 2 if the words are wrong, or that of `moo`."""
    said = read_words(sys.argv[1:])
    for each in (signal.SIGTERM, signal.SIGHUP):
        # As nohup has it for SIGHUP.
        if signal.getsignal(each) is not signal.SIG_IGN:
            signal.signal(each, stop)
    try:
        run(said)
        sys.stdout.flush()
    except Failed as failed:
        Output().complain(f"moo-shell: {failed}")
        for line in failed.afterword.splitlines():
            Output().note(f"moo-shell: {line}")
        sys.exit(failed.status)
    except KeyboardInterrupt:
        print("moo-shell: stopped; a batch that was sent already may have been done", file=sys.stderr)
        sys.exit(INTERRUPTED)
    except BrokenPipeError:
        os.dup2(os.open(os.devnull, os.O_WRONLY), sys.stdout.fileno())
        sys.exit(1)
