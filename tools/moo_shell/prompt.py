"""The prompt: lines that are typed, with their history and completion."""

from __future__ import annotations

import os
import re
import signal
from pathlib import Path
from typing import Optional

from moo_shell import building
from moo_shell.batches import Refused
from moo_shell.commands import COMMANDS
from moo_shell.files import history_file
from moo_shell.helping import TOPICS
from moo_shell.session import Session
from moo_shell.statements import goes_on, statements, without_front
from moo_shell.told import BOLD, PLAIN
from moolib.begun import read_begun
from moolib.errors import Failed
from moolib.lines import counted
from moolib.slots import BUILT_IN
from moolib.values import written

try:
    import readline
except ImportError:  # a Python without it has neither history nor completion
    readline = None  # type: ignore[assignment]

DELIMITERS = " \t,(){}="
LONGEST_HISTORY = 2000
OF_FILES = ("include", "dump", "names", "o", "s", "i", "ir")
# The prompt for a line on which a call goes on.
GOING_ON = "  ..> "
# Lines that drop one that goes on, as in psql: those of the first group end the shell too.
LEAVING = re.compile(r"(\\(?:q|quit|exit))|\\(?:r|reset|abandon)", re.IGNORECASE)


class Completion:
    """What may come in the place of a word that was begun."""

    def __init__(self, session: Session) -> None:
        self.session = session
        self.offers: list[str] = []
        self.known: dict[tuple[int, int, str, Optional[int]], list[str]] = {}

    def complete(self, word: str, state: int) -> Optional[str]:
        """The offer of this number, as readline asks for it."""
        if state == 0:
            try:
                self.offers = self.offered(readline.get_line_buffer()[: readline.get_begidx()], word)
            except (Failed, KeyboardInterrupt):
                self.offers = []
        return self.offers[state] if state < len(self.offers) else None

    def offered(self, before: str, word: str) -> list[str]:
        """What may come in the place of a word, after what is written before it."""
        start = before.strip()
        if not start and word.startswith("\\"):
            return [f"\\{name} " for name in COMMANDS if name.startswith(word[1:].lower())]
        if not start and word.startswith("@"):
            return [f"@{name} " for name in building.COMMANDS if name.startswith(word[1:].lower())]
        command = re.fullmatch(r"\\(\w+)|(include)", start)
        if command and (command[1] or command[2]) in OF_FILES:
            return offered_files(word)
        if command and command[1] == "help":
            known = [*COMMANDS, *TOPICS, *self.session.manual.calls, *self.session.manual.reasons]
            return sorted(each for each in known if each.startswith(word))
        of_property = re.fullmatch(r'([^"]+)\.(\w*)', word)
        if of_property:
            return self.offered_properties(of_property[1], of_property[2])
        if word.startswith("$"):
            return sorted(name for name in self.all_names() if name.startswith(word))
        inside = call_at(before)
        if inside and word.startswith('"'):
            return self.offered_texts(inside, word)
        if not without_front(before):
            return self.offered_calls(start, word)
        return []

    def all_names(self) -> set[str]:
        """The names of the session, and those of the open batch."""
        return {*self.session.names, *(item.name for item in self.session.open or [] if item.name)}

    def offered_calls(self, start: str, word: str) -> list[str]:
        """Calls, and at the front of a line the words of the shell that begin alike."""
        calls = [f"{name}(" for name in self.session.manual.calls if name.startswith(word.lower())]
        words = [] if start else [each for each in ("begin", "end", "include ") if each.startswith(word)]
        return sorted(calls + words)

    def offered_properties(self, thing: str, begun: str) -> list[str]:
        """The properties of an object, as people name it, each after that name."""
        names = [*self.listed(self.session.number(thing), "properties"), *BUILT_IN]
        return sorted({f"{thing}.{name}" for name in names if name.lower().startswith(begun.lower())})

    def offered_texts(self, inside: tuple[str, list[str]], word: str) -> list[str]:
        """Names of the properties or verbs of the object that a call is about."""
        name, values = inside
        kind = self.session.manual.kind(name, len(values) - 1)
        if kind not in ("NAME", "VERB") or len(values) != 2 or name == "add_property":
            return []
        number = self.session.number(values[0])
        if kind == "NAME":
            texts = [*self.listed(number, "properties"), *(BUILT_IN if name in ("get", "set") else ())]
        else:
            texts = [each.replace("*", "") for names in self.listed(number, "verbs") for each in names.split()]
        return sorted({written(text) for text in texts if written(text).lower().startswith(word.lower())})

    def listed(self, number: int, what: str) -> list[str]:
        """The properties or verbs of an object that may be listed; what was asked once is kept until the next batch."""
        key = (self.session.who, number, what, self.session.batches.seq)
        if key not in self.known:
            self.known = {key: getattr(self.session.world, what)(number)}
        return self.known[key]


def call_at(before: str) -> Optional[tuple[str, list[str]]]:
    """The call that is open at the end of a text, with its values so far; the last one isn't written yet."""
    call = read_begun(without_front(before))
    return (call.name, list(call.texts)) if call and call.is_at_value else None


def offered_files(word: str) -> list[str]:
    """Files whose path begins with a word."""
    folder, _, start = word.rpartition("/")
    try:
        entries = sorted(os.scandir(Path(folder + "/" if "/" in word else ".").expanduser()), key=lambda each: each.name)
    except OSError:
        return []
    front = word[: len(word) - len(start)]
    return [front + each.name + ("/" if each.is_dir() else "") for each in entries if each.name.startswith(start)]


class Prompt:
    """Reads lines from a terminal until the end of its input, and does them."""

    def __init__(self, session: Session) -> None:
        self.session = session

    def run(self) -> None:
        """Reads and does lines until the session is over."""
        self.prepare()
        while not self.session.is_over:
            try:
                self.line()
            except KeyboardInterrupt:
                self.broken_off()

    def prepare(self) -> None:
        """Sets up the pager, the history and the completion."""
        self.session.output.has_pager = True
        self.session.confirm = self.confirmed
        if readline is None:
            return
        readline.set_completer(Completion(self.session).complete)
        readline.set_completer_delims(DELIMITERS)
        readline.parse_and_bind("tab: complete")
        readline.set_history_length(LONGEST_HISTORY)
        try:
            os.close(os.open(history_file(), os.O_WRONLY | os.O_CREAT, 0o600))
            readline.read_history_file(history_file())
            readline.write_history_file(history_file())
        except OSError:
            pass

    def typed(self, words: str) -> str:
        """A line that is typed after a prompt, which is put into the file of the history at once.

        Meanwhile a signal to end ends the shell at once, and its service with it. Python itself would sometimes see the signal only after
        the next key. On a copy it is left to do so, since the copy has to be removed.
        """
        ends = () if self.session.is_copy else (signal.SIGTERM, signal.SIGHUP)
        before = {each: signal.signal(each, signal.SIG_DFL) for each in ends if signal.getsignal(each) is not signal.SIG_IGN}
        try:
            text = input(words)
        finally:
            for number, handler in before.items():
                signal.signal(number, handler)
        if readline is not None and text.strip():
            try:
                readline.append_history_file(1, history_file())
            except OSError:
                pass
        return text

    def text(self) -> str:
        """The prompt: who calls, or how many calls the batch has so far."""
        session = self.session
        if session.open is not None:
            words = f"{len(session.open) + 1:>4}> "
        else:
            words = f"#{session.who}> " if session.door.can_name else "moo> "
        return self.shown(words)

    def shown(self, words: str) -> str:
        """The words of a prompt, of more weight if there are colours."""
        if not self.session.output.has_colours:
            return words
        return f"\001{BOLD}\002{words}\001{PLAIN}\002" if readline else words

    def lines(self) -> list[str]:
        """A line that is typed, with those on which it goes on. What is pasted may be several too.

        An unfinished line is dropped by `\\r`. `\\q` ends the shell too.
        """
        lines = re.split(r"\r\n|\n|\r", self.typed(self.text()))
        while goes_on(lines):
            more = self.typed(self.shown(GOING_ON))
            left = LEAVING.fullmatch(more.strip())
            if left:
                self.session.output.note("the unfinished line is dropped")
                return ["\\quit"] if left[1] else []
            lines += re.split(r"\r\n|\n|\r", more)
        return lines

    def line(self) -> None:
        """Reads a call, or a line of several, and does it. Of several calls those are done that come before the first that isn't."""
        try:
            lines = self.lines()
        except EOFError:
            print()
            self.at_end_of_input()
            return
        try:
            for statement in statements(lines):
                self.session.do_part(statement.text)
                if self.session.is_over:
                    break
            self.session.save_names()
        except Failed as failed:
            self.tell_failed(failed)
        except KeyboardInterrupt:
            print()
            was = self.session.batches.seq
            before = "" if was is None else f", which was {was}"
            self.session.output.note(f"stopped; a batch that was sent already may have been done: \\seq tells the number{before}")

    def confirmed(self, lines: list[str]) -> bool:
        """Whether something is done after these lines were shown. Anything but a yes is a no."""
        for line in lines:
            self.session.output.note(line)
        try:
            answer = input(self.shown("do it? [y/N] "))
        except (EOFError, KeyboardInterrupt):
            print()
            return False
        if readline is not None and answer.strip():
            readline.remove_history_item(readline.get_current_history_length() - 1)
        return answer.strip().lower() in ("y", "yes")

    def tell_failed(self, failed: Failed) -> None:
        """Says why a line wasn't done; of a batch also which call it was, and how it can be mended."""
        refused = self.session.refused
        if not isinstance(failed, Refused) or failed.place or refused is None or len(refused[0]) < 2:
            self.session.output.complain(str(failed))
            if failed.place:
                self.session.output.note("what came before that line stays")
            return
        self.session.output.complain(f"call {failed.call}: {failed}")
        self.session.output.note("nothing of it was done; \\fix CALL sends it with another call in that place")

    def at_end_of_input(self) -> None:
        """Ctrl-D drops the open batch; without one it ends the shell."""
        if self.session.open is None:
            self.session.is_over = True
        else:
            self.tell_dropped()

    def broken_off(self) -> None:
        """Ctrl-C drops the open batch and the line that is being typed."""
        print()
        if self.session.open is not None:
            self.tell_dropped()

    def tell_dropped(self) -> None:
        """Drops the open batch, and says so."""
        self.session.output.note(f"the batch is dropped, with {counted(self.session.abandon(), 'call')}; nothing was sent")
