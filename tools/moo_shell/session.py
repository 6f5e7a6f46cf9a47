"""A session: who calls, the names, the open batch, and one line after another."""

from __future__ import annotations

import collections
import dataclasses
import re
import time
from collections.abc import Callable, Collection, Iterable, Mapping
from pathlib import Path
from typing import Optional

from moo_shell.batches import Batches, Done, Refused, only_reads
from moo_shell.building import Known, building_lines
from moo_shell.door import Door
from moo_shell.files import write_whole
from moo_shell.going import going, is_asked_first
from moo_shell.including import include
from moo_shell.losing import cut
from moo_shell.manual import Manual
from moo_shell.meant import OWN_WORDS, advice, expression_advice, meant, signs_advice
from moo_shell.naming import is_value, names_in_file, new_name, own_values, text_of_names, value_for, with_made
from moo_shell.resuming import Passing
from moo_shell.statements import is_open, parted
from moo_shell.told import Output
from moo_shell.watching import only_looks
from moo_shell.ways import putting_back, way_on
from moo_shell.world import World
from moolib.batches import Item
from moolib.calls import LONGEST_CALL, call_name, read_or_none
from moolib.errors import Failed, failing
from moolib.lines import Line, filled, hint, names_in, unfinished, unquoted
from moolib.values import written

RunWord = Callable[["Session", str, str], None]


class Session:
    """Does the lines of a prompt or of scripts. `run_word` does the `\\` words, which are `words`.

    `is_script` is whether the lines come from a script: then answers are bare. `is_copy` is whether the world is a copy: then no other
    file is written. `refused` is the last batch, if it was refused at a call: its calls, who calls, its number, and which call that was.
    `counts` are the accepted batches and the calls in them by their names. `confirm` asks at a terminal whether something is done that
    destroys; it is given the lines to show first. `is_single` is whether all calls of the scripts are one batch. `stopped_at` are the lines
    at which a script stopped: its own, then that of the file which it includes there, and so on; `passing` are those to begin at, and
    `was_resumed` is whether the names are those of a script that stopped. `has_timing` is whether the time of each line is told.
    `last_line` is the last call, `last_look` the last line that only reads, and `back` the call that puts back what was done last at a
    prompt, if one call does.
    """

    def __init__(
        self, door: Door, manual: Manual, output: Output, run_word: RunWord, words: Collection[str],
        is_script: bool = True, is_copy: bool = False,
    ) -> None:  # fmt: skip
        self.door, self.manual, self.output, self.run_word, self.words = door, manual, output, run_word, words
        self.is_script, self.is_copy = is_script, is_copy
        self.world = World(door)
        self.batches = Batches(door, manual)
        self.names: dict[str, str] = {}
        self.file_of_names: Optional[Path] = None
        self.saved_names: dict[str, str] = {}
        self.open: Optional[list[Item]] = None
        self.open_who = self.world.who
        self.open_at: Optional[int] = None
        self.refused: Optional[tuple[list[Item], int, Optional[int], int]] = None
        self.place: Optional[tuple[str, int]] = None
        self.folders: list[Path] = []
        self.accepted = 0
        self.counts: collections.Counter[str] = collections.Counter()
        self.is_over = False
        self.confirm: Optional[Callable[[list[str]], bool]] = None
        self.is_single = False
        self.stopped_at: list[str] = []
        self.passing = Passing()
        self.was_resumed = False
        self.has_timing = False
        self.last_line = self.last_look = self.back = ""
        self.made: dict[str, Optional[str]] = {}

    @property
    def who(self) -> int:
        """The number of the programmer who calls."""
        return self.world.who

    @property
    def given(self) -> set[str]:
        """The names of answers of the open batch."""
        return {item.name for item in self.open or [] if item.name}

    def do(self, text: str) -> None:
        """Does the calls and words of a line."""
        for part in parted(text):
            if not self.is_over:
                self.do_part(part)

    def do_part(self, text: str) -> None:
        """Does a call or a word."""
        self.made = {}
        same = building_lines(text, Known(self.named, self.read, new_name(self.given), not self.is_script))
        if same:
            self.do_same([with_made(line, self.made) for line in same])
            return
        began, had_timing = time.monotonic(), self.has_timing
        line = meant(text, self.words, self.read)
        line = dataclasses.replace(line, text=with_made(line.text, self.made))
        self.do_line(line)
        if line.kind in ("call", "value"):
            self.last_line = text
        if only_looks(line):
            self.last_look = text
        if had_timing and self.has_timing and line.kind != "empty" and not self.is_over:
            self.output.note(f"{(time.monotonic() - began) * 1000:.1f} ms")

    def do_same(self, lines: list[str]) -> None:
        """Does the lines that a command of LambdaMOO is, which a prompt shows first. Several calls are one batch."""
        if not self.is_script:
            self.output.note("; ".join(lines))
        if len(lines) == 1 or self.open is not None:
            for line in lines:
                self.do_part(line)
            return
        self.begin(Line("begin"))
        try:
            for line in lines:
                self.do_part(line)
        except Failed:
            self.abandon()
            raise
        self.end()

    def named(self, text: str) -> str:
        """An object, as people name it, as a call names it: `me` is `$me`, and an object's own name is its number."""
        text = unquoted(text)
        if text.lower() in OWN_WORDS:
            return OWN_WORDS[text.lower()]
        return text if re.fullmatch(r"#-?\d+|\$\w+", text) else f"#{self.number(text)}"

    def do_line(self, line: Line) -> None:
        """Does what a line says."""
        if line.kind == "call" and f"${line.text}" in self.names:
            self.show_alone(f"${line.text}")
        elif line.kind == "call" and not line.name and not call_name(line.text) and is_value(line.text):
            self.output.show(line.text)
        elif line.kind == "call":
            self.take_call(Item(line.text, line.name, self.place))
        elif line.kind == "value":
            self.take_value(line)
        elif line.kind == "alone":
            self.show_alone(line.text)
        elif line.kind == "begin":
            self.begin(line)
        elif line.kind == "end":
            self.end()
        elif line.kind == "include":
            include(self, line.text)
        elif line.kind == "command":
            self.run_word(self, line.word, line.text)

    def take_call(self, item: Item) -> None:
        """A call: a batch of one, or a part of the open batch. A line that can't be one is refused at once, and isn't in the batch."""
        self.test_call(item.text)
        if self.open is None:
            self.run([item], self.who, None)
            return
        self.test_names(item.text)
        if not self.is_script and read_or_none(filled(item.text, dict.fromkeys(item.names, "#0"))) is None:
            raise Failed(f"malformed: {item.text} isn't a call with values: \\help values{signs_advice(item.text, '')}")
        self.open.append(self.with_values(item) if self.is_single else item)
        if not self.is_script and only_reads([item]):
            self.output.note(f"it is answered at `end`; \\ask {item.text} answers now")

    def with_values(self, item: Item) -> Item:
        """A call of the one batch of all scripts with the values that names have now; those that are answers of the batch stay names."""
        kept = {**self.values(item.names - self.given), **{name: name for name in self.given}}
        return Item(item.filled(kept, LONGEST_CALL), item.name, item.place)

    def test_call(self, text: str) -> None:
        """Fails if a line has no name of a call with a bracket after it, and says what may be meant."""
        if not call_name(text):
            told = advice(text)
            if told:
                raise Failed(told)
            self.test_names(text)
            shown = text if len(text) <= 80 else text[:78] + ".."
            named = f"; `show {text}` shows an object of that name" if re.fullmatch(r"[A-Za-z][\w' ]*", text) and not self.is_script else ""
            raise Failed(f"malformed: {shown} isn't a call: {hint(text)}{named}")
        if is_open(text):
            raise Failed(f"malformed: {text}: {unfinished(text)}")

    def test_names(self, text: str) -> None:
        """Fails if a line uses a name that has no value, and that no call of the open batch has."""
        self.values(names_in(text) - self.given)

    def values(self, wanted: Iterable[str]) -> Mapping[str, str]:
        """The names with their values. Of the wanted ones that the session hasn't, `$room` is the property `room` of #0, as in LambdaMOO.

        If #0 has no such property, `$me` is the programmer who calls, and `$here` is the place of that. `Failed`: one has no value.
        """
        lacking = sorted(set(wanted) - set(self.names))
        if not lacking:
            return self.names
        answers = self.world.each([f"get(#0, {written(name[1:])})" for name in lacking])
        found = {name: answer.text for name, answer in zip(lacking, answers) if answer.is_good}
        known = {**own_values(self, {*lacking} - {*found}), **found, **self.names}
        for name in lacking:
            if name not in known:
                raise Failed(f"{name} has no value{value_for(self, name, known)}")
        return known

    def values_for(self, items: list[Item]) -> Mapping[str, str]:
        """The names with their values for a batch, whose calls may use the answers of calls before them."""
        wanted: set[str] = set()
        given: set[str] = set()
        for item in items:
            wanted |= item.names - given
            given |= {item.name} if item.name else set()
        return self.values(wanted)

    def read(self, text: str) -> str:
        """What a reading call answers, as it is written. In an open batch it comes after the calls of that."""
        items = [*(self.open or []), Item(text, None, self.place)]
        done = self.ask(items, self.who if self.open is None else self.open_who)
        names = [item.name for item in items]
        for place, item in enumerate(items):
            if call_name(item.text) == "create":
                self.made[done.answers[place]] = item.name if item.name not in names[place + 1 :] else None
        return done.answers[-1]

    def show_alone(self, text: str) -> None:
        """An object, or what a name stands for."""
        value = filled(text, self.values(names_in(text)))
        if re.fullmatch(r"#-?\d+", value):
            self.run_word(self, "show", value)
        else:
            self.output.show(value)

    def take_value(self, line: Line) -> None:
        """A name for a value that is written out. At a prompt it is shown."""
        assert line.name
        if self.open is not None and not self.is_single:
            raise Failed(f"a batch holds calls alone: give {line.name} its value before `begin`")
        if line.name in self.given:
            raise Failed(f"{line.name} is the name of an answer of this batch: another name is wanted for the value")
        value = filled(line.text, self.values(names_in(line.text)))
        if not is_value(value):
            raise Failed(f"{value} isn't a value: " + (expression_advice(line.text) or unfinished(line.text) or "\\help values"))
        self.names[line.name] = value
        if not self.is_script:
            self.output.answer(f"{line.name} = {value}")

    def begin(self, line: Line) -> None:
        """Opens a batch. If all is one batch, that is open already."""
        if self.is_single:
            self.test_single(line)
            return
        if self.open is not None:
            raise Failed("a batch is open already: `end` sends it")
        if line.who is not None and not self.door.can_name:
            raise Failed("the front knows by the token who calls: begin the batch with `begin`")
        self.open_who = self.who if line.who is None else self.number(line.who)
        self.open, self.open_at = [], line.at

    def test_single(self, line: Line) -> None:
        """Fails if a batch in the one of all scripts is of another programmer, or for the world of a number."""
        who = self.open_who if line.who is None else self.number(line.who)
        if who != self.open_who or line.at is not None:
            raise Failed(f"with --single all is one batch of #{self.open_who}")

    def end(self) -> None:
        """Sends the open batch. If all is one batch, that goes on."""
        if self.open is None:
            raise Failed("`end` without `begin`")
        if not self.is_single:
            self.send()

    def send(self) -> None:
        """Sends the open batch, if it has calls or was opened by a line."""
        items, self.open = self.open or [], None
        if items or not self.is_single:
            self.run(items, self.open_who, self.open_at)

    def begin_single(self) -> None:
        """Opens the one batch of all scripts."""
        self.is_single, self.open, self.open_who, self.open_at = True, [], self.who, None

    def abandon(self) -> int:
        """Drops the open batch, and gives how many calls it had."""
        dropped, self.open = self.open or [], None
        return len(dropped)

    def run(self, items: list[Item], who: int, at: Optional[int]) -> None:
        """Runs a batch, takes in its names, and writes its answers. One that only reads is asked: it changes nothing, and isn't counted."""
        names = self.values_for(items)
        is_asked = only_reads(items)
        back, was = ("", "") if is_asked or self.is_script else putting_back(self, items, names)
        try:
            done = self.batches.ask(items, who, names, at) if is_asked else self.run_confirmed(items, who, names, at)
        except Refused as refused:
            self.refused = (items, who, at, refused.call) if 0 < refused.call <= len(items) else None
            raise self.with_help(refused, items) from None
        if done is None:
            return
        self.refused = None
        if not is_asked:
            self.accepted += 1
            self.counts.update(call_name(item.text) for item in items)
        for item, answer in zip(items, done.answers):
            if item.name:
                self.names[item.name] = answer
        if not is_asked:
            self.back = f"recycle({done.answers[0]})" if back == "recycle" else back
        self.write_answers(items, done, not is_asked, was)

    def run_confirmed(self, items: list[Item], who: int, names: Mapping[str, str], at: Optional[int]) -> Optional[Done]:
        """Runs a batch. At a terminal one that destroys something is shown first, and runs on the world that was shown; None: it isn't run."""
        while self.confirm is not None and not self.is_script and is_asked_first(items):
            lines, seq = going(self, items, who, names)
            if not lines:
                break
            if not self.confirm(lines):
                self.output.note("nothing was done")
                return None
            try:
                return self.batches.run(items, who, names, seq if at is None else at)
            except Refused as refused:
                if refused.error != "stale" or at is not None:
                    raise
                self.output.note("the world has changed meanwhile")
        return self.batches.run(items, who, names, at)

    def fix(self, item: Item) -> None:
        """Sends the batch that was refused once more, with another call in the place of that which was refused."""
        if self.refused is None:
            raise Failed("no batch was refused at a call")
        items, who, at, call = self.refused
        self.run([*items[: call - 1], item, *items[call:]], who, at)

    def with_help(self, refused: Refused, items: list[Item]) -> Refused:
        """A refusal, with the way on."""
        if 0 < refused.call <= len(items) and "did you mean" not in refused.reason:
            refused.reason += way_on(self, refused, items[refused.call - 1].text, len(items) == 1)
        return refused

    def write_answers(self, items: list[Item], done: Done, is_accepted: bool, was: str) -> None:
        """Writes the answers of a batch: bare to a file or a pipe, beside their calls to a terminal, and at a prompt with its number.

        `was` is the value that was replaced, if it is told.
        """
        rows = [f"{item.name} = {answer}" if item.name else answer for item, answer in zip(items, done.answers)]
        before = f", was {cut(was)}" if was else ""
        note = self.output.dim(f"accepted {done.seq}{before}") if is_accepted and not self.is_script else ""
        if len(items) == 1 and not self.is_script:
            self.output.answer(f"{rows[0]}  {note}".rstrip())
            return
        longest = max((len(row) for row in rows if len(row) <= 40), default=0)
        for item, row in zip(items, rows):
            self.output.answer(f"{row:<{longest}}  {self.output.dim(item.text)}" if self.output.is_terminal else row)
        if note:
            self.output.answer(note)

    def ask(self, items: list[Item], who: int) -> Done:
        """What a batch would answer; nothing changes."""
        return self.batches.ask(items, who, self.values_for(items))

    def number(self, text: str) -> int:
        """The number of an object that is written as `#5`, `5` or `$name`, or by its own name, which may be in quotes."""
        text = OWN_WORDS.get(text.strip().lower(), text)
        value = filled(text.strip(), self.values(names_in(text)))
        found = re.fullmatch(r"#?(-?\d+)", value)
        if found:
            return int(found[1])
        if not value:
            raise Failed("which object? #5 is one, or a name such as $hall that stands for one")
        return self.world.number_named(unquoted(value))

    def keep_names(self, file: Path) -> None:
        """Keeps the names in a file from now on; those that are in it are taken in, and the session's own are stronger."""
        held = names_in_file(file) if file.exists() else {}
        self.names = {**held, **self.names}
        self.file_of_names, self.saved_names = file, held
        self.save_names()

    def save_names(self) -> None:
        """Writes the names to their file, if there is one and they have changed."""
        if self.file_of_names is None or self.names == self.saved_names or self.is_copy:
            return
        with failing(self.file_of_names):
            write_whole(self.file_of_names, text_of_names(self.names))
        self.saved_names = dict(self.names)
