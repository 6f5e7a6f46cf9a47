"""tools/moo-shell at a terminal: completion, history, Ctrl-C, Ctrl-D, and that its service ends with it."""

from __future__ import annotations

import os
import re
import signal
import stat

from tests.support.cases import ProgramTest
from tests.support.processes import inherited_signal
from tests.support.program import ended
from tests.support.shell import PATIENCE, at_prompt, children, has_ended, is_running, run_shell
from tests.support.terminal import Terminal
from tests.support.worlds import make, run

TAB, UP, END_OF_INPUT = "\t", "\x1b[A", "\x04"
LAMP = """batch as #3
create(#1)
set(#4, "name", "Lantern")
add_property(#4, "description", "dull", {#3, "rc"})
add_property(#4, "weight", 1, {#3, "r"})
add_verb(#4, {#3, "r", "light ig*nite"}, {"this", "none", "none"})
create(#4)
end
"""


def words_of(lines: list[str]) -> list[str]:
    """The words of lines, which the shell breaks as the terminal wants it."""
    return " ".join(lines).split()


class Typed(ProgramTest):
    """Lines that are typed at a prompt on world.db."""

    limit = 3000

    def setUp(self) -> None:
        super().setUp()
        make("world.db", LAMP)

    def shell(self, *words: str, **more: str) -> Terminal:
        return at_prompt(*words, "world.db", **more)

    def done(self, shell: Terminal, line: str, prompt: str = "#3> ") -> list[str]:
        """The lines that are shown between a line that is typed and the next prompt."""
        shell.line(line)
        return shell.until(f"\n{prompt}").removesuffix(f"\n{prompt}").split("\n")[1:]

    def leave(self, shell: Terminal) -> int:
        shell.type(END_OF_INPUT)
        return shell.end()


class Lines(Typed):
    def test_calls_and_batches(self) -> None:
        shell = self.shell()
        self.case("a call is a batch of one", self.done(shell, "$box = create(#1)"), ["$box = #6  accepted 2"])
        self.case("its name is used", self.done(shell, 'set($box, "name", "box")'), ["0  accepted 3"])
        for line, prompt in (("begin", "   1> "), ("$lid = create($box)", "   2> "), ('set($lid, "name", "lid")', "   3> ")):
            self.case(f"in a batch nothing is answered yet: {line}", self.done(shell, line, prompt), [])
        self.case("a batch may be tried", self.done(shell, "\\ask", "   3> ")[0].split()[0], "#7")
        self.case("and is listed", self.done(shell, "\\list", "   3> ")[0], "1  $lid = create($box)")
        came = self.done(shell, "end")
        self.case("the answers are beside their calls", came[1].split(None, 1), ["0", 'set($lid, "name", "lid")'])
        self.case("with the number", came[-1], "accepted 4")
        self.case("a refusal says why", "E_TYPE" in self.done(shell, 'set($box, "name", 3)')[0], True)
        self.case("a call may be tried", self.done(shell, "\\ask create(#1)")[0].split()[0], "#8")
        self.case("which changes nothing", self.done(shell, "\\seq"), ["4"])
        self.case("an undone call isn't sent", self.undone(shell), ["#8  accepted 5"])
        self.case("another programmer", self.done(shell, "\\as $box", "#6> "), ['as #6 "box", not a player'])
        self.case("who calls is told", "E_PERM" in self.done(shell, "recycle(#3)", "#6> ")[0], True)
        self.case("Ctrl-D ends it", self.leave(shell), 0)
        self.case("the world holds it", run("check", "world.db"), (0, "ok seq 5 objects 9\n"))

    def test_a_batch_that_is_mended(self) -> None:
        shell = self.shell()
        for number, line in enumerate(("begin", "$a = create(#4)", 'set($a, "nam", "a")', 'get($a, "name")'), 1):
            self.done(shell, line, f"   {number}> ")
        told = self.done(shell, "end")
        self.case("which call was refused", told[0].startswith('call 2: refused: set(#6, "nam", "a"): E_PROPNF'), True)
        self.case("and what can be done", "\\fix CALL" in told[1], True)
        told = self.done(shell, '\\fix set($a, "name", "a")')
        self.case("it is sent again", [line.split()[0] for line in told], ["$a", "0", '"a"', "accepted"])
        self.case("once", self.done(shell, "\\fix create(#1)"), ["no batch was refused at a call"])
        self.leave(shell)

    def undone(self, shell: Terminal) -> list[str]:
        """What a batch of two calls is answered, of which the second is undone."""
        self.done(shell, "begin", "   1> ")
        self.done(shell, "create(#1)", "   2> ")
        self.done(shell, "recycle(#2)", "   3> ")
        self.done(shell, "\\undo", "   2> ")
        came = self.done(shell, "end")
        return came

    def test_pasted_lines(self) -> None:
        shell = self.shell()
        shell.line('\x1b[200~create(#1)\nset(#6, "name", 3)\nset(#6, "name", "late")\x1b[201~')
        shown = shell.until("\n#3> ")
        shown = shown if "E_TYPE" in shown else shown + shell.until("\n#3> ")
        self.case("they are done up to the first that is refused", ("accepted 2" in shown, "E_TYPE" in shown), (True, True))
        self.case("what comes after it isn't", self.done(shell, 'get(#6, "name")'), ['""'])
        self.leave(shell)

    def test_end_of_input_in_a_batch(self) -> None:
        shell = self.shell()
        self.done(shell, "begin", "   1> ")
        self.done(shell, "recycle(#4)", "   2> ")
        shell.type(END_OF_INPUT)
        self.case("Ctrl-D drops the batch", "the batch is dropped, with 1 call; nothing was sent" in shell.until("\n#3> "), True)
        self.case("nothing was sent", self.done(shell, "\\seq"), ["1"])
        self.case("the next one ends the shell", self.leave(shell), 0)

    def test_interrupts(self) -> None:
        shell = self.shell()
        self.done(shell, "begin", "   1> ")
        self.done(shell, "recycle(#4)", "   2> ")
        shell.type("recycle(")
        shell.until("recycle(")
        self.case("Ctrl-C drops the batch", "the batch is dropped, with 1 call; nothing was sent" in shell.interrupt("\n#3> "), True)
        shell.type("recycle(#4)")
        shell.until("recycle(#4)")
        shell.interrupt("\n#3> ")
        self.case("and the line that is typed", self.done(shell, "\\seq"), ["1"])
        self.case("the service goes on", self.done(shell, "valid(#4)"), ["1"])
        self.leave(shell)

    def test_what_destroys_is_shown_first(self) -> None:
        shell = self.shell()
        self.done(shell, 'set(#5, "weight", 3)')
        shell.line("recycle(#4)")
        shown = shell.until("do it? [y/N] ")
        self.case("what goes", ['#4 "Lantern" goes' in shown, "1 object right under it" in shown, "weight of #5, now 3" in shown], [True] * 3)
        self.case("a no", "nothing was done" in self.done(shell, "n"), True)
        self.case("does nothing", self.done(shell, "valid(#4); \\seq"), ["1", "2"])
        self.case("what would be refused isn't asked", "E_INVARG" in self.done(shell, "recycle(#77)")[0], True)
        shell.line('delete_property(#4, "weight")')
        shell.until("do it? [y/N] ")
        self.case("a yes", self.done(shell, "y"), ["0  accepted 3"])
        self.case("a change of parent that loses nothing isn't asked", self.done(shell, "chparent(#5, #4)"), ["0  accepted 4"])
        self.leave(shell)

    def test_a_call_of_several_lines(self) -> None:
        shell = self.shell()
        self.done(shell, "$a = create(", "  ..> ")
        self.case("it goes on until it is closed", self.done(shell, "#1); $a.name"), ["$a = #6  accepted 2", '""'])
        shell.line("create(")
        shell.until("  ..> ")
        shell.interrupt("\n#3> ")
        self.case("Ctrl-C drops it", self.done(shell, "\\seq"), ["2"])
        self.done(shell, "create(", "  ..> ")
        self.case("\\r drops it", self.done(shell, "\\r"), ["the unfinished line is dropped"])
        self.done(shell, "create(", "  ..> ")
        shell.line("\\q")
        self.case("\\q drops it and ends", shell.end(), 0)

    def test_words_of_other_prompts(self) -> None:
        shell = self.shell(EDITOR="sed -i s/dull/bright/")
        self.case("a command is shown as its calls", self.done(shell, "@chmod #4.weight +w"), ['set_property_info(#4, "weight", {#3, "rw"})', "0  accepted 2"])
        told = self.done(shell, '$me.smell = "salt"')[0]
        self.case("a property that isn't there", '; add_property($me, "smell", "salt", {#3, "rc"}) adds it' in told, True)
        self.done(shell, '#5.description = "dull"')
        self.case("an editor", '0  accepted 4, was "dull"' in self.done(shell, "\\e"), True)
        self.case("what it left is done", self.done(shell, "#5.description"), ['"bright"'])
        self.case("nothing else", self.done(shell, "\\e")[0], "nothing was changed in it, and nothing is done")
        self.case("again and again", self.done(shell, "\\watch i=0 c=2 #5.weight")[1::2], ["1", "1"])
        self.case("not what changes something", "only reads" in self.done(shell, "\\watch create(#1)")[0], True)
        self.done(shell, "\\o answers.txt")
        self.case("answers to a file", self.done(shell, "#5.weight"), [])
        self.done(shell, "\\o")
        with open("answers.txt") as file:
            self.case("are there", file.read(), "1\n")
        self.case("times", self.done(shell, "\\timing")[0], "timing is on")
        self.case("are told", self.done(shell, "\\seq")[-1].split()[-1], "ms")
        self.done(shell, "\\timing")
        self.case("classes", [line.split("  ")[0] for line in self.done(shell, "\\classes")], ['#1 "Root Class"', '#4 "Lantern"'])
        self.leave(shell)

    def test_the_way_on(self) -> None:
        """A slip says how it is put back, and a refusal what to type."""
        shell = self.shell()
        back = "no batch is open; {} puts back what was done last"
        self.case("nothing is undone yet", "\\ask LINE" in self.done(shell, "\\undo")[0], True)
        self.case("what is replaced is told", self.done(shell, '#4.name = "Lamp"'), ['0  accepted 2, was "Lantern"'])
        self.case("and how it is put back", self.done(shell, "\\undo"), [back.format('set(#4, "name", "Lantern")')])
        for line, call in (
            ("#5.weight = 3", 'clear_property(#5, "weight")'),
            ("clear_property(#5, \"weight\")", 'set(#5, "weight", 3)'),
            ("@create #4 named Box", "recycle(#6)"),
            ("move(#6, #2)", "move(#6, #-1)"),
        ):
            self.done(shell, line)
            self.case(f"what puts back {line}", self.done(shell, "undo"), [back.format(call)])
        self.case("a name without a value", self.done(shell, "$lamp.name"), ["$lamp has no value; $lamp = #4 gives it one"])
        self.case("a number in the place of an object", self.done(shell, 'get(4, "name")')[0].endswith("; an object is written #4"), True)
        self.case("a property that is begun", self.done(shell, "#4.desc")[0].endswith("(did you mean description?)"), True)
        self.case("a word alone", self.done(shell, "lamp")[0].endswith("; `show lamp` shows an object of that name"), True)
        self.case("a name of nothing", self.done(shell, "$nothing"), ["$nothing has no value; $nothing = #5 gives it one"])
        self.done(shell, "begin", "   1> ")
        told = self.done(shell, "#4.name", "   2> ")
        self.case("a call that can't be one isn't in it", "in double quotes" in self.done(shell, "set(#4, 'name', 1)", "   2> ")[0], True)
        self.case("a read in a batch", told, ['it is answered at `end`; \\ask get(#4, "name") answers now'])
        self.done(shell, "\\abandon")
        self.done(shell, "\\as 6", "#6> ")
        for line, wanted in (
            ("#4.weight = 2", 'petition({{"set", #4, "weight", 2}}) asks a wizard for it'),
            ("$mine = create(#1); move($mine, #4)", "set_accept(#4, {#7}) sets that"),
            ("begin; create(#1); #4.weight = 2; end", '\\fix petition({{"set", #4, "weight", 2}}) asks a wizard for it'),
        ):
            told = self.done(shell, line, "#6> ")
            self.case(f"after {line}", any(wanted in row for row in told), True)
        self.leave(shell)

    def test_commands_in_a_batch(self) -> None:
        """A command reads what the calls before it will have done, and names what they make."""
        shell = self.shell()
        for line in ("@property #1.exits {} rc", "@move me to #2"):
            self.done(shell, line)
        self.done(shell, "begin", "   1> ")
        self.done(shell, "@dig up|down to Attic", "   5> ")
        told = self.done(shell, "@dig north|south to Yard", "   9> ")
        self.case("the second has a name of its own", '$here.exits = {{"up", $new}, {"north", $new2}}' in told[0], True)
        self.done(shell, "end")
        self.case("no exit is lost", self.done(shell, "here.exits"), ['{{"up", #6}, {"north", #7}}'])
        self.done(shell, "@go north; @go south")
        self.case("which may be walked", self.done(shell, "me.location"), ["#2"])
        self.leave(shell)

    def test_help(self) -> None:
        shell = self.shell()
        for line in ("help", "\\help"):
            told = self.done(shell, line)
            words = ("show", "tree", "places", "find", "petitions", "as", "seq", "dump")
            self.case(f"{line} lists the words", [each for each in words if not any(row.startswith(f"  \\{each}") for row in told)], [])
        self.case("of a call it is the program's own", words_of(self.done(shell, "\\help create")), words_of(self.lines_of_help("  create(")))
        self.case("of an error too", self.done(shell, "\\help e_args"), ["  E_ARGS  too many values, or too few"])
        self.case("an unknown word", self.done(shell, "\\help creat"), ["there is no help on creat (did you mean create?)"])
        self.case("a command without its @", self.done(shell, "\\help dig"), ['  @dig north|south to "Attic"'])
        self.case("a word of a topic", "; the word is in \\help classes" in self.done(shell, "\\help perms")[0], True)
        self.case("no word of one", "; \\help lists what there is" in self.done(shell, "\\help frobnicate")[0], True)
        self.leave(shell)

    def lines_of_help(self, begins: str) -> list[str]:
        return [line for line in ended("apply", "--help").written.splitlines() if line.startswith(begins)]


class Completion(Typed):
    def completed(self, shell: Terminal, text: str) -> str:
        """What a text becomes by a tab. It is made a comment, so that it isn't run, and is looked up in the history."""
        shell.type(text + TAB)
        shell.type("\x01//\n")
        shell.until("\n#3> ")
        shell.type(UP)
        shell.type("\x05")
        shell.hear(0.3)
        shell.type("\n")
        return re.sub(r"\x08.*", "", shell.until("\n#3> ")).split("//", 1)[-1].split("\n")[0].strip()

    def test_what_is_completed(self) -> None:
        shell = self.shell()
        self.done(shell, "$lantern = create(#4)")
        cases = (
            ("cre", "create("),
            ("\\ask cre", "\\ask create("),
            ("$x = max_", "$x = max_object("),
            ("\\peti", "\\petitions"),
            ("@desc", "@describe"),
            ("\\help lam", "\\help lambdamoo"),
            ("$lan", "$lantern"),
            ("recycle($lan", "recycle($lantern"),
            ('get(#4, "desc', 'get(#4, "description"'),
            ('get($lantern, "we', 'get($lantern, "weight"'),
            ('set(#5, "loc', 'set(#5, "location"'),
            ('clear_property(#5, "loc', 'clear_property(#5, "loc'),
            ('verb_info(#4, "ig', 'verb_info(#4, "ignite"'),
            ('create("x', 'create("x'),
            ("\\help reset", "\\help reset"),
            ("\\help recy", "\\help recycle"),
            ("include wor", "include world.db"),
            ("\\i wor", "\\i world.db"),
            ("#4.des", "#4.description"),
            ("$lantern.we", "$lantern.weight"),
        )
        for text, wanted in cases:
            self.case(f"{text} becomes {wanted}", self.completed(shell, text), wanted)
        shell.type("\x15")
        self.leave(shell)


class History(Typed):
    def test_it_is_kept(self) -> None:
        shell = self.shell()
        self.done(shell, 'get(#4, "name")')
        shell.type(UP + "\n")
        self.case("a line comes again", '"Lantern"\n' in shell.until("\n#3> "), True)
        self.leave(shell)
        self.case("nobody else may read the file", stat.S_IMODE(os.stat("history").st_mode), 0o600)
        shell = self.shell()
        shell.type(UP + "\n")
        self.case("also in the next session", '"Lantern"\n' in shell.until("\n#3> "), True)
        self.done(shell, "\\s typed.moo")
        self.leave(shell)
        with open("typed.moo") as file:
            self.case("it may be written to a file", file.read().split("\n")[0], 'get(#4, "name")')


class Shown(Typed):
    def test_an_object(self) -> None:
        shell = self.shell()
        self.done(shell, 'set(#5, "weight", 3)')
        told = self.done(shell, "\\show #5")
        self.case("its name", told[0], '#5 ""')
        self.case("its parents", '  parents   #4 "Lantern", #1 "Root Class"' in told, True)
        self.case("its own value", any(re.search(r'weight = 3 +\(defined on #4; #3 "r"\)', line) for line in told), True)
        inherited = r'description = "dull" +\(defined on #4, the value of #4; #3 "rc"\)'
        self.case("an inherited one", any(re.search(inherited, line) for line in told), True)
        told = self.done(shell, "\\show #4")
        self.case("its children", '  children  #5 ""' in told, True)
        self.case("its verbs", '    1  light ig*nite  (this none none; #3 "r")' in told, True)
        self.case("what isn't an object", self.done(shell, "\\show #77"), ["#77 isn't an object"])
        self.leave(shell)

    def test_a_pager_for_long_answers(self) -> None:
        shell = self.shell(PAGER="sed s/^/paged:/")
        self.case("a long text is paged", self.done(shell, "\\help calls")[0][:6], "paged:")
        self.case("a short one isn't", self.done(shell, "\\seq"), ["1"])
        self.leave(shell)

    def test_colours(self) -> None:
        no, dumb = {"NO_COLOR": "1"}, {"TERM": "dumb"}
        cases: list[tuple[str, dict[str, str], bool]] = [("a terminal", {}, True), ("if told so", no, False), ("a plain one", dumb, False)]
        for name, more, wanted in cases:
            shell = self.shell(**more)
            self.done(shell, "creat(#1)")
            self.leave(shell)
            self.case(name, "\x1b[31mmalformed" in shell.raw, wanted)
        came = run_shell("world.db", text="creat(#1)\n")
        self.case("there are none in a pipe", (came.status, "\x1b" in came.written + came.complaint), (1, False))

    def test_one_who_may_not_read(self) -> None:
        shell = self.shell("--as", "5")
        told = self.done(shell, "\\show #4", "#5> ")
        self.case("what may not be listed is said to be so", "    (the properties that #4 defines may not be listed)" in told, True)
        self.case("the verbs too", "  verbs     may not be listed" in told, True)
        self.case("what may be read is shown", '    description = "dull"  (defined above; #3 "rc")' in told, True)
        self.leave(shell)


class Ends(Typed):
    """The service of the shell's own ends with it."""

    def service_of(self, shell: Terminal) -> int:
        (service,) = children(shell.process.pid)
        return service

    def test_signals(self) -> None:
        for number in (signal.SIGTERM, signal.SIGHUP, signal.SIGKILL, signal.SIGSEGV):
            # Tests that nohup started would have SIGHUP ignored.
            with inherited_signal(signal.SIGHUP, signal.SIG_DFL):
                shell = self.shell()
            service = self.service_of(shell)
            self.case(f"it runs until {number.name}", is_running(service), True)
            os.kill(shell.process.pid, number)
            shell.end()
            self.case(f"it has ended after {number.name}", has_ended(service), True)
            self.case(f"the world is free after {number.name}", run("check", "world.db"), (0, "ok seq 1 objects 6\n"))

    def test_a_terminal_that_closes(self) -> None:
        shell = self.shell()
        service = self.service_of(shell)
        os.close(shell.master)
        shell.process.wait(PATIENCE)
        self.case("it has ended", has_ended(service), True)

    def test_its_own_end(self) -> None:
        shell = self.shell()
        service = self.service_of(shell)
        os.kill(service, signal.SIGKILL)
        # While it ends it would still take a connection, and lose the answer.
        self.case("it was killed", has_ended(service), True)
        self.case("it is started again", self.done(shell, "valid(#4)")[-1], "1")
        self.case("as another process", self.service_of(shell) != service, True)
        self.case("and ended", (self.leave(shell), run("check", "world.db")), (0, (0, "ok seq 1 objects 6\n")))
