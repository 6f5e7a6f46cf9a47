"""tools/moo-shell with scripts: where they stop, names, files in files, rehearsals, and mistakes that are made in texts."""

from __future__ import annotations

import contextlib
import errno
import os
import signal
import stat
import subprocess
import tempfile
import time
from pathlib import Path
from typing import Iterator

from tests.support.cases import ProgramTest
from tests.support.processes import inherited_signal, seconds_of_children, start
from tests.support.program import MOO, TOP, Ended
from tests.support.service import Service, free_port
from tests.support.shell import PATIENCE, SHELL, children, environment, has_ended, run_script, run_shell
from tests.support.worlds import make, run

QUOTA = """\
begin
add_property(#1, "ownership_quota", "", {#3, ""})
$ada = create(#1, #-1)
set($ada, "ownership_quota", 1)
end
"""
MANY_NAMES = """\
begin
$a = create(#1)
$m = max_object()
$p = petition({{"recycle", $m}})
$q = petition({{"recycle", $a}})
decline($p)
$a = create($a)
set($a, "name", "under")
petitions()
end
get($a, "name")
"""
MANY_ANSWERS = """\
$a = #5
$m = #5
$p = 1
$q = 2
0
$a = #6
0
{{2, #3, {{"recycle", #5}}}}
"under"
"""
BOXES = """\
begin
$a = create(#1)
set($a, "name", "box")
$b = create($a)
set($b, "name", "small box")
set_accept(#1, {#1})
move($b, $a)
end
"""
VILLAGE = """\
children($room)
get($wood, "exits")
get($ada, "ownership_quota")
get($ben, "ownership_quota")
get($hut, "owner")
get($square, "contents")
get($light, "location")
get($light, "lit")
get($lamp, "lit")
petitions()
"""
VILLAGE_ANSWERS = """\
{#7, #8, #9, #10, #11, #12, #13, #14, #15, #16, #20, #21}
{{"west", #10}, {"north", #20}}
2
0
#18
{#3, #18, #19}
#12
1
0
{}
"""


@contextlib.contextmanager
def opened_for_writing(fifo: str, seconds: float) -> Iterator[int]:
    """A fifo that somebody else reads, or waits for, within so many seconds."""
    end = time.monotonic() + seconds
    while True:
        try:
            opened = os.open(fifo, os.O_WRONLY | os.O_NONBLOCK)
            break
        except OSError as error:
            if error.errno != errno.ENXIO or time.monotonic() > end:
                raise
        time.sleep(0.05)
    try:
        yield opened
    finally:
        os.close(opened)


def rooms_of(number: int) -> str:
    """The lines that make so many rooms, two for each."""
    return "".join(f'$room{each} = create(#1) // room {each}\nset($room{each}, "name", "room {each}")\n' for each in range(number))


class OnWorld(ProgramTest):
    limit = 3000

    def setUp(self) -> None:
        super().setUp()
        make("world.db")

    def told(self, name: str, came: Ended, line: int, *reasons: str, file: str = "build.moo") -> None:
        """A script has stopped at a line of a file, with a status of 1 and these words in its reason."""
        first = came.complaint.splitlines()[0] if came.complaint else ""
        lacking = [reason for reason in reasons if reason not in first]
        self.case(f"{name}: it stops there", (came.status, first.startswith(f"moo-shell: {file}: line {line}: ")), (1, True))
        self.case(f"{name}: it says why", (lacking, first if lacking else ""), ([], ""))

    def world_is(self, name: str, seq: int, objects: int) -> None:
        self.case(name, run("check", "world.db"), (0, f"ok seq {seq} objects {objects}\n"))


class Scripts(OnWorld):
    def test_answers(self) -> None:
        came = run_script('$hall = create(#1)\nset($hall, "name", "The Hall") // a comment\n\nget($hall, "name")\n$n = 5\n')
        self.case("they are bare", came, Ended(0, '$hall = #4\n0\n"The Hall"\n', ""))
        self.world_is("each call that changes something was a batch", 2, 5)
        self.case("quiet", run_script('get(#4, "name")\n\\seq\n', "-q"), Ended(0, "2\n", ""))
        self.case("from standard input", run_shell("world.db", text='get(#4, "name")'), Ended(0, '"The Hall"\n', ""))
        self.case("and by its name", run_shell("-f", "-", "world.db", text='get(#4, "name")'), Ended(0, '"The Hall"\n', ""))
        self.case("in memory", run_shell(":memory:", text="create(#1)\n"), Ended(0, "#4\n", ""))

    def test_it_stops_at_the_first_refusal(self) -> None:
        """By LambdaMOO's rule a create at a quota of 0 is E_QUOTA. What would act on the wrong object after it isn't sent."""
        text = QUOTA + '\\as $ada\n$a = create(#1)\n$b = create(#1)\n\\as #3\nset($b, "name", "wrong")\n'
        came = run_script(text)
        self.told("a quota that is used up", came, 8, "refused: create(#1)", "E_QUOTA")
        stays = ["moo-shell: 2 batches before it were accepted, and stay", "moo-shell: mended, it goes on by --from-line 8 -f build.moo"]
        self.case("what came before it stays", came.complaint.splitlines()[1:], stays)
        self.case("and was answered", came.written, "0\n$ada = #4\n0\n$a = #5\n")
        self.world_is("nothing came after it", 2, 6)

    def test_it_may_end_itself(self) -> None:
        Path("second.moo").write_text("create(#1)\n")
        came = run_script("create(#1)\n\\quit\ncreate(#1)\n", "-f", "second.moo")
        self.case("nothing after that is done", came, Ended(0, "#4\n", ""))

    def test_a_refused_batch(self) -> None:
        came = run_script('begin\n$a = create(#1)\nset($a, "name", "a")\nset($a, "name", 4)\n$b = create($a)\nend\nset($a, "name", "b")\n')
        self.told("the line of its call", came, 4, 'set(#4, "name", 4): E_TYPE')
        came = run_script('begin\n$a = create(#1)\nset($a, "nme", "a")\nend\n')
        self.told("what its call may have meant", came, 3, "E_PROPNF", "(did you mean name?)")
        self.world_is("nothing of it acted", 0, 4)

    def test_names(self) -> None:
        text = '$a = create(#1)\nset($a, "name", "$a // no comment")\nget($a, "name")\nset_accept($a, {$a, #1})\naccept_list($a)\n'
        came = run_script(text)
        self.case("in a text they are letters, in a list values", came.written, '$a = #4\n0\n"$a // no comment"\n0\n{#4, #1}\n')
        self.case("any answer of a batch has a name in it", run_script(MANY_NAMES), Ended(0, MANY_ANSWERS, ""))
        meant = "$hal has no value (did you mean $hall?)"
        self.told("one without a value", run_script('$hall = create(#1)\nset($hal, "name", "x")\n'), 2, meant)
        self.told("one of a batch", run_script("begin\n$hall = create(#1)\nrecycle($hal)\nend\n"), 3, meant)
        self.told("what isn't a value", run_script("$a = 5 6\n"), 1, "5 6 isn't a value")

    def test_names_that_are_kept(self) -> None:
        came = run_script("$a = create(#1)\n", "--names", "names.moo")
        self.case("they are in the file", (came.status, Path("names.moo").read_text()), (0, "$a = #4\n"))
        came = run_script('set($a, "name", "a")\n$b = create($a)\n$b = create(#99)\n', "--names", "names.moo")
        self.told("a refusal after them", came, 3, "E_PERM")
        self.case("what was named before is kept too", Path("names.moo").read_text(), "$a = #4\n$b = #5\n")
        self.case("they are used", run_shell("world.db", text='\\names names.moo\nget($a, "name")\n').written, '"a"\n')
        run_script("$c = create(#1)\n", "--names", "names.moo", "--dry-run")
        self.case("a rehearsal keeps none", Path("names.moo").read_text(), "$a = #4\n$b = #5\n")
        self.told("a file with something else", run_shell("world.db", "--names", "build.moo"), 1, "lines such as `$hall = #5` alone")

    def test_files_in_files(self) -> None:
        os.mkdir("parts")
        Path("parts/one.moo").write_text('$a = create(#1)\ninclude "two.moo"\n')
        Path("parts/two.moo").write_text("$b = create($a)\n\\as $b\n")
        came = run_script('include parts/one.moo // both\n\\as 3\nset($b, "name", "b")\n')
        self.case("names go on", came, Ended(0, "$a = #4\n$b = #5\n0\n", ""))
        Path("parts/two.moo").write_text("// first\n$b = create(#99)\n")
        self.told("the file and line of a refusal", run_script("include parts/one.moo\n"), 2, "create(#99): E_PERM", file="parts/two.moo")
        Path("parts/two.moo").write_text("include two.moo\n")
        self.told("a file in itself", run_script("include parts/one.moo\n"), 1, "20 deep", file="parts/two.moo")
        self.told("a file that isn't there", run_script("include three.moo\n"), 1, "three.moo: No such file")
        Path("parts/two.moo").write_text("begin\ncreate(#1)\n")
        self.told("a batch that isn't ended", run_script("include parts/one.moo\nend\n"), 2, "`end` is missing", file="parts/two.moo")

    def test_a_text_for_apply(self) -> None:
        came = run_script("batch as #3 at 0\ncreate(#1)\nend\nBATCH AS #3\nmax_object()\nEND\n")
        self.case("its batches are read", came, Ended(0, "#4\n#4\n", ""))
        for call in ("create(#1)", "max_object()"):
            came = run_script(f"batch as #3 at 0\n{call}\nend\n")
            self.case(f"`at` holds for {call}", (came.status, "the world has the number 1 and not 0" in came.complaint), (1, True))

    def test_calls_of_the_command_line(self) -> None:
        words = ("-c", '$a = create(#1); $a.name = "Inn"', "-c", "$a.name", "world.db")
        self.case("they are done in turn", run_shell(*words), Ended(0, '$a = #4\n0\n"Inn"\n', ""))
        came = run_shell("-c", "create(#1", "world.db")
        self.told("a refusal", came, 1, "malformed: create(#1: a call without its )", file="-c")
        self.world_is("what only reads isn't counted", 2, 5)

    def test_one_batch_of_all(self) -> None:
        text = '$a = create(#1)\nbegin\n$n = "box"\nset($a, "name", $n)\nend\n$n = "lid"\n$b = create($a)\nset($b, "name", $n)\n'
        came = run_script(text + "get($a, \"name\")\nset($b, \"name\", 3)\n", "--single")
        self.told("a refusal", came, 10, 'set(#5, "name", 3): E_TYPE')
        self.case("nothing stays", came.complaint.splitlines()[1:], ["moo-shell: nothing was changed"])
        self.world_is("nothing was done", 0, 4)
        wanted = '$a = #4\n0\n$b = #5\n0\n"box"\n"lid"\n'
        came = run_script(text + "get($a, \"name\")\n", "--single", "-c", "get($b, \"name\")")
        self.case("names have the values of their lines", came, Ended(0, wanted, ""))
        self.world_is("all is one batch", 1, 6)
        self.told("two programmers", run_script("create(#1)\nbatch as #4\nend\n", "--single"), 2, "all is one batch of #3")
        came = run_script("create(#1)\n" * 1001, "--single")
        self.told("over 1,000 calls", came, 1001, "at most 1000 calls, and this one has 1001")
        self.world_is("nothing was sent", 1, 6)

    def test_a_mended_script_goes_on(self) -> None:
        """What came before the line at which it stopped isn't done again, and its names are known."""
        lines = ["$a = create(#1); set($a, \"nme\", \"a\")", "include part.moo", "begin", "$c = create($b)", "set($c, \"name\", 3)", "end", "\\seq"]
        Path("part.moo").write_text("$b = create($a)\n\nset($b, \"name\", 3)\n")
        came = run_script("\n".join(lines))
        self.case("a part of a line", came.complaint.splitlines()[-1], "moo-shell: mended, it goes on by --from-line 1.2 -f build.moo")
        lines[0] = lines[0].replace("nme", "name")
        came = run_script("\n".join(lines), "--from-line", "1.2")
        self.case("a line of another file", came.complaint.splitlines()[-1], "moo-shell: mended, it goes on by --from-line 2,3 -f build.moo")
        Path("part.moo").write_text("$b = create($a)\n\nset($b, \"name\", \"b\")\n")
        came = run_script("\n".join(lines), "--from-line", "2,3")
        self.case("a batch, from its beginning", came.complaint.splitlines()[-1], "moo-shell: mended, it goes on by --from-line 3 -f build.moo")
        lines[4] = "set($c, \"name\", \"c\")"
        self.told("not in a batch", run_script("\n".join(lines), "--from-line", "4"), 4, "in the batch that begins on line 3")
        self.case("to its end", run_script("\n".join(lines), "--from-line", "3"), Ended(0, "$c = #6\n0\n5\n", ""))
        self.world_is("each line was done once", 5, 7)
        self.case("what was kept for that is removed", os.path.exists("build.moo.stopped"), False)
        self.told("past its end", run_script("create(#1)\n", "--from-line", "9"), 1, "--from-line 9: the file has 1 line")

    def test_names_of_zero(self) -> None:
        """`$room` is #0.room, as in LambdaMOO, unless the session has such a name."""
        text = 'add_property(#0, "room", #2, {#3, "r"})\n$room.name\n$b = create($room)\nbegin\n$room = create(#1)\nset($room, "name", "mine")\nend\n'
        came = run_script(text + "$room.name\nparent($b)\n")
        self.case("it is read", came, Ended(0, '0\n"The First Room"\n$b = #4\n$room = #5\n0\n"mine"\n#2\n', ""))

    def test_what_is_meant(self) -> None:
        text = '$a = create(#1)\n$a.name = "The Inn"\n#4.name\n$a.owner.name\nx = 5\nx\n$x\n\\seq\n'
        self.case("properties and names", run_script(text), Ended(0, '$a = #4\n0\n"The Inn"\n"Wizard"\n5\n5\n2\n', ""))
        shown = run_script("\\show #4\n").written
        for line in ("#4", "show #4", "\\show The Inn", "\\show inn", "@show #4", "$a = #4\n$a", "\\d #4;", "\\d+ #4"):
            self.case(f"{line} shows it", run_script(f"{line}\n").written, shown)
        self.case("oneself", run_script("@show me\n").written, run_script("\\show #3\n").written)
        self.case("oneself alone", run_script("me\n").written, run_script("\\show #3\n").written)
        self.told("a name of two", run_script("\\show room\n$b = create(#1)\n$b.name = \"Room\"\n\\show r\n"), 4, "r may be #1")

    def test_commands_of_lambdamoo(self) -> None:
        """They are done, in a batch if they are several calls."""
        text = "@create #1 named Lamp\n@move Lamp to #2\n@move me to #2\n@describe here as Dull.\n\\seq\n"
        self.told("up to the first that is refused", run_script(text), 4, 'refused: set(#2, "description", "Dull."): E_PROPNF')
        self.case("names", run_script("@rename Lamp to Torch\n#4.name\nhere.name\n"), Ended(0, '0\n"Torch"\n"The First Room"\n', ""))
        self.world_is("one batch makes and names", 4, 5)
        self.case("what somebody owns", run_script("@audit\n").written.splitlines()[-1], '#4 "Torch"  in #2 "The First Room"')
        came = run_script("@create #1 named a,b\n")
        self.told("all or nothing", came, 1, 'E_PROPNF, #5 has no property "aliases"')
        self.world_is("nothing is made", 4, 5)
        came = run_script("begin\n@create #1 named Box\n@move $new to here\nend\n")
        self.case("in a batch", came, Ended(0, "$new = #5\n0\n0\n", ""))
        self.case("the header of a verb", run_script("@verb #4:look\n@list #4:look\n").written, '0\n{#3, "rd", "look"}\n{"none", "none", "none"}\n')
        self.told("who is nowhere", run_script("move(#3, #-1)\nlook\n"), 2, "you are nowhere: move($me, #5) goes to a place")

    def test_words_of_psql(self) -> None:
        text = "\\set x 5\n$x\n\\echo x is $x \"$x\" -- told\n5\n\\! echo there\n\\o |tr a-z A-Z\n#3.name\n\\o\n#3.name -- who\n"
        self.case("they are done", run_script(text), Ended(0, '5\nx is 5 "$x" -- told\n5\nthere\n"WIZARD"\n"Wizard"\n', ""))
        self.case("the world", run_script("\\conninfo\n").written, 'the service of world.db: number 0, as #3 "Wizard", a wizard\n')
        self.case("\\d alone", run_script("\\d\n").written, run_script("\\classes\n").written)
        self.case("no file has the name of a command", [each for each in os.listdir() if "|" in each], [])
        came = run_shell("-1", "-c", "create(#1)", "-c", "create(#77)", "world.db")
        self.case("-1 is one batch", (came.status, came.complaint.splitlines()[-1]), (1, "moo-shell: nothing was changed"))
        came = run_shell("-c", "begin", "-c", "create(#1)", "-c", "commit", "world.db")
        self.told("a batch over several -c", came, 1, "each -c is a text of its own: `end` is missing in it, and -1 makes one batch of all", file="-c")
        for words in (("-A",), ("-qAtX",)):
            came = run_shell(*words, "-c", "#3.name", "world.db")
            self.case(f"{words} says why not", (came.status, "-A: answers of a script are bare already" in came.complaint), (2, True))
        self.case("-V is --version", run_shell("-V").written, run_shell("--version").written)
        self.case("a copy runs no command", run_shell("--dry-run", "-c", "\\! echo there", "world.db").written.splitlines()[0] != "there", True)

    def test_the_examples(self) -> None:
        """The numbers are those of the comments: three classes, ten rooms, a lamp, two builders with quotas 2 and 1, a hut and a boat."""
        village = str(TOP / "examples/village.moo")
        came = run_shell("--dry-run", "-q", "-f", village, "world.db")
        self.case("a rehearsal", (came.status, came.written.splitlines()[-1]), (0, "nothing was changed"))
        self.case("says what it would make", "\nwould make 18 objects:\n" in came.written, True)
        self.world_is("nothing was changed", 0, 4)
        came = run_shell("-q", "-f", village, "world.db", "--names", "names.moo")
        self.case("it runs to its end", (came.status, came.complaint), (0, ""))
        refused = [line.split("E_")[1][:5] for line in came.written.splitlines() if line.startswith("would be")]
        self.case("what is refused is tried alone", refused, ["QUOTA", "PERM,"])
        self.case("the village is there", run_shell("--names", "names.moo", "world.db", text=VILLAGE).written, VILLAGE_ANSWERS)

    def test_ten_thousand_lines(self) -> None:
        """In memory, since a disk may be busy with other work. The processors may be too: it is the time on them that is counted."""
        rooms = rooms_of(5000)
        folder = "/dev/shm" if os.access("/dev/shm", os.W_OK) else None
        with tempfile.TemporaryDirectory(dir=folder) as room:
            make(f"{room}/world.db")
            Path("build.moo").write_text(rooms)
            worked = seconds_of_children()
            came = run_shell("-q", "-f", "build.moo", f"{room}/world.db", patience=2400)
            seconds = seconds_of_children() - worked
            self.case("a script of 10,000 lines", came, Ended(0, "", ""))
            self.case("is done", run("check", f"{room}/world.db"), (0, "ok seq 10000 objects 5004\n"))
        self.case("in a minute", seconds < 60 or seconds, True)

    def test_a_large_batch(self) -> None:
        rooms = rooms_of(500)
        self.case("1,000 calls with 500 names", run_script(f"begin\n{rooms}end\n", "-q"), Ended(0, "", ""))
        self.world_is("are one batch", 1, 504)
        self.told("1,001 calls", run_script(f"begin\n{rooms}create(#1)\nend\n"), 1002, "at most 1000 calls, and this one has 1001")

    def test_signals(self) -> None:
        os.mkfifo("never")
        for number, status in ((signal.SIGTERM, 143), (signal.SIGINT, 130)):
            # What a script starts in the background ignores Ctrl-C, and what that starts would, too.
            shell = start(
                [*SHELL, "-f", "never", "world.db"], env=environment(), stderr=subprocess.DEVNULL,
                preexec_fn=lambda: signal.signal(signal.SIGINT, signal.SIG_DFL),
            )  # fmt: skip
            # Somebody may write only once the shell reads its script: then its service runs.
            with opened_for_writing("never", PATIENCE):
                (service,) = children(shell.pid)
                os.kill(shell.pid, number)
                self.case(f"it ends by {number.name}", (shell.wait(PATIENCE), has_ended(service)), (status, True))

    def test_a_signal_that_is_ignored(self) -> None:
        """As nohup has it."""
        os.mkfifo("late")
        with inherited_signal(signal.SIGHUP, signal.SIG_IGN):
            shell = start([*SHELL, "-q", "-f", "late", "world.db"], env=environment())
        with opened_for_writing("late", PATIENCE) as script:
            shell.send_signal(signal.SIGHUP)
            os.write(script, b"create(#1)\n")
        self.case("it goes on", (shell.wait(PATIENCE), run("check", "world.db")), (0, (0, "ok seq 1 objects 5\n")))


class Rehearsals(OnWorld):
    def test_on_a_file(self) -> None:
        run_shell("world.db", text="max_object()\n")
        before = {name: Path(name).read_bytes() for name in os.listdir() if name.startswith("world.db")}
        came = run_script('$a = create(#1)\nset($a, "name", "box")\nbegin\n$b = create($a)\nmove($b, $a)\nend\n', "--dry-run", "-q")
        wanted = "would be accepted: 3 batches with 4 calls: 2 create, 1 move, 1 set\n"
        wanted += 'would make 2 objects:\n  #4 "box"  $a\n  #5 ""  $b\nnothing was changed\n'
        self.case("what it would make", came, Ended(0, wanted, ""))
        self.case("the file is as it was", {name: Path(name).read_bytes() for name in before}, before)
        came = run_script("$a = create(#1)\ncreate(#99)\n", "--dry-run")
        self.told("a refusal", came, 2, "E_PERM")
        self.case("nothing stays", came.complaint.splitlines()[1:], ["moo-shell: nothing was changed: it was a copy"])
        self.case("no dump is written", run_script("\\dump out.txt\n", "--dry-run").status, 0)
        self.case("nor a file", os.path.exists("out.txt"), False)

    def test_on_a_link(self) -> None:
        """The log of a world that was killed is beside the file, and not beside a link to it."""
        service = Service(MOO, "world.db", 1000)
        run_shell("--port", str(service.port), text="create(#1)\n")
        service.kill()
        os.mkdir("elsewhere")
        os.symlink("../world.db", "elsewhere/link.db")
        came = run_shell("--dry-run", "elsewhere/link.db", text="max_object()\n\\seq\n")
        self.case("it has what the log holds", came.written.splitlines()[:2], ["#4", "1"])

    def test_while_the_world_is_served(self) -> None:
        service = Service(MOO, "world.db", 1000)
        came = run_script("create(#1)\n", "--dry-run")
        self.case("the file can't be copied then", (came.status, came.complaint), (1, "moo-shell: world.db: in use by another program\n"))
        came = run_script("create(#1)\n")
        self.case("nor opened", (came.status, came.complaint), (1, "moo-shell: world.db: store fault: in use by another program\n"))
        service.kill()


class Mistakes(OnWorld):
    """What stopped people who wrote texts for `moo apply`, and who wrote requests."""

    def test_in_lines(self) -> None:
        run_script('begin\n$a = create(#1)\nadd_property($a, "description", "", {#3, "r"})\n$b = create($a)\n$c = create($b)\nend\n')
        cases = (
            ("creat(#1)", ["malformed: 'creat' names no call (did you mean create?)"]),
            ("chparent(#4, #6)", ["refused: chparent(#4, #6): E_RECMOVE"]),
            ('get(#4, "descripton")', ["E_PROPNF", "did you mean ", "description"]),
            ('get(#4, "nam")', ["E_PROPNF", "did you mean ", "name"]),
            ("#next", ["a comment begins with //"]),
            ("create(#1", ["malformed: "]),
            ("create #1", ["create is a call, and its values are in brackets"]),
            ("@describe #4 as \"a\" and \"b\"", ["isn't one text"]),
            ("begin\n#4.name = $y", ["$y has no value"]),
            ("length({})", ["'length' names no call: moo reckons nothing"]),
            ("set_accept(#4, {1, 2)", ["malformed: "]),
            ('set(#4, "name, 3)', ["malformed: "]),
            ('set(#4, "name", "Café")', ["malformed: ", "'é'"]),
            ("set(#4, 'name', 3)", ["malformed: ", "a text is in double quotes"]),
            ('get(#4, /* it */ "name")', ["malformed: ", "a comment begins with //"]),
            ("END", ["`end` without `begin`"]),
            ("show #77", ["#77 isn't an object"]),
            ("#77", ["#77 isn't an object"]),
            ("$lamp", ["$lamp has no value"]),
            ("$lamp = #4.light", ['get(#4, "light"): E_PROPNF']),
            ("$lamp = #4.light + 1", ["#4.light + 1 isn't a value: moo reckons nothing"]),
            ("#4.description = light", ["malformed: "]),
            ("#4.location.name", ['get(#-1, "name"): E_INVIND']),
            ('$lamp = "light', ['"light isn\'t a value: a text without its closing "']),
            ("lamp = create(#77)", ["create(#77): E_PERM"]),
            ("@recycle #77", ["refused: recycle(#77): E_INVARG"]),
            ("@create $box named Lamp", ["$box has no value"]),
            ("@rename #4 to Caf\u00e9", ["'\u00e9' is a letter that worlds don't hold"]),
            ("@chmod #4", ["@chmod is written as @chmod #5.light +r"]),
            ("@program #4:look", ["moo keeps the headers of verbs and runs none"]),
            ("select name from #4", ["moo has no SQL; #5.name reads a property"]),
            ("\\du", ["\\du isn't a word of the shell: players() lists the players"]),
            ("\\show", ["which object? #5 is one"]),
            ("begin\nwood", ["malformed: wood isn't a call: "]),
            ("\\shwo #4", ["\\shwo isn't a word of the shell (did you mean \\show?)"]),
            ("\\go #4", ["\\go isn't a word of the shell (did you mean @go?)"]),
            ("\\show box", ["box isn't an object"]),
            ("\\as 77", ["#77 isn't an object"]),
            ("create(#1, #77)", ["E_INVARG"]),
            ("begin\nbegin", ["a batch is open already"]),
            ("begin\n$x = 5\nend", ["a batch holds calls alone"]),
            ("begin\n\\as 4", ["a batch is open"]),
            ("begin\ninclude x", ["a batch is open"]),
        )
        for text, reasons in cases:
            came = run_script(f"// first\n{text}\n")
            self.told(text, came, 2 + text.startswith("begin"), *reasons)

    def test_in_files(self) -> None:
        line = 'set(#3, "name", "Ada")\n'
        for name, data in (
            ("of Windows", line.replace("\n", "\r\n").encode()),
            ("of an old Mac", line.replace("\n", "\r").encode()),
            ("with a byte order mark", b"\xef\xbb\xbf" + line.encode()),
        ):
            self.case(f"a file {name} is read", run_script(data + line.encode()), Ended(0, "0\n0\n", ""))
        came = run_script(line.encode("utf-16"))
        self.case("one in UTF-16 is told", (came.status, "is in UTF-16" in came.complaint), (1, True))
        self.told("a file that ends inside a batch", run_script("begin\ncreate(#1)\n"), 2, "`end` is missing")

    def test_in_worlds(self) -> None:
        Path("dump.txt").write_text(run("dump", "world.db")[1])
        Path("text.db").write_text("no world\n")
        Path("empty.db").touch()
        before = sorted(os.listdir())
        cases = (
            (str(TOP / "examples/minimal.db"), "from_lambdamoo.py"),
            ("dump.txt", "is a dump: `moo load world.db dump.txt`"),
            ("text.db", "isn't a database of moo"),
            ("empty.db", "`moo init empty.db`"),
            ("none.db", "`moo init none.db`"),
        )
        for file, reason in cases:
            came = run_shell(file, text="create(#1)\n")
            self.case(f"{file}: it says what to do", (came.status, reason in came.complaint), (1, True))
        self.case("nothing is left beside them", (sorted(os.listdir()), (TOP / "examples/minimal.db-wal").exists()), (before, False))

    def test_in_words(self) -> None:
        wrong = ("", "world.db --port 8080", "--port 0", "--port x", "--as ada world.db", "--web http://x/ --as 3", "--sing", "-f")
        for words in map(str.split, wrong):
            self.case(f"the words {words}", run_shell(*words).status, 2)
        came = run_shell("--port", str(free_port()), text="\\seq\n")
        self.case("nobody listens", (came.status, "doesn't answer" in came.complaint), (1, True))
        came = run_shell("--moo", "./nothing", "world.db", text="\\seq\n")
        self.case("no such program", (came.status, "./nothing can't be run" in came.complaint), (1, True))

    def test_a_dump_while_it_is_served(self) -> None:
        came = run_script("create(#1)\n\\dump out.txt\n\\dump\ncreate(#1)\n")
        self.case("it is that of the program", (came.status, Path("out.txt").read_text() in came.written), (0, True))
        self.case("and loads", run("load", "new.db", "out.txt"), (0, "loaded seq 1 objects 5\n"))
        self.case("nobody else may read it", stat.S_IMODE(os.stat("out.txt").st_mode), 0o600)
        self.told("a file that is there stays", run_script("\\dump out.txt\n"), 1, "out.txt is there already")


class Looks(OnWorld):
    def test_trees(self) -> None:
        run_script(BOXES)
        tree = '#1 "Root Class"\n  #0 "System Object"\n  #2 "The First Room"\n  #3 "Wizard"\n  #4 "box"\n    #5 "small box"\n'
        places = '#2 "The First Room"\n  #3 "Wizard"\n#4 "box"\n  #5 "small box"\n(2 objects are nowhere and hold nothing)\n'
        self.case("by parents", run_shell("world.db", text="\\tree\n").written, tree)
        self.case("of one", run_shell("world.db", text="\\tree #4\n").written, '#4 "box"\n  #5 "small box"\n')
        self.case("by places", run_shell("world.db", text="\\places\n").written, places)
        self.case("of one place", run_shell("world.db", text="\\places 2\n").written, '#2 "The First Room"\n  #3 "Wizard"\n')
        self.case("by a word", run_shell("world.db", text="\\find BOX\n").written, '#4 "box"\n#5 "small box"  in #4 "box"\n')
        self.case("a word of no name", run_shell("world.db", text="\\find zebra\n").written, "no name has zebra\n")
        run_script('\\as #4\npetition({{"set", #4, "name", "a \\"box\\""}, {"max_object"}})\n')
        wanted = 'petition 1 by #4 "box"\n    set(#4, "name", "a \\"box\\"")\n    max_object()\n'
        self.case("petitions", run_shell("world.db", text="\\petitions\n").written, wanted)
        came = run_shell("--as", "5", "world.db", text="\\petitions\n")
        self.case("of somebody else aren't seen", came.written, "there are no petitions\n")
