"""The words of the command line: help, the version, and mistakes."""
import os
import re

from tests.support import dumped
from tests.support.cases import ProgramTest
from tests.support.program import MOO, TOP, ended
from tests.support.service import Service
from tests.support.worlds import accepted, make, run, text_of

COMMANDS = ["init", "apply", "rehearse", "ask", "dump", "load", "check", "serve"]
REPLIES = "accepted refused full stale malformed truncated nomemory fault closed".split()
REASONS = "E_PERM E_INVARG E_INVIND E_PROPNF E_VERBNF E_ARGS E_TYPE E_QUOTA E_RECMOVE E_NACC".split()
LONGEST_LINE = 110


def calls_of_the_manual():
    """The names of the calls that docs/CALLS.md lists."""
    return re.findall(r"^\| `([a-z_]*)\(", (TOP / "docs/CALLS.md").read_text(), re.MULTILINE)


class Words(ProgramTest):
    def says(self, name, status, text, *words):
        """The program ends with a status, and a text is in what it writes, wherever its lines are broken."""
        ran = ended(*words)
        written = re.sub(r"[ \n]+", " ", ran.written)
        self.case(name, (ran.status, text if text in written else written), (status, text))

    def lists(self, name, pattern, words):
        """The help of apply has each word, by a pattern in which % stands for it."""
        _, written = run("apply", "--help")
        lacking = [word for word in words if not re.search(pattern.replace("%", word), written, re.MULTILINE)]
        self.case(name, (bool(words), lacking), (True, []))

    def test_help(self):
        self.says("help names the commands", 0, "Usage: moo", "--help")
        self.says("so does the word for it", 0, "Usage: moo", "help")
        for word in COMMANDS:
            self.says(f"help of {word} has an example", 0, "Example:", word, "--help")
            self.says(f"help of {word} has its statuses", 0, "Exit status:", word, "--help")
        self.says("the version", 0, "moo 1.1.0", "--version")

    def test_mistakes(self):
        for word in COMMANDS:
            self.says(f"{word} wants its file", 2, "FILE", word)
        self.says("apply wants its batches", 2, "BATCHES", "apply", "world.db")
        self.says("rehearse wants its batches", 2, "BATCHES", "rehearse", "--stop", "world.db")
        self.says("ask never stops", 2, "--stop", "ask", "--stop", "world.db", "-")
        self.says("a flag that is none", 2, "--halt", "apply", "--halt", "world.db", "-")
        self.says("the flag has no value", 2, "--stop", "apply", "--stop=yes", "world.db", "-")
        self.says("once is enough", 2, "--stop", "apply", "--stop", "--stop", "world.db", "-")
        self.says("load wants its dump", 2, "DUMP", "load", "world.db")
        self.says("serve wants its port", 2, "PORT", "serve", "world.db")
        self.says("serve needs no count, but a file", 1, "moo: store fault", "serve", "world.db", "8080")
        for port in ("0", "65536", "x"):
            self.says(f"{port} is no port", 2, f"'{port}' for '<PORT>'", "serve", "world.db", port, "1")
        for count in ("1000001", "x"):
            self.says(f"{count} is no count", 2, f"'{count}' for '[COUNT]'", "serve", "world.db", "8080", count)
        for ticks in ("999", "4294967296", "x"):
            self.says(f"{ticks} is no number of ticks", 2, f"'{ticks}' for '--ticks <ticks>'", "serve", "--ticks", ticks, "world.db", "8080")
        self.says("ticks have a number", 2, "--ticks", "serve", "world.db", "8080", "--ticks")
        self.says("a batch on the command line has no ticks", 2, "--ticks", "apply", "--ticks", "1000", "world.db", "-")
        for words in (["--ticks", "1000", "world.db", "8080"], ["world.db", "8080", "--ticks", "4294967295"]):
            self.says(f"ticks come anywhere: {words}", 1, "moo: store fault", "serve", *words)
        self.says("a word that isn't UTF-8", 2, "moo: usage", "check", b"\xff")
        self.says("a word that is none", 2, "sing", "sing")
        self.says("a word too many", 2, "more", "check", "world.db", "more")
        self.case("no mistake makes a file", os.listdir(), [])

    def test_each_command(self):
        empty = text_of([])
        self.case("init has one word behind it", run("init", "world.db"), (0, "created\n"))
        self.case("apply has two", run("apply", "world.db", "-", text=empty), (0, accepted(1)))
        self.case("so has rehearse", run("rehearse", "world.db", "-", text=empty), (0, accepted(2)))
        for words in (["--stop", "world.db", "-"], ["world.db", "--stop", "-"], ["world.db", "-", "--stop"]):
            self.case(f"the flag comes anywhere: {words}", run("rehearse", *words, text=empty), (0, accepted(2)))
        self.case("so has ask", run("ask", "world.db", "-", text=empty), (0, accepted(1)))
        self.case("check has one", run("check", "world.db"), (0, "ok seq 1 objects 4\n"))
        self.says("so has dump", 0, "seq 1", "dump", "world.db")
        dump = run("dump", "world.db")[1]
        self.case("load has two", run("load", "copy.db", "-", text=dump), (0, "loaded seq 1 objects 4\n"))
        self.case("no word is apply :memory: -", run(text=text_of(["create(#1)"], "#3 at 0")), (0, accepted(1, "#4")))

    def test_ports_and_counts(self):
        make("world.db")
        two_lines = "listening 127.0.0.1:65535\nserved 0 failed 0\n"
        came = run("serve", "world.db", "65535", "0")
        self.case("serve has three, the greatest port and the least count among them", came, (0, two_lines))
        service = Service(MOO, ":memory:", 1000000, port=65535)
        service.kill()
        self.case("and the greatest count", service.first, "listening 127.0.0.1:65535\n")
        # Whether the port may be bound is for the machine to say.
        self.case("port 1 is one", run("serve", ":memory:", "1", "0")[0] != 2, True)

    def test_what_help_lists(self):
        self.lists("help has every call that CALLS.md has", r"(^|[ ,])%\(", calls_of_the_manual())
        self.lists("help has every reply", "[ `]%[ `]", REPLIES)
        self.lists("help has every reason", "^  %  ", REASONS)
        self.says("help has the fields of an object", 0, f"object {{{dumped.FIELDS}}}", "dump", "--help")
        self.says("and those of a slot", 0, "slot {object, definer, name, owner, perms, 1, value}", "dump", "--help")
        self.says("and those of a petition", 0, "petition {number, who", "dump", "--help")
        lines = "".join(run(*words, "--help")[1] for words in [[], *([word] for word in COMMANDS)]).splitlines()
        self.case("no line of help is long", (bool(lines), [line for line in lines if len(line) > LONGEST_LINE]), (True, []))
