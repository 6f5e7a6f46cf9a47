"""Why tools/to_lambdamoo.py refuses an edited dump: in the words of `moo load`, which is asked too, or in its own."""

from __future__ import annotations

import subprocess
import sys
from pathlib import Path

from tests.support import TOOLS
from tests.support.cases import ProgramTest
from tests.support.program import TOP, Ended, ended
from tests.support.service import PATIENCE

DUMP = (TOP / "examples/minimal.dump").read_text()
LIT, ALIASES = 'slot {#8, #8, "lit", #9, "rc", 1, 0}', '{"lamp", "brass lamp"}'
# What is edited, once, in the dump, what it becomes, the line that is refused, and why. Both say the same of it.
SAME = (
    ('verb {#2, "l*ook"', 'verb {#2,"l*ook"', 20, "a value is followed by ', '"),
    ("seq 0\n", "seq 0\r\n", 1, "the line ends in a carriage return"),
    ("top #9\n", "top #9\n\n", 3, "a blank line"),
    ("seq 0\n", "\xef\xbb\xbfseq 0\n", 1, "a byte order mark is before it"),
    ('#3, "rc", 0}', '#3, "cr", 0}', 6, 'a dump writes "rc" for "cr"'),
    ('#3, "rxd", ', '#3, "xrd", ', 8, 'a dump writes "rxd" for "xrd"'),
    ('"generic thing", #3, #1, #-1, 0', '"generic thing", #3, #1, #-1, 2', 25, "the player isn't 0 or 1"),
    ('#3, "rd", "none", "none"', '#3, "rd", "none", "in"', 20, 'a dump writes "in/inside/into" for "in"'),
    (ALIASES, ALIASES.replace("brass", "br\xe4ss"), 46, "a byte in a text that is neither a tab nor printing ASCII"),
    (LIT, LIT.replace("1, 0}", "1, {0}"), 43, "the list isn't closed by a '}'"),
    (LIT, LIT.replace("1, 0}", "1, +5}"), 43, "'+5' isn't a value: 12, #4, \"a text\", E_PERM or {1, #2}"),
)
# Of these `moo load` says something else.
OWN = (
    ("seq 0\n", "Seq 0\n", 1, "a dump begins with a line `seq N` and a line `top #N`"),
    ("\nend\n", "\nEND\n", 50, "a line begins with object, property, slot, verb, petition, or is 'end'"),
    (LIT, LIT.replace("1, 0}", "1, {0,1}}"), 43, "a value is followed by ', '"),
    (LIT, LIT.replace("1, 0}", "1,  0}"), 43, "a dump has one space after each comma, and no others"),
    (LIT, LIT.replace('"lit"', '"lit'), 43, 'a text without its closing "'),
    (LIT, LIT.replace('"rc"', '"rq"'), 43, "'q' isn't one of the letters rwc"),
    (LIT, LIT.replace("#8, #8", "#9, #8"), 43, "a line about #9 comes after that of another object"),
    (LIT, f'verb {{#8, "v", #3, "", "this", "none", "none"}}\n{LIT}', 44, "properties come first, then slots, then verbs"),
)


def converted(text: str) -> Ended:
    """How the tool ends, given a dump in a file."""
    Path("edited.txt").write_bytes(text.encode("latin-1"))
    words = [sys.executable, "-B", str(TOOLS / "to_lambdamoo.py"), "edited.txt"]
    ran = subprocess.run(words, stdout=subprocess.PIPE, stderr=subprocess.PIPE, text=True, timeout=PATIENCE)
    return Ended(ran.returncode, ran.stdout, ran.stderr)


class Reasons(ProgramTest):
    """Each edit is made on the dump of examples/."""

    def refused(self, old: str, new: str, line: int, reason: str) -> None:
        """One edit is refused in one line, which names its line and says why. Nothing is written."""
        self.assertIn(old, DUMP)
        came = converted(DUMP.replace(old, new, 1))
        begins = f"to_lambdamoo: edited.txt, line {line}: {reason}"
        self.case(f"{new!r}: {reason}", came.complaint[: len(begins)], begins)
        self.case(f"{new!r}: nothing else", (came.status, came.written, came.complaint.count("\n")), (1, "", 1))

    def test_in_the_words_of_load(self) -> None:
        for old, new, line, reason in SAME:
            self.refused(old, new, line, reason)
            said = ended("load", "new.db", "edited.txt").complaint
            self.case(f"{new!r}: `moo load` says so too", said, f"moo: edited.txt: line {line}: not a dump: {reason}\n")

    def test_in_its_own_words(self) -> None:
        for old, new, line, reason in OWN:
            self.refused(old, new, line, reason)

    def test_a_dump_as_it_is(self) -> None:
        self.case("it is converted", (converted(DUMP).status, "LambdaMOO" in converted(DUMP).written), (0, True))
