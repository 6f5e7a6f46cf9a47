"""The greatest text, and texts without an end: they are read piece by piece, and no more of one is kept than a line may have."""
import concurrent.futures
import subprocess

from tests.support.cases import ProgramTest
from tests.support.processes import start
from tests.support.program import MOO
from tests.support.service import PATIENCE
from tests.support.worlds import accepted, run

LONGEST = 1073741824


def piped(front, filling, length):
    """The program on a text of so many bytes: a front, and after it the filling as often as there is room."""
    ran = start([MOO], stdin=subprocess.PIPE, stdout=subprocess.PIPE, stderr=subprocess.DEVNULL, bufsize=0)
    chunk, left = filling * (1048576 // len(filling)), length - len(front)
    try:
        ran.stdin.write(front)
        while left > 0:
            left -= ran.stdin.write(chunk[:left])
    except BrokenPipeError:
        # It ended before the text did.
        pass
    ran.stdin.close()
    output = ran.stdout.read().decode()
    return ran.wait(PATIENCE), output, left > 0


class Longest(ProgramTest):
    def test_greatest_text(self):
        too_long, first = "moo: input too long\n", b"batch as #3\nend\nend\n"
        done, lines = accepted(1) + "malformed 1\n", b" " * 1023 + b"\n"
        texts = [
            ("a text of 1,073,741,824 bytes is read to its end", (first, lines, LONGEST), (0, done, False)),
            ("one of a byte more isn't, and its first batches act", (first, lines, LONGEST + 1), (1, done + too_long, False)),
            ("a line without an end", (b"", b"x", 2 * LONGEST), (1, too_long, True)),
            ("blanks without an end", (b"", b" ", 2 * LONGEST), (1, too_long, True)),
            ("blank lines without an end", (b"", lines, 2 * LONGEST), (1, too_long, True)),
        ]
        with concurrent.futures.ThreadPoolExecutor(3) as pool:
            running = [pool.submit(piped, *given) for _, given, _ in texts]
            # What a line has over its limit isn't kept.
            self.case("a file without an end, in 64 MB of memory", run("apply", ":memory:", "/dev/zero", memory=1 << 26), (1, too_long))
            for (name, _, wanted), ran in zip(texts, running):
                self.case(name, ran.result(), wanted)
