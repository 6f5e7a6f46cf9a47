"""What is acknowledged stays: kills at random moments, a disk that is full, and a lack of memory."""
import resource

from tests.support.cases import ProgramTest
from tests.support.processes import run_python
from tests.support.program import MOO, TOP, ended
from tests.support.worlds import accepted, make, run, text_of

KILLS = "20"
# Of the files that the program writes, in bytes.
LIMIT = 800 * 512
# Room for the program, and none for the world.
MEMORY = 9000 * 1024
BATCHES = 2000


def limit_files():
    resource.setrlimit(resource.RLIMIT_FSIZE, (LIMIT, LIMIT))


def many_names():
    """A batch that makes #4, and more of them that name it than a file of the limit holds."""
    names = (f'set(#4, "name", "{chr(97 + number % 26) * 2000}")' for number in range(BATCHES))
    return text_of(["create(#1)"]) + "".join(text_of([name]) for name in names)


def large_properties():
    """A batch that makes #4, and 40 that each add a property of 60,000 bytes."""
    value = "x" * 60000
    calls = (f'add_property(#4, "p{number}", "{value}", {{#3, "rc"}})' for number in range(40))
    return text_of(["create(#1)"]) + "".join(text_of([call]) for call in calls)


def last_accepted(written):
    """The number of the last batch that was accepted, or 0."""
    return max((int(line.split()[1]) for line in written.splitlines() if line.startswith("accepted ")), default=0)


class Stops(ProgramTest):
    def test_kills(self):
        status, said = run_python(TOP / "bench/kill.py", MOO, KILLS)
        self.case(f"{KILLS} kills", (status, said if status else ""), (0, ""))

    def test_full_disk(self):
        make("world.db")
        # Python ignores the signal of the limit, and so has the program to: then its write fails.
        ran = ended("apply", "world.db", "-", text=many_names(), preexec_fn=limit_files, restore_signals=False)
        lines, last = ran.written.splitlines(), last_accepted(ran.written)
        self.case("a full disk is a fault, status 1", (ran.status, lines.count("fault")), (1, 1))
        cause = "is the disk full?"
        self.case("standard error says what to do", cause if cause in ran.complaint else ran.complaint, cause)
        self.case("each batch behind it is closed", lines.count("closed"), BATCHES - last)
        found = next((seq for seq in (last, last + 1) if run("check", "world.db") == (0, f"ok seq {seq} objects 5\n")), None)
        self.case("the world opens again as it was acknowledged", last > 0 and found is not None, True)
        again = run("apply", "world.db", "-", text=text_of(["create(#1)"]))
        self.case("and goes on", again, (0, accepted((found or 0) + 1, "#5")))

    def test_lack_of_memory(self):
        make("large.db", large_properties())
        self.case("want of memory is said, status 4", run("check", "large.db", memory=MEMORY), (4, "moo: no memory\n"))
        self.case("and the world is whole", run("check", "large.db"), (0, "ok seq 41 objects 5\n"))
