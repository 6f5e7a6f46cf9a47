"""What standard error says while the files of a world are read."""
import contextlib
import os
import re
import shutil
import signal
import subprocess
import time
from pathlib import Path

from tests.support import processes
from tests.support.cases import ProgramTest
from tests.support.program import MOO, edit, ended
from tests.support.worlds import make, text_of

# So many plain objects make a file of 5 MB, which is read about twice.
OBJECTS = 40_000
MANY = f"""
WITH RECURSIVE number(n) AS (VALUES (4) UNION ALL SELECT n + 1 FROM number WHERE n < {OBJECTS + 3})
INSERT INTO object SELECT n, 'A thing of some weight, left here by somebody long ago, with the number ' || n, 3, 1, -1, 0, 0, 0, 0, 0, 0, ''
FROM number
"""
MB = 1_000_000
# It tells after five seconds.
PAUSE = 6
# So many batches are in the log of the run that is killed, with three pages of a kilobyte each. A few more, and it would begin anew.
COMMITTED = 250
# For so many seconds batches are committed at least: longer than it waits before it tells.
COMMITTING = 7


def make_large(file):
    make(file)
    edit(file, MANY, f"UPDATE head SET top = {OBJECTS + 3}")
    edit(file, "pragma wal_checkpoint(truncate)")


def bytes_read(process):
    """How many bytes the process has read."""
    return int(re.search(r"rchar: (\d+)", Path(f"/proc/{process.pid}/io").read_text()).group(1))


def size_in_mb(file):
    return -(-os.path.getsize(file) // MB)


@contextlib.contextmanager
def on_one_processor():
    """What is started meanwhile runs on the same processor as this does: so it stands still while this is awake."""
    allowed = os.sched_getaffinity(0)
    os.sched_setaffinity(0, {min(allowed)})
    try:
        yield allowed
    finally:
        os.sched_setaffinity(0, allowed)


def is_stopped_between(process, least, most):
    """Stops a process once it has read so many bytes. False: it had read too many by then, or had ended."""
    while processes.state_of(process) != "Z" and bytes_read(process) < least:
        time.sleep(0.0002)
    processes.stand_still(process)
    return processes.state_of(process) == "T" and bytes_read(process) <= most


def commit(process, number):
    """Runs a batch that renames an object, and gives how many bytes it has."""
    text = text_of([f'set(#{4 + number * 7 % OBJECTS}, "name", "thing {number}")']).encode()
    process.stdin.write(text)
    process.stdin.flush()
    while line := process.stdout.readline():
        if line == b"end\n":
            return len(text)
    raise AssertionError("the program ended")


def heard(stream):
    """What a stream has by now."""
    os.set_blocking(stream.fileno(), False)
    told = stream.read() or b""
    os.set_blocking(stream.fileno(), True)
    return told


class Telling(ProgramTest):
    def check_slowly(self, file, *places):
        """What `check` writes and what it says, if it is stopped for six seconds once it has read so many bytes; and its seconds.

        A place is a least and a greatest number. If a busy machine lets it run past one, it is run again, on another copy.
        """
        while True:
            for path in Path().glob(f"{file}*"):
                shutil.copyfile(path, f"copy-{path}")
            began = time.monotonic()
            with on_one_processor() as allowed:
                process = processes.start([MOO, "check", f"copy-{file}"], stdout=subprocess.PIPE, stderr=subprocess.PIPE)
                was_stopped = all(self.pause(process, *place) for place in places)
                os.sched_setaffinity(process.pid, allowed)
            written, said = process.communicate()
            if was_stopped:
                return written.decode(), said.decode(), time.monotonic() - began

    def pause(self, process, least, most):
        """Stops a process for six seconds, if it is stopped in time."""
        is_stopped = is_stopped_between(process, least, most)
        if is_stopped:
            time.sleep(PAUSE)
        process.send_signal(signal.SIGCONT)
        return is_stopped

    def tells(self, name, said, seconds, least, subject, file):
        """Each line of a subject has what was read so far and the length of the file. There are so many at least, five seconds apart."""
        pattern = f"moo: {subject}: (\\d+) MB so far, from a file of {size_in_mb(file)} MB"
        lines = [line for line in said.splitlines() if line.startswith(f"moo: {subject}:")]
        found = [re.fullmatch(pattern, line) for line in lines]
        self.case(f"{name}: each line has its words", [line for line, match in zip(lines, found) if not match], [])
        read = [int(match.group(1)) for match in found if match]
        self.case(f"{name}: they go on", read, sorted(read))
        self.case(f"{name}: there are enough lines, and not too many", (least <= len(lines), len(lines) <= seconds / 5), (True, True))

    def test_small_world(self):
        make("world.db")
        for command in ("check", "dump"):
            self.case(f"{command} says nothing", ended(command, "world.db").complaint, "")
        self.case("nor does apply", ended("apply", "world.db", "-", text=text_of(["create(#1)"])).complaint, "")

    def test_long_reading(self):
        make_large("world.db")
        written, said, seconds = self.check_slowly("world.db", (1 * MB, 6 * MB), (8 * MB, 14 * MB))
        self.case("it is sound", written, f"ok seq 0 objects {OBJECTS + 4}\n")
        self.tells("the file", said, seconds, 2, "reading", "world.db")

    def test_long_log(self):
        """The log of a run that was killed is read before the file."""
        make_large("world.db")
        process = processes.start([MOO, "apply", "world.db", "-"], stdin=subprocess.PIPE, stdout=subprocess.PIPE)
        for number in range(COMMITTED):
            commit(process, number)
        process.kill()
        process.wait()
        self.case("the log is long", os.path.getsize("world.db-wal") > 0.8 * MB, True)
        written, said, seconds = self.check_slowly("world.db", (0.2 * MB, 0.6 * MB))
        self.case("it is sound", written, f"ok seq {COMMITTED} objects {OBJECTS + 4}\n")
        self.tells("the log", said, seconds, 1, "reading the log", "world.db-wal")

    def test_commits(self):
        """What is read for commits isn't told of, since a change of the log ends a run of reads of the file too."""
        make_large("world.db")
        process = processes.start([MOO, "apply", "world.db", "-"], stdin=subprocess.PIPE, stdout=subprocess.PIPE, stderr=subprocess.PIPE)
        commit(process, 0)
        # On a busy machine it may tell of the reading before that.
        heard(process.stderr)
        began, before, given, sent = time.monotonic(), bytes_read(process), 0, 1
        # And there the commits of some seconds may be few.
        while time.monotonic() < began + COMMITTING or bytes_read(process) - before - given <= 0.2 * MB:
            given += commit(process, sent)
            sent += 1
        read = bytes_read(process) - before - given
        _, said = process.communicate()
        self.case("they read the file", read > 0.2 * MB, True)
        self.case("it says nothing", said.decode(), "")
