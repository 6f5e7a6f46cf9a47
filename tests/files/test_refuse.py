"""Each growth of memory, each call of a disk, a stream or a connection refused in turn; and a kill at each call of a disk.

A case is a task of the program and a kind of calls: the first of them is refused in the first run, the second in the next, and so on
until a run meets none. Each run has to end in one of the ends that are listed for its task, and the file after it has to open as the
world before the task or the one after it, as that end says. Before a load there is no file: after it the file holds the whole world, or no
tables, so that the same load into it is done.

To open a world takes some 3,700 growths, and to load one 6,000. Every 41st of these is refused, and each one after them; with REFUSE_ALL=1
every one, which takes hours.
"""
import errno
import os
import shutil
import unittest
from concurrent.futures import ThreadPoolExecutor

from tests.support.cases import ProgramTest
from tests.support.refusing import Fault, Load, Post, Task, build_refuser, growths, run
from tests.support.service import answer, post
from tests.support.worlds import TREE

IS_WHOLE = bool(os.environ.get("REFUSE_ALL"))
STRIDE = 41
NO_MEMORY, STORE, READ = "moo: no memory\n", "moo: store fault\n", "moo: read fault\n"
# In the place of an error: the program is killed.
KILL = 0

ONE, TWO = "accepted 1\n#4\nend\n", "stale 1\n"
BATCH = "batch as #3 at 0\ncreate(#1)\nend\n"
MOVE = 'batch as #3\nchparent(#5, #7)\nget(#6, "b")\nget(#6, "c")\nis_clear_property(#6, "c")\nend\n'
MOVED = "accepted 2\n0\n21\n30\n1\nend\n"
# #4 has asked for an object of its own and a change of parent. The wizard asks for something too, and grants what #4 asked.
ASKED = 'batch as #4\npetition({{"create", #1, #4}, {"chparent", #5, #7}})\nend\n'
GRANT = 'batch as #3 at 2\npetition({{"players"}})\ngrant(1)\nmax_object()\npetitions()\nend\n'
GRANTED, AGAIN = 'accepted 3\n2\n0\n#8\n{{2, #3, {{"players"}}}}\nend\n', "stale 3\n"
LITERAL = 'batch as #3\nadd_property(#1, "x", {1,{ },"a\\"b\\\\"}, {#3, "r"})\nget(#1, "x")\nend\n'
SPELLED = 'accepted 0\n0\n{1, {}, "a\\"b\\\\"}\nend\n'
REQUEST = post("/batch", '{"as":"#3","calls":["create(#1)"]}').decode()
CREATED = answer("200 OK", '{"answers":["#4"],"seq":1}').decode()
SERVED, FAILED = "served 1 failed 0\n", "served 0 failed 1\n"


def unavailable(word):
    return answer("503 Service Unavailable", f'{{"error":"{word}"}}').decode()


# 300 objects more than a new world has, each with a slot, and each third with a value in it.
LARGE = "\n".join([
    "batch as #3",
    'add_property(#1, "note", {1, "two"}, {#3, "rc"})',
    *(f'create(#1)\nset(#{number}, "name", "thing {number}")' for number in range(4, 304)),
    *(f'set(#{number}, "note", "{number} of them")' for number in range(4, 304, 3)),
    "end\n",
])

# If a file is opened and no answer has come.
REFUSED = {(NO_MEMORY, 4): {0}, (STORE, 1): {0}}


def fronts(whole, worlds):
    """Any front of a text, at status 1."""
    return lambda written, status: worlds if status == 1 and whole.startswith(written) else None


def killed(first, ends):
    """A front of the replies if the program was killed; each batch that was acknowledged is there, and at most one more."""

    def is_end(written, status):
        if status != -9 or not ends.startswith(written):
            return None
        return {1} if written.startswith(first) else {0, 1}

    return is_end


def is_cut(written, status, whole):
    return status == 4 and written.endswith(NO_MEMORY) and whole.startswith(written[: -len(NO_MEMORY)])


def sent_front(written, status):
    return {1} if status == 0 and written.endswith(FAILED) and CREATED.startswith(written[: -len(FAILED)]) else None


def dump_and_load(file):
    """The dump of a file, and what its load writes."""
    dump, _ = run(["dump", file], ".")
    return dump, f"loaded seq {dump.split()[1]} objects {dump.count('object {')}\n"


def next_numbers(number, opening):
    """The numbers of the next 32 calls to refuse, and the one after them: of those that open the world some, and each after them."""
    numbers = []
    while len(numbers) < 32:
        numbers.append(number)
        number += STRIDE if number + STRIDE < opening and not IS_WHOLE else 1
    return numbers, number


def refuse_in_turn(task, fault, opening):
    """How many calls of a task were refused in turn, and what was wrong with the first run that ended wrongly; or nothing."""
    number, count, wrong, is_met = 1, 0, "", True
    with ThreadPoolExecutor(4) as pool:
        while is_met and not wrong:
            numbers, number = next_numbers(number, opening)
            for met, said in pool.map(lambda it: task.refuse(fault, it), numbers):
                is_met = is_met and met
                count += is_met
                wrong = wrong or said
    return count, wrong


@unittest.skipUnless(shutil.which("cc"), "the command cc isn't on this machine")
class Refuse(ProgramTest):
    limit = 24 * 3600 if IS_WHOLE else 3600

    def setUp(self):
        super().setUp()
        build_refuser()
        run(["init", "new.db"], ".")
        run(["init", "tree.db"], ".")
        run(["apply", "tree.db", "-"], ".", TREE)
        shutil.copy("tree.db", "asked.db")
        run(["apply", "asked.db", "-"], ".", ASKED)

    def refused(self, name, task, fault, opening=0):
        """One case: the calls of a task are refused in turn."""
        with self.subTest(name):
            count, wrong = refuse_in_turn(task, fault, opening)
            if IS_WHOLE:
                print(f"{name}: {count} refused in turn", flush=True)
            self.assertEqual(wrong, "")
            self.assertGreater(count, 0, "no call was refused")

    def test_memory(self):
        fault = Fault("memory", errno.ENOMEM)
        check = Task("tree.db", ["check", "w.db"], "", REFUSED | {("ok seq 1 objects 8\n", 0): {0}})
        opening = growths(Task("tree.db", ["ask", "w.db", "-"], "", REFUSED | {("", 0): {0}}))
        self.refused("a check, where memory is refused", check, fault, opening)
        dump = Task("tree.db", ["dump", "w.db"], "", {(STORE, 1): {0}})
        whole = dump.done[0]
        dump.is_end = lambda written, status: {0} if (written, status) == (whole, 0) or is_cut(written, status, whole) else None
        self.refused("a dump", dump, fault, opening)
        batches = Task(
            "new.db",
            ["apply", "w.db", "-"],
            BATCH + BATCH,
            REFUSED
            | {
                (ONE + TWO, 0): {1},
                ("nomemory\n" + ONE, 0): {1},
                (NO_MEMORY, 4): {0, 1},
                (ONE + NO_MEMORY, 4): {1},
                (ONE + "closed\n", 1): {1},
                ("fault\nclosed\n", 1): {0, 1},
            },
        )
        self.refused("two batches", batches, fault, opening)
        ends = {(MOVED, 0): {1}, ("nomemory\n", 0): {0}, (NO_MEMORY, 4): {0, 1}, ("fault\n", 1): {0, 1}}
        self.refused("a change of parent", Task("tree.db", ["apply", "w.db", "-"], MOVE, REFUSED | ends), fault, opening)
        ends = {(GRANTED, 0): {1}, ("nomemory\n", 0): {0}, (NO_MEMORY, 4): {0, 1}, ("fault\n", 1): {0, 1}}
        self.refused("a grant", Task("asked.db", ["apply", "w.db", "-"], GRANT, REFUSED | ends), fault, opening)
        ends = {(SPELLED, 0): {0}, ("nomemory\n", 0): {0}, (NO_MEMORY, 4): {0}}
        self.refused("a literal that is read and printed", Task("new.db", ["ask", "w.db", "-"], LITERAL, REFUSED | ends), fault, opening)
        ends = {
            (CREATED + SERVED, 0): {1},
            (CREATED + NO_MEMORY, 4): {1},
            (unavailable("nomemory") + SERVED, 0): {0},
            (unavailable("fault") + SERVED, 0): {0, 1},
            (FAILED, 0): {0, 1},
            ("moo: cannot listen\n", 1): {0},
        }
        self.refused("a POST", Post("new.db", [], REQUEST, REFUSED | ends), fault, opening)

    def test_streams(self):
        words, text, whole = ["apply", "w.db", "-"], BATCH + BATCH, ONE + TWO
        ends = {(whole, 0): {1}, (READ, 1): {0}, (ONE + READ, 1): {1}, (whole + READ, 1): {1}}
        self.refused(
            "two batches, byte by byte, of a reader that fails", Task("new.db", words, text, ends), Fault("input", errno.EIO, piece=1)
        )
        task = Task("new.db", words, text, {(whole, 0): {1}}, fronts(whole, {1}))
        self.refused("two batches, byte by byte, to a writer that fails", task, Fault("output", errno.EIO, piece=1))
        self.refused("and to a disk that stays full", task, Fault("output", errno.ENOSPC, True, 1))
        ends = {(CREATED + SERVED, 0): {1}, (FAILED, 0): {0}}
        self.refused(
            "a POST, byte by byte, of a peer that fails", Post("new.db", [], REQUEST, ends), Fault("receive", errno.ECONNRESET, piece=1)
        )
        task = Post("new.db", [], REQUEST, {(CREATED + SERVED, 0): {1}}, sent_front)
        self.refused("a POST, answered byte by byte to a peer that fails", task, Fault("send", errno.ECONNRESET, piece=1))

    def test_disks(self):
        words, text, whole = ["apply", "w.db", "-"], BATCH + BATCH, ONE + TWO
        ends = {(whole, 0): {1}, (STORE, 1): {0}, ("fault\nclosed\n", 1): {0, 1}}
        self.refused("two batches, on a disk that fails once", Task("new.db", words, text, ends), Fault("file", errno.EIO))
        self.refused("on one that stays full", Task("new.db", words, text, ends), Fault("file", errno.ENOSPC, True))
        self.refused("killed at each call of the files", Task("new.db", words, text, ends, killed(ONE, whole)), Fault("file", KILL))
        whole = GRANTED + AGAIN
        ends = {(whole, 0): {1}, (STORE, 1): {0}, ("fault\nclosed\n", 1): {0, 1}}
        self.refused(
            "a grant that is sent twice, on a disk that fails once", Task("asked.db", words, GRANT + GRANT, ends), Fault("file", errno.EIO)
        )
        self.refused(
            "a grant, killed at each call of the files",
            Task("asked.db", words, GRANT + GRANT, ends, killed(GRANTED, whole)),
            Fault("file", KILL),
        )
        ends = {(CREATED + SERVED, 0): {1}, (STORE, 1): {0}, (unavailable("fault") + SERVED, 0): {0, 1}}
        self.refused("a POST, on a disk that fails once", Post("new.db", [], REQUEST, ends), Fault("file", errno.EIO))
        self.refused("on one that stays full", Post("new.db", [], REQUEST, ends), Fault("file", errno.ENOSPC, True))
        dies = lambda written, status: {("", -9): {0, 1}, (CREATED, -9): {1}, (CREATED + SERVED, -9): {1}}.get((written, status))
        self.refused("a POST, killed at each call of the files", Post("new.db", [], REQUEST, ends, dies), Fault("file", KILL))
        for word, whole in (("check", "ok seq 1 objects 8\n"), ("dump", None)):
            task = Task("tree.db", [word, "w.db"], "", {(STORE, 1): {0}})
            task.ends[(whole or task.done[0], 0)] = {0}
            task.is_end = fronts(task.done[0], {0}) if whole is None else task.is_end
            self.refused(f"a {word}, on a disk that fails once", task, Fault("file", errno.EIO))

    def test_loads_without_memory(self):
        dump, loaded = dump_and_load("asked.db")
        load = Load(dump, {(loaded, 0): {1}, (NO_MEMORY, 4): {0, 1}, (STORE, 1): {0, 1}})
        self.refused("a load, where memory is refused", load, Fault("memory", errno.ENOMEM), growths(load))

    def test_loads_from_streams(self):
        dump, loaded = dump_and_load("asked.db")
        load = Load(dump, {(loaded, 0): {1}, (READ, 1): {0}})
        self.refused("a load, in pieces, from a reader that fails", load, Fault("input", errno.EIO, piece=16))
        load = Load(dump, {(loaded, 0): {1}}, fronts(loaded, {1}))
        self.refused("a load, told byte by byte to a writer that fails", load, Fault("output", errno.EIO, piece=1))

    def test_loads(self):
        shutil.copy("new.db", "large.db")
        run(["apply", "large.db", "-"], ".", LARGE)
        for size, file in (("a small dump", "asked.db"), ("a dump of 304 objects", "large.db")):
            dump, loaded = dump_and_load(file)
            ends = {(loaded, 0): {1}, (STORE, 1): {0, 1}}
            self.refused(f"{size}, loaded on a disk that fails once", Load(dump, ends), Fault("file", errno.EIO))
            self.refused("on one that stays full", Load(dump, ends), Fault("file", errno.ENOSPC, True))
            dies = lambda written, status: {("", -9): {0, 1}, (loaded, -9): {1}}.get((written, status))
            self.refused("killed at each call of the files", Load(dump, {(loaded, 0): {1}}, dies), Fault("file", KILL))
