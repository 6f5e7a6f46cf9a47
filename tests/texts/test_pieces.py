"""Texts of batches: how they are cut, in whatever pieces they come, where they end, and what is told of lines that can't be read."""
import json
import os
import select
import socket
import subprocess

from tests.support.cases import ProgramTest
from tests.support.processes import start
from tests.support.program import MOO, edit
from tests.support.service import PATIENCE, Service, answer, post
from tests.support.terminal import new_terminal
from tests.support.worlds import accepted, copied, make, rows_of, run, text_of

GREATEST = 2**63 - 1
# What is shown, the number of the world that is new but for that, the text and its replies.
TEXTS = [
    ("no text", 0, "", ""),
    ("blank lines alone", 0, " \t\n\n", ""),
    (
        "lines that end with a carriage return, a batch that is none, and a text whose last line has no end",
        0,
        "\nbatch as #3\r\nmax_object()\r\nend\nx\nend\nbatch as #2 at 1\nend",
        accepted(1, "#3") + "malformed 1\n" + accepted(2),
    ),
    ("a batch without calls", 0, "batch as #3\nend\n", accepted(1)),
    (
        "blank lines before, inside and between batches, and a last line without its end", 4,
        "\n \t\nbatch as #3\n\n\tmax_object()\n \nend\n\n\nbatch as #2 at 5\nend", accepted(5, "#3") + accepted(6),
    ),
    ("carriage returns at the ends of lines", 0, "batch as #3\r\nmax_object()\r\nend\r\n", accepted(1, "#3")),
    ("blanks round the words", 7, "\t batch \t as  #3  at\t7 \n end\t\n", accepted(8)),
    ("numbers of programmers", 0, "batch as #007\nend\nbatch as #-1\nend\n", accepted(1) + accepted(2)),
    (
        "zeros before a number count for nothing", 0, text_of(["set_player_flag(#3, 1)"], "#003") + text_of(["max_object()"], "#-3"),
        accepted(1, "0") + "refused 1 E_PERM\n"
    ),
    ("an end in a header's place is a malformed batch by itself", 0, " end \nbatch as #3\nend\n", "malformed 1\n" + accepted(1)),
    ("an end alone", 0, "end", "malformed 1\n"),
    ("a carriage return that no line end follows", 0, "batch as #3\nend\r", "truncated\n"),
    ("of two carriage returns one is dropped", 0, "batch as #3\nend\r\r\n", "truncated\n"),
    ("a carriage return inside a line", 0, "batch as #3\nmax_\robject()\nend\n", "malformed 2\n"),
    ("a batch sent twice with its number", 0, text_of(["create(#1)"], "#3 at 0") * 2, accepted(1, "#4") + "stale 1\n"),
    (
        "behind a malformed batch the next one goes on", 0, text_of(["creat(#1)"]) + text_of(["max_object()"]),
        "malformed 2\n" + accepted(1, "#3")
    ),
    ("a batch without its end", 0, "batch as #3\ncreate(#1)\n", "truncated\n"),
    (
        "the first bad line is told, and blank lines are counted", 0,
        "batch as #3\n\ncreat(#1)\nx\nend\nbatch as #3\nmax_object()\nend\n", "malformed 3\n" + accepted(1, "#3"),
    ),
    *(
        (f"no header: {header}", 0, f"{header}\nend\n", "malformed 1\n")
        for header in [
            "Batch as #3", "batch #3", "batch as 3", "batch as # 3", "batch as #2147483648", "batch as #3 at", "batch as #3 at -1",
            "batch as #3 at 1 x",
            "batch as #3 at 9223372036854775808", "batch as #3 at 00000000000000000007", "batch as", "batch As #3", "batch as #3 At 1",
            "batchas #3",
            "batch as #3at 1", "batch as #3 at +1", "batch as #3 at 0x1", "batch as E_PERM", "batch as #3, at 1", "batch as #-2147483649",
            "batch as #",
        ]
    ),
    (
        "the greatest number", GREATEST, f"batch as #3 at {GREATEST}\nend\nbatch as #3 at {GREATEST - 1}\nend\n",
        f"full 0\nstale {GREATEST}\n"
    ),
    ("the one before it", GREATEST - 1, f"batch as #3 at {GREATEST - 1}\nend\n", accepted(GREATEST)),
    ("a number of nineteen digits with zeros", 7, "batch as #3 at 0000000000000000007\nend\n", accepted(8)),
    ("no call may be END", 0, "batch as #3\nEND\nend\n", "malformed 2\n"),
    ("a malformed batch without its end", 0, "batch as #3\ncreat(#1)\n", "truncated\n"),
    ("no header, and no end", 0, "x\n\n", "truncated\n"),
    ("a form feed is no blank", 0, "batch as #3\n\f\nend\n\f\nend\n", "malformed 2\nmalformed 1\n"),
    ("a line of zero bytes", 0, "batch as #3\n\0\nend\nbatch as #3\0\nend\n", "malformed 2\nmalformed 1\n"),
    ("what is no ASCII", 0, "batch as #3\nget(#1, \"n\u00e4me\")\nend\n", "malformed 2\n"),
    (
        "all of these at once", 0, "\nbatch as #3\r\nmax_object()\r\nend\nx\nend\nbatch as #2 at 1\nend",
        accepted(1, "#3") + "malformed 1\n" + accepted(2)
    ),
]
# What is shown, the front of a text, what it repeats so many times, its back, and the replies.
LIMITS = [
    ("a call of 262,144 bytes", "batch as #3\nmax_object(", " ", 262132, ")\nend\n", accepted(1, "#3")),
    ("and a carriage return", "batch as #3\nmax_object(", " ", 262132, ")\r\nend\n", accepted(1, "#3")),
    ("a call of one more", "batch as #3\nmax_object(", " ", 262133, ")\nend\n", "malformed 2\n"),
    ("a blank line of 262,144 bytes", "batch as #3\n", " ", 262144, "\nend\n", accepted(1)),
    ("one that is longer is none", "batch as #3\n", " ", 262145, "\nend\n", "malformed 2\n"),
    ("an end of 262,144 bytes", "batch as #3\nend", " ", 262141, "\nend\n", accepted(1) + "malformed 1\n"),
    ("one that is longer is none either", "batch as #3\nend", " ", 262142, "\nend\n", "malformed 2\n"),
    ("a header of 262,144 bytes", "batch as #3", " ", 262133, "\nend\n", accepted(1)),
    ("a longer one is no header", "batch as #3", " ", 262134, "\nend\n", "malformed 1\n"),
    ("a line of a million bytes", "batch as #3\nmax_object()\n", "x", 1000000, "\nend\nbatch as #3\nend\n", "malformed 3\n" + accepted(1)),
    ("1,000 calls", "batch as #3\n", "max_object()\n", 1000, "end\n", accepted(1, *["#3"] * 1000)),
    ("1,001 calls", "batch as #3\n", "max_object()\n", 1001, "end\n", "malformed 1002\n"),
    ("1,000 calls and blank lines", "batch as #3\n", "max_object()\n\n", 1000, "\nend\n", accepted(1, *["#3"] * 1000)),
]
# Pieces, each of which one reading gives; the empty one is an end of input as a terminal gives it.
ENDS = [
    ("a line ends there", [b"ab", b"", b"c\n"], "truncated\n"),
    ("so does the end of a batch", [b"batch as #3\nend", b"", b"x\nbatch as #2\nend\n"], accepted(1)),
    ("so does a call", [b"batch as #3\nmax_obj", b"", b"ect()\nend\n"], "truncated\n"),
    ("so does a header", [b"batch as #3\nend\nbatch as", b"", b" #2\nend\n"], accepted(1) + "truncated\n"),
    ("an end in two pieces", [b"batch as #3\n", b"en", b"d", b""], accepted(1)),
    ("nothing before it", [b"", b"batch as #3\nend\n"], ""),
]
# A call, and what comes of it for the wizard in a new world: the count of its arguments, and then their types, are looked at first.
CALLS = [
    ("max_object()", "#3"), ('\tCreate ( #1 ,{1, {"a)"}} ) ', "E_TYPE"), ('get(#1,"a\\"b,c")', "E_PROPNF"),
    ("set(#-1, E_PERM, 007)", "E_TYPE"),
    ("max_object(1)", "E_ARGS"), ("get(#1)", "E_ARGS"), ("MAX_OBJECT ( )", "#3"),
]
NO_CALLS = [
    "", "max_object", "max_object(", "max_object() x", "max object()", "create(#1,)", "create(,#1)", "create(#1 #2)", "create(# 1)",
    "max_objects()", "(#1)",
    "max_object)", "max_object())", "create(#1", "create{#1}", "create(#1))", "create(#1);", "create(x)",
]
NO_OBJECTS = ["", "7", "# 7", "#7 ", " #7", "#2147483648", "#", "#-", "#7x", "{#7}"]


def written(pieces, stream, *words):
    """The program, whose standard input is a socket that gives it piece by piece what is sent."""
    ours, theirs = socket.socketpair(socket.AF_UNIX, stream)
    with theirs:
        ran = start([MOO, *words], stdin=theirs, stdout=subprocess.PIPE, stderr=subprocess.DEVNULL)
    try:
        for piece in pieces:
            ours.send(piece)
    except (BrokenPipeError, ConnectionResetError):
        # It ended, and no one is there to read what is left.
        pass
    return ours, ran


def in_pieces(pieces, *words):
    """The status of the program, and what it writes, if each of its readings gives one piece."""
    ours, ran = written(pieces, socket.SOCK_SEQPACKET, *words)
    ours.close()
    output, _ = ran.communicate(timeout=PATIENCE)
    return ran.returncode, output.decode()


def pieces_of(text, size):
    return [text[at : at + size] for at in range(0, len(text), size)]


def file_at(seq):
    file = copied("new.db")
    if seq:
        edit(file, ("update head set seq = ?", (seq,)))
    return file


def heard(stream, length):
    """So many bytes of a stream, or fewer if it ends or nothing more comes in time."""
    came = b""
    while len(came) < length and select.select([stream], [], [], PATIENCE)[0]:
        more = os.read(stream.fileno(), length - len(came))
        if not more:
            break
        came += more
    return came.decode()


def told_of_front(count):
    """What a text has that is cut off after so many bytes: its first batch ends with byte 15, its second with byte 53."""
    if count in (0, 15, 16, 17):
        return accepted(1) if count else ""
    if count < 15:
        return "truncated\n"
    return accepted(1) + (accepted(2, '"Root Class"') if count >= 53 else "truncated\n")


def asked(service, programmer, lines):
    """What a question over HTTP is answered."""
    return service.ask(post("/ask", json.dumps({"as": programmer, "calls": lines})))


class Pieces(ProgramTest):
    def setUp(self):
        super().setUp()
        make("new.db")

    def test_texts(self):
        for name, seq, text, replies in TEXTS:
            given = text.encode()
            came = [run("apply", file_at(seq), "-", text=given)]
            came += [in_pieces(pieces_of(given, size), "apply", file_at(seq), "-") for size in (1, 3)]
            if seq == 0:
                came += [in_pieces(pieces_of(given, 1)), run("apply", ":memory:", "-", text=given)]
            self.case(f"{name}: whole, and in pieces of one and of three bytes", came, [(0, replies)] * len(came))

    def test_limits(self):
        for name, front, middle, count, back, replies in LIMITS:
            given = (front + middle * count + back).encode()
            came = [run(text=given)] + [in_pieces(pieces_of(given, size)) for size in (4096, 4095, 1009)]
            self.case(f"{name}: whole, and in pieces", came, [(0, replies)] * len(came))

    def test_ends(self):
        for name, pieces, replies in ENDS:
            self.case(f"where no bytes come, {name}", in_pieces(pieces), (0, replies))

    def test_ends_on_a_terminal(self):
        """An end of input on a terminal is ^D on a line of its own; after other bytes it hands these over first."""
        ours, theirs = new_terminal()
        os.write(ours, b"batch as #3\nmax_object()\nend\x04\x04x\nbatch as #3\nend\n")
        ran = subprocess.run([MOO], stdin=theirs, stdout=subprocess.PIPE, stderr=subprocess.DEVNULL, timeout=PATIENCE)
        os.close(theirs)
        os.close(ours)
        self.case("so it is on a terminal", (ran.returncode, ran.stdout.decode()), (0, accepted(1, "#3")))

    def test_faults(self):
        """A socket whose other side closes with bytes unread gives what was sent, and then an error."""
        for text, replies in [(b"batch as #3\nend\nbatch as", accepted(1)), (b"batch as #3\nend\n", accepted(1)), (b"", "")]:
            ours, theirs = socket.socketpair(socket.AF_UNIX, socket.SOCK_STREAM)
            ours.sendall(text)
            theirs.sendall(b"unread")
            ours.close()
            with theirs:
                ran = subprocess.run([MOO], stdin=theirs, stdout=subprocess.PIPE, stderr=subprocess.DEVNULL, timeout=PATIENCE)
            self.case(
                f"a reading that fails behind {len(text)} bytes", (ran.returncode, ran.stdout.decode()), (1, replies + "moo: read fault\n")
            )

    def test_line_by_line(self):
        """Each reply comes when its batch ends, and not only when the text does."""
        ours, ran = written([], socket.SOCK_STREAM)
        for number in range(1, 4):
            ours.sendall(b"batch as #3\ncreate(#1)\nend\n")
            reply = accepted(number, f"#{number + 3}")
            self.case(f"the reply of batch {number} comes before the next is given", heard(ran.stdout, len(reply)), reply)
        ours.close()
        output, _ = ran.communicate(timeout=PATIENCE)
        self.case("and nothing behind the last", (ran.returncode, output), (0, b""))

    def test_cuts(self):
        text = b'batch as #3\nend\n\nbatch as #2 at 1\nget(#1, "name")\nend\n'
        self.case("a text of two batches", len(text), 54)
        for count in range(55):
            came = [run(text=text[:count]), in_pieces(pieces_of(text[:count], 1))]
            self.case(f"its first {count} bytes: whole, and byte by byte", came, [(0, told_of_front(count))] * 2)

    def test_cuts_of_a_file(self):
        text = b"batch as #3 at 0\ncreate(#1)\nend\n"
        self.case("a batch of 32 bytes", len(text), 32)
        opening = rows_of("new.db")
        for count in range(33):
            replies = ("" if count == 0 else "truncated\n") if count < 31 else accepted(1, "#4")
            file = file_at(0)
            came = run("apply", file, "-", text=text[:count])
            stays = rows_of(file) == opening
            again = run("apply", file, "-", text=text)
            wanted = (0, replies), count < 31, (0, accepted(1, "#4") if count < 31 else "stale 1\n")
            self.case(f"its first {count} bytes act wholly or not at all, and the whole acts once", (came, stays, again), wanted)

    def test_replies(self):
        """Each kind of reply that a text brings, on a world whose last object has the greatest number."""
        file = copied("new.db")
        value = '{#4, {1, "a"}, "\\"\\\\", E_PERM, -5, {}}'
        run("apply", file, "-", text=text_of([f'add_property(#1, "v", {value}, {{#3, "r"}})']))
        edit(file, "update head set top = 2147483647")
        batches = [
            (text_of(["max_object()", 'get(#1, "v")', 'get(#1, "name")']), accepted(2, "#2147483647", value, '"Root Class"')),
            (text_of(["valid(#1)", "create(#99)"]), "refused 2 E_PERM\n"),
            (text_of(["valid(#1)", "valid(#1)", "create(#1)"]), "full 3\n"),
            (text_of([]) * 2, accepted(3) + accepted(4)),
            (text_of([], "#3 at 5"), "stale 4\n"),
            (text_of(["", "", "", "x"]), "malformed 5\n"),
            ("batch as #3\n", "truncated\n"),
        ]
        given, wanted = ("".join(parts) for parts in zip(*batches))
        self.case("the lines of each reply", run("apply", file, "-", text=given), (0, wanted))

    def test_want_of_memory(self):
        """Answers of 60 MB in 32 MB of memory: their batch alone is lost."""
        file, value = file_at(0), "x" * 60000
        batches = [
            (text_of(["create(#1)", f'add_property(#4, "v", "{value}", {{#3, "r"}})']), accepted(1, "#4", "0")),
            (text_of(['set(#4, "name", "Lantern")', *['get(#4, "v")'] * 999]), "nomemory\n"),
            (text_of(['get(#4, "name")'], "#3 at 1"), accepted(2, '""')),
        ]
        given, wanted = ("".join(parts) for parts in zip(*batches))
        self.case("where memory runs out in a batch", run("apply", file, "-", text=given, memory=1 << 25), (0, wanted))
        self.case("it changed nothing", (run("check", file), rows_of(file)["object"][4][1]), ((0, "ok seq 2 objects 5\n"), ""))
        self.case("with more memory it is done", run("apply", file, "-", text=batches[1][0]), (0, accepted(3, "0", *[f'"{value}"'] * 999)))

    def test_calls(self):
        """A line alone, in a text and over HTTP, which skips no blank lines."""
        service = Service(MOO, ":memory:", len(CALLS) + len(NO_CALLS) + len(NO_OBJECTS) + 1)
        for line, came in CALLS:
            refused = came.startswith("E_")
            self.case(f"the call {line!r}", run(text=text_of([line])), (0, f"refused 1 {came}\n" if refused else accepted(1, came)))
            wanted = ("409 Conflict", f'{{"call":1,"error":"{came}"}}') if refused else ("200 OK", f'{{"answers":["{came}"],"seq":0}}')
            self.case(f"the call {line!r} over HTTP", asked(service, "#3", [line]), answer(*wanted))
        for line in NO_CALLS:
            self.case(f"no call is {line!r}", run(text=text_of([line])), (0, "malformed 2\n" if line else accepted(1)))
            wanted = answer("400 Bad Request", '{"call":1,"error":"malformed"}')
            self.case(f"nor is {line!r} over HTTP", asked(service, "#3", [line]), wanted)
        self.objects(service)
        self.case("and that was all", service.end()[0], 0)

    def objects(self, service):
        refused = answer("409 Conflict", '{"call":1,"error":"E_PERM"}')
        self.case("a programmer of a number below 0", run(text=text_of(["max_object()"], "#-7")), (0, "refused 1 E_PERM\n"))
        self.case("the same over HTTP", asked(service, "#-7", ["max_object()"]), refused)
        for word in NO_OBJECTS:
            self.case(
                f"no programmer is {word!r} over HTTP", asked(service, word, []), answer("400 Bad Request", '{"error":"bad request"}')
            )
            # In a text blanks may surround the word.
            self.case(
                f"the word {word!r} as the programmer of a text",
                run(text=text_of([], word)),
                (0, accepted(1) if word.strip() == "#7" else "malformed 1\n"),
            )
