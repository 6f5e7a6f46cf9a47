"""Texts of batches on a new world, run by `moo` and by `moo apply :memory: -`: what is replied, and how long they may be."""
import json
import os
import subprocess

from tests.support.cases import ProgramTest
from tests.support.program import MOO, edit, run_bytes
from tests.support.service import PATIENCE, Service, answer, post

APPLY = ("apply", ":memory:", "-")
THIRD = b"accepted 1\n#3\nend\n"
EMPTY = b"accepted 1\nend\n"
LONGEST_TEXT = 1073741824

TEXTS = [
    ("the first batch makes an object", b"batch as #3\ncreate(#1)\nend\n", b"accepted 1\n#4\nend\n"),
    ("a batch without calls is accepted, whoever is named", b"batch as #9\nend\n", EMPTY),
    ("a batch with a number acts once", b"batch as #3 at 0\ncreate(#1)\nend\n" * 2, b"accepted 1\n#4\nend\nstale 1\n"),
    ("without one it acts twice", b"batch as #3\ncreate(#1)\nend\n" * 2, b"accepted 1\n#4\nend\naccepted 2\n#5\nend\n"),
    ("a text that ends before the batch does is truncated", b"batch as #3\ncreate(#1)\n", b"truncated\n"),
    ("so is one that ends before a line that is none", b"batch as #3\ncreat(#1)\n", b"truncated\n"),
    ("so is one without a header", b"x\n\n", b"truncated\n"),
    (
        "an unknown call makes its batch malformed, and no other", b"batch as #3\ncreat(#1)\nend\nbatch as #3\nmax_object()\nend\n",
        b"malformed 2\n" + THIRD
    ),
    (
        "a refused batch changes nothing", b"batch as #3\ncreate(#1)\ncreate(#9)\nend\nbatch as #3\nmax_object()\nend\n",
        b"refused 2 E_PERM\n" + THIRD
    ),
    (
        "a name is set and read in any case", b'batch as #3\nset(#1, "name", "Root")\nget(#1, "Name")\nend\n',
        b'accepted 1\n0\n"Root"\nend\n'
    ),
    ("lines end with or without a carriage return", b"\r\n \t\r\nbatch as #3\r\nmax_object()\r\nend\r\n", THIRD),
    (
        "blanks may stand round every word",
        b"\n  batch \t as  #3  at\t0  \n\n\t max_object ( ) \n   \n create( #1 , #3 ) \n end \t\n\n",
        b"accepted 1\n#3\n#4\nend\n",
    ),
    ("a blank line in a batch is counted", b"batch as #3\n\n\ncreat(#1)\nend\n", b"malformed 4\n"),
    ("no text has no batch", b"", b""),
    ("nor have blank lines", b" \t\n\n", b""),
    ("a batch without a call", b"batch as #3\nend\n", EMPTY),
    (
        "blank lines may stand before, in and between batches, and the last line needs no end",
        b"\n \t\nbatch as #3\n\n\tmax_object()\n \nend\n\n\nbatch as #2 at 5\nend",
        THIRD + b"stale 1\n",
    ),
    ("carriage returns on each line of a batch", b"batch as #3\r\nmax_object()\r\nend\r\n", THIRD),
    ("blanks and tabs round a number", b"\t batch \t as  #3  at\t7 \n end\t\n", b"stale 0\n"),
    ("zeros before a programmer, and a sign", b"batch as #007\nend\nbatch as #-1\nend\n", EMPTY + b"accepted 2\nend\n"),
    ("#003 is #3", b"batch as #003\nmax_object()\nend\n", THIRD),
    ("#-7 is nobody", b"batch as #-7\nmax_object()\nend\n", b"refused 1 E_PERM\n"),
    ("an end in a header's place is a malformed batch by itself", b" end \nbatch as #3\nend\n", b"malformed 1\n" + EMPTY),
    ("even as the last line", b"end", b"malformed 1\n"),
    ("a carriage return is dropped before a line end alone", b"batch as #3\nend\r", b"truncated\n"),
    ("and one alone", b"batch as #3\nend\r\r\n", b"truncated\n"),
    (
        "the first bad line is told, and the next batch goes on",
        b"batch as #3\n\ncreat(#1)\nx\nend\nbatch as #3\nmax_object()\nend\n",
        b"malformed 3\n" + THIRD,
    ),
    ("batch is read in small letters", b"Batch as #3\nend\n", b"malformed 1\n"),
    ("a header has an as", b"batch #3\nend\n", b"malformed 1\n"),
    ("a programmer is an object", b"batch as 3\nend\n", b"malformed 1\n"),
    ("with its number behind its sign", b"batch as # 3\nend\n", b"malformed 1\n"),
    ("and within 32 bits", b"batch as #2147483648\nend\n", b"malformed 1\n"),
    ("a header names one", b"batch as\nend\n", b"malformed 1\n"),
    ("an at has a number", b"batch as #3 at\nend\n", b"malformed 1\n"),
    ("which has no sign", b"batch as #3 at -1\nend\n", b"malformed 1\n"),
    ("and stands last", b"batch as #3 at 1 x\nend\n", b"malformed 1\n"),
    ("the greatest number", b"batch as #3 at 9223372036854775807\nend\n", b"stale 0\n"),
    ("one more is none", b"batch as #3 at 9223372036854775808\nend\n", b"malformed 1\n"),
    ("a number of 19 digits", b"batch as #3 at 0000000000000000007\nend\n", b"stale 0\n"),
    ("one of 20 is none", b"batch as #3 at 00000000000000000007\nend\n", b"malformed 1\n"),
    ("end is read in small letters", b"batch as #3\nEND\nend\n", b"malformed 2\n"),
    ("a batch of 1,000 calls", b"batch as #3\n" + b"max_object()\n" * 1000 + b"end\n", b"accepted 1\n" + b"#3\n" * 1000 + b"end\n"),
    ("a batch of 1,001", b"batch as #3\n" + b"max_object()\n" * 1001 + b"end\n", b"malformed 1002\n"),
    ("a line of 262,144 bytes", b"batch as #3\nmax_object(" + b" " * 262132 + b")\nend\n", THIRD),
    ("whose end may have a carriage return", b"batch as #3\nmax_object(" + b" " * 262132 + b")\r\nend\n", THIRD),
    ("a line of 262,145", b"batch as #3\nmax_object(" + b" " * 262133 + b")\nend\n", b"malformed 2\n"),
    ("a blank line of 262,144 bytes", b"batch as #3\n" + b" " * 262144 + b"\nend\n", EMPTY),
    ("one of 262,145 isn't blank", b"batch as #3\n" + b" " * 262145 + b"\nend\n", b"malformed 2\n"),
    ("an end of 262,144 bytes", b"batch as #3\nend" + b" " * 262141 + b"\nend\n", EMPTY + b"malformed 1\n"),
    ("one of 262,145 is none", b"batch as #3\nend" + b" " * 262142 + b"\nend\n", b"malformed 2\n"),
]

# A call's line on a new world: a text has its reply, and HTTP the same word. None if the line isn't a call.
CALLS = [
    ("a call without arguments", "max_object()", "#3"),
    ("a call with two, and blanks", '\tCreate ( #1 ,{1, {"a)"}} ) ', "E_TYPE"),
    ("a comma in a string parts nothing", 'get(#1,"a\\"b,c")', "E_PROPNF"),
    ("a call with three", "set(#-1, E_PERM, 007)", "E_TYPE"),
    ("a word alone", "max_object", None),
    ("a bracket that isn't closed", "max_object(", None),
    ("a word behind the bracket", "max_object() x", None),
    ("two words", "max object()", None),
    ("no argument behind a comma", "create(#1,)", None),
    ("no argument before a comma", "create(,#1)", None),
    ("no comma between two", "create(#1 #2)", None),
    ("a blank in an object", "create(# 1)", None),
    ("no call", "", None),
]

# Who asks, in the body of a request.
PROGRAMMERS = [("#-7", True), ("#3", True), ("", False), ("7", False), ("# 7", False), ("#7 ", False), ("#2147483648", False)]


def comes_to(outcome):
    """The reply of a text to one call, and the response of HTTP."""
    if outcome is None:
        return b"malformed 2\n", answer("400 Bad Request", '{"call":1,"error":"malformed"}')
    if outcome.startswith("E_"):
        return f"refused 1 {outcome}\n".encode(), answer("409 Conflict", f'{{"call":1,"error":"{outcome}"}}')
    return f"accepted 1\n{outcome}\nend\n".encode(), answer("200 OK", f'{{"answers":["{outcome}"],"seq":1}}')


def requests(bodies):
    """The responses of a new world to some bodies."""
    service = Service(MOO, ":memory:", len(bodies))
    came = [service.ask(post("/batch", json.dumps(body))) for body in bodies]
    service.end()
    return came


# Words, the status, and what is written; None if it is any text.
WORDS = [
    ("init :memory:", 0, b"created\n"),
    ("check :memory:", 0, b"ok seq 0 objects 4\n"),
    ("apply :memory: no/such/batches", 1, b"moo: read fault\n"),
    ("ask :memory: no/such/batches", 1, b"moo: read fault\n"),
    ("sing", 2, None),
    ("apply :memory:", 2, None),
    ("serve :memory: 0 1", 2, None),
    ("--help", 0, None),
    ("--version", 0, None),
]


class Texts(ProgramTest):
    def test_texts(self):
        for name, text, replies in TEXTS:
            self.case(name, run_bytes(*APPLY, text=text), (0, replies))
            self.case(f"{name}, without words", run_bytes(text=text), (0, replies))

    def test_calls(self):
        for name, line, outcome in CALLS:
            reply, response = comes_to(outcome)
            # A blank line of a text is skipped.
            if line:
                self.case(f"{name}: {line.strip()}", run_bytes(*APPLY, text=f"batch as #3\n{line}\nend\n".encode()), (0, reply))
            self.case(f"{name}, over HTTP: {line.strip()}", requests([{"as": "#3", "calls": [line]}]), [response])

    def test_programmers(self):
        for word, is_one in PROGRAMMERS:
            wanted = answer("200 OK", '{"answers":[],"seq":1}') if is_one else answer("400 Bad Request", '{"error":"bad request"}')
            self.case(f"'{word}' is {'one' if is_one else 'none'} who asks over HTTP", requests([{"as": word, "calls": []}]), [wanted])

    def test_reader_that_fails(self):
        """A pipe that has no more bytes but isn't closed, and doesn't wait, is an error of its reader."""
        output, given = os.pipe()
        os.write(given, b"batch as #3\nend\nbatch as")
        os.set_blocking(output, False)
        ran = subprocess.run([MOO, *APPLY], stdin=output, stdout=subprocess.PIPE, stderr=subprocess.DEVNULL, timeout=PATIENCE)
        os.close(given)
        os.close(output)
        self.case("behind a reader that fails stand the replies before it", (ran.returncode, ran.stdout), (1, EMPTY + b"moo: read fault\n"))

    def test_long_texts(self):
        """Files of the greatest length, and one byte longer, whose bytes after their front are holes."""
        for name, front, over, wanted in [
            ("a text of 1,073,741,824 bytes", b"end\n", 0, (0, b"malformed 1\ntruncated\n")),
            ("one byte more", b"end\n", 1, (1, b"malformed 1\nmoo: input too long\n")),
            ("without a whole batch", b"", 1, (1, b"moo: input too long\n")),
        ]:
            with open("long.txt", "wb") as text:
                text.write(front)
                text.truncate(LONGEST_TEXT + over)
            self.case(name, run_bytes("apply", ":memory:", "long.txt"), wanted)
        os.remove("long.txt")

    def test_numbers(self):
        """A number that is the world's own is found, however it is written."""
        for written, number in [("7", 7), ("0000000000000000007", 7), ("9223372036854775806", 9223372036854775806)]:
            if os.path.exists("number.db"):
                os.remove("number.db")
            run_bytes("init", "number.db")
            edit("number.db", f"update head set seq = {number}")
            reply = f"accepted {number + 1}\nend\n".encode()
            self.case(f"at {written}", run_bytes("apply", "number.db", "-", text=f"batch as #3 at {written}\nend\n".encode()), (0, reply))

    def test_words(self):
        for line, status, written in WORDS:
            came = run_bytes(*line.split())
            self.case(
                f"moo {line}", (came[0], came[1] if written is not None else bool(came[1])), (status, True if written is None else written)
            )
        batch = b"batch as #3\ncreate(#1)\nend\n"
        self.case("a question changes nothing", run_bytes("ask", ":memory:", "-", text=batch * 2), (0, b"accepted 0\n#4\nend\n" * 2))
