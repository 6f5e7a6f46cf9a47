"""Values as they are written: which bytes are values, and how long and deep they may be. Here are the bytes that no scene can hold."""
import json

from tests.support.cases import ProgramTest
from tests.support.processes import seconds_of_children
from tests.support.program import MOO, edit, run_bytes
from tests.support.service import Service, answer, post

LONGEST = 65535

# What a value is written as, and printed as; None if it isn't a value.
BLANKS = [
    ("blanks may stand round a value", "\t 5 ", "5"),
    ("and in a list", ' { \t1 ,\t#-1 , "a b"\t,E_Args, { \t}\t}', '{1, #-1, "a b", E_ARGS, {}}'),
    ("but no word behind it", ' { \t1 ,\t#-1 , "a b"\t,E_Args, { \t}\t} x', None),
    ("blanks alone are no value", " \t", None),
    ("a string may hold a tab", '"a\tb"', '"a\tb"'),
]
BAD_BYTES = [
    ("a line end is no blank", "\n1", None),
    ("a string holds no line end", '"a\nb"', None),
    ("nor a byte 0", '"a\0b"', None),
    ("nor a byte 127", '"a\x7fb"', None),
    ("nor one behind a backslash", '"a\\\x7fb"', None),
    ("a bad byte before a number out of range", '{"\n", 9223372036854775808}', None),
    ("and behind one", '{9223372036854775808, "\n"}', None),
]
LENGTHS = [
    ("a string of the greatest length", f'"{"a" * LONGEST}"', f'"{"a" * LONGEST}"'),
    ("one more byte", f'"{"a" * (LONGEST + 1)}"', None),
    ("so many letters behind backslashes", '"' + "\\a" * LONGEST + '"', f'"{"a" * LONGEST}"'),
    ("one more letter behind a backslash", '"' + "\\a" * (LONGEST + 1) + '"', None),
    ("so many backslashes", '"' + "\\\\" * LONGEST + '"', '"' + "\\\\" * LONGEST + '"'),
    ("one more backslash", '"' + "\\\\" * (LONGEST + 1) + '"', None),
    ("a line end behind so many letters", f'"{"a" * LONGEST}\n"', None),
    ("a line end behind one more", f'"{"a" * (LONGEST + 1)}\n"', None),
    ("20,000 strings in a list", "{" + ", ".join(['"abcdefghi"'] * 20000) + "}", "{" + ", ".join(['"abcdefghi"'] * 20000) + "}"),
]


ARGS = '{"any", "in", "this"}'

# Calls on a new world, and their answers. A verb's names are between spaces, and a tab isn't one.
TABS = [
    (
        "a tab is a letter of a verb's name",
        [f'add_verb(#1, {{#3, "r", "get\ttake"}}, {ARGS})', 'verb_info(#1, "GET\tTAKE")'],
        ["0", '{#3, "r", "get\ttake"}'],
    ),
    ("a tab alone is a name", [f'add_verb(#1, {{#3, "r", "\t"}}, {ARGS})', "verbs(#1)"], ["0", '{"\t"}']),
    ("and between spaces", [f'add_verb(#1, {{#3, "r", " \t "}}, {ARGS})', "verbs(#1)"], ["0", '{" \t "}']),
]


def accepted(*answers):
    return "\n".join(["accepted 1", *answers, "end", ""]).encode()


def reply_over_http(calls, programmer="#3"):
    """What a new world answers to one batch."""
    service = Service(MOO, ":memory:", 1)
    came = service.ask(post("/batch", json.dumps({"as": programmer, "calls": calls})))
    service.end()
    return came


def json_of(body):
    return json.dumps(body, separators=(",", ":"))


def is_of_string(byte):
    return byte == 9 or 32 <= byte <= 126


def string_with(byte):
    return b'"\\' + bytes([byte]) + b'"' if byte in b'"\\' else b'"' + bytes([byte]) + b'"'


def bytes_told(front, are_strings):
    """For each byte a batch that sets a string of what comes before it and itself, and what is replied to all of them."""
    texts, replies = [b'batch as #3\nadd_property(#1, "v", 0, {#3, ""})\nend\n'], [b"accepted 1\n0\nend\n"]
    count = 1
    for byte in range(256):
        texts.append(b'batch as #3\nset(#1, "v", "' + front + bytes([byte]) + b'")\nget(#1, "v")\nend\n')
        if are_strings(byte):
            count += 1
            replies.append(b"accepted %d\n0\n%s\nend\n" % (count, string_with(byte)))
        else:
            replies.append(b"malformed 2\n")
    return b"".join(texts), (0, b"".join(replies))


# What the cell of a value holds, and whether it is one.
CELLS = [
    ("two long strings of backslashes in a list", "{" + ", ".join(['"' + "\\\\" * LONGEST + '"'] * 2) + "}", True),
    ("a string that is too long", '"' + "a" * (LONGEST + 1) + '"', False),
    ("32 lists, one in the other", "{" * 32 + "}" * 32, True),
    ("33 lists, one in the other", "{" * 33 + "}" * 33, False),
    ("a string with a line end", '"a\nb"', False),
    ("the greatest integer", "9223372036854775807", True),
    ("the least integer", "-9223372036854775808", True),
    ("an integer out of range", "9223372036854775808", False),
    ("the number of an object out of range", "#2147483648", False),
]


# What is called by whom on a new world, and replied.
CALLS = [
    ("an accept list of 1,000 objects", "#3", f"set_accept(#1, {{{', '.join(['#1'] * 1000)}}})", "accepted"),
    ("an accept list of 1,001", "#3", f"set_accept(#1, {{{', '.join(['#1'] * 1001)}}})", "E_INVARG"),
    ("the same by somebody without a right", "#2", f"set_accept(#1, {{{', '.join(['#1'] * 1001)}}})", "E_PERM"),
    ("a name of no byte", "#3", 'add_property(#1, "", 0, {#3, ""})', "E_INVARG"),
    ("a name of 1 byte", "#3", 'add_property(#1, "a", 0, {#3, ""})', "accepted"),
    ("a name of 255 bytes", "#3", f'add_property(#1, "{"a" * 255}", 0, {{#3, ""}})', "accepted"),
    ("a name of 256 bytes", "#3", f'add_property(#1, "{"a" * 256}", 0, {{#3, ""}})', "E_INVARG"),
]


class Literals(ProgramTest):
    def test_read_and_printed(self):
        """Each value is given to a property, and read from it."""
        for name, written, printed in BLANKS + BAD_BYTES + LENGTHS:
            calls = [f'add_property(#1, "v", {written}, {{#3, ""}})', 'get(#1, "v")']
            text = "\n".join(["batch as #3", *calls, "end", ""]).encode()
            if printed is None:
                replied, responded = b"malformed 2\n", answer("400 Bad Request", '{"call":1,"error":"malformed"}')
            else:
                replied, responded = accepted("0", printed), answer("200 OK", json_of({"answers": ["0", printed], "seq": 1}))
            began = seconds_of_children()
            self.case(f"{name}, in a text", run_bytes("apply", ":memory:", "-", text=text), (0, replied))
            self.case(f"{name}, over HTTP", reply_over_http(calls), responded)
            # Bytes that are read again for each item or each byte take far longer. It is the time on the processors, which may be busy.
            if len(written) > LONGEST:
                self.case(f"{name}, within five seconds", seconds_of_children() - began < 5, True)

    def test_tabs_in_names(self):
        for name, calls, answers in TABS:
            text = "\n".join(["batch as #3", *calls, "end", ""]).encode()
            self.case(f"{name}, in a text", run_bytes("apply", ":memory:", "-", text=text), (0, accepted(*answers)))
            self.case(f"{name}, over HTTP", reply_over_http(calls), answer("200 OK", json_of({"answers": answers, "seq": 1})))
        calls = [f'add_verb(#1, {{#3, "r", "get\ttake"}}, {ARGS})', 'verb_info(#1, "get")']
        self.case("a word before a tab is no name", reply_over_http(calls), answer("409 Conflict", '{"call":2,"error":"E_VERBNF"}'))

    def test_all_bytes(self):
        text, wanted = bytes_told(b"\\", is_of_string)
        self.case(
            "behind a backslash stands each of the 256 bytes that a string may hold", run_bytes("apply", ":memory:", "-", text=text), wanted
        )
        text, wanted = bytes_told(b"", lambda byte: is_of_string(byte) and byte not in b'"\\')
        self.case(
            "a tab and 32 to 126 stand for themselves but a quote and a backslash", run_bytes("apply", ":memory:", "-", text=text), wanted
        )

    def test_bytes_over_http(self):
        """JSON can hold bytes up to 127, which are characters too."""
        service = Service(MOO, ":memory:", 129)
        came = [service.ask(post("/batch", '{"as":"#3","calls":["add_property(#1, \\"v\\", 0, {#3, \\"\\"})"]}'))]
        wanted = [answer("200 OK", '{"answers":["0"],"seq":1}')]
        seq = 1
        for byte in range(128):
            calls = [f'set(#1, "v", "\\{chr(byte)}")', 'get(#1, "v")']
            came.append(service.ask(post("/batch", json.dumps({"as": "#3", "calls": calls}))))
            if is_of_string(byte):
                seq += 1
                wanted.append(answer("200 OK", json_of({"answers": ["0", string_with(byte).decode()], "seq": seq})))
            else:
                wanted.append(answer("400 Bad Request", '{"call":1,"error":"malformed"}'))
        self.case("so it is over HTTP, up to 127", (came, service.end()), (wanted, (0, "served 129 failed 0\n")))

    def test_cells(self):
        run_bytes("init", "cell.db")
        run_bytes("apply", "cell.db", "-", text=b'batch as #3\nadd_property(#1, "v", 0, {#3, "r"})\nend\n')
        for name, written, is_value in CELLS:
            edit("cell.db", f"update slot2 set value = '{written}' where object = 1")
            came = run_bytes("ask", "cell.db", "-", text=b'batch as #3\nget(#1, "v")\nend\n')
            self.case(f"{name}, in a file", came, (0, accepted(written)) if is_value else (3, b"moo: damaged bad-cell #1 p1\n"))

    def test_greatest_lengths(self):
        for name, programmer, call, comes_to in CALLS:
            if comes_to == "accepted":
                replied, responded = accepted("0"), answer("200 OK", '{"answers":["0"],"seq":1}')
            else:
                replied, responded = f"refused 1 {comes_to}\n".encode(), answer("409 Conflict", f'{{"call":1,"error":"{comes_to}"}}')
            text = f"batch as {programmer}\n{call}\nend\n".encode()
            self.case(f"{name}, in a text", run_bytes("apply", ":memory:", "-", text=text), (0, replied))
            self.case(f"{name}, over HTTP", reply_over_http([call], programmer), responded)
