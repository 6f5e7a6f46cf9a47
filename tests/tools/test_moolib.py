"""The package tools/moolib: values and calls by the grammar of docs/CALLS.md, the client over HTTP on broken services, and what pip gets."""

from __future__ import annotations

import json
import os
import pathlib
import random
import re
import socket
import subprocess
import sys
import tempfile
import threading
import time
import unittest
from typing import Any, Optional

from tests.support.program import TOP, ended
from tests.support.worlds import make

import moo_client
from moolib import calls, errors, values
from moolib.begun import known_name, read_begun
from moolib.calls import Call, NoCall, read_about, read_or_none
from moolib.errors import LostAnswer, NoService, Stranger, TooLong, Unreachable, Unsure
from moolib.service import Patience, Service, batch_body
from moolib.values import ErrorValue, Name, Obj, TooGreat, cut_at_objects, read, written

SEED, COUNT = int(os.environ.get("SEED", 20)), 400
PAGE = (TOP / "docs/CALLS.md").read_text()
# Of the manual's table, a name each with what is between its brackets.
TABLE = re.findall(r"^\| `([a-z_]+)\((.*?)\)` \|", PAGE, re.MULTILINE)
SECONDS = 20.0


def any_value(chance: random.Random, depth: int = 0) -> Any:
    """Any value that a world may hold."""
    kind = chance.randrange(5 if depth < 4 else 4)
    if kind == 0:
        return chance.choice([0, -1, 7, 2**63 - 1, -(2**63)])
    if kind == 1:
        return Obj(chance.choice([0, -1, 4, 2**31 - 1, -(2**31)]))
    if kind == 2:
        return ErrorValue(chance.choice(values.ERRORS))
    if kind == 3:
        return "".join(chance.choice('ab {},()#"\\\t-1~') for _ in range(chance.randrange(12)))
    return [any_value(chance, depth + 1) for _ in range(chance.randrange(4))]


class Grammar(unittest.TestCase):
    """What is a value and what is a call: the program and the package agree."""

    def test_what_the_page_says(self) -> None:
        for text, value in (("#4", Obj(4)), ('"with \\"quotes\\""', 'with "quotes"'), ("E_PERM", ErrorValue("E_PERM")),
                            ('{1, {#2, "a"}}', [1, [Obj(2), "a"]]), ('"\\n"', "n")):  # fmt: skip
            with self.subTest(text):
                self.assertIn(f"`{text}`", PAGE)
                self.assertEqual(read(text), value)

    def test_what_is_written_is_read(self) -> None:
        chance = random.Random(SEED)
        for _ in range(COUNT):
            value = any_value(chance)
            self.assertEqual(read(written(value)), value)
            self.assertEqual(read(f" \t{written(value)} "), value)
            call = Call("set", (Obj(1), "name", value))
            self.assertEqual(Call.read(str(call)), call)
            self.assertEqual(Call.of(["SET", Obj(1), "name", value]), call)

    def test_the_greatest(self) -> None:
        deepest = "{" * 32 + "}" * 32
        for text in ("9223372036854775807", "-9223372036854775808", "#2147483647", "#-2147483648", f'"{"x" * 65535}"', deepest):
            with self.subTest(text[:40]):
                self.assertEqual(written(read(text)), text)
        for text in ("9223372036854775808", "-9223372036854775809", "#2147483648", "9" * 5000, f'"{"x" * 65536}"', f"{{{deepest}}}"):
            with self.subTest(text[:40]), self.assertRaises(TooGreat):
                read(text)
        for value in (2**63, Obj(2**31), "x" * 65536):
            with self.subTest(str(value)[:40]), self.assertRaises(TooGreat):
                written(value)

    def test_the_calls_of_the_page(self) -> None:
        self.assertEqual(len(TABLE), 34)
        self.assertEqual({name for name, _ in TABLE}, calls.NAMES)
        reading = [name for name, _ in TABLE[: [name for name, _ in TABLE].index("create")]]
        self.assertEqual({*reading, "petitions"}, calls.READING)

    def test_the_errors_of_the_program(self) -> None:
        text = "batch as #3\nadd_property(#1, \"e\", {" + ", ".join(values.ERRORS) + "}, {#3, \"\"})\nget(#1, \"e\")\nend\n"
        with tempfile.TemporaryDirectory() as folder:
            make(str(pathlib.Path(folder) / "world.db"), text)
        self.assertEqual(set(values.ERRORS), set(errors.MANUAL))

    def test_the_program_reads_what_is_read(self) -> None:
        """Texts that were changed in one place: the program says `malformed` to just those that it can't read as calls."""
        chance = random.Random(SEED)
        texts = [self.near_call(chance) for _ in range(COUNT)]
        batches = "".join(f"batch as #3\n{text}\nend\n" for text in texts)
        with tempfile.TemporaryDirectory() as folder:
            file = str(pathlib.Path(folder) / "world.db")
            make(file, "")
            replies = ended("ask", file, "-", text=batches).written
        told = re.findall(r"^(accepted|refused|full|malformed)\b", replies, re.MULTILINE)
        self.assertEqual(len(told), len(texts))
        self.assertGreater(told.count("malformed"), COUNT // 10)
        for text, word in zip(texts, told):
            with self.subTest(text):
                call = read_or_none(text)
                self.assertEqual(call is not None and call.name in calls.NAMES, word != "malformed")

    @staticmethod
    def near_call(chance: random.Random) -> str:
        """A call, or almost one."""
        name = chance.choice(["valid", "Set", "properties", "get", "sing"])
        text = str(Call(name, tuple(any_value(chance, 2) for _ in range(chance.randrange(3)))))
        place = chance.randrange(len(text) + 1)
        change = chance.randrange(4)
        if change == 0:
            return text[:place] + text[place + 1 :]
        if change == 1:
            return text[:place] + chance.choice(' \t{}()#",\\eE_1-+é') + text[place:]
        return text.replace(",", " ,\t") if change == 2 else text


class Calls(unittest.TestCase):
    """What is known of a call once it is read."""

    def test_its_parts(self) -> None:
        call = Call.read(' Set (#4, "na)me", {1})')
        self.assertEqual((call.name, call.values), ("set", (Obj(4), "na)me", [1])))
        self.assertEqual(Call.read("max_object()"), Call("max_object"))
        for text in ("set", "set(#4", "set(#4) x", "set(4 5)"):
            with self.subTest(text), self.assertRaises(NoCall):
                Call.read(text)

    def test_what_it_names_and_makes(self) -> None:
        call = Call.read('Create (#1, #4)')
        self.assertEqual((call.name, call.subject, call.objects, call.makes, call.made("#9")), ("create", 1, {1, 4}, "object", 9))
        call = Call.read('set(#20, "description", {"see #9", {#8, {#7}}})')
        self.assertEqual((call.objects, call.makes, call.made("#9"), call.is_reading), ({20, 8, 7}, "", None, False))
        self.assertEqual((Call.read("players()").subject, Call.read("players()").is_reading), (None, True))

    def test_petitions(self) -> None:
        call = Call.read('petition({{"Move", #4, #2}, {"recycle", #5}, {}, {3}})')
        self.assertEqual(call.asked, [Call("move", (Obj(4), Obj(2))), Call("recycle", (Obj(5),))])
        self.assertEqual((call.objects, call.petition), ({2, 4, 5}, None))
        self.assertEqual([Call.read(text).petition for text in ("GRANT(7)", "decline( 8 )", "grant()", "grant(#7)")], [7, 8, None, None])

    def test_what_is_grave(self) -> None:
        for text in ('set(#4, "Wizard", 1)', "recycle(#4)", "chparent(#1, #2)", "set_player_flag(#4, 1)", 'delete_verb(#4, 1)'):
            self.assertTrue(Call.read(text).is_grave, text)
        for text in ('set(#4, "name", "wizard")', "recycled(#4)", "create(#1)", 'get(#4, "wizard")'):
            self.assertFalse(Call.read(text).is_grave, text)

    def test_what_it_is_about(self) -> None:
        """An object, or a name of the batch; and a property, if the value after that is a text."""
        parts = {
            'set(#5, "name", "a(b")': ("set", Obj(5), "name", 2),
            ' SET ( $room , "say \\"hi\\"" , {1, $x})': ("set", Name("room"), 'say "hi"', 2),
            ' SET ( $room , "say \\"hi\\"" , {1, $})': None,
            ' SET ( $room , "say \\"hi\\"" , {1, 2})': ("set", Name("room"), 'say "hi"', 2),
            "recycle($room)": ("recycle", Name("room"), "", 0),
            "move(#4, #2)": ("move", Obj(4), "", 1),
            "recycle($room": None,
            "recycle($room,)": None,
            "create({#1})": None,
            "players()": None,
            "$room": None,
        }
        for text, expected in parts.items():
            with self.subTest(text):
                call = read_about(text)
                self.assertEqual(call and (call.name, call.subject, call.property, len(call.others)), expected)

    def test_names_in_the_place_of_values(self) -> None:
        """They may be in lists too; in a string they are letters, and elsewhere a call has none."""
        call = calls.read_named('set_property_info($room, "$a", {$_b2, "r"})')
        self.assertEqual(call, calls.NamedCall("set_property_info", (Name("room"), "$a", [Name("_b2"), "r"])))
        self.assertEqual(calls.read_named("Players()"), calls.NamedCall("players", ()))
        for text in ("set($room", "$room", "set($)", "set($1)", "set($room $hall)", "set($room.name)"):
            self.assertIsNone(calls.read_named(text), text)
        for text in ("recycle($room)", "petition({{$room}})"):
            self.assertIsNone(read_or_none(text), text)

    def test_half_a_call(self) -> None:
        """The texts of the values so far, and where they are."""
        for text, texts, is_at_value in (
            ("get(", ("",), True),
            (" GET (", ("",), True),
            ("get(#4, ", ("#4", ""), True),
            ('get(#4, "na', ("#4", '"na'), True),
            ('get(#4, "a, b) {c", ', ("#4", '"a, b) {c"', ""), True),
            ("get({1, {2, 3}, ", ("{1, {2, 3},",), False),
            ("get({1, 2}, ", ("{1, 2}", ""), True),
            ("get(#4)", ("#4",), False),
            ("get( )", (), False),
            ("get(O, {OWNER, PERMS}), put(O)", ("O", "{OWNER, PERMS}"), False),
            ("get(Lamp (old), The Inn)", ("Lamp (old)", "The Inn"), False),
        ):
            with self.subTest(text):
                begun = read_begun(text)
                self.assertEqual(begun and (begun.name, begun.texts, begun.is_at_value), ("get", texts, is_at_value))
        for text in ("get", "", "#4", "(", '"get("', "$a = get("):
            self.assertIsNone(read_begun(text), text)
        whole = 'move(Lamp (old), "The (Inn") // x'
        found = read_begun(whole)
        self.assertEqual(found and whole[found.begin : found.end], 'Lamp (old), "The (Inn"')

    def test_calls_without_brackets(self) -> None:
        for text, name in (("Grant 3", "grant"), ("grant(3", "grant"), ("granted 3", ""), ("#4 grant", ""), ("", "")):
            self.assertEqual(known_name(text), name, text)

    def test_the_name_of_a_call_alone(self) -> None:
        for text, name in ((" Create\t", "Create"), ("create(", ""), ("create #1", ""), ("1", ""), ("", ""), ("é", "")):
            self.assertEqual(calls.bare_name(text), name, text)

    def test_objects_in_a_text(self) -> None:
        self.assertEqual(cut_at_objects('f(#4, "#5\\"", {#-1})'), ["f(", "#4", ", ", '"#5\\""', ", {", "#-1", "})"])

    def test_names_in_front(self) -> None:
        for text, name in (("create(#1", "create"), (" Sing (", "sing"), ("create", ""), ("#4", ""), ("grantor(1)", "grantor")):
            self.assertEqual(calls.call_name(text), name)


class Peer:
    """A service whose answers are these bytes, one after another; None drops the connection. `asked` is what came."""

    def __init__(self, *answers: Optional[bytes], pause: float = 0.0) -> None:
        self.answers, self.pause, self.asked = list(answers), pause, list[bytes]()
        self.listener = socket.create_server(("127.0.0.1", 0))
        self.port = self.listener.getsockname()[1]
        threading.Thread(target=self.serve, daemon=True).start()

    def serve(self) -> None:
        """Answers one connection after another."""
        while True:
            try:
                peer, _ = self.listener.accept()
            except OSError:
                return
            with peer:
                self.asked.append(peer.recv(1 << 20))
                answer = self.answers.pop(0) if len(self.answers) > 1 else self.answers[0]
                try:
                    for piece in (answer or b"").split(b"|"):
                        peer.sendall(piece)
                        time.sleep(self.pause)
                except OSError:
                    continue

    def close(self) -> None:
        """Ends it."""
        self.listener.shutdown(socket.SHUT_RDWR)
        self.listener.close()


def http(said: Any, status: int = 200, more: str = "") -> bytes:
    """An answer in JSON."""
    body = json.dumps(said).encode()
    return f"HTTP/1.1 {status} A Word\r\nContent-Length: {len(body)}\r\n{more}\r\n".encode() + body


class Broken(unittest.TestCase):
    """Services that answer what they like."""

    def peer(self, *answers: Optional[bytes], **how: Any) -> Peer:
        """A peer that is closed at the end."""
        made = Peer(*answers, **how)
        self.addCleanup(made.close)
        return made

    def sent(self, *answers: Optional[bytes], wait: float = SECONDS, longest: int = 1 << 20, **how: Any) -> Any:
        """What comes of one request."""
        return Service(self.peer(*answers, **how).port, wait=wait, longest=longest).sent("GET", "/seq").said

    def test_good_answers(self) -> None:
        good = http({"seq": 1})
        body = b'{"seq":1}'
        for name, answer in (
            ("whole", good), ("in pieces", good.replace(b"\r\n", b"|\r\n|")), ("one byte after another", b"|".join(good[i : i + 1] for i in range(len(good)))),
            ("with an end", b"HTTP/1.0 200 OK\r\n\r\n" + body),
            ("in chunks", b"HTTP/1.1 200 OK\r\nTransfer-Encoding: chunked\r\n\r\n4;a=b\r\n" + body[:4] + b"\r\n05\r\n" + body[4:] + b"\r\n0\r\n\r\n"),
            ("after a hint", b"HTTP/1.1 103 Early Hints\r\nLink: a\r\n\r\n" + good),
        ):  # fmt: skip
            with self.subTest(name):
                self.assertEqual(self.sent(answer), {"seq": 1})

    def test_lost_answers(self) -> None:
        good = http({"seq": 1})
        for name, answer in (
            ("nothing", None), ("a half", good[:-3]), ("a part of the head", good[:20]), ("no HTTP", b"SSH-2.0-moo\r\n\r\n"),
            ("no number", good.replace(b"Length: 9", b"Length: x").replace(b"Length: 10", b"Length: x")),
            ("a chunk that is cut", b"HTTP/1.1 200 OK\r\ntransfer-encoding: chunked\r\n\r\nff\r\n{}\r\n"),
            ("a chunk without a number", b"HTTP/1.1 200 OK\r\ntransfer-encoding: chunked\r\n\r\n-1\r\n{}\r\n"),
            ("an endless head", b"HTTP/1.1 200 OK\r\n" + b"a: b\r\n" * 20000),
        ):  # fmt: skip
            with self.subTest(name), self.assertRaises(LostAnswer) as raised:
                self.sent(answer)
            self.assertNotIsInstance(raised.exception, Stranger)

    def test_strangers(self) -> None:
        for said in ({}, [], None, {"seq": "1"}, {"seq": True}, {"seq": -1}, "text"):
            with self.subTest(said), self.assertRaises(Stranger):
                self.sent(http(said))
        for said in ({}, {"error": 1}, {"error": "stale"}, {"error": "E_PERM", "call": "1"}):
            with self.subTest(said), self.assertRaises(Stranger):
                self.sent(http(said, 409))

    def test_too_long(self) -> None:
        body = b"x" * 2000
        for answer in (b"HTTP/1.1 200 OK\r\ncontent-length: 2000\r\n\r\n" + body, b"HTTP/1.1 200 OK\r\n\r\n" + body):
            with self.assertRaises(TooLong):
                self.sent(answer, longest=1999)

    def test_time_limits(self) -> None:
        began = time.monotonic()
        slow = b"|".join(http({"seq": 1})[i : i + 1] for i in range(50))
        for answer, pause in ((b"|" * 20, 0.5), (slow, 0.1)):
            with self.subTest(answer[:9]), self.assertRaises(LostAnswer):
                self.sent(answer, wait=0.3, pause=pause)
        self.assertLess(time.monotonic() - began, 5.0)

    def test_nobody_listens(self) -> None:
        there = Peer(None)
        there.close()
        with self.assertRaises(NoService):
            Service(there.port).sent("GET", "/seq")
        with self.assertRaises(Unreachable):
            Service(there.port).seq(0.1)

    def test_it_is_tried_again(self) -> None:
        there = self.peer(None, http({"error": "busy"}, 503), http({"error": "fault"}, 503), http({"error": "closed"}, 503), http({}), http({"seq": 7}))
        self.assertEqual(Service(there.port).seq(), 7)
        self.assertEqual(len(there.asked), 6)
        self.assertTrue(there.asked[0].startswith(b"GET /seq HTTP/1.1\r\nhost: 127.0.0.1:"))

    def test_a_batch_that_is_sent_until_it_is_settled(self) -> None:
        stale, nomemory = http({"error": "stale", "seq": 8}, 409), http({"error": "nomemory"}, 503)
        good = http({"answers": ["#4"], "seq": 8})
        cases: tuple[tuple[tuple[Optional[bytes], ...], int, str, bool], ...] = (
            ((good,), 200, "", False), ((None, good), 200, "", True), ((None, stale), 409, "stale", True), ((stale,), 409, "stale", False),
            ((nomemory,), 503, "nomemory", False), ((None, nomemory, good), 200, "", True),
            ((http({"answers": [], "seq": 8}), good), 200, "", True), ((http({"error": "busy"}, 503), good), 200, "", False),
        )  # fmt: skip
        for answers, status, error, was_lost in cases:
            with self.subTest(answers):
                answer, lost = Service(self.peer(*answers).port).settled(3, ["create(#1)"], 7, Patience(SECONDS))
                self.assertEqual((answer.status, answer.error, lost), (status, error, was_lost))
        with self.assertRaises(Unsure) as raised:
            Service(self.peer(None).port).settled(3, ["create(#1)"], 7, Patience(0.2))
        self.assertEqual(raised.exception.at, 7)

    def test_requests_that_would_be_two(self) -> None:
        there = self.peer(http({"seq": 1}))
        service = Service(there.port)
        for path in ("/seq HTTP/1.1\r\nx: y", "/a b", "/é"):
            with self.subTest(path), self.assertRaises(ValueError):
                service.sent("GET", path)
        service.lines = {"authorization": "Bearer a\r\nx: y"}
        with self.assertRaises(ValueError):
            service.sent("GET", "/seq")
        with self.assertRaises(ValueError):
            batch_body(3, ["x" * (1 << 20)])

    def test_pauses_grow_and_have_chance(self) -> None:
        patience = Patience(SECONDS)
        pauses = [patience.pause() for _ in range(20)]
        self.assertLessEqual(pauses[0], 0.01)
        self.assertTrue(all(0.25 <= pause <= 0.5 for pause in pauses[8:]))
        self.assertGreater(len(set(pauses[8:])), 5)

    def test_a_dump_in_pieces(self) -> None:
        there = self.peer(b"HTTP/1.1 200 OK\r\ncontent-length: 6\r\n\r\nseq|\n1\n", http({"error": "nomemory"}, 503), b"HTTP/1.1 200 OK\r\ncontent-length: 6\r\n\r\nseq")
        with tempfile.TemporaryFile() as file:
            service = Service(there.port)
            self.assertIsNone(service.copied("/dump", file))
            file.seek(0)
            self.assertEqual(file.read(), b"seq\n1\n")
            refusal = service.copied("/dump", file)
            self.assertEqual(refusal.error if refusal else "", "nomemory")
            with self.assertRaises(LostAnswer):
                service.copied("/dump", file)


class Packed(unittest.TestCase):
    """What pip makes of the checkout without a network."""

    def test_pip(self) -> None:
        """It is put into a virtual environment that has nothing, not even pip."""
        if subprocess.run([sys.executable, "-m", "pip", "--version"], capture_output=True, check=False).returncode:
            self.skipTest("pip is missing: apt-get install python3-pip")
        with tempfile.TemporaryDirectory() as folder:
            python = f"{folder}/bin/python3"
            subprocess.run([sys.executable, "-m", "venv", "--without-pip", folder], check=True)
            words = [sys.executable, "-m", "pip", "--python", python, "install", "--no-index", "--no-build-isolation", str(TOP)]
            came = subprocess.run(words, capture_output=True, text=True, check=False)
            self.assertEqual(came.returncode, 0, came.stderr)
            said = "import moolib, moo_client; print(moolib.Call.read('create(#1)'), moo_client.Obj(4), moolib.__file__)"
            came = subprocess.run([python, "-I", "-c", said], capture_output=True, text=True, check=False, cwd="/")
            self.assertEqual(came.stdout.split()[:2], ["create(#1)", "#4"], came.stderr)
            self.assertTrue(pathlib.Path(came.stdout.split()[2]).with_name("py.typed").exists())
        version = ended("--version").written.split()[-1]
        self.assertIn(f'version = "{version}"', (TOP / "pyproject.toml").read_text())

    def test_the_client_has_its_surface(self) -> None:
        for name in moo_client.__all__:
            self.assertTrue(hasattr(moo_client, name), name)
        self.assertEqual(set(values.ERRORS), {name for name in moo_client.__all__ if name.startswith("E_")})


if __name__ == "__main__":
    unittest.main()
