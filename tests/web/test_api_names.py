"""Names in the calls of `/api/batch` and `/api/ask`, and values as JSON (`?json`)."""

import json
import threading
import unittest

from tests.web.test_api import Api_

from moolib.json_values import call_of, in_json, of_json
from moolib.values import ErrorValue, Name, NoValue, Obj, read, written

VALUES = (
    (0, 0), (-5, -5), (2**53, 2**53), (2**53 + 1, {"int": "9007199254740993"}), (-(2**53) - 1, {"int": "-9007199254740993"}),
    (2**63 - 1, {"int": "9223372036854775807"}), (-(2**63), {"int": "-9223372036854775808"}), ("", ""), ('a "b" \\ {#4}\t', 'a "b" \\ {#4}\t'),
    (Obj(4), {"obj": 4}), (Obj(-1), {"obj": -1}), (ErrorValue("E_PERM"), {"err": "E_PERM"}), ([], []),
    ([1, [Obj(2), "x", [ErrorValue("E_NONE")]], []], [1, [{"obj": 2}, "x", [{"err": "E_NONE"}]], []]),
)  # fmt: skip
NO_VALUES = (
    1.5, -0.0, 1e300, True, False, None, {}, {"obj": 4, "err": "E_PERM"}, {"object": 4}, {"obj": "4"}, {"obj": True}, {"obj": 2**31},
    {"err": "E_NOTHING"}, {"err": 4}, {"int": 5}, {"int": "5.0"}, {"int": "9223372036854775808"}, {"int": ""}, {"name": "1a"},
    {"name": "a" * 65}, 2**63, [1, [1.5]], [[None]],
)  # fmt: skip


class Values(unittest.TestCase):
    """The table of values, by itself."""

    def test_both_ways(self):
        for value, said in VALUES:
            with self.subTest(said=said):
                self.assertEqual(in_json(value), said)
                self.assertEqual(json.loads(json.dumps(said)), said)
                back = of_json(json.loads(json.dumps(said)))
                self.assertEqual((back, type(back)), (value, type(value)))

    def test_what_is_no_value(self):
        for said in NO_VALUES:
            with self.subTest(said=said), self.assertRaises(NoValue):
                of_json(said)

    def test_lists_32_deep(self):
        said = value = 1
        for _ in range(32):
            said, value = [said], [value]
        self.assertEqual(read(written(of_json(said))), value)
        with self.assertRaises(NoValue):
            of_json([said])

    def test_calls(self):
        self.assertEqual(call_of(["set", {"obj": 4}, "name", "Inn"]), 'set(#4, "name", "Inn")')
        self.assertEqual(call_of(["$room = create", {"obj": 1}]), "$room = create(#1)")
        self.assertEqual(call_of(["f", [{"name": "a"}, 1], {"name": "b2"}]), "f({$a, 1}, $b2)")
        self.assertEqual(call_of(["players"]), "players()")
        self.assertEqual(str(of_json({"name": "room"})), str(Name("room")))
        for said in ([], [1], ["a b"], ["f()"], ["$1 = f"], ["= f"], ["f", "é"], ["f", "a\nb"]):
            with self.subTest(said=said), self.assertRaises(ValueError):
                call_of(said)


class Names(Api_):
    """`$room = create(#6)`, and `$room` in the calls after it."""

    def test_a_batch(self):
        calls = ["$room = create(#6)", 'set($room, "name", "an $inn")', "$lamp = create(#6)", "move($lamp, #-1)", "max_object()"]
        wanted = {"answers": ["#7", "0", "#8", "0", "#8"], "names": {"lamp": "#8", "room": "#7"}, "seq": 1}
        self.assertEqual(self.post("ada", "/api/ask", {"calls": calls}), (200, wanted))
        self.assertEqual(self.post("ada", "/api/batch", {"calls": calls}), (200, wanted | {"seq": 2}))
        self.assertEqual(self.asked("ada", "GET", "/api/object/7")[1]["name"], "an $inn")
        self.assertEqual(list(self.post("ada", "/api/ask", {"calls": ["$z = players()"]})[1]), ["answers", "names", "seq"])

    def test_any_answer_has_a_name(self):
        calls = ['$names = get(#4, "name")', "$all = players()", 'set(#5, "name", $names)', "valid(#5)", "$all = parent(#5)"]
        self.assertEqual(self.post("ada", "/api/batch", {"calls": calls})[1]["names"], {"all": "#1", "names": '""'})

    def test_the_journal_has_the_calls_without_names(self):
        self.post("ada", "/api/batch", {"calls": ["$a = create(#6)", "move($a, #-1)"]})
        intent = json.loads((self.room / "front/journal-1").read_bytes().splitlines()[1][65:])
        self.assertEqual(intent["calls"], ["create(#6)", "move(#7, #-1)"])

    def test_a_name_that_is_not_given_before(self):
        for calls, name in (
            (["create(#6)", 'set($romo, "name", "x")'], "$romo"),
            (["$a = create($a)"], "$a"),
            (["valid($b)", "$b = create(#6)"], "$b"),
            (["$_a = create(#6)"], "$_a"),
            ([f"${'a' * 65} = create(#6)"], f"${'a' * 65}"),
        ):
            for path in ("/api/batch", "/api/ask"):
                with self.subTest(calls=calls, path=path):
                    why = f"{name} names no answer of a call before it"
                    self.assertEqual(self.post("ada", path, {"calls": calls}), (400, {"error": "bad request", "why": why}))
        self.assertEqual(self.asked("ada", "GET", "/api/seq"), (200, {"seq": 1}))
        self.assertEqual(self.post("ada", "/api/ask", {"calls": [f"${'a' * 64} = create(#6)"]})[0], 200)

    def test_refusals(self):
        status, said = self.post("ada", "/api/batch", {"calls": ["$a = create(#6)", "recycle($a)", "recycle($a)"]})
        self.assertEqual((status, said["call"], said["error"]), (409, 3, "E_INVARG"))
        self.assertIn("recycle(#7)", said["why"])
        status, said = self.post("ada", "/api/batch", {"calls": ["$a = sing(#6)", "valid($a)"]})
        self.assertEqual((status, said["call"], said["error"]), (400, 1, "malformed"))
        for path in ("/api/batch", "/api/ask"):
            self.assertEqual(self.post("ada", path, {"calls": ["$a = create(#6)"], "at": 7}), (409, {"error": "stale", "seq": 1}))
        self.assertEqual(self.post("ada", "/api/each", {"calls": ["$a = create(#6)"]})[1]["each"][0]["error"], "malformed")

    def test_values_that_grow_are_too_large(self):
        """A name may stand for a long text, and be used often."""
        self.post("wizard", "/api/batch", {"calls": ['add_property(#6, "long", "{}", {{#3, "r"}})'.format("x" * 60_000)]})
        calls = ['$a = get(#6, "long")', f"valid({', '.join(['$a'] * 1000)})"]
        for path in ("/api/batch", "/api/ask"):
            status, said = self.post("ada", path, {"calls": calls})
            self.assertEqual((status, said["error"]), (400, "bad request"))
            self.assertIn("1,048,576", said["why"])
        self.assertEqual(self.post("ada", "/api/batch", {"calls": ["create(#6)"]})[0], 200)

    def test_a_body_that_is_too_long_with_who_sends_it(self):
        """moo's body has `as` besides. The writer goes on."""
        calls = ["valid(#4)" + " " * 262_000] * 4
        body = json.dumps({"calls": calls}, separators=(",", ":")).encode()
        calls[3] += " " * (1_048_576 - len(body))
        body = json.dumps({"calls": calls}, separators=(",", ":")).encode()
        self.assertEqual(len(body), 1_048_576)
        self.assertEqual(self.post("ada", "/api/batch", body), (413, {"error": "too large"}))
        self.assertEqual(self.post("ada", "/api/batch", {"calls": ["create(#6)"]})[0], 200)

    def test_many_at_once(self):
        """None makes another's stale: each is sent for the number for which it was asked."""
        came = []

        def work(place):
            calls = ["$a = create(#6)", f'set($a, "name", "of {place}")', 'get($a, "name")']
            came.extend((place, self.post("ada", "/api/batch", {"calls": calls})) for _ in range(3))

        threads = [threading.Thread(target=work, args=(place,)) for place in range(6)]
        for thread in threads:
            thread.start()
        for thread in threads:
            thread.join()
        self.assertEqual({(place, status, said["answers"][2]) for place, (status, said) in came}, {(p, 200, f'"of {p}"') for p in range(6)})
        self.assertEqual(len({said["names"]["a"] for _, (_, said) in came}), 18)


class Json(Api_):
    """`?json`."""

    def test_answers(self):
        calls = [["$box = create", {"obj": 6}], ["set", {"name": "box"}, "name", "Box"], 'get($box, "name")', ["valid", {"obj": 99}]]
        wanted = {"answers": [{"obj": 7}, 0, "Box", 0], "names": {"box": {"obj": 7}}, "seq": 2}
        self.assertEqual(self.asked("ada", "POST", "/api/batch", {"calls": calls}, query="json"), (200, wanted))
        self.assertEqual(self.asked("ada", "POST", "/api/ask", {"calls": ["players()"]}, query="json")[1]["answers"], [[{"obj": 3}, {"obj": 4}]])
        self.assertEqual(self.asked("ada", "POST", "/api/ask", {"calls": ["players()"]}, query="json=1&x=2")[1]["answers"], [[{"obj": 3}, {"obj": 4}]])
        self.assertEqual(self.post("ada", "/api/ask", {"calls": ["players()"]})[1]["answers"], ["{#3, #4}"])

    def test_each_value_comes_back(self):
        for place, (value, said) in enumerate(VALUES):
            name = f"p{place}"
            calls = [["add_property", {"obj": 6}, name, said, [{"obj": 3}, ""]], ["get", {"obj": 6}, name], f'get(#6, "{name}")']
            with self.subTest(said=said):
                self.assertEqual(self.asked("wizard", "POST", "/api/batch", {"calls": calls}, query="json")[1]["answers"], [0, said, said])
                self.assertEqual(self.post("wizard", "/api/ask", {"calls": [f'get(#6, "{name}")']})[1]["answers"], [written(value)])

    def test_each(self):
        status, said = self.asked("ada", "POST", "/api/each", {"calls": [["create", {"obj": 6}], "recycle(#3)", "sing()"]}, query="json")
        self.assertEqual((status, said["each"][0], said["each"][1]["error"], said["each"][2]["error"]), (200, {"answer": {"obj": 7}}, "E_PERM", "malformed"))

    def test_names_like_the_keys_of_answers(self):
        said = self.asked("ada", "POST", "/api/ask", {"calls": ["$error = players()", "$why = max_object()"]}, query="json")[1]
        self.assertEqual(said["names"], {"error": [{"obj": 3}, {"obj": 4}], "why": {"obj": 6}})

    def test_what_is_no_value(self):
        for value in NO_VALUES:
            status, said = self.asked("ada", "POST", "/api/batch", {"calls": ["max_object()", ["valid", value]]}, query="json")
            with self.subTest(value=value):
                self.assertEqual((status, said["error"]), (400, "bad request"))
                self.assertTrue(said["why"].startswith("call 2: "), said)
        for calls in ([[]], [[1]], [["a b"]], [["valid", "é"]]):
            self.assertEqual(self.asked("ada", "POST", "/api/ask", {"calls": calls}, query="json")[0], 400)
        self.assertEqual(self.asked("ada", "GET", "/api/seq"), (200, {"seq": 1}))

    def test_without_it_a_list_is_no_call(self):
        status, said = self.post("ada", "/api/batch", {"calls": [["max_object"]]})
        self.assertEqual((status, said["error"]), (400, "bad request"))


if __name__ == "__main__":
    unittest.main()
