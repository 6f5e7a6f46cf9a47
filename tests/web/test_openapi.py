"""The description of the interface, `/api/openapi.json` and the page `/api`: it has what the front has, and answers are as it says."""

import json
import re
import unittest

from tests.web.test_api import Api_

from moo_web.interface.interface import ALWAYS, CAUSES, ROUTES
from moo_web.interface.openapi import SHAPES, description

BODY = {"calls": ["create(#6)", "players()"]}


def faults(schema, value, where="answer"):
    """What of a value isn't as a schema of OpenAPI says, in the words that our description uses."""
    if "$ref" in schema:
        return faults(SHAPES[schema["$ref"].rpartition("/")[2]], value, where)
    if value is None:
        return [] if schema.get("nullable") else [f"{where} is null"]
    kinds = {"object": dict, "array": list, "string": str, "integer": int}
    kind = schema.get("type")
    if kind and (not isinstance(value, kinds[kind]) or isinstance(value, bool)):
        return [f"{where} isn't {kind}"]
    found = [f"{where} isn't one of {schema['enum']}"] if "enum" in schema and value not in schema["enum"] else []
    if "pattern" in schema and not re.search(schema["pattern"], value):
        found.append(f"{where} isn't as {schema['pattern']}")
    if kind == "object":
        found += [f"{where} has no {key}" for key in schema.get("required", ()) if key not in value]
        more = schema.get("additionalProperties", {})
        for key, inner in value.items():
            known = schema.get("properties", {})
            if known and key not in known:
                found.append(f"{where} has {key}, which isn't described")
            found += faults(known.get(key, more), inner, f"{where}.{key}")
    if kind == "array":
        for place, inner in enumerate(value):
            found += faults(schema["items"], inner, f"{where}[{place}]")
    return found


class Described(Api_):
    """What is described is what there is."""

    def setUp(self):
        super().setUp()
        self.said = json.loads(self.called.bytes("GET", "/api/openapi.json"))

    def test_it_wants_no_token(self):
        self.assertEqual((self.called.status, self.called.head["Content-Type"]), (200, "application/json"))
        self.assertEqual(self.said, json.loads(json.dumps(description())))
        self.assertEqual(self.said["openapi"][:2], "3.")

    def test_each_route_of_the_application(self):
        """And no other."""
        there = {(method, re.sub(r"<\w+>", "{N}", path.text)) for method, path, _ in self.app.routes if path.text.startswith("/api/")}
        told = {(method.upper(), path) for path, methods in self.said["paths"].items() for method in methods}
        self.assertEqual(told, there)
        self.assertGreaterEqual(len(there), 9)

    def test_each_reference_leads_somewhere(self):
        named = set(re.findall(r'"#/components/schemas/(\w+)"', json.dumps(self.said)))
        self.assertEqual(named, set(self.said["components"]["schemas"]))

    def test_parameters_are_those_of_the_paths(self):
        for path, methods in self.said["paths"].items():
            for method, operation in methods.items():
                with self.subTest(path=path, method=method):
                    names = [one["name"] for one in operation["parameters"] if one["in"] == "path"]
                    self.assertEqual(names, re.findall(r"\{(\w+)\}", path))
                    self.assertEqual("requestBody" in operation, method == "post")

    def test_answers_are_as_described(self):
        self.post("ada", "/api/batch", {"calls": ["create(#6)"]})
        asked = (
            ("POST", "/api/batch", "/api/batch", BODY, ""), ("POST", "/api/ask", "/api/ask", {"calls": ["$a = create(#6)"]}, "json"),
            ("POST", "/api/each", "/api/each", {"calls": ["players()", "sing()"]}, ""), ("POST", "/api/batch", "/api/batch", {}, ""),
            ("POST", "/api/ask", "/api/ask", {"calls": ["recycle(#3)"]}, ""), ("POST", "/api/ask", "/api/ask", BODY | {"at": 77}, ""),
            ("POST", "/api/ask", "/api/ask", BODY | {"as": "#3"}, ""), ("GET", "/api/seq", "/api/seq", None, ""),
            ("GET", "/api/object/{N}", "/api/object/3", None, ""), ("GET", "/api/object/{N}", "/api/object/99", None, ""),
            ("GET", "/api/objects/{N}", "/api/objects/0", None, ""), ("GET", "/api/since/{N}", "/api/since/1", None, ""),
            ("GET", "/api/since/{N}", "/api/since/1", None, "batches"), ("GET", "/api/since/{N}", "/api/since/0", None, ""),
            ("GET", "/api/since/{N}", "/api/since/99", None, ""), ("GET", "/api/since/{N}", "/api/since/1", None, "wait=99"),
            ("GET", "/api/openapi.json", "/api/openapi.json", None, ""),
        )  # fmt: skip
        statuses = set()
        for method, path, asked_path, body, query in asked:
            status, said = self.asked("wizard" if query == "batches" else "ada", method, asked_path, body, query=query)
            statuses.add(status)
            with self.subTest(path=asked_path, query=query, status=status):
                operation = self.said["paths"][path][method.lower()]
                answer = operation["responses"][str(status)]
                self.assertEqual(faults(answer["content"]["application/json"]["schema"], said), [])
        self.assertEqual(statuses, {200, 400, 403, 404, 409, 410})

    def test_the_checker_of_this_test_sees_faults(self):
        for shape, said in (("seq", {}), ("seq", {"seq": "1"}), ("seq", {"seq": 1, "more": 2}), ("changes", {"objects": ["4"], "seq": 1})):
            with self.subTest(shape=shape, said=said):
                self.assertNotEqual(faults({"$ref": f"#/{shape}"}, said), [])


class Errors(unittest.TestCase):
    """The list of errors by code."""

    def test_each_status_has_a_cause(self):
        told = {str(answer.status) for route in ROUTES for answer in (*route.answers, *ALWAYS)} - {"200"}
        self.assertLessEqual(told, {cause.status for cause in CAUSES})

    def test_each_code_that_the_front_gives(self):
        """As its sources name them."""
        from tests.support.web import WEB

        known = {cause.code for cause in CAUSES}
        for file in ("api.py", "app.py", "interface/bodies.py", "interface/followers.py"):
            for code in re.findall(r'error="([a-z ]+)"', (WEB / "moo_web" / file).read_text()):
                with self.subTest(file=file, code=code):
                    self.assertIn(code, known)


if __name__ == "__main__":
    unittest.main()
