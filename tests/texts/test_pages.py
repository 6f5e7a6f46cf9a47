"""The examples on docs/CALLS.md and docs/HTTP.md: each call with its answer, and each request to the service, on new worlds."""
from __future__ import annotations

import re
import shutil
import subprocess

from tests.support.cases import ProgramTest
from tests.support.program import MOO, TOP
from tests.support.service import PATIENCE, Service
from tests.support.worlds import accepted, run

CALLS = (TOP / "docs/CALLS.md").read_text()
HTTP = (TOP / "docs/HTTP.md").read_text().splitlines()


def examples() -> list[tuple[str, str]]:
    """The calls of the example of each call, with their answers."""
    section = CALLS.split("\n### An example of each call\n")[1].split("\n### ")[0]
    found = [re.fullmatch(r"    (.*\)) {2,}(\S.*)", line) for line in section.splitlines() if line.startswith("    ")]
    return [(match[1], match[2]) for match in found if match]


def requests() -> list[tuple[str, str]]:
    """The requests to a service, with the line that comes after each: what is answered, or nothing if that is a dump, or told in words."""
    asked = [(line.strip(), after.strip()) for line, after in zip(HTTP, [*HTTP[1:], ""]) if line.startswith("    curl ") and ":8080/" in line]
    return [(command, answer if answer.startswith("{") else "") for command, answer in asked]


class Pages(ProgramTest):
    def test_an_example_of_each_call(self) -> None:
        played = examples()
        text = "".join(f"{call}\n" for call, _ in played)
        came = run("apply", ":memory:", "-", text=f"batch as #3\n{text}end\n")
        self.case("their answers", came, (0, accepted(1, *(answer for _, answer in played))))
        listed = set(re.findall(r"^\| `(\w+)\(", CALLS, re.MULTILINE))
        self.case("each call of the table has an example", listed - {call.partition("(")[0] for call, _ in played}, set())

    def test_requests(self) -> None:
        """In their order: the page says so."""
        if not shutil.which("curl"):
            self.skipTest("the command curl is missing")
        self.assertEqual(run("init", "world.db"), (0, "created\n"))
        service = Service(MOO, "world.db", None)
        asked = requests()
        self.case("there is one for each route", len(asked) > 9, True)
        for command, answer in asked:
            ran = subprocess.run(["sh", "-c", command.replace("8080", str(service.port))], stdout=subprocess.PIPE, text=True, timeout=PATIENCE)
            self.case(command, (ran.returncode, ran.stdout if answer else ""), (0, answer))
