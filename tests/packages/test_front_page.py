"""README.md: its sessions are played, with what it prints, and each command on it is one that a test runs."""
from __future__ import annotations

import os
import re
import shutil
import subprocess
import unittest
from pathlib import Path

from tests.support.cases import ProgramTest
from tests.support.program import MOO, TOP
from tests.support.service import PATIENCE, Service
from tests.support.shell import at_prompt, run_shell
from tests.support.worlds import run

PAGE = (TOP / "README.md").read_text()
PROMPTS = ("$ ", "#3> ")
# A line of the page for some lines that it leaves out.
LEFT_OUT = ".."
# The commands that aren't played here, and the module of tests that runs each.
ELSEWHERE = {
    "git clone ADDRESS moo && cd moo": "packages.front_page",
    "make": "packages.front_page",
    "make test": "packages.front_page",
    'make test SUBJECTS="shell web.forms"': "packages.front_page",
    "make deb && apt-get install ./out/moo_1.1.0_amd64.deb": "packages.apt",
    "make demo": "web.demo",
    "apt-get install python3-waitress python3-jinja2": "packages.apt",
    # The gate itself.
    "make prove": "",
    "man packaging/moo-shell.1": "packages.front_page",
    "./moo init village.db": "packages.front_page",
    "tools/moo-shell -f examples/village.moo village.db": "packages.front_page",
    "./moo apply :memory: examples/lantern.txt": "packages.front_page",
    "./moo --help": "packages.front_page",
}


def code() -> list[str]:
    """The lines of code of the page."""
    return [line[4:] for line in PAGE.splitlines() if line.startswith("    ")]


def commands() -> list[str]:
    """Every command of the page: those with a prompt of the system, those of other code, and those in the text."""
    typed = [line[2:] for line in code() if line.startswith("$ ")]
    bare = [line for line in code() if re.match(r"(make|git|apt-get)\b", line)]
    quoted = [" ".join(text.split()) for text in re.findall(r"`([^`]+)`", PAGE)]
    return [*typed, *bare, *(text for text in quoted if re.match(r"(\./moo|tools/\S+|make|apt-get|man) \S|make$", text))]


def session(first: str) -> list[tuple[str, list[str]]]:
    """What is typed from a line of code on, each with what it prints, up to the end of that code."""
    lines = PAGE.splitlines()
    steps: list[tuple[str, list[str]]] = []
    for line in lines[lines.index(f"    {first}") :]:
        if not line.startswith("    "):
            break
        if line[4:].startswith(PROMPTS):
            steps.append((line[4:], []))
        else:
            steps[-1][1].append(line[4:])
    return steps


def agrees(came: list[str], printed: list[str]) -> bool:
    """Whether lines are those of the page, which may leave some out at the end."""
    return came[: len(printed) - 1] == printed[:-1] if printed[-1:] == [LEFT_OUT] else came == printed


class FrontPage(ProgramTest):
    def setUp(self) -> None:
        super().setUp()
        Path("moo").symlink_to(MOO)
        for name in ("tools", "examples"):
            Path(name).symlink_to(TOP / name)

    def shown(self, command: str) -> list[str]:
        """The lines that a command prints, which has to end well."""
        ran = subprocess.run(["sh", "-c", command], stdout=subprocess.PIPE, text=True, timeout=PATIENCE, check=True)
        return ran.stdout.splitlines()

    def test_sessions(self) -> None:
        (made, printed), (shell, greeting), *typed = session("$ ./moo init world.db")
        self.case(made, self.shown(made[2:]), printed)
        self.assertEqual(shell, "$ tools/moo-shell world.db")
        terminal = at_prompt("world.db")
        self.case(shell, terminal.shown.split("\n")[:1], greeting)
        for line, printed in typed:
            terminal.line(line[len("#3> ") :])
            came = terminal.until("\n#3> ").removesuffix("\n#3> ").split("\n")[1:]
            self.case(line, came if not agrees(came, printed) else printed, printed)
        terminal.type("\x04")
        terminal.end()
        self.requests()

    def requests(self) -> None:
        """The requests of the next session, on the same world."""
        (served, listening), *asked = session("$ ./moo serve world.db 8080 &")
        service = Service(MOO, "world.db", None)
        self.case(served, service.first, listening[0].replace("8080", str(service.port)) + "\n")
        if not shutil.which("curl"):
            self.skipTest("the command curl is missing")
        self.case("two requests", len(asked), 2)
        for command, printed in asked:
            self.case(command, self.shown(command[2:].replace("8080", str(service.port))), printed)

    def test_commands_in_the_text(self) -> None:
        self.case("a world for the village", run("init", "village.db"), (0, "created\n"))
        self.case("the village", run_shell("-f", "examples/village.moo", "village.db").status, 0)
        came = self.shown("./moo apply :memory: examples/lantern.txt")
        self.case("a text of batches", came, (TOP / "examples/lantern.replies").read_text().splitlines())
        self.case("the help", self.shown("./moo --help")[0] != "", True)

    @unittest.skipUnless(shutil.which("man"), "the command man is missing")
    def test_the_manual(self) -> None:
        """All of it, without a warning."""
        words = ["man", "--warnings", TOP / "packaging/moo-shell.1"]
        ran = subprocess.run(words, env={**os.environ, "MANPAGER": "cat", "MANWIDTH": "120"}, capture_output=True, text=True, timeout=PATIENCE)
        self.case("its status and its warnings", (ran.returncode, ran.stderr), (0, ""))
        self.case("its last part", "SEE ALSO" in ran.stdout, True)

    def test_each_command_is_run(self) -> None:
        played = {line[2:] for first in ("$ ./moo init world.db", "$ ./moo serve world.db 8080 &") for line, _ in session(first)}
        self.assertEqual([command for command in commands() if command not in played and command not in ELSEWHERE], [])
        self.assertEqual([command for command in ELSEWHERE if command not in commands()], [], "the page has it no more")
        for name in set(ELSEWHERE.values()) - {""}:
            self.assertTrue((TOP / f"tests/{name.replace('.', '/test_')}.py").is_file(), name)

    def test_the_package_has_the_version_of_the_page(self) -> None:
        version = self.shown("./moo --version")[0].split()[1]
        self.assertIn(f"out/moo_{version}_amd64.deb", PAGE)

    def test_make_test(self) -> None:
        words = ["make", "-s", "-C", str(TOP), "test", f"MOO={MOO}", "SUBJECTS=mutants web.paths"]
        ran = subprocess.run(words, stdout=subprocess.PIPE, text=True, timeout=PATIENCE)
        lines = ran.stdout.splitlines()
        self.case("its progress", sorted(line[:5] for line in lines[:2]), ["[1/2]", "[2/2]"])
        self.case("its last line", re.fullmatch(r"\d+ passed, 0 failed", lines[-1]) is not None, True)

    def test_a_clone_and_an_archive(self) -> None:
        """`make` and `./moo` in each, by the command on the page, without a kit to build the program."""
        sources = subprocess.run([TOP / ".ci/sources"], stdout=subprocess.PIPE, text=True, check=True).stdout
        if sources != (TOP / "dist/SOURCES").read_text():
            self.skipTest("dist/ isn't of these sources")
        if subprocess.run(["git", "-C", TOP, "rev-parse", "HEAD"], capture_output=True).returncode if shutil.which("git") else True:
            self.skipTest("this is no clone")
        Path("bin").mkdir()
        for name in os.listdir("/usr/bin"):
            if name != "rt":
                Path("bin", name).symlink_to(f"/usr/bin/{name}")
        env = {"PATH": f"{os.getcwd()}/bin", "HOME": os.getcwd()}
        unpacked = f"mkdir archive && git -C '{TOP}' archive HEAD | tar -x -C archive"
        for name, taken in (("clone", f"git clone -q '{TOP}' clone"), ("archive", unpacked)):
            self.shown(taken)
            came = subprocess.run(["make"], cwd=name, env=env, capture_output=True, text=True, timeout=PATIENCE)
            said = (came.returncode, "the program: " in came.stdout, came.stderr.startswith("moo: this is the shipped program, "))
            self.case(f"make in {name}", said, (0, True, True))
            ran = subprocess.run(["./moo", "--version"], cwd=name, env=env, stdout=subprocess.PIPE, text=True)
            self.case(f"./moo in {name}", ran.stdout.startswith("moo "), True)
