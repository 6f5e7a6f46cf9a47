"""The commands of README and OPERATING that install packages and remove them, by apt, over a copy of this machine's files.

The copy is of this test alone: what is written there goes to memory, and is gone after it. It takes root and Debian. Nothing comes from the
network, so the packages that ours need have to be here.
"""
from __future__ import annotations

import os
import re
import shutil
import subprocess
from pathlib import Path

from tests.support.cases import ProgramTest
from tests.support.program import MOO, TOP
from tests.support.service import PATIENCE

README, OPERATING = (TOP / "README.md").read_text(), (TOP / "docs/OPERATING.md").read_text()
VARIABLES = {"PATH": "/usr/sbin:/usr/bin:/sbin:/bin", "HOME": "/root", "DEBIAN_FRONTEND": "noninteractive", "LANG": "C.UTF-8"}
# Makes a copy of all files in the folder $1.
COPY = """
mount -t tmpfs tmpfs "$1" && mkdir "$1/own" "$1/work" "$1/top"
mount -t overlay overlay -o "lowerdir=/,upperdir=$1/own,workdir=$1/work" "$1/top"
mount --bind /dev "$1/top/dev" && mount -t proc proc "$1/top/proc"
"""
# Runs the command $2 in the folder /root/moo of that copy.
IN_A_COPY = f"""{COPY}
echo 'APT::Get::Assume-Yes "true"; APT::Sandbox::User "root";' >"$1/top/etc/apt/apt.conf.d/99test"
rm -rf "$1/top/root/moo" && cp -a clone "$1/top/root/moo"
chroot "$1/top" sh -ec "cd /root/moo; $2"
"""


def line(page: str, begins: str) -> str:
    """The line of code of a page that begins so."""
    (found,) = re.findall(rf"^    ({re.escape(begins)}.*)$", page, re.MULTILINE)
    return str(found)


def alone(script: str, *words: object) -> list[str]:
    """The command that runs a script of the shell, whose mounts nobody else sees."""
    return ["unshare", "--mount", "--propagation", "private", "sh", "-ec", script, "sh", *map(str, words)]


def lacks(*packages: str) -> str:
    """Why nothing can be installed here that needs these packages; nothing, if it can."""
    if os.geteuid() != 0:
        return "only root installs packages"
    for command in ("apt-get", "unshare", "chroot", "git", "make"):
        if not shutil.which(command):
            return f"the command {command} is missing"
    for package in packages:
        asked = ["dpkg-query", "-W", "-f", "${db:Status-Status}", package]
        if subprocess.run(asked, stdout=subprocess.PIPE, stderr=subprocess.DEVNULL, text=True, check=False).stdout != "installed":
            return f"{package} is missing: apt-get install {package}"
    tried = subprocess.run(alone(COPY, "/mnt"), stderr=subprocess.PIPE, text=True, check=False)
    return f"this machine mounts nothing: {tried.stderr.strip()}" if tried.returncode else ""


class Apt(ProgramTest):
    def setUp(self) -> None:
        super().setUp()
        if why := lacks("adduser", "python3"):
            self.skipTest(why)
        sources = subprocess.run([TOP / ".ci/sources"], stdout=subprocess.PIPE, text=True, check=True).stdout
        if sources != (TOP / "dist/SOURCES").read_text():
            self.skipTest("dist/ isn't of these sources")
        if subprocess.run(["git", "clone", "-q", TOP, "clone"], stderr=subprocess.DEVNULL, check=False).returncode:
            self.skipTest("this is no clone")
        Path("room").mkdir()

    def run_there(self, *commands: str) -> list[str]:
        """The lines that commands print in a copy of this machine's files. Each has to succeed."""
        words = alone(IN_A_COPY, Path("room").resolve(), "\n".join(commands))
        ran = subprocess.run(words, env=VARIABLES, stdout=subprocess.PIPE, stderr=subprocess.STDOUT, text=True, timeout=PATIENCE, check=False)
        self.assertEqual(ran.returncode, 0, ran.stdout)
        return ran.stdout.splitlines()

    def test_the_command_of_the_front_page(self) -> None:
        """It makes the package and installs it. What is installed serves no world yet, and has the version of `moo`."""
        came = self.run_there(line(README, "make deb && apt-get install"), "moo --version", "runuser -u moo -- moo init /var/lib/moo/world.db")
        version = subprocess.run([MOO, "--version"], stdout=subprocess.PIPE, text=True, check=True).stdout.strip()
        self.case("what runs", came[-2:], [version, "created"])

    def test_both_packages_and_their_removal(self) -> None:
        """`apt-get remove moo` takes `moo-web` along. A world stays, also after a purge."""
        if why := lacks("python3-waitress", "python3-jinja2"):
            self.skipTest(why)
        came = self.run_there(
            "apt-get install python3-waitress python3-jinja2",
            "make deb",
            line(OPERATING, "apt-get install ./out/moo_"),
            line(OPERATING, "apt-get install ./out/moo-web_"),
            "moo-web --version",
            "runuser -u moo -- moo init /var/lib/moo/world.db",
            "apt-get remove moo",
            "dpkg-query -W -f '${Package} ${db:Status-Status}\\n' moo moo-web",
            "apt-get purge moo moo-web",
            "ls /var/lib/moo",
        )
        version = subprocess.run([MOO, "--version"], stdout=subprocess.PIPE, text=True, check=True).stdout.split()[1]
        self.case("the front's version", f"moo-web {version}" in came, True)
        # Of a package without settings nothing stays that dpkg knows.
        states = [word for word in came if re.fullmatch(r"moo(-web)? (installed|config-files|not-installed)", word)]
        self.case("both are gone", states, ["moo config-files", "moo-web config-files"])
        self.case("the world", came[-2:], ["world.db", "world.db-wal"])
