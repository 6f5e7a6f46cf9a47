"""What `make install` and `make deb` put where, and that it runs from there.

`systemd-analyze`, `dpkg-deb`, `lintian` and `bash` are used if they are there.
"""

import contextlib
import gzip
import hashlib
import io
import json
import os
import pathlib
import re
import resource
import shlex
import shutil
import signal
import socket
import stat
import subprocess
import sys
import tempfile
import time
import unittest
import unittest.mock
import urllib.error
import urllib.request

from tests.support.operating import SECONDS, TOOLS, tool
from tests.support.program import MOO, TOP
from tests.support.service import free_port
from tests.support.terminal import Terminal
from tests.support.web import DEBIANS_PYTHON, lacking

INSTALLED = {
    "bin/moo": 0o755,
    "bin/moo-backup": 0o755,
    "bin/moo-shell": 0o755,
    "bin/moo-watch": 0o755,
    "lib/moo/moo-alone": 0o755,
    "lib/moo/moo-bound": 0o755,
    "lib/moo/moo-end": 0o755,
    "lib/moo/moo-tell": 0o755,
    "lib/systemd/system/moo@.service": 0o644,
    "lib/systemd/system/moo-backup@.service": 0o644,
    "lib/systemd/system/moo-backup@.timer": 0o644,
    "lib/systemd/system/moo-check@.service": 0o644,
    "lib/systemd/system/moo-check@.timer": 0o644,
    "lib/systemd/system/moo-offsite@.service": 0o644,
    "lib/systemd/system/moo-tell@.service": 0o644,
    "lib/systemd/system/moo-watch@.service": 0o644,
    "lib/systemd/system/moo-watch@.timer": 0o644,
    "lib/systemd/system/moo-well@.service": 0o644,
    "lib/sysusers.d/moo.conf": 0o644,
    "lib/tmpfiles.d/moo.conf": 0o644,
    "share/bash-completion/completions/moo": 0o644,
    "share/bash-completion/completions/moo-shell": 0o644,
    "share/doc/moo/examples/builders.moo": 0o644,
    "share/doc/moo/examples/classes.moo": 0o644,
    "share/doc/moo/examples/lantern.txt": 0o644,
    "share/doc/moo/examples/village.moo": 0o644,
    "share/man/man1/moo.1.gz": 0o644,
    "share/man/man1/moo-backup.1.gz": 0o644,
    "share/man/man1/moo-shell.1.gz": 0o644,
    "share/man/man1/moo-watch.1.gz": 0o644,
    "share/moo/moo_client.py": 0o644,
    "share/zsh/site-functions/_moo-shell": 0o644,
    "share/moo/moolib/py.typed": 0o644,
    **{f"share/moo/moolib/{path.name}": 0o644 for path in (TOOLS / "moolib").glob("*.py")},
    **{f"share/moo/moo_shell/{path.name}": 0o644 for path in (TOOLS / "moo_shell").glob("*.py")},
}
MODULES = TOP / "web/moo_web"
INSTALLED_WEB = {
    **{f"{folder}/{name}": 0o755 for folder in ("bin", "lib/moo-web") for name in ("moo-people", "moo-replay", "moo-send", "moo-web")},
    **{f"share/man/man1/{name}.1.gz": 0o644 for name in ("moo-people", "moo-replay", "moo-send", "moo-web")},
    "lib/moo-web/alone/moo.conf": 0o644,
    "lib/moo-web/alone/moo-watch.conf": 0o644,
    "lib/systemd/system/moo-copy@.service": 0o644,
    "lib/systemd/system/moo-copy@.timer": 0o644,
    "lib/systemd/system/moo-follow@.service": 0o644,
    "lib/systemd/system/moo-keep@.service": 0o644,
    "lib/systemd/system/moo-keep@.timer": 0o644,
    "lib/systemd/system/moo-web@.service": 0o644,
    "lib/systemd/system/moo-web@.socket": 0o644,
    "lib/sysusers.d/moo-web.conf": 0o644,
    "lib/tmpfiles.d/moo-web.conf": 0o644,
    "share/doc/moo-web/examples/Caddyfile": 0o644,
    "share/doc/moo-web/examples/logrotate.conf": 0o644,
    "share/doc/moo-web/examples/nginx.conf": 0o644,
    **{f"share/doc/moo-web/examples/fail2ban/{name}.conf": 0o644 for name in ("filter", "jail")},
    **{f"share/doc/moo-web/examples/prometheus/{name}": 0o644 for name in ("alerts.yml", "dashboard.json", "prometheus.yml")},
    **{f"share/doc/moo-web/examples/programs/{name}": 0o644 for name in ("game.py", "inn.mjs", "inn.pl", "inn.py", "inn.sh")},
    **{
        f"lib/moo-web/moo_web/{path.relative_to(MODULES)}": 0o644
        for path in MODULES.rglob("*")
        if path.is_file() and "__pycache__" not in path.parts
    },
}
# The pages and pictures that the packages have besides, below share/doc.
PAGES = {
    **{f"moo/{name}.md": 0o644 for name in ("CALLS", "CHANGELOG", "ERRORS", "HTTP", "OPERATING")},
    **{f"moo-web/{name}.md": 0o644 for name in ("JOURNAL", "PAGES", "WEB")},
    **{f"moo-web/page-{name}.png": 0o644 for name in ("map-dark", "object", "petitions", "preview")},
}
# A link to the client that packaging/install puts there.
CLIENT_LINK = {"lib/moo-web/moo_client.py": 0o644}
CLIENT = "import moo_client; print(moo_client.Moo({port}).run([('create', moo_client.Obj(1))], as_=3))"


def ran(*words, **options):
    """A command that has to end with status 0, and what it printed."""
    done = subprocess.run(list(map(str, words)), stdout=subprocess.PIPE, stderr=subprocess.STDOUT, text=True, timeout=SECONDS, **options)
    if done.returncode:
        raise AssertionError(f"{words}: status {done.returncode}\n{done.stdout}")
    return done.stdout


def line_of_base():
    """The first line of a journal that begins at 0: its sum, and its bytes."""
    text = b'{"k":"base","version":2,"segment":1,"seq":0,"former":"%s","t":1.0,"why":"new","branch":"%s"}' % (b"0" * 64, b"0" * 64)
    now = hashlib.sha256(b"0" * 64 + text).hexdigest()
    return now, now.encode() + b" " + text + b"\n"


def sums(*paths):
    """The checksums of files. Their bytes would be compared for hours if they differed."""
    return [hashlib.sha256(path.read_bytes()).hexdigest() for path in paths]


def modes(top):
    """Each file below a folder, with its mode."""
    return {str(path.relative_to(top)): stat.S_IMODE(path.stat().st_mode) for path in top.rglob("*") if path.is_file()}


def wants(command):
    """Leaves a test out if a command is missing."""
    return unittest.skipUnless(shutil.which(command), f"the command {command} is missing")


def without_links(text):
    """The text of a page with the text alone of each link, and with each manual page by its name."""
    text = re.sub(r"\[[^]]*\]\([^)]*/([a-z-]+)\.1\)", r"\1(1)", text)
    return re.sub(r"\[([^]]*)\]\([^)]*\)", r"\1", text)


def lacks_networks():
    """Why no network of its own can be made for a command; nothing, if it can. A container may forbid it."""
    try:
        made = subprocess.run(["unshare", "--map-root-user", "--net", "true"], stderr=subprocess.PIPE, text=True, timeout=SECONDS, check=False)
    except OSError:
        return "the command unshare is missing"
    return made.returncode and f"this machine makes no networks: {made.stderr.strip()}"


class InFolder(unittest.TestCase):
    """An empty folder."""

    def setUp(self):
        room = tempfile.TemporaryDirectory()
        self.addCleanup(room.cleanup)
        self.room = pathlib.Path(room.name).resolve()

    def make(self, *words):
        return ran("make", "--no-print-directory", "-C", TOP, f"MOO={MOO}", *words)


class Install(InFolder):
    """`make install`."""

    def install(self):
        """Installs under a PREFIX that is there, as an administrator does, and gives it."""
        prefix = self.room / "usr"
        self.make("install", f"PREFIX={prefix}")
        return prefix

    def test_files_and_modes(self):
        self.assertEqual(modes(self.install()), INSTALLED | INSTALLED_WEB | CLIENT_LINK)

    def test_a_folder_before_the_prefix(self):
        self.make("install", "PREFIX=/opt/moo", f"DESTDIR={self.room}/stage")
        top = self.room / "stage/opt/moo"
        self.assertEqual(modes(top), INSTALLED | INSTALLED_WEB | CLIENT_LINK)
        for path in top.rglob("*@.*"):
            self.assertNotIn(str(self.room), path.read_text())
            self.assertNotIn("/usr/", path.read_text())
        self.assertIn("ExecStart=/opt/moo/bin/moo-web /var/lib/moo-web/%i ", (top / "lib/systemd/system/moo-web@.service").read_text())
        for path in (path for path in top.rglob("*") if path.is_symlink()):
            self.assertTrue(path.resolve().is_relative_to(top), path)
        self.assertIn("ExecStart=/opt/moo/bin/moo serve", (top / "lib/systemd/system/moo@.service").read_text())
        self.assertIn(" /opt/moo/lib/moo/moo-end ", (top / "lib/systemd/system/moo-watch@.service").read_text())

    def test_the_program_as_it_is(self):
        self.assertEqual(sums(self.install() / "bin/moo"), sums(pathlib.Path(MOO)))

    def test_manuals_are_whole(self):
        prefix = self.install()
        for name, folder in (("moo.1", "docs"), *((f"moo-{tool}.1", "packaging") for tool in ("backup", "shell", "watch"))):
            self.assertEqual(gzip.decompress((prefix / f"share/man/man1/{name}.gz").read_bytes()), (TOP / folder / name).read_bytes())

    def test_a_relative_prefix(self):
        done = subprocess.run([TOP / "packaging/install", "usr"], cwd=self.room, stderr=subprocess.PIPE, timeout=SECONDS)
        self.assertEqual((done.returncode, list(self.room.iterdir())), (2, []))

    def test_it_runs(self):
        """Serve, write by the client, copy, lose the world, restore, and go on."""
        prefix = self.install()
        world, copies, port = self.room / "world.db", self.room / "copies", free_port()
        self.assertEqual(ran(prefix / "bin/moo", "init", world), "created\n")
        self.assertEqual(self.served(prefix, world, port), "[Obj(number=4)]\n")
        path = {"PATH": f"{prefix}/bin:{os.environ['PATH']}"}
        copy = pathlib.Path(ran(sys.executable, prefix / "bin/moo-backup", world, copies, env=path).rstrip("\n"))
        for file in self.room.glob("world.db*"):
            file.unlink()
        for name in ("world.db", "world.db-wal"):
            shutil.copy(copy / name, self.room / name)
        self.assertEqual(ran(prefix / "bin/moo", "check", world), "ok seq 1 objects 5\n")
        self.assertEqual(self.served(prefix, world, port), "[Obj(number=5)]\n")

    @unittest.skipUnless(pathlib.Path(DEBIANS_PYTHON).exists(), "Debian's Python is missing")
    def test_the_front_runs(self):
        """An account is made, and each program finds its modules."""
        prefix = self.install()
        ran(prefix / "bin/moo-people", self.room / "front", "add", "ada", "4", input="a password\n")
        self.assertEqual(ran(prefix / "bin/moo-people", self.room / "front", "list"), "ada #4 0 sessions, 0 tokens\n")
        ran(prefix / "bin/moo-send", self.room / "front", self.room / "copy")
        self.assertTrue((self.room / "copy/people.db").is_file())
        for name in ("moo-replay", "moo-web"):
            self.assertIn(f"usage: {name} FOLDER ", ran(prefix / "bin" / name, "--help"))

    @unittest.skipUnless(pathlib.Path(DEBIANS_PYTHON).exists(), "Debian's Python is missing")
    def test_each_program_says_its_version(self):
        """That of `moo`."""
        prefix = self.install()
        version = ran(prefix / "bin/moo", "--version").split()[1]
        for path in sorted((prefix / "bin").glob("moo-*")):
            name = "moo" if path.name == "moo-shell" else path.name
            with self.subTest(path.name):
                self.assertEqual(ran(path, "--version"), f"{name} {version}\n")

    @unittest.skipIf(lacking(), "Debian's Python or waitress is missing")
    def test_each_module_of_the_front_finds_what_it_needs(self):
        """In what is installed, and nowhere else. What Debian's packages lack here is left out."""
        folder = self.install() / "lib/moo-web"
        for path in sorted((folder / "moo_web").rglob("[a-z]*.py")):
            module = ".".join(path.relative_to(folder).with_suffix("").parts)
            with self.subTest(module):
                script = f"import sys; sys.path.insert(0, {str(folder)!r}); sys.dont_write_bytecode = True; import {module}"
                done = subprocess.run([DEBIANS_PYTHON, "-I", "-c", script], stderr=subprocess.PIPE, text=True, timeout=SECONDS)
                if done.returncode and "No module named 'jinja2'" not in done.stderr:
                    self.fail(done.stderr)

    def test_the_shell_runs(self):
        """With the program that is installed beside it."""
        prefix = self.install()
        told = ran(
            sys.executable, "-B", prefix / "bin/moo-shell", ":memory:", input="$a = create(#1)\n\\help e_args\n", env={"PATH": "/nowhere"}
        )
        self.assertEqual(told, "$a = #4\n  E_ARGS  too many values, or too few\n")

    def served(self, prefix, world, port):
        """What the installed client prints of a batch that the installed service runs."""
        with subprocess.Popen([prefix / "bin/moo", "serve", world, str(port), "1000"], stdout=subprocess.PIPE, text=True) as service:
            try:
                self.assertEqual(service.stdout.readline(), f"listening 127.0.0.1:{port}\n")
                return ran(sys.executable, "-B", "-c", CLIENT.format(port=port), env={"PYTHONPATH": f"{prefix}/share/moo"})
            finally:
                service.kill()


class Units(InFolder):
    """The units, as systemd reads them, and the commands in them."""

    def setUp(self):
        super().setUp()
        self.prefix = self.room / "usr"
        self.make("install", f"PREFIX={self.prefix}")
        self.units = self.prefix / "lib/systemd/system"

    @wants("systemd-analyze")
    def test_systemd_takes_them(self):
        for unit in sorted(self.units.iterdir()):
            with self.subTest(unit.name):
                self.assertEqual(ran("systemd-analyze", "verify", "--man=no", unit), "")

    @wants("systemd-analyze")
    def test_they_are_confined(self):
        """What they are exposed to is at most 2.0 of 10, as systemd reckons, and 1.1 of a world and its front."""
        for unit in sorted(self.units.glob("*.service")):
            most = 11 if unit.name in ("moo@.service", "moo-web@.service") else 20
            with self.subTest(unit.name):
                ran("systemd-analyze", "security", "--offline=yes", f"--threshold={most}", unit)

    def test_nothing_in_them_runs_as_root(self):
        for unit in sorted(self.units.glob("*.service")):
            with self.subTest(unit.name):
                self.assertRegex(unit.read_text(), r"(?m)^User=moo(-web)?$")
                self.assertNotRegex(unit.read_text(), r"(?m)^Exec\w*=[^/]")

    def tell(self, *words, **env):
        """How moo-tell ends with these words, and what it printed."""
        done = subprocess.run(
            [self.prefix / "lib/moo/moo-tell", *words], env={**os.environ, **env}, stdout=subprocess.PIPE, stderr=subprocess.PIPE, text=True,
            timeout=SECONDS,
        )  # fmt: skip
        return done.returncode, done.stdout, done.stderr

    def test_a_failure_is_told(self):
        """The line goes to the log, and to the command that the settings name."""
        for command, told in (("", ""), (f"cat >{self.room}/told", "the unit moo-backup@world.service of ")):
            status, printed, _ = self.tell("moo-backup@world.service", TELL=command)
            self.assertEqual(status, 0)
            self.assertRegex(printed, r"^<3>the unit moo-backup@world\.service of \S+ failed: ")
            self.assertIn(told, (self.room / "told").read_text() if command else "")
        for words in ((), ("--well",), ("a", "b"), ("a/b",)):
            self.assertEqual(self.tell(*words), (2, "", "usage: moo-tell [--well] UNIT\n"))

    def reasons(self):
        """Settings with which what is in the file `reason` plays the log of the run that failed, and a folder keeps what was told."""
        (self.room / "bin").mkdir()
        (self.room / "bin/journalctl").write_text(f"#!/bin/sh\ncat {self.room}/reason\n")
        (self.room / "bin/journalctl").chmod(0o755)
        (self.room / "kept").mkdir()
        path = f"{self.room}/bin:{os.environ['PATH']}"
        return {"PATH": path, "MONITOR_INVOCATION_ID": "1", "RUNTIME_DIRECTORY": f"{self.room}/kept", "TELL": f"cat >>{self.room}/told"}

    def told(self):
        """What was told since this was asked last, without the name of the machine."""
        file = self.room / "told"
        text = file.read_text() if file.exists() else ""
        file.unlink(missing_ok=True)
        return text.replace(f" of {os.uname().nodename} ", " ")

    def test_another_trouble_is_told_again_and_that_all_is_well(self):
        env, unit = self.reasons(), "moo-watch@world.service"
        failed, well = f"the unit {unit} failed: ", f"the unit {unit} is well again\n"
        steps = (
            (("--well",), "", ""),
            ((), "it takes 30 of 40 MB: full", f"{failed}it takes 30 of 40 MB: full\n"),
            ((), "it takes 31 of 40 MB: full", ""),
            ((), "no answer: \x1b[31mrefused", f"{failed}no answer: [31mrefused\n"),
            (("--well",), "", well),
            (("--well",), "", ""),
            ((), "no answer: refused", f"{failed}no answer: refused\n"),
        )
        for words, reason, told in steps:
            (self.room / "reason").write_text(f"an older line\n{reason}\n")
            with self.subTest(words=words, reason=reason):
                self.assertEqual(self.tell(*words, unit, **env)[0], 0)
                self.assertEqual(self.told(), told)
        # Of another unit nothing was told yet.
        self.assertEqual(self.tell("moo-keep@world.service", **env)[0], 0)
        self.assertEqual(self.told(), "the unit moo-keep@world.service failed: no answer: refused\n")
        # After an hour the same is told again, and what is over by now isn't told.
        file = self.room / "kept" / unit
        trouble, moment = json.loads(file.read_text())
        file.write_text(json.dumps([trouble, moment - 3601]))
        self.assertEqual(self.tell(unit, **env, MONITOR_SERVICE_RESULT="success")[0], 0)
        self.assertEqual(self.told(), "")
        self.assertEqual(self.tell(unit, **env, MONITOR_SERVICE_RESULT="exit-code")[0], 0)
        self.assertEqual(self.told(), f"{failed}no answer: refused\n")

    def test_what_could_not_be_told_is_told_when_it_is_run_again(self):
        env, unit = self.reasons(), "moo-watch@world.service"
        (self.room / "reason").write_text("no answer\n")
        self.assertEqual(self.tell(unit, **{**env, "TELL": "exit 7"})[0], 7)
        self.assertEqual(self.tell(unit, **env)[0], 0)
        self.assertEqual(self.told(), f"the unit {unit} failed: no answer\n")
        text = (self.units / "moo-tell@.service").read_text()
        self.assertIn("\nRestart=on-failure\n", text)

    def test_what_comes_and_goes_is_not_told_for_ever(self):
        env, unit, count = self.reasons(), "moo-watch@world.service", 0
        for number in range(12):
            (self.room / "reason").write_text("trouble " + number * "x")
            self.tell(unit, **env)
            count += self.told() != ""
        self.assertEqual(count, 10)

    def test_each_failure_has_its_teller(self):
        for unit in ("moo-backup@", "moo-check@", "moo-watch@", "moo-offsite@", "moo-web@", "moo-copy@", "moo-follow@", "moo-keep@"):
            with self.subTest(unit):
                self.assertIn("\nOnFailure=moo-tell@%n.service\n", (self.units / f"{unit}.service").read_text())
        for unit in ("moo-backup@", "moo-check@", "moo-watch@", "moo-offsite@", "moo-copy@", "moo-keep@"):
            with self.subTest(well=unit):
                self.assertRegex((self.units / f"{unit}.service").read_text(), r"\nOnSuccess=(.* )?moo-well@%n\.service\n")
        # Only after trouble was told there is something to do.
        self.assertIn("\nConditionPathExists=/run/moo-tell/%i\n", (self.units / "moo-well@.service").read_text())

    def test_systemd_watches_the_front(self):
        front = (self.units / "moo-web@.service").read_text()
        self.assertRegex(front, r"(?m)^Type=notify$")
        self.assertRegex(front, r"(?m)^WatchdogSec=\d+$")
        watch = (self.prefix / "lib/moo-web/alone/moo-watch.conf").read_text()
        port = re.search(r"\bSTATUS=(\d+)", front)[1]
        self.assertRegex(front, r"(?m)^ExecStart=.* --status-port \$\{STATUS\} ")
        self.assertIn(f"\nEnvironment=STATUS={port}\n", watch)
        base = re.search(r"(?m)^ExecStart=(.*)$", (self.units / "moo-watch@.service").read_text())[1]
        self.assertEqual(re.search(r"(?m)^ExecStart=(/.*)$", watch)[1], base.replace(" ${PORT} ", " --front ${STATUS} ${PORT} "))

    def test_the_command_that_brings_copies_away(self):
        """It is run whole by the shell, and isn't run if the settings name none. systemd would split `$OFFSITE`, in quotes too."""
        text = (self.units / "moo-offsite@.service").read_text()
        condition, start = (shlex.split(re.search(f"^{key}=(.*)$", text, re.M)[1]) for key in ("ExecCondition", "ExecStart"))
        self.assertEqual(start, ["/bin/sh", "-c", "${OFFSITE}"])
        away = self.room / "away and on"
        for command, is_there in (("", False), (f"echo copies >'{away}'", True)):
            done = subprocess.run(condition, env={**os.environ, "OFFSITE": command})
            self.assertEqual(done.returncode == 0, is_there)
            if is_there:
                subprocess.run([*start[:2], command], check=True)
            self.assertEqual(away.exists(), is_there)

    def test_a_world_with_a_front_is_alone_with_it(self):
        """The world, its front and its watch name each other, so that whichever starts first, all are in one network."""
        texts = {"moo-web": (self.units / "moo-web@.service").read_text()}
        texts |= {name: (self.prefix / f"lib/moo-web/alone/{name}.conf").read_text() for name in ("moo", "moo-watch")}
        for name, text in texts.items():
            with self.subTest(name):
                joined = re.search(r"(?m)^JoinsNamespaceOf=(.*)$", text)[1].split()
                self.assertEqual(sorted(joined), sorted(f"{other}@%i.service" for other in texts if other != name))
                self.assertRegex(text, r"(?m)^PrivateNetwork=yes$")
        for name in ("moo", "moo-watch"):
            self.assertNotIn("PrivateNetwork", (self.units / f"{name}@.service").read_text(), "a world without a front stays as it is")

    def test_outside_its_network_nothing_starts(self):
        """A socket of ours plays the one that systemd holds in the network of the machine."""
        if why := lacks_networks():
            self.skipTest(why)
        for file in (self.prefix / "lib/moo-web/alone/moo.conf", self.units / "moo-web@.service"):
            check = shlex.split(re.search(r"(?m)^ExecStartPre=(.*)$", file.read_text())[1])
            held = self.room / file.name
            with self.subTest(file.name), socket.socket(socket.AF_UNIX, socket.SOCK_DGRAM) as sock:
                self.assertEqual(ran(*check, held), "")
                sock.bind(str(held))
                outside = subprocess.run([*check, held], stdout=subprocess.PIPE, stderr=subprocess.PIPE, text=True)
                self.assertEqual((outside.returncode, outside.stdout), (1, ""))
                self.assertRegex(outside.stderr, r"^moo-alone: not in a network of its own, .*\n$")
                self.assertEqual(ran("unshare", "--map-root-user", "--net", *check, held), "")

    def test_the_port_of_the_front_is_held_by_systemd(self):
        self.assertIn("\nListenStream=127.0.0.1:8088\n", (self.units / "moo-web@.socket").read_text())
        self.assertIn("\nRequires=moo-web@%i.socket\n", (self.units / "moo-web@.service").read_text())

    def test_the_socket_for_a_proxy(self):
        """It is in a folder that the service makes, and that the group may enter; the examples have the same path."""
        front = (self.units / "moo-web@.service").read_text()
        self.assertIn("\nRuntimeDirectory=moo-web/%i\nRuntimeDirectoryMode=0750\n", front)
        for name in ("nginx.conf", "Caddyfile"):
            text = (self.prefix / "share/doc/moo-web/examples" / name).read_text()
            self.assertEqual(text.count("/run/moo-web/world/proxy.sock"), 2)
            self.assertIn("WEB=--proxy-socket /run/moo-web/world/proxy.sock --host world.example.org\n", text)

    def test_what_a_run_may_take(self):
        text = (self.units / "moo@.service").read_text()
        self.assertRegex(text, r"(?m)^LimitAS=16G$")
        self.assertRegex(text, r"(?m)^Environment=.*\bRUN_BYTES=4294967296\b")
        self.assertNotRegex(text, r"(?m)^ExecStartPre=", "a start takes no more than opening")
        self.assertRegex(text, r"(?m)^LimitCORE=0$")
        front = (self.units / "moo-web@.service").read_text()
        for line in ("MemoryMax=2G", "TasksMax=128", "TemporaryFileSystem=/tmp:mode=1777,size=1G /var/tmp:mode=1777,size=1M"):
            self.assertIn(f"\n{line}\n", front)

    def test_a_late_standby_stays_failed(self):
        """systemd runs OnFailure only of a unit that it doesn't start again."""
        text = (self.units / "moo-follow@.service").read_text()
        self.assertRegex(text, r"(?m)^Environment=.*\bLATE=900$")
        self.assertRegex(text, r"(?m)^ExecStart=.* --late \$\{LATE\} ")
        self.assertRegex(text, r"(?m)^RestartPreventExitStatus=3$")

    def test_the_commands_of_a_copy_by_the_journal(self):
        """The world is made again each time, and copied with its place. The journal begins at 0 here."""
        text = (self.units / "moo-copy@.service").read_text()
        commands = [line for line in re.findall(r"(?m)^ExecStart(?:Pre)?=(.*)$", text)]
        self.assertEqual([shlex.split(line)[0].rpartition("/")[2] for line in commands], ["mkdir", "rm", "moo-replay", "moo-backup"])
        (self.room / "copies-web").mkdir()
        _, line = line_of_base()
        (self.room / "copies-web/world").mkdir()
        (self.room / "copies-web/world/journal-0").write_bytes(line)
        for count in (1, 2):
            for command in commands:
                command = command.replace("%i", "world").replace("/var/backups/moo", f"{self.room}/copies")
                for name, value in (("KEEP", 14), ("WEEKLY", 8), ("MONTHLY", 12)):
                    command = command.replace("${" + name + "}", str(value))
                ran("sh", "-c", command)
            copies = list((self.room / "copies-web/copies").iterdir())
            self.assertEqual(len(copies), count)
        for copy in copies:
            self.assertEqual(json.loads((copy / "BRANCH").read_text()), {"branch": "0" * 64, "seq": 0, "sum": line[:64].decode()})

    def command(self, unit, key, **values):
        """The words of a command in a unit, for the world `world` in this folder."""
        text = (self.units / unit).read_text()
        values = dict(re.findall(r"(\w+)=(\S+)", re.search("^Environment=(.*)$", text, re.M)[1])) | values
        line = re.search(f"^{key}=(.*)$", text, re.M)[1].replace("%i", "world")
        for name, value in values.items():
            line = line.replace("${" + name + "}", str(value))
        line = line.replace("/var/lib/moo", str(self.room)).replace("/var/backups/moo", f"{self.room}/copies")
        return line.replace("/run/moo/", f"{self.room}/")

    def test_the_commands_of_the_service(self):
        ran(self.prefix / "bin/moo", "init", self.room / "world.db")
        port = free_port()
        line = self.command("moo@.service", "ExecStart", PORT=port)
        self.assertNotIn("$", line)
        with subprocess.Popen(["sh", "-c", f"ulimit -v 8388608; exec {line}"], stdout=subprocess.PIPE, text=True) as service:
            self.addCleanup(service.kill)
            bound = self.command("moo@.service", "ExecStartPost", PORT=port, MAINPID=service.pid)
            self.assertNotIn("$", bound)
            # It waits for the first answer: while a world is opened, the bound is that of a start.
            self.assertEqual(ran("sh", "-c", bound), "")
            self.assertEqual(service.stdout.readline(), f"listening 127.0.0.1:{port}\n")
            self.assertEqual(resource.prlimit(service.pid, resource.RLIMIT_AS), (4 << 30, 8 << 30))
            service.kill()
            service.wait()
            self.assertEqual(ran("sh", "-c", bound), "", "a service that has ended needs no bound")

    def test_the_command_of_the_backup(self):
        ran(self.prefix / "bin/moo", "init", self.room / "world.db")
        for kept in (1, 2, 2):
            copy = pathlib.Path(ran("sh", "-c", self.command("moo-backup@.service", "ExecStart", KEEP=2)).rstrip("\n"))
            self.assertEqual(copy.parent, self.room / "copies")
            self.assertEqual(len(list(copy.parent.iterdir())), kept)

    def serve(self, world, before="", port=None):
        """The service of a world, and its port. `before` is what the shell does first."""
        port = port or free_port()
        words = f'{before} exec "$0" serve "$1" {port} 1000'
        service = subprocess.Popen(["sh", "-c", words, MOO, world], stdout=subprocess.PIPE, stderr=subprocess.DEVNULL, text=True)
        self.addCleanup(service.communicate, timeout=SECONDS)
        self.addCleanup(service.kill)
        self.assertEqual(service.stdout.readline(), f"listening 127.0.0.1:{port}\n")
        return service, port

    def with_stand_in(self, line, service):
        """A command's status and what it printed, with a stand-in for moo-end that notes its words and ends the service."""
        (self.prefix / "lib/moo/moo-end").write_text(f'#!/bin/sh\necho "$@" >{self.room}/asked\nkill {service.pid}\n')
        done = subprocess.run(["sh", "-c", line], stdout=subprocess.PIPE, stderr=subprocess.PIPE, text=True, timeout=SECONDS)
        return done.returncode, done.stdout

    def asked(self):
        """What was asked of moo-end."""
        return (self.room / "asked").read_text() if (self.room / "asked").exists() else ""

    def test_the_backup_ends_the_run_of_its_world(self):
        world = self.room / "world.db"
        ran(self.prefix / "bin/moo", "init", world)
        service, _ = self.serve(world)
        status, printed = self.with_stand_in(self.command("moo-backup@.service", "ExecStart"), service)
        self.assertEqual((status, self.asked()), (0, "moo@world.service\n"))
        self.assertIn("world.db-", printed)

    def test_the_watch_leaves_a_good_service(self):
        world = self.room / "world.db"
        ran(self.prefix / "bin/moo", "init", world)
        service, port = self.serve(world)
        line = self.command("moo-watch@.service", "ExecStart", PORT=port)
        self.assertEqual(self.with_stand_in(line, service), (0, "seq 0\n"))
        service.kill()
        service.wait(SECONDS)
        self.assertIn("--wait 60", line)
        self.assertEqual(self.with_stand_in(line.replace("--wait 60", "--wait 0.1"), service), (1, ""))
        self.assertEqual(self.asked(), "")

    def test_the_watch_waits_for_the_next_run(self):
        world, port = self.room / "world.db", free_port()
        ran(self.prefix / "bin/moo", "init", world)
        line = self.command("moo-watch@.service", "ExecStart", PORT=port)
        with subprocess.Popen(["sh", "-c", line], stdout=subprocess.PIPE, text=True) as watch:
            time.sleep(0.5)
            self.serve(world, port=port)
            self.assertEqual((watch.communicate(timeout=SECONDS)[0], watch.returncode), ("seq 0\n", 0))

    def test_the_watch_ends_the_run_of_a_service_whose_disk_was_full(self):
        """A limit on the size of files plays the full disk."""
        world = self.room / "world.db"
        ran(self.prefix / "bin/moo", "init", world)
        service, port = self.serve(world, "trap '' XFSZ; ulimit -f 1;")
        with urllib.request.urlopen(f"http://127.0.0.1:{port}/seq", timeout=SECONDS) as answer:
            self.assertEqual(answer.read(), b'{"seq":0}')
        batch = json.dumps({"as": "#3", "calls": [f'set(#2, "name", "{"x" * 5000}")']}).encode()
        with self.assertRaises(urllib.error.HTTPError) as raised:
            urllib.request.urlopen(f"http://127.0.0.1:{port}/batch", batch, timeout=SECONDS)
        self.assertEqual(raised.exception.read(), b'{"error":"fault"}')
        raised.exception.close()
        status, printed = self.with_stand_in(self.command("moo-watch@.service", "ExecStart", PORT=port), service)
        self.assertEqual((status, printed, self.asked()), (1, "", "moo@world.service\n"))
        self.assertEqual(ran(MOO, "check", world), "ok seq 0 objects 4\n")


class Rehearsal(unittest.TestCase):
    """packaging/rehearse, which follows the page on new machines."""

    def setUp(self):
        self.rehearse = tool("rehearse", TOP / "packaging")

    def test_the_page_has_its_blocks(self):
        page = sys.modules["rehearsing.page"]
        for name in page.BLOCKS:
            with self.subTest(name):
                self.assertTrue(page.block(name))
        with self.assertRaises(SystemExit), unittest.mock.patch.dict(page.BLOCKS, another=("Run", "apt-get")):
            page.block("another")

    def test_an_upgrade_names_its_packages(self):
        page = sys.modules["rehearsing.page"]
        both = "apt-get install --reinstall ./out/moo_2.0_amd64.deb ./out/moo-web_2.0_all.deb"
        self.assertIn(both, page.of_version(page.block("upgrade both"), "2.0"))
        self.assertEqual(page.of_version(page.block("install")[-1:], "2.0"), ["apt-get install ./out/moo_2.0_amd64.deb"])

    def test_an_upgrade_on_a_debian_by_its_name(self):
        upgrade = tool("rehearse-upgrade", TOP / "packaging")
        self.assertEqual(upgrade.read_words(["machines"]).releases, [])
        self.assertEqual(upgrade.read_words(["machines", "trixie"]).releases, ["trixie"])
        with self.assertRaises(SystemExit) as raised, contextlib.redirect_stderr(io.StringIO()):
            upgrade.read_words(["machines", "sid"])
        self.assertEqual(raised.exception.code, 2)

    def test_a_drill_by_its_name(self):
        said = self.rehearse.read_words(["machines", "--from", "the clock was ahead"])
        self.assertEqual((said.folder, said.first, said.only), (pathlib.Path("machines"), "the clock was ahead", None))
        for words in (["--only", "the disk"], ["--from", "back to noon", "--only", "back to noon"]):
            with self.subTest(words), self.assertRaises(SystemExit) as raised, contextlib.redirect_stderr(io.StringIO()):
                self.rehearse.read_words(["machines", *words])
            self.assertEqual(raised.exception.code, 2)

    def test_a_start_has_room_for_systemd(self):
        """Its process has the bound of a start before it becomes moo."""
        bounds = sys.modules["rehearsing.full"].bounds
        self.assertEqual(bounds(12 << 20), (52 << 20, 1 << 30))
        self.assertEqual(bounds(1 << 30), (1064 << 20, 4256 << 20))


class End(InFolder):
    """tools/moo-end, on a folder that plays /proc: which process is of which unit is said there."""

    def setUp(self):
        super().setUp()
        self.tool = tool("moo-end")
        self.tool.PROCESSES = self.room

    def process(self, groups):
        """A process that runs, in these control groups."""
        process = subprocess.Popen(["sleep", str(SECONDS)])
        self.addCleanup(process.wait, SECONDS)
        self.addCleanup(process.kill)
        (self.room / str(process.pid)).mkdir()
        (self.room / f"{process.pid}/cgroup").write_text(groups)
        return process

    def end(self, unit):
        with unittest.mock.patch.object(sys, "argv", ["moo-end", unit]):
            self.tool.main()

    def test_the_processes_of_a_unit_and_no_others(self):
        of_unit = [
            self.process("0::/system.slice/system-moo.slice/moo@world.service\n"),
            self.process("9:pids:/\n1:name=systemd:/system.slice/system-moo.slice/moo@world.service\n0::/\n"),
        ]
        others = [
            self.process("0::/system.slice/system-moo.slice/moo@world2.service\n"),
            self.process("0::/system.slice/system-moo.slice/moo@world.service/below\n"),
            self.process("0::/user.slice/user-0.slice/session-1.scope\n"),
            self.process("0::/user.slice/user-1000.slice/user@1000.service/app.slice/moo@world.service\n"),
            self.process(""),
        ]
        self.end("moo@world.service")
        self.assertEqual([process.wait(SECONDS) for process in of_unit], [-signal.SIGTERM] * 2)
        time.sleep(0.2)
        self.assertEqual([process.poll() for process in others], [None] * 5)

    def test_processes_of_other_users(self):
        """They are left alone, whatever their unit is called, and those of this user end all the same."""
        stranger, ours = (self.process("0::/system.slice/moo@world.service\n") for _ in range(2))
        os.chown(self.room / str(ours.pid), 54321, -1) if os.geteuid() == 0 else self.skipTest("only root gives a folder away")
        with unittest.mock.patch.object(os, "geteuid", lambda: 54321):
            self.end("moo@world.service")
        self.assertEqual(ours.wait(SECONDS), -signal.SIGTERM)
        time.sleep(0.2)
        self.assertIsNone(stranger.poll())

    def test_processes_that_have_ended(self):
        for name, groups in (("4194305", "0::/moo@world.service\n"), ("4194306", None)):
            (self.room / name).mkdir()
            if groups:
                (self.room / name / "cgroup").write_text(groups)
        self.end("moo@world.service")

    def test_wrong_words(self):
        for words in ((), ("a", "b")):
            with self.subTest(words):
                done = subprocess.run([TOOLS / "moo-end", *words], stderr=subprocess.PIPE, timeout=SECONDS)
                self.assertEqual((done.returncode, done.stderr), (2, b"usage: moo-end UNIT\n"))


@wants("bash")
class Completion(InFolder):
    """What bash offers."""

    def offered(self, *words):
        """What is offered for the last of these words, of which the first is the command."""
        (self.room / "world.db").touch()
        programs = pathlib.Path(tempfile.mkdtemp(dir=self.room.parent))
        self.addCleanup(shutil.rmtree, programs)
        (programs / "moo").symlink_to(MOO)
        paths = {**os.environ, "PATH": f"{programs}:{os.environ['PATH']}"}
        given = " ".join(f"'{word}'" for word in words)
        source = f"source {TOP}/packaging/{words[0]}.bash; COMP_WORDS=({given}); COMP_CWORD={len(words) - 1}"
        shown = f"{source}; _{words[0].replace('-', '_')}; printf '%s\\n' \"${{COMPREPLY[@]}}\""
        return ran("bash", "-c", shown, cwd=self.room, env=paths).split()

    def test_what_is_offered(self):
        cases = (
            (["moo", "a"], ["apply", "ask"]),
            (["moo", "--"], ["--help", "--version"]),
            (["moo", "check", "w"], ["world.db"]),
            (["moo", "apply", "world.db", "w"], ["world.db"]),
            (["moo", "check", "world.db", "w"], []),
            (["moo", "serve", "world.db", "8"], []),
            (["moo", "dump", "--"], ["--help"]),
            (["moo", "apply", "--"], ["--stop", "--help"]),
            (["moo", "rehearse", "--s"], ["--stop"]),
            (["moo", "rehearse", "--stop", "w"], ["world.db"]),
            (["moo", "apply", "--stop", "world.db", "w"], ["world.db"]),
            (["moo", "apply", "world.db", "--stop", "w"], ["world.db"]),
            (["moo", "apply", "--stop", "world.db", "text", "w"], []),
            (["moo", "r"], ["rehearse"]),
            (["moo", "help", "d"], ["dump"]),
            (["moo", "nothing", ""], []),
            (["moo-shell", "w"], ["world.db"]),
            (["moo-shell", "--d"], ["--dry-run"]),
            (["moo-shell", "-f", "w"], ["world.db"]),
            (["moo-shell", "--as", "w"], []),
        )
        for words, offers in cases:
            with self.subTest(words):
                self.assertEqual(self.offered(*words), offers)


@wants("zsh")
class CompletionOfZsh(InFolder):
    """What zsh makes of words for moo-shell. In its place a function is run, which says what it was given."""

    def test_what_is_completed(self):
        for name in ("world.db", "build.moo", "token"):
            (self.room / name).touch()
        shell = Terminal(["zsh", "-f"], {**os.environ, "TERM": "xterm", "PROMPT": "> ", "ZDOTDIR": str(self.room)}, str(self.room))
        self.addCleanup(shell.end)
        self.addCleanup(shell.process.kill)
        shell.line(f"fpath=({TOP}/packaging $fpath); autoload -U compinit; compinit -u -D; moo-shell() {{ print -l -- said: $@ end:; }}")
        cases = (
            ("--dr\t", ["--dry-run"]),
            ("-f bu\t wor\t", ["-f", "build.moo", "world.db"]),
            ("--tok\t tok\t --we\t https://x/", ["--token", "token", "--web", "https://x/"]),
            ("--nam\t n --po\t 80", ["--names", "n", "--port", "80"]),
        )
        for typed, wanted in cases:
            with self.subTest(typed):
                shell.line(f"moo-shell {typed}")
                shown = shell.until("\nend:").replace("\r", "")
                self.assertEqual(shown.rpartition("\nsaid:\n")[2].removesuffix("\nend:").split("\n"), wanted)


@wants("dpkg-deb")
class Package(InFolder):
    """`make deb`."""

    @classmethod
    def setUpClass(cls):
        room = tempfile.TemporaryDirectory()
        cls.addClassCleanup(room.cleanup)
        cls.package, cls.web = cls.make_package(room.name)

    @staticmethod
    def make_package(folder):
        moment = {"SOURCE_DATE_EPOCH": "1700000000"}
        lines = ran(TOP / "packaging/deb", folder, env={**os.environ, **moment, "MOO": MOO}).splitlines()
        # Another program than the shipped one is told of.
        return [pathlib.Path(line) for line in lines if line.endswith(".deb")]

    def test_the_package_of_the_front(self):
        """It has whole folders of the modules, and what it needs is said."""
        self.assertEqual(self.web.name, f"moo-web_{ran(MOO, '--version').split()[1]}_all.deb")
        said = ran("dpkg-deb", "--field", self.web, "Depends").strip().split(", ")
        self.assertEqual(
            said[1:], [f"moo (= {ran(MOO, '--version').split()[1]})", "python3 (>= 3.11)", "python3-jinja2", "python3-waitress"]
        )
        ran("dpkg-deb", "-x", self.web, self.room / "top")
        held = modes(self.room / "top")
        for name, mode in INSTALLED_WEB.items():
            self.assertEqual(held.pop(f"usr/{name}"), mode, name)
        self.assertEqual({name.rpartition("/")[0] for name in held}, {"usr/share/doc/moo-web", "usr/share/lintian/overrides"})
        self.assertEqual(os.readlink(self.room / "top/usr/lib/moo-web/moo_client.py"), "../../share/moo/moo_client.py")
        self.assertEqual(os.readlink(self.room / "top/usr/lib/moo-web/moolib"), "../../share/moo/moolib")

    def test_what_it_says(self):
        version = ran(MOO, "--version").split()[1]
        self.assertEqual(self.package.name, f"moo_{version}_{ran('dpkg', '--print-architecture').strip()}.deb")
        said = ran("dpkg-deb", "--info", self.package)
        for line in ("Package: moo", f"Version: {version}", "Depends: libc6 (>= 2.34), adduser, python3 (>= 3.9)", f"Breaks: moo-web (<< {version})"):
            self.assertIn(f" {line}\n", said)
        self.assertNotIn("@", said)

    def test_what_it_holds(self):
        ran("dpkg-deb", "-x", self.package, self.room / "top")
        held = modes(self.room / "top")
        for name, mode in INSTALLED.items():
            self.assertEqual(held.pop(f"usr/{name.replace('site-functions', 'vendor-completions')}"), mode)
        self.assertEqual({name.rpartition("/")[0] for name in held}, {"usr/share/doc/moo", "usr/share/lintian/overrides"})
        self.assertEqual(sums(self.room / "top/usr/bin/moo"), sums(pathlib.Path(MOO)))
        self.assertEqual(ran(self.room / "top/usr/bin/moo", "init", ":memory:"), "created\n")

    def both(self):
        """The folder of the documents of both packages."""
        for path in (self.package, self.web):
            ran("dpkg-deb", "-x", path, self.room / "both")
        return self.room / "both/usr/share/doc"

    def test_the_pages_and_the_pictures_on_them(self):
        """The pictures are those of the sources."""
        top = self.both()
        self.assertEqual({name: mode for name, mode in modes(top).items() if name.endswith((".md", ".png"))}, PAGES)
        pictures = list(top.rglob("*.png"))
        self.assertEqual(sums(*pictures), sums(*(TOP / "docs" / path.name for path in pictures)))

    def test_each_link_leads_to_a_file_of_the_packages(self):
        """And to a heading of it, if the link names one."""
        anchors = tool("front_page.py", TOP / ".ci/lint").anchors
        top = self.both()
        for page in top.rglob("*.md"):
            for target, anchor in re.findall(r"\]\((?!https?:)([^)#]*)#?([^)]*)\)", page.read_text()):
                with self.subTest(page=page.name, target=target, anchor=anchor):
                    file = (page.parent / target).resolve() if target else page
                    self.assertTrue(file.is_file() and file.is_relative_to(top))
                    self.assertTrue(not anchor or anchor in anchors(file))

    def test_no_page_is_changed_but_for_its_links(self):
        """Once on a page is said of another that it is in the sources."""
        for page in self.both().rglob("*.md"):
            text = page.read_text()
            source = TOP / page.name if page.name == "CHANGELOG.md" else TOP / "docs" / page.name
            with self.subTest(page.name):
                self.assertEqual(without_links(text).replace(" (in the sources)", ""), without_links(source.read_text()))
                told = re.findall(r"(\w+) \(in the sources\)", text)
                self.assertEqual(len(told), len(set(told)))

    def test_what_becomes_of_links(self):
        """In code nothing is one. What neither package has is said to be in the sources once, and not in brackets."""
        put = tool("put-pages", TOP / "packaging")
        page, packages = TOP / "docs/CALLS.md", put.packed()
        cases = (
            ("[A](HTTP.md) [A](HTTP.md#ticks) [A](#a)", "[A](HTTP.md) [A](HTTP.md#ticks) [A](#a)"),
            ("[a\nb](WEB.md#people), [`A`](../CHANGELOG.md)", "[a\nb](../moo-web/WEB.md#people), [`A`](CHANGELOG.md)"),
            ("![A](page-object.png)", "![A](../moo-web/page-object.png)"),
            ("[moo-shell](../packaging/moo-shell.1) [A](https://x.org/A.md)", "moo-shell(1) [A](https://x.org/A.md)"),
            ("([A](GATE.md)) [A](GATE.md#a) [A](GATE.md), [B](TOUR.md)", "(A) A (in the sources) A, B (in the sources)"),
            ("`[A](WEB.md)` `` ` [A](WEB.md)`` [A](WEB.md)", "`[A](WEB.md)` `` ` [A](WEB.md)`` [A](../moo-web/WEB.md)"),
            ("```\n[A](WEB.md)\n```\n\n    [A](WEB.md)\n", "```\n[A](WEB.md)\n```\n\n    [A](WEB.md)\n"),
            ("a ` alone\n\n[A](WEB.md) ` b", "a ` alone\n\n[A](../moo-web/WEB.md) ` b"),
        )
        for text, wanted in cases:
            with self.subTest(text):
                self.assertEqual(put.with_links(page, text, packages), wanted)

    def test_wrong_words_for_the_pages(self):
        for words in ((), ("moo",), ("docs", self.room), ("moo", self.room, "a")):
            done = subprocess.run([TOP / "packaging/put-pages", *words], stderr=subprocess.PIPE, text=True, timeout=SECONDS)
            self.assertEqual((done.returncode, done.stderr), (2, "usage: packaging/put-pages moo|moo-web FOLDER\n"))
        self.assertEqual(list(self.room.iterdir()), [])

    def test_its_checksums(self):
        for path in (self.package, self.web):
            ran("dpkg-deb", "-R", path, self.room / path.name)
            ran("md5sum", "--quiet", "--strict", "-c", "DEBIAN/md5sums", cwd=self.room / path.name)

    def test_the_same_sources_and_moment_make_the_same_package(self):
        self.assertEqual(sums(*self.make_package(self.room)), sums(self.package, self.web))

    @wants("lintian")
    def test_lintian_finds_no_error(self):
        done = subprocess.run(
            ["lintian", "--fail-on", "error", self.package, self.web], stdout=subprocess.PIPE, stderr=subprocess.STDOUT, text=True,
            timeout=10 * SECONDS
        )
        self.assertEqual(done.returncode, 0, done.stdout)


if __name__ == "__main__":
    unittest.main()
