"""Which program `./moo` runs: the built one, the shipped one, or one that it builds first; and never another.

The scripts are tried in a small repository of two crates, with programs that are scripts, and with a stand-in for `rt` that 'proves' at
once. Nothing is proved here.
"""

import hashlib
import os
import pathlib
import shutil
import signal
import subprocess
import sys
import tempfile
import time
import unittest

TOP = pathlib.Path(__file__).resolve().parents[2]
SCRIPTS = ("build", "crates", "kit", "program", "release", "sources", "stamp")
TOOLS = "awk bash cat chmod cp cut dirname env find grep mkdir mktemp mv rm sed sh sha256sum sleep sort tr uname uniq wc xargs xz".split()
# A script that runs its words while no program can be run in a folder.
WITHOUT_PROGRAMS = 'mount -t tmpfs -o noexec tmpfs "$0" && exec "$@"'
SECONDS = 300

# What the stand-in for rt does: it tells that it proved both crates, and makes the program.
PROVES = """#!/bin/sh
echo '== low'; echo 'rt: low proved'; echo '== moo'; echo 'rt: moo proved'
mkdir -p crates/moo/out
printf '#!/bin/sh\\necho built "$@"\\n' >crates/moo/out/moo
chmod 755 crates/moo/out/moo
"""
FAILS = """#!/bin/sh
echo '== low'; echo 'goal of the last function'; echo 'rt: low NOT PROVED'
echo 'rt: moo NOT PROVED: its library low failed'
exit 1
"""
GOES_ON = """#!/bin/sh
echo $$ >"$GROUP"
echo 'rt: low proved'
sleep 300
"""


def write(path, text, mode=0o644):
    path.parent.mkdir(parents=True, exist_ok=True)
    path.write_text(text)
    path.chmod(mode)


def runs_in_group(group):
    """Whether a process of the group is still there and has not ended."""
    for status in pathlib.Path("/proc").glob("[0-9]*/stat"):
        try:
            state, _, found = status.read_text().rpartition(")")[2].split()[:3]
        except OSError:
            continue
        if int(found) == group and state not in "ZX":
            return True
    return False


def make_repository(top):
    """A repository of two crates, whose shipped program is a script that says 'shipped'."""
    for name in SCRIPTS:
        (top / ".ci").mkdir(parents=True, exist_ok=True)
        shutil.copy(TOP / ".ci" / name, top / ".ci" / name)
    shutil.copy(TOP / "moo", top / "moo")
    write(top / ".gitignore", "out/\nbuild.log\n")
    write(top / "packaging/spdx", "#!/bin/sh\necho '{}'\n", 0o755)
    write(top / "crates.txt", "low:\nmoo: low\ntest_low: low\n")
    write(top / "HANDLES", "Handles allowed: Net.\n")
    write(top / "crates/low/src/lib.rt", "// low\n")
    write(top / "crates/moo/src/main.rt", "// moo\n")
    write(top / "crates/test_low/src/lib.rt", "// no part of the program\n")
    write(top / "crates/moo/out/moo", '#!/bin/sh\necho shipped "$@"\n[ "$1" != init ] || : >"$2"\n', 0o755)
    sources = subprocess.run([".ci/sources"], cwd=top, check=True, stdout=subprocess.PIPE, text=True).stdout.strip()
    subprocess.run([".ci/stamp", sources], cwd=top, check=True)
    subprocess.run([".ci/release"], cwd=top, check=True)
    shutil.rmtree(top / "crates/moo/out")


def make_tools(folder):
    """A folder of commands that the scripts may call; python3 among them."""
    folder.mkdir()
    for name in TOOLS:
        (folder / name).symlink_to(shutil.which(name))
    write(folder / "python3", f'#!/bin/sh\nexec {sys.executable} "$@"\n', 0o755)


class Shipped(unittest.TestCase):
    @classmethod
    def setUpClass(cls):
        cls.kept = tempfile.TemporaryDirectory()
        cls.addClassCleanup(cls.kept.cleanup)
        room = pathlib.Path(cls.kept.name)
        make_repository(room / "top")
        make_tools(room / "bin")

    def setUp(self):
        room = tempfile.TemporaryDirectory()
        self.addCleanup(room.cleanup)
        room = pathlib.Path(room.name)
        shutil.copytree(pathlib.Path(self.kept.name) / "top", room / "top")
        shutil.copytree(pathlib.Path(self.kept.name) / "bin", room / "bin", symlinks=True)
        self.top, self.bin, self.home = room / "top", room / "bin", room / "home"
        self.home.mkdir()
        self.program = self.top / "crates/moo/out/moo"
        self.group = room / "group"
        self.stand_in_for_rt(PROVES)

    def stand_in_for_rt(self, text):
        write(self.bin / "rt", text, 0o755)

    def environment(self):
        return {"PATH": str(self.bin), "HOME": str(self.home), "GROUP": str(self.group)}

    def call(self, *words, given=None, script="./moo"):
        return subprocess.run(
            [script, *words], cwd=self.top, env=self.environment(), input=given, capture_output=True, text=True, timeout=SECONDS
        )

    def assert_runs(self, which, *said):
        """`./moo` runs this program alone, and says each of these on standard error."""
        ran = self.call("check", "a b")
        self.assertEqual((ran.stdout, ran.returncode), (f"{which} check a b\n", 0), ran.stderr)
        for word in said:
            self.assertIn(word, ran.stderr)
        return ran

    def spoil(self, path, place):
        """Turns a bit of the byte at this part of the file."""
        data = bytearray(path.read_bytes())
        data[int(place * (len(data) - 1))] ^= 1
        path.write_bytes(data)

    def test_shipped_program_is_unpacked_once(self):
        ran = self.assert_runs("shipped", "this is the shipped program")
        self.assertEqual(ran.stderr.count("\n"), 1)
        self.assertEqual(self.assert_runs("shipped").stderr, "")

    def test_changed_byte_of_the_shipped_program(self):
        for place in (0, 0.5, 1):
            with self.subTest(place):
                shutil.rmtree(self.program.parent, ignore_errors=True)
                self.spoil(self.top / "dist/moo-x86_64-linux.xz", place)
                self.assert_runs("built", "isn't the file whose checksum is in dist/SHA256")
                self.spoil(self.top / "dist/moo-x86_64-linux.xz", place)

    def test_changed_checksums(self):
        for line in (0, 1):
            with self.subTest(line):
                shutil.rmtree(self.program.parent, ignore_errors=True)
                sums = self.top / "dist/SHA256"
                kept = sums.read_text()
                lines = kept.splitlines()
                lines[line] = ("1" if lines[line][0] == "0" else "0") + lines[line][1:]
                sums.write_text("\n".join(lines) + "\n")
                self.assert_runs("built", "whose checksum is in dist/SHA256")
                sums.write_text(kept)

    def test_another_program_in_the_shipped_file(self):
        write(self.top / "other", "#!/bin/sh\necho other\n", 0o755)
        subprocess.run("xz -c other >dist/moo-x86_64-linux.xz && rm other", shell=True, cwd=self.top, check=True)
        named = subprocess.run(["sha256sum", "moo-x86_64-linux.xz"], cwd=self.top / "dist", capture_output=True, text=True, check=True)
        sums = self.top / "dist/SHA256"
        sums.write_text(named.stdout + sums.read_text().splitlines()[1] + "\n")
        self.assert_runs("built", "isn't the program whose checksum is in dist/SHA256")

    def test_changed_sources_sum(self):
        self.spoil(self.top / "dist/SOURCES", 0)
        self.assert_runs("built", "was made from other sources")

    def test_changed_sources(self):
        for path in ("crates/low/src/lib.rt", "crates/low/src/new.rt", "crates.txt", "HANDLES", ".ci/kit"):
            with self.subTest(path):
                file = self.top / path
                kept = file.read_text() if file.exists() else None
                write(file, (kept or "") + "# changed\n")
                shutil.rmtree(self.program.parent, ignore_errors=True)
                self.assert_runs("built", "was made from other sources")
                self.assertEqual(self.assert_runs("built").stderr, "")
                if kept is None:
                    file.unlink()
                else:
                    write(file, kept)
                self.assert_runs("shipped")

    def test_removed_source(self):
        (self.top / "crates/low/src/lib.rt").unlink()
        write(self.top / "crates/low/src/other.rt", "// low\n")
        self.assert_runs("built", "was made from other sources")

    def test_changed_file_that_is_no_source(self):
        write(self.top / "crates/test_low/src/lib.rt", "// changed\n")
        self.assert_runs("shipped")

    def test_changed_program_is_not_run(self):
        self.assert_runs("shipped")
        write(self.program, "#!/bin/sh\necho other\n", 0o755)
        self.assert_runs("shipped", "this is the shipped program")

    def test_no_xz(self):
        (self.bin / "xz").unlink()
        self.assert_runs("built", "the command xz is missing")

    def test_no_shipped_program(self):
        shutil.rmtree(self.top / "dist")
        self.assert_runs("built", "there is no shipped program")

    def test_another_machine(self):
        (self.bin / "uname").unlink()
        write(self.bin / "uname", "#!/bin/sh\necho Linux aarch64\n", 0o755)
        self.assert_runs("built", "the shipped program is for Linux on x86_64")

    def test_shipped_program_that_does_not_start(self):
        self.assert_runs("shipped")
        write(self.program, "#!/nowhere/sh\n", 0o755)
        sources, _ = (self.top / "crates/moo/out/moo.sources").read_text().split()
        self.assertEqual(self.call(sources, script=".ci/stamp").returncode, 0)
        self.assertEqual(self.call(script=".ci/release").returncode, 0)
        shutil.rmtree(self.program.parent)
        self.assert_runs("built", "doesn't run here")

    def test_which_sources_were_changed(self):
        (self.bin / "rt").unlink()
        for number in range(4):
            write(self.top / f"crates/low/src/new_{number}.rt", "// new\n")
        said = self.refused()
        self.assertIn("other sources than these: crates/low/src/new_0.rt, crates/low/src/new_1.rt, crates/low/src/new_2.rt and 1 more\n", said)
        self.assertIn("./moo --shipped WORD ..", said)
        self.assertIn("the Rattle kit, which isn't released", said)

    def test_shipped_program_in_any_case(self):
        """What was built from other sources stays as it is."""
        write(self.top / "HANDLES", "Handles allowed: none.\n")
        self.assert_runs("built")
        ran = self.call("--shipped", "check", "a b")
        self.assertEqual((ran.stdout, ran.returncode), ("shipped check a b\n", 0), ran.stderr)
        self.assertEqual(self.assert_runs("built").stderr, "")

    def test_a_folder_in_which_no_file_can_be_made(self):
        """As in a clone that can only be read, or another user's: the program is in the user's own folder."""
        write(self.program.parent, "this is a file\n")
        self.assert_runs("shipped", f"it is in {self.home}/.cache/moo, since", "no file can be made there")
        self.assertEqual(self.assert_runs("shipped").stderr, "")
        self.assertEqual(self.call(script=".ci/program").stdout, f"{self.home}/.cache/moo/moo\n")
        write(self.home / ".cache/moo/moo", "#!/bin/sh\necho other\n", 0o755)
        self.assert_runs("shipped", "this is the shipped program")

    def test_no_folder_in_which_a_file_can_be_made(self):
        (self.bin / "rt").unlink()
        write(self.program.parent, "this is a file\n")
        write(self.home / ".cache", "this is a file\n")
        self.assertIn("to unpack it elsewhere: xz -dc dist/moo-x86_64-linux.xz >FILE; chmod +x FILE\n", self.refused())

    def test_a_folder_in_which_no_program_can_be_run(self):
        self.program.parent.mkdir(parents=True)
        words = ["unshare", "--map-root-user", "--mount", "sh", "-c", WITHOUT_PROGRAMS, str(self.program.parent)]
        tried = subprocess.run([*words, "true"], capture_output=True, text=True) if shutil.which("unshare") else None
        if not tried or tried.returncode:
            self.skipTest(f"this machine mounts nothing: {tried.stderr.strip() if tried else 'the command unshare is missing'}")
        ran = subprocess.run(
            [*words, "env", "-i", *(f"{name}={value}" for name, value in self.environment().items()), "./moo", "check"], cwd=self.top,
            capture_output=True, text=True, timeout=SECONDS
        )
        self.assertEqual((ran.stdout, ran.returncode), ("shipped check\n", 0), ran.stderr)
        self.assertIn(f"no program can be run in {self.program.parent} (is it mounted noexec?)", ran.stderr)

    def refused(self):
        """What is said when no program is run."""
        ran = self.call("check", "a")
        self.assertEqual((ran.stdout, ran.returncode), ("", 1))
        return ran.stderr

    def test_the_list_of_sources_is_that_of_their_checksum(self):
        listed = self.call("--files", script=".ci/sources").stdout
        self.assertEqual((self.top / "dist/MANIFEST").read_text(), listed)
        self.assertEqual(hashlib.sha256(listed.encode()).hexdigest(), (self.top / "dist/SOURCES").read_text().strip())
        self.assertEqual([line.split("  ")[1] for line in listed.splitlines()], [
            ".ci/kit", "HANDLES", "crates.txt", "crates/low/src/lib.rt", "crates/moo/src/main.rt",
        ])

    def test_the_repository_has_the_list_too(self):
        listed = (TOP / "dist/MANIFEST").read_bytes()
        self.assertEqual(hashlib.sha256(listed).hexdigest(), (TOP / "dist/SOURCES").read_text().strip())

    def test_make_says_where_the_program_is(self):
        shutil.copy(TOP / "Makefile", self.top / "Makefile")
        (self.bin / "make").symlink_to(shutil.which("make"))
        ran = self.call(script="make")
        self.assertIn(f"the program: {self.program} (make test tests it", ran.stdout)

    def test_build_in_any_case(self):
        self.assert_runs("shipped")
        ran = self.call("--build")
        self.assertEqual(ran.returncode, 0, ran.stdout)
        self.assertEqual(self.assert_runs("built").stderr, "")

    def test_no_rt(self):
        write(self.top / "HANDLES", "Handles allowed: none.\n")
        (self.bin / "rt").unlink()
        ran = self.call("check", "a")
        self.assertEqual((ran.stdout, ran.returncode), ("", 1))
        self.assertIn("its command rt is missing", ran.stderr)

    def test_failed_build(self):
        write(self.top / "HANDLES", "Handles allowed: none.\n")
        self.stand_in_for_rt(FAILS)
        ran = self.call("check", "a")
        self.assertEqual((ran.stdout, ran.returncode), ("", 1))
        self.assertIn("low could not be proved or built", ran.stderr)
        self.assertIn("goal of the last function", ran.stderr)
        self.assertFalse(self.program.exists())

    def test_build_leaves_the_input(self):
        write(self.top / "HANDLES", "Handles allowed: none.\n")
        self.stand_in_for_rt(PROVES.replace('echo built "$@"', "cat"))
        ran = self.call(given="as given\n")
        self.assertEqual((ran.stdout, ran.returncode), ("as given\n", 0))

    def test_interrupt_leaves_nothing_running(self):
        self.stand_in_for_rt(GOES_ON)
        # A shell that runs the tests in the background has them ignore Ctrl-C, which this process would pass on.
        heeds = lambda: signal.signal(signal.SIGINT, signal.SIG_DFL)
        run = subprocess.Popen([".ci/build"], cwd=self.top, env=self.environment(), stdout=subprocess.PIPE, text=True, preexec_fn=heeds)
        self.addCleanup(run.stdout.close)
        # Before it hears of rt, a Ctrl-C could come before rt is waited for.
        while "low" not in (line := run.stdout.readline()):
            self.assertTrue(line, "it ended")
        group = int(self.group.read_text())
        self.addCleanup(lambda: runs_in_group(group) and os.killpg(group, signal.SIGKILL))
        self.assertTrue(runs_in_group(group))
        run.send_signal(signal.SIGINT)
        self.assertEqual(run.wait(timeout=SECONDS), 1)
        until = time.monotonic() + SECONDS
        while runs_in_group(group) and time.monotonic() < until:
            time.sleep(0.05)
        self.assertFalse(runs_in_group(group))

    def test_release_refuses_another_program(self):
        self.assert_runs("shipped")
        write(self.top / "HANDLES", "Handles allowed: none.\n")
        before = (self.top / "dist/SOURCES").read_text()
        ran = self.call(script=".ci/release")
        self.assertEqual(ran.returncode, 1)
        self.assertIn("isn't the program of these sources", ran.stderr)
        self.assertEqual((self.top / "dist/SOURCES").read_text(), before)


if __name__ == "__main__":
    unittest.main()
