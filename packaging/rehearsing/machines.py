"""New machines of Debian: containers that boot systemd, made by `debootstrap`."""

from __future__ import annotations

import atexit
import os
import re
import shutil
import signal
import subprocess
import time
from pathlib import Path

from rehearsing.page import COMMANDS, TOP, here, is_wrong

# How long is waited for what comes soon on a machine that has time.
SECONDS = 3600
MIRROR = "http://deb.debian.org/debian"
ENTER = "--mount --uts --ipc --net --pid --root --wd".split()
PATH = "/usr/local/sbin:/usr/local/bin:/usr/sbin:/usr/bin:/sbin:/bin"
HOME = {"HOME": "/root", "PATH": PATH, "LANG": "C.UTF-8", "DEBIAN_FRONTEND": "noninteractive"}


def group_for(name: str) -> Path | None:
    """A control group of this name for a machine, if this machine's systemd doesn't make one: two machines may not share theirs."""
    if os.path.exists("/run/systemd/system"):
        return None
    found = re.search(r"^\S+ (\S+) cgroup2 ", Path("/proc/mounts").read_text(), re.M)
    if not found:
        is_wrong("there is no cgroup2 on this machine")
    assert found
    group = Path(found[1]) / name
    group.mkdir(exist_ok=True)
    return group


class Machine:
    """A new machine. `other` plays another machine, with the sources and with copies. `disk2` is a disk that outlives it.

    Its disk, `root`, is Debian's files with what is its own over them, which is in `own`.
    """

    def __init__(self, folder: Path, name: str, disk2: str = "disk2") -> None:
        self.base, self.root, self.own = folder / "base", folder / name, folder / f"{name}.own"
        self.name, self.log = name, folder / f"{name}.log"
        # Rehearsals in several folders may run side by side.
        self.full_name = f"rehearse-{folder.name}-{name}"
        self.other, self.disk2 = folder / "other", folder / disk2
        self.first: int | None = None
        shutil.rmtree(self.own, ignore_errors=True)
        for each in (self.root, self.own / "files", self.own / "work"):
            each.mkdir(parents=True, exist_ok=True)
        layers = f"lowerdir={self.base},upperdir={self.own / 'files'},workdir={self.own / 'work'}"
        subprocess.run(["mount", "-t", "overlay", "overlay", "-o", layers, self.root], check=True)
        atexit.register(self.leave)
        (self.root / "srv/journal2").mkdir(exist_ok=True)
        self.boot()

    def boot(self) -> None:
        """Starts the machine, and waits until it is up."""
        group = group_for(self.full_name)
        binds = [f"--bind={self.other}:/other", f"--bind={self.disk2}:/srv/journal2"]
        words = ["systemd-nspawn", "--quiet", f"--directory={self.root}", f"--machine={self.full_name}", *binds]
        # What is needed to give a unit a network of its own.
        words += ["--capability=CAP_NET_ADMIN", "--register=no", *(["--keep-unit"] if group else []), "--console=pipe", "--boot"]
        if group:
            words = ["sh", "-c", f'echo $$ >{group}/cgroup.procs; exec "$@"', "sh", *words]
        with open(self.log, "ab") as log:
            self.process = subprocess.Popen(
                words,
                env={**os.environ, "SYSTEMD_NSPAWN_UNIFIED_HIERARCHY": "1"},
                stdin=subprocess.DEVNULL,
                stdout=log,
                stderr=log,
                start_new_session=True,
            )
        end = time.monotonic() + SECONDS
        while (state := self.state()) != "running":
            if state == "degraded" or self.process.poll() is not None or time.monotonic() > end:
                failed = self.run(["systemctl --failed --no-legend"], is_good=False) if state else ""
                is_wrong(f"machine {self.name} is {state or 'not up'}: {failed}; its log is {self.log}")
            time.sleep(0.5)

    def state(self) -> str:
        """What its systemd says of it; nothing, if that doesn't run yet. The container's first process isn't its first child at once."""
        children = Path(f"/proc/{self.process.pid}/task/{self.process.pid}/children")
        found = children.read_text().split() if children.exists() else []
        self.first = int(found[0]) if found else None
        return self.run(["systemctl is-system-running --wait"], is_good=False).strip() if found else ""

    def words(self, lines: list[str]) -> list[str]:
        """The command that runs lines of a shell on the machine, of which each has to succeed."""
        return ["nsenter", f"--target={self.first}", *ENTER, "bash", "-exc", "\n".join(["cd /root", *here(lines)])]

    def run(self, lines: list[str], is_good: bool = True, text: str = "") -> str:
        """What lines of a shell print. `text` is their standard input."""
        COMMANDS.take(lines)
        with open(self.log, "ab") as log:
            done = subprocess.run(
                self.words(lines), env=HOME, input=text, stdout=subprocess.PIPE, stderr=log, text=True, timeout=SECONDS, check=False
            )
            log.write(done.stdout.encode())
        if is_good and done.returncode:
            self.log_units()
            is_wrong(f"machine {self.name}: status {done.returncode} of {here(lines)}; its log is {self.log}")
        return done.stdout

    def log_units(self) -> None:
        """Adds to its log what its units said last, which is in its journal alone."""
        self.run(["systemctl --failed --no-legend", "grep ^Vm /proc/1/status", "journalctl --no-pager --output=short-precise --lines=200"], is_good=False)

    def start(self, lines: list[str]) -> subprocess.Popen[str]:
        """Lines of a shell that go on while others run."""
        return subprocess.Popen(
            self.words(lines), env=HOME, stdin=subprocess.DEVNULL, stdout=subprocess.PIPE, stderr=subprocess.DEVNULL, text=True
        )

    def kill(self) -> None:
        """Ends all that runs on it, at once."""
        if self.first and self.process.poll() is None:
            os.kill(self.first, signal.SIGKILL)
            self.process.wait(SECONDS)

    def leave(self) -> None:
        """Kills it. What is its own stays to be looked at."""
        self.kill()
        if os.path.ismount(self.root):
            subprocess.run(["umount", "--lazy", self.root], check=True)

    def lose(self) -> None:
        """Kills it and deletes its disk."""
        self.leave()
        shutil.rmtree(self.own)


def run_to_answer(machine: Machine, lines: list[str]) -> None:
    """Commands, and under them what the last one prints."""
    *lines, answer = lines
    printed = machine.run(lines)
    if not printed.endswith(f"{answer}\n"):
        is_wrong(f"{lines[-1]} printed {printed!r}")


def until(machine: Machine, lines: list[str], seconds: float = SECONDS) -> str:
    """Runs lines until all succeed, and gives what they print then."""
    end = time.monotonic() + seconds
    while time.monotonic() < end:
        printed = machine.run([*lines, "echo '(done)'"], is_good=False)
        if printed.endswith("(done)\n"):
            return printed.removesuffix("(done)\n")
        time.sleep(1)
    is_wrong(f"machine {machine.name}: {lines} doesn't succeed")
    raise AssertionError


def test_shipped(top: Path = TOP) -> None:
    """The machines have the shipped program alone, so that it has to be of its sources."""
    ran = subprocess.run([top / ".ci/sources"], stdout=subprocess.PIPE, text=True, check=True)
    if ran.stdout.strip() != (top / "dist/SOURCES").read_text().strip():
        is_wrong(f"the program in {top}/dist was made from other sources, and a new machine can build none")


def make_base(folder: Path, release: str = "bookworm") -> None:
    """What each machine begins as, the sources for them, and the disk that outlives them."""
    if not (folder / "base").exists():
        shutil.rmtree(folder / "unfinished", ignore_errors=True)
        words = ["debootstrap", "--include=dbus,systemd-sysv", release, str(folder / "unfinished"), MIRROR]
        subprocess.run(words, stdout=subprocess.DEVNULL, check=True)
        (folder / "unfinished/etc/apt/apt.conf.d/yes").write_text('APT::Get::Assume-Yes "true";\n')
        # Debian's own packages needn't be synced file by file.
        (folder / "unfinished/etc/dpkg/dpkg.cfg.d/fast").write_text("force-unsafe-io\n")
        (folder / "unfinished/etc/machine-id").write_text("")
        (folder / "unfinished").rename(folder / "base")
    for name in ("other", "disk2", "disk3"):
        shutil.rmtree(folder / name, ignore_errors=True)
        (folder / name).mkdir()
    subprocess.run(["git", "clone", "--quiet", "--bare", TOP, folder / "other/sources.git"], check=True)
