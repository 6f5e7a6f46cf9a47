"""Another machine that follows the world of the first, and takes its place."""

from __future__ import annotations

import time
from pathlib import Path

from rehearsing.clients import Made, has_all, visits
from rehearsing.copies import copies, tried_copies
from rehearsing.front import INSTALL, number, own_port
from rehearsing.machines import SECONDS, Machine, until
from rehearsing.page import NEW, block, is_wrong, steady_port, step


def standby_on(folder: Path, one: Machine, version: str = NEW) -> Machine:
    """A second machine that follows the first: at first over ssh, and then by the disk that outlives the first."""
    two = Machine(folder, "two")
    with step("install a standby"):
        one.run([f"cp moo/out/moo_{version}_*.deb moo/out/moo-web_{version}_*.deb /other/"])
        two.run(["apt-get update", f"{INSTALL} openssh-client"])
        two.run(["runuser -u moo-web -- ssh-keygen -q -t ed25519 -N '' -f /var/lib/moo-web/.ssh/id_ed25519"])
        key = two.run(["cat /var/lib/moo-web/.ssh/id_ed25519.pub"]).strip()
        port = steady_port()
        ports = ["mkdir -p /etc/ssh/sshd_config.d", f"echo Port {port} >/etc/ssh/sshd_config.d/port.conf"]
        one.run([*ports, "apt-get install openssh-server", "systemctl restart ssh"])
        one.run([line.replace("KEY", key) for line in block("a key")])
        ssh = f"ssh -p {port} -o StrictHostKeyChecking=accept-new -o BatchMode=yes 127.0.0.1"
        two.run([f"echo 'FROM={ssh} moo-send /var/lib/moo-web/world' >/etc/moo/world.conf"])
        one.run(["systemctl reset-failed", *block("back up")])
        begin_standby(two, copies(one.root)[-1])
    return two


def begin_standby(standby: Machine, copy: Path) -> None:
    """Begins a standby with a copy of another machine's, as the page has it."""
    for file in (*copy.glob("world.db*"), *copy.glob("BRANCH")):
        (standby.root / "srv" / file.name.replace("world", "standby")).write_bytes(file.read_bytes())
    begin = [line for line in block("begin a standby") if "moo init" not in line]
    there = "/srv/standby.db* $(ls /srv/BRANCH 2>/dev/null || true)"
    standby.run([begin[0], f"install -o moo-web -g moo-web -m 600 {there} /var/lib/moo-web/world/", *begin[1:]])
    standby.run(["rm -f /srv/standby.db* /srv/BRANCH"])


def standby_by_disk(folder: Path, two: Machine) -> Machine:
    """A third machine, that follows the second by the disk that outlives it."""
    three = Machine(folder, "three")
    three.run(["apt-get update", INSTALL, "echo FOLLOW=/srv/journal2/world >/etc/moo/world.conf"])
    two.run(block("copy the journal"))
    begin_standby(three, tried_copies(two.root)[-1])
    caught_up(three, two)
    return three


def caught_up(two: Machine, one: Machine) -> None:
    """Waits until the standby has the number of the world."""
    end = time.monotonic() + SECONDS
    while time.monotonic() < end:
        told = two.run(["systemctl show -p StatusText --value moo-follow@world"])
        if told.startswith(f"seq {number(one)}, 0 batches behind"):
            return
        time.sleep(0.5)
    is_wrong(f"the standby says {told!r}, and the world has number {number(one)}")


def caught_up_under_load(two: Machine) -> None:
    """The standby isn't late, while clients write."""
    end, told = time.monotonic() + SECONDS, ""
    while ", 0 batches behind" not in told and time.monotonic() < end:
        time.sleep(0.5)
        told = two.run(["systemctl show -p StatusText --value moo-follow@world"])
    if ", 0 batches behind" not in told:
        is_wrong(f"the standby says {told!r}")
    print(f"   {told.strip()}", flush=True)


def follow_by_disk(two: Machine) -> None:
    """The standby reads the second journal from now on."""
    two.run(["systemctl stop moo-follow@world", "echo FOLLOW=/srv/journal2/world >/etc/moo/world.conf", "systemctl start moo-follow@world"])


def machine_died(two: Machine, token: str, made: Made) -> None:
    """The drill: the standby becomes the world."""
    printed = two.run(block("end the standby"))
    if not printed.startswith("seq "):
        is_wrong(f"the standby ended with {printed!r}")
    two.run(block("become the world"))
    two.run([*block("settings"), "echo 'WEB=--journal /srv/journal2/world' >>/etc/moo/world.conf"])
    own_port(two)
    two.run(block("a second journal")[2:5])
    lines = [line for line in block("its own network") + block("start the front") if "moo-people" not in line]
    two.run([*lines, "systemctl enable --now moo@world moo-watch@world.timer"])
    has_all(token, made)


def standby_after_noon(three: Machine, two: Machine, token: str, made: Made) -> None:
    """The standby was past noon: it has ended, and said so. It is begun anew with a copy that was made since."""
    until(three, ["systemctl is-failed moo-follow@world"])
    three.run(["journalctl -u moo-follow@world | grep 'before the journal was begun anew at'"])
    three.run(block("spoiled standby"))
    begin_standby(three, tried_copies(two.root)[-1])
    with visits(token, made):
        caught_up_under_load(three)
    caught_up(three, two)
