"""A world that has a front: it is let in, kept in a network of its own, and restarted while another user tries to come in."""

from __future__ import annotations

import os
import random
from collections.abc import Iterator
from pathlib import Path
from typing import NamedTuple

from rehearsing.clients import Made, answered, has_all, visits
from rehearsing.machines import SECONDS, Machine, run_to_answer
from rehearsing.page import NEW, TOP, block, is_wrong, of_version

PASSWORD = "a password of the wizard's"
RESTARTS = int(os.environ.get("RESTARTS", 24))
# The world and its front are in one network, and it isn't the machine's.
ALONE = [
    "net() { readlink /proc/$1/ns/net; }; main() { systemctl show -p MainPID --value $1; }",
    'test "$(net $(main moo@world))" = "$(net $(main moo-web@world))"',
    'test "$(net $(main moo@world))" != "$(net 1)"',
]
STRANGER = TOP / "packaging/rehearsing/stranger.py"
PORT_CONF = "/etc/systemd/system/moo-web@world.socket.d/port.conf"
# A watch that runs for long, and is outside if the world is.
SLOW = "/run/systemd/system/moo-watch@world.service.d/slow.conf"
SLOW_WATCH = [
    f"mkdir -p $(dirname {SLOW})", f"printf '[Service]\nExecStartPre=sleep 600\n' >{SLOW}", "systemctl daemon-reload",
    "systemctl start --no-block moo-watch@world", "sleep 1", f"rm {SLOW}"
]  # fmt: skip
# Both packages, which a machine has put on the other one.
INSTALL = "apt-get install --reinstall /other/moo_*.deb /other/moo-web_*.deb curl rsync"


class Served(NamedTuple):
    """A machine whose world has a front: with the wizard's token, and what the clients were answered of it."""

    folder: Path
    machine: Machine
    token: str
    made: Made


def failed_units(machine: Machine) -> None:
    """Nothing failed on it."""
    machine.run(["! systemctl --failed --no-legend | grep ."])


def own_port(machine: Machine) -> None:
    """Gives the front the port of this rehearsal, as the page has it for a second world."""
    machine.run([f"mkdir -p $(dirname {PORT_CONF})", f"printf '[Socket]\\nListenStream=\\nListenStream=127.0.0.1:8088\\n' >{PORT_CONF}"])


def let_people_in(one: Machine, version: str = NEW) -> str:
    """A front for the world that is there, with its journal on two disks. Gives the wizard's token."""
    one.run(["cd moo", *of_version(block("install the front"), version), "apt-get install curl"])
    own_port(one)
    one.run(SLOW_WATCH)
    one.run(block("its own network"), text=f"{PASSWORD}\n")
    one.run(block("start the front"))
    one.run(ALONE)
    one.run(block("a second journal"))
    run_to_answer(one, [*block("get at it")[:2], f"seq {number(one)}"])
    told = one.run(block("get at it"))
    if "wizard #3 Wizard wizard\n" not in told:
        is_wrong(f"the accounts were told as {told!r}")
    return one.run(["runuser -u moo-web -- moo-people /var/lib/moo-web/world token wizard"]).strip()


def number(machine: Machine) -> int:
    """The number of the world of a front."""
    return int(machine.run(block("get at it")[:2]).split()[1])


def stay_inside(machine: Machine) -> None:
    """If a watch runs outside, the world isn't served there: it waits until it gets a network of its own."""
    start = block("its own network")
    outside = "rm /etc/systemd/system/moo@world.service.d/alone.conf /etc/systemd/system/moo-watch@world.service.d/alone.conf"
    front = "moo-web@world.socket moo-web@world"
    machine.run([f"systemctl stop {front}", start[0], outside, "systemctl daemon-reload", "systemctl start moo@world", *SLOW_WATCH])
    served = "if systemctl restart moo@world; then exit 1; fi"
    machine.run([*start[1:5], served, "journalctl -u moo@world | grep 'moo-alone: not in a network'"])
    inside = "timeout 600 sh -c 'until systemctl is-active --quiet moo@world; do sleep 0.1; done'"
    machine.run(["systemctl stop moo-watch@world", inside, f"systemctl start moo-watch@world.timer {front}", *ALONE])


def restarts(machine: Machine, chance: random.Random) -> Iterator[None]:
    """Ends and starts the parts of a world with a front, in many ways, and yields after each."""
    ways = (
        ["systemctl restart moo@world"],
        ["systemctl kill --signal=KILL moo@world"],
        ["systemctl restart moo-web@world"],
        ["systemctl kill --signal=KILL moo-web@world"],
        ["systemctl kill --signal=KILL moo@world moo-web@world"],
        ["systemctl stop moo@world", "systemctl start moo-watch@world --no-block", "sleep 0.3", "systemctl start moo@world"],
        [
            # A visitor may start both by the socket before they have ended. Then systemd gives the stop up, with status 1.
            "systemctl stop moo@world moo-web@world || true", "systemctl start moo-watch@world --no-block", "sleep 0.3",
            "systemctl start moo-web@world moo@world"
        ],
        ["systemctl start moo-backup@world", "systemctl start moo-copy@world"],
    )
    for count in range(RESTARTS):
        # Nobody else starts units so often that systemd bounds it.
        machine.run(["systemctl reset-failed", *(ways[count] if count < len(ways) else chance.choice(ways))])
        yield


def keep_strangers_out(machine: Machine, token: str, made: Made) -> None:
    """Another user of the machine tries to come in, or to take a port, while all is restarted again and again."""
    (machine.root / "srv/stranger.py").write_bytes(STRANGER.read_bytes())
    for way in ("reach", "impostor"):
        words = f"runuser -u nobody -- python3 /srv/stranger.py {way} 8080 8088"
        stranger = machine.start([words])
        with visits(token, made):
            for _ in restarts(machine, random.Random(way)):
                answered(token, "batch", ["max_object()"])
                machine.run(["systemctl reset-failed", "systemctl start moo-watch@world", *ALONE])
        machine.run(["pkill -TERM -u nobody -f stranger.py"])
        told = stranger.communicate(timeout=SECONDS)[0].splitlines()
        if len(told) != 1 or not told[0].startswith("tried ") or int(told[0].split()[1]) < 100:
            is_wrong(f"a stranger of the way '{way}' says {told}")
        print(f"   {way}: {told[0]} times", flush=True)
        has_all(token, made)
        failed_units(machine)
