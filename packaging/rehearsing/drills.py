"""The drills of the page, for a world that has a front."""

from __future__ import annotations

import datetime
import time
from collections.abc import Callable

from rehearsing.clients import Made, answered, asked, counts, has_all, visits
from rehearsing.copies import tried_copies
from rehearsing.front import ALONE, INSTALL, PASSWORD, Served, failed_units, own_port
from rehearsing.full import DISKS, Disk, disk_is_full, world_is_full
from rehearsing.machines import Machine
from rehearsing.page import block, is_wrong, step
from rehearsing.standby import standby_after_noon, standby_by_disk

# The clock of the units that write journals and copies is ahead.
AHEAD = [
    "for unit in moo-web moo-keep moo-copy; do mkdir -p /run/systemd/system/$unit@world.service.d",
    "printf '[Service]\nEnvironment=LD_PRELOAD=/usr/lib/x86_64-linux-gnu/faketime/libfaketime.so.1 FAKETIME=+400d FAKETIME_DONT_FAKE_MONOTONIC=1\n' "
    ">/run/systemd/system/$unit@world.service.d/ahead.conf; done",
    "systemctl daemon-reload", "systemctl restart moo-web@world",
]
SET_RIGHT = ["rm /run/systemd/system/*/ahead.conf", "systemctl daemon-reload", "systemctl restart moo-web@world"]


def disk_died(two: Machine, token: str, made: Made) -> None:
    """The drill: what /var/lib had is gone."""
    two.run(["systemctl kill --signal=KILL moo@world moo-web@world; rm -rf /var/lib/moo/* /var/lib/moo-web/world"])
    two.run(block("from the journal") + block("put in place"))
    has_all(token, made)


def both_folders_died(two: Machine, token: str, made: Made) -> None:
    """The drill without a second folder: the journal's copy takes its place, and the next copy goes on from it."""
    two.run(block("copy the journal"))
    gone = "/var/lib/moo/* /var/lib/moo-web/world /srv/journal2/world/*"
    two.run([f"systemctl kill --signal=KILL moo@world moo-web@world; rm -rf {gone}"])
    two.run(block("from the journal")[:2] + block("from the journal's copy") + block("put in place"))
    has_all(token, made)
    with visits(token, made):
        two.run(block("copy the journal"))
    has_all(token, made)


def back_to_noon(two: Machine, token: str, made: Made) -> None:
    """The drill: what came after a moment isn't in the world any more, and what came before is. A copy was made of what is given up."""
    time.sleep(1)
    noon = datetime.datetime.now(datetime.timezone.utc)
    before = {home: list(answers) for home, answers in made.items()}
    time.sleep(1)
    with visits(token, made):
        two.run(block("copy the journal"))
    two.run([line.partition(" |")[0].replace("2026-11-27T12:00:00+01:00", noon.isoformat()) for line in block("noon")])
    told = two.run(block("go on from noon"))
    if "wizard #3 Wizard wizard\n" not in told:
        is_wrong(f"the accounts were told as {told!r}")
    for home, answers in made.items():
        (under,) = answered(token, "ask", [f"children({home})"])
        if under != before[home] or len(answers) <= len(under):
            is_wrong(f"under {home} are {len(under)} objects, and {len(before[home])} were at noon")
        answers[:] = under


def disk_died_after_noon(two: Machine, token: str, made: Made) -> None:
    """The drill once more, before another copy was made: what was given up doesn't come back."""
    before = {home: list(answers) for home, answers in made.items()}
    disk_died(two, token, made)
    if before != made:
        is_wrong(f"after the loss there are {counts(made)} objects, and {counts(before)} were there before")


def text_of_batches(two: Machine, token: str, made: Made) -> None:
    """The commands for a text of batches that doesn't go through the front."""
    lines = block("a text of batches")
    two.run(["printf 'batch as #3\\nset(#2, \"f\", 1)\\nend\\n' >batches.txt", *lines])
    has_all(token, made)


def somebody_left(two: Machine, token: str, made: Made) -> None:
    """The drill: the person is kept out at once, and what is theirs is found."""
    (ada,) = answered(token, "batch", ["create(#1)"])
    answered(token, "batch", [f"set_player_flag({ada}, 1)"])
    two.run([f"runuser -u moo-web -- moo-people /var/lib/moo-web/world add ada {ada.number}"], text=f"{PASSWORD}\n")
    hers = two.run(["runuser -u moo-web -- moo-people /var/lib/moo-web/world token ada"]).strip()
    answered(token, "batch", [f"create(#1, {ada})"])
    answered(hers, "ask", ["max_object()"])
    answered(hers, "batch", ["max_object()"])
    # There may be over 1,000 objects: the page that has theirs is looked at.
    told = two.run([line.replace("#4", str(ada)).replace("/objects/0", f"/objects/{ada.number}") for line in block("somebody left")])
    if f'"owner":"{ada}"' not in told or '"calls":["max_object()"]' not in told:
        is_wrong(f"of who left was told {told!r}")
    if asked(hers, "ask", ["max_object()"])[0] != 401:
        is_wrong("who left still comes in")
    has_all(token, made)
    failed_units(two)


def clock_was_ahead(two: Machine, token: str, made: Made) -> None:
    """The drill: batches and copies have moments to come. They hide nothing once the clock is right."""
    two.run(["apt-get install libfaketime", *AHEAD])
    with visits(token, made):
        two.run(block("copy the journal"))
    ahead = tried_copies(two.root)[-1]
    if ahead.name[8 + 1 : 8 + 5] == str(datetime.datetime.now(datetime.timezone.utc).year):
        is_wrong(f"the newest copy is {ahead.name}, and the clock wasn't ahead")
    two.run(SET_RIGHT)
    with visits(token, made):
        two.run(["sed -i -e '/^KEEP=/d' -e '/^WEEKLY=/d' -e '/^MONTHLY=/d' /etc/moo/world.conf", "echo KEEP=2 >>/etc/moo/world.conf"])
        two.run(["printf 'WEEKLY=0\\nMONTHLY=0\\n' >>/etc/moo/world.conf", *block("copy the journal"), *block("copy the journal")])
    two.run(["journalctl -u moo-web@world | grep 'the clock went back'"])
    if ahead in tried_copies(two.root):
        is_wrong(f"{ahead.name} is kept, and others were deleted")
    disk_died(two, token, made)


def after_noon(served: Served) -> None:
    """The drill 'Back to noon' with all that may follow: the disk dies, clients go on, and a standby was past noon."""
    folder, two, token, made = served
    with step("another standby, by the disk that outlives a machine"):
        three = standby_by_disk(folder, two)
    with step("back to noon"):
        back_to_noon(two, token, made)
    with step("the disk died after back to noon"):
        disk_died_after_noon(two, token, made)
    with visits(token, made), step("go on from noon"):
        two.run(block("copy the journal"))
    has_all(token, made)
    with step("a standby after back to noon"):
        standby_after_noon(three, two, token, made)
    three.lose()


def restored_elsewhere(served: Served) -> None:
    """The drill: a third machine has nothing but what was brought away."""
    folder, two, token, made = served
    failed_units(two)
    with step("copy the folders away, by root"):
        two.run([*block("copy the journal"), *block("copy away")])
    two.lose()
    with step("install a third machine"):
        four = Machine(folder, "four", "disk3")
        four.run(["apt-get update", INSTALL])
        own_port(four)
    with step("both machines are gone"):
        four.run(block("both are gone"))
        four.run(block("its own network")[1:5] + [block("a second journal")[0], *block("a second journal")[2:5]])
        four.run([*block("put in place"), *block("at each boot"), *ALONE])
        has_all(token, made)
    with visits(token, made), step("go on there, kill it and boot it"):
        four.run(block("copy the journal"))
        four.kill()
        four.boot()
        answered(token, "batch", ["max_object()"])
    has_all(token, made)
    failed_units(four)
    four.lose()


def stepped(name: str, drill: Callable[[Machine, str, Made], None]) -> Callable[[Served], None]:
    """A drill that is one step."""

    def in_a_step(served: Served) -> None:
        with step(name):
            drill(served.machine, served.token, served.made)

    return in_a_step


def disk_filled(disk: Disk) -> Callable[[Machine, str, Made], None]:
    """The drill with this disk."""
    return lambda two, token, made: disk_is_full(two, token, made, disk)


# The drills of the page in their order, by names. Each begins on a machine whose world has a front, and all but the last one leave it so.
DRILLS: dict[str, Callable[[Served], None]] = {
    "the disk died": stepped("the disk died", disk_died),
    "no second folder": stepped("the disk died, and there is no second folder", both_folders_died),
    "back to noon": after_noon,
    "a text of batches": stepped("a text of batches", text_of_batches),
    "somebody left": stepped("somebody left", somebody_left),
    **{name: stepped(name, disk_filled(disk)) for disk in DISKS for name in [f"the disk of {disk.folder} is full"]},
    "the clock was ahead": stepped("the clock was ahead", clock_was_ahead),
    "a world that is full": stepped("a world that is full", world_is_full),
    "both machines are gone": restored_elsewhere,
}
