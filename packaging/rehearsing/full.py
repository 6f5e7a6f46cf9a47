"""What is full: a disk of each kind, and a world."""

from __future__ import annotations

import time
from typing import NamedTuple

from moo_client import Obj

from rehearsing.clients import Made, answered, asked, has_all, visits
from rehearsing.front import failed_units
from rehearsing.machines import SECONDS, Machine, until
from rehearsing.page import block, is_wrong


class Disk(NamedTuple):
    """A folder on a disk that fills up: what is told then, and whether people read meanwhile. The copies' disk hurts nobody."""

    folder: str
    told: str
    is_read: bool


DISKS = (
    Disk("/var/lib/moo", r"moo-watch@world.service .* failed: .*(the disk of /var/lib/moo is|503 closed|no answer)", False),
    Disk("/var/lib/moo-web", r"moo-watch@world.service .* failed: .*No space left", True),
    Disk("/srv/journal2", r"moo-watch@world.service .* failed: .*No space left", True),
    Disk("/var/backups/moo-web", r"moo-(keep|copy)@world.service .* failed: .*No space left", True),
)
JOURNALS = ("/var/lib/moo-web", "/srv/journal2")
# systemd's own process has the bound of a start before it becomes moo, and needs this much (OPERATING, 'Memory').
LEAST_START = 1 << 30


def on_small_disk(two: Machine, folder: str) -> None:
    """Puts a folder onto a small disk, while its units are stopped."""
    stop, start = block("from the journal")[0], block("put in place")[-1]
    small = "size=$(($(du -sm $folder | cut -f 1) + 12))m"
    mount = "mkdir -p /mnt/small; mount -t tmpfs -o $small small /mnt/small; cp -a $folder/. /mnt/small/; mount --bind /mnt/small $folder"
    two.run([stop, f"folder={folder}", f'small="{small}"', mount, start])


def off_small_disk(two: Machine, folder: str) -> None:
    """Moves it to a larger one, as the page has it."""
    stop, start = block("from the journal")[0], block("put in place")[-1]
    two.run([stop, f"umount {folder}", f"rm -rf {folder}/*", f"cp -a /mnt/small/. {folder}/", "umount /mnt/small", start])


def disk_is_full(two: Machine, token: str, made: Made, disk: Disk) -> None:
    """The drill: a disk has no room while clients write. It is told, and once there is room all goes on by itself."""
    folder = disk.folder
    on_small_disk(two, folder)
    answered(token, "batch", ["max_object()"])
    begun = two.run(["date '+%F %T'"]).strip()
    with visits(token, made):
        two.run([f"! cat /dev/zero >{folder}/filler", *block("disks")])
        if folder.startswith("/var/backups"):
            two.run(block("copy the journal"), is_good=False)
        until(two, [f"journalctl --quiet --output=cat -p err --since '{begun}' | grep -E '{disk.told}'"])
        if disk.is_read:
            answered(token, "ask", ["max_object()"])
        if folder in JOURNALS:
            is_refused(token)
        two.run([f"rm {folder}/filler"])
        until(two, block("look now"))
        answered(token, "batch", ["max_object()"])
    until(two, block("copy the journal"))
    has_all(token, made)
    failed_units(two)
    off_small_disk(two, folder)
    has_all(token, made)


def is_refused(token: str) -> None:
    """Waits until a batch is refused, since the disk of the journal has no room for it."""
    end = time.monotonic() + SECONDS
    while asked(token, "batch", ["max_object()"])[0] != 503:
        if time.monotonic() > end:
            is_wrong("batches are taken while a disk of the journal is full")
        time.sleep(0.2)


def bounds(taken: int) -> tuple[int, int]:
    """The bounds of a run and of a start, in bytes, for a world that takes so many."""
    bound = taken + (40 << 20)
    return bound, max(LEAST_START, 4 * bound)


def world_is_full(two: Machine, token: str, made: Made) -> None:
    """Somebody adds as much as the bound of a run lets them. The world is read, written no more, and starts; what is removed makes room."""
    taken = int(two.run(["grep VmSize /proc/$(systemctl show -p MainPID --value moo@world)/status"]).split()[1]) << 10
    bound, of_a_start = bounds(taken)
    lines = "\\n".join(block("bound of a start")).replace("32G", str(of_a_start))
    two.run([f"echo RUN_BYTES={bound} >>/etc/moo/world.conf", "mkdir -p /etc/systemd/system/moo@world.service.d"])
    two.run([f"printf '{lines}\\n' >/etc/systemd/system/moo@world.service.d/bound.conf", "systemctl daemon-reload", "systemctl restart moo@world"])
    (bulky,) = answered(token, "batch", ["create(#1)"])
    count, said = fill(token, bulky)
    print(f"   {count} values of 60 kB beside {taken >> 20} MB, under a bound of {bound >> 20} MB, and then {said}", flush=True)
    for _ in range(2):
        two.run(["systemctl restart moo@world", "systemctl start moo-watch@world || true"])
        answered(token, "ask", [f"children({bulky})"])
        until(two, ["ls /run/moo/world.full"])
        status, refusal = asked(token, "batch", [f"create({bulky})"])
        if status != 429 or not refusal["why"].startswith("the world is full"):
            is_wrong(f"a full world answers {status} {refusal} to who adds something")
    has_all(token, made)
    for first in range(0, count, 10):
        answered(token, "batch", [f'delete_property({bulky}, "z{number}")' for number in range(first, min(count, first + 10))])
    two.run(["systemctl restart moo@world"])
    until(two, [*block("look now"), "! ls /run/moo/world.full"])
    answered(token, "batch", [f"create({bulky})"])
    two.run(["sed -i /^RUN_BYTES=/d /etc/moo/world.conf", "rm /etc/systemd/system/moo@world.service.d/bound.conf", "systemctl daemon-reload"])
    two.run(["systemctl restart moo@world"])


def fill(token: str, bulky: Obj) -> tuple[int, str]:
    """Adds long values to an object until that is refused for a minute. It gives how many, and what was said last."""
    count, said, end = 0, "", time.monotonic() + 60
    while time.monotonic() < end:
        value = f'"{"x" * 60_000}"'
        status, told = asked(token, "batch", [f'add_property({bulky}, "z{count}", {value}, {{#3, "r"}})'])
        if status in (200, 409):
            # The second is told if it was added, and the answer was lost.
            count, end = count + 1, time.monotonic() + 60
        elif status == 429 and "full" in told["why"]:
            return count, told["why"]
        else:
            said = f"{status} {told}"
            time.sleep(1)
    return count, said
