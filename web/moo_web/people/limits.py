"""How often something may be done: rates by a name, and waits after failures."""

from __future__ import annotations

import functools
import ipaddress
import threading
import time
from typing import Callable

MOST_NAMES = 10_000
# A rate may be used up for so many seconds at once, after a rest.
BURST_SECONDS = 10.0
Clock = Callable[[], float]


@functools.lru_cache(MOST_NAMES)
def network_of(address: str) -> str:
    """What stands for one peer: an address of IPv4, or the network of 64 bits of one of IPv6."""
    try:
        read = ipaddress.ip_address(address.partition("%")[0])
    except ValueError:
        return address
    if isinstance(read, ipaddress.IPv6Address):
        return str(read.ipv4_mapped) if read.ipv4_mapped else str(ipaddress.ip_network((read, 64), strict=False))
    return str(read)


class Rate:
    """So many times a second for each name, and up to `burst` times at once after a rest."""

    def __init__(self, per_second: float, burst: float, clock: Clock = time.monotonic) -> None:
        self.per_second, self.burst, self.clock = per_second, burst, clock
        self.lock = threading.Lock()
        self.left: dict[str, tuple[float, float]] = {}

    def take(self, name: str) -> bool:
        """Whether it may be done once more now by this name; if so it counts."""
        with self.lock:
            left = self.now_left(name)
            may = left >= 1
            self.left[name] = (left - may, self.clock())
            if len(self.left) > MOST_NAMES:
                self.forget()
            return may

    def is_open(self, name: str) -> bool:
        """Whether it may be done once more now; this doesn't count."""
        with self.lock:
            return self.now_left(name) >= 1

    def now_left(self, name: str) -> float:
        left, moment = self.left.get(name, (self.burst, self.clock()))
        return min(self.burst, left + (self.clock() - moment) * self.per_second)

    def forget(self) -> None:
        """Forgets who could do it `burst` times now; if that are few, the half that came first."""
        self.left = {name: at for name, at in self.left.items() if self.now_left(name) < self.burst}
        if len(self.left) > MOST_NAMES:
            self.left = dict(sorted(self.left.items(), key=lambda one: one[1][1])[len(self.left) // 2 :])


class BackOff:
    """Waits after failures: none for the first `free` of a name, then one second, two, four, at most `longest`. A success ends them.

    A name is forgotten after `longest` times four seconds without a failure.
    """

    def __init__(self, free: int = 5, longest: float = 300.0, clock: Clock = time.monotonic) -> None:
        self.free, self.longest, self.clock = free, longest, clock
        self.lock = threading.Lock()
        self.failures: dict[str, tuple[int, float]] = {}

    def wait(self, name: str) -> float:
        """How many seconds this name has to wait; 0 if it may try now."""
        with self.lock:
            count, moment = self.failures.get(name, (0, 0.0))
            if count < self.free:
                return 0.0
            return max(0.0, moment + min(2.0 ** min(count - self.free, 30), self.longest) - self.clock())

    def fail(self, name: str) -> None:
        """Counts a failure."""
        with self.lock:
            now = self.clock()
            if len(self.failures) > MOST_NAMES:
                self.failures = {other: last for other, last in self.failures.items() if now - last[1] < 4 * self.longest}
            count, moment = self.failures.get(name, (0, now))
            self.failures[name] = (count + 1 if now - moment < 4 * self.longest else 1, now)

    def succeed(self, name: str) -> None:
        """Forgets a name."""
        with self.lock:
            self.failures.pop(name, None)
