"""What this process takes of the machine, by /proc and its control group; and the names that Prometheus has for it."""

from __future__ import annotations

import math
import os
import resource
import time
from pathlib import Path

from moo_web.status.metrics import Gauge, Metric, Total

GROUPS, OWN_GROUP = Path("/sys/fs/cgroup"), Path("/proc/self/cgroup")
STARTED_AT = time.time()


def resident_bytes() -> float:
    """How many bytes of memory it has."""
    return int(Path("/proc/self/statm").read_text().split()[1]) * resource.getpagesize()


def bound_of_memory() -> float:
    """How many bytes it may have, by its control group and those above; infinite without a bound, or if that can't be read."""
    bound = math.inf
    try:
        path = next(line.partition("::")[2] for line in OWN_GROUP.read_text().splitlines() if line.startswith("0::"))
        group = GROUPS / path.lstrip("/")
        for each in [group, *group.parents]:
            if GROUPS not in (each, *each.parents) or not (each / "memory.max").exists():
                break
            told = (each / "memory.max").read_text().strip()
            bound = bound if told == "max" else min(bound, float(told))
    except (OSError, ValueError, StopIteration):
        pass
    return bound


def open_files() -> float:
    """How many files and connections it has open."""
    return len(os.listdir("/proc/self/fd"))


def process_metrics() -> list[Metric]:
    """All of this, by the names that clients of Prometheus share."""
    return [
        Total("process_cpu_seconds_total", "Seconds of processor time of the front.", time.process_time),
        Gauge("process_resident_memory_bytes", "Memory of the front.", resident_bytes),
        Gauge("moo_front_memory_bound_bytes", "Memory that the front may have, by its unit.", bound_of_memory),
        Gauge("process_open_fds", "Files and connections that the front has open.", open_files),
        Gauge("process_max_fds", "Files and connections that it may have open.", lambda: resource.getrlimit(resource.RLIMIT_NOFILE)[0]),
        Gauge("process_start_time_seconds", "When the front was started, in seconds since 1970.", lambda: STARTED_AT),
    ]
