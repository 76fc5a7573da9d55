"""How many checks run side by side on this machine."""

import os
import re

# The control group's quota of processor time, its period, and its limit of memory, in the two versions of groups.
GROUP = "/sys/fs/cgroup"
QUOTAS = [(f"{GROUP}/cpu.max", f"{GROUP}/cpu.max"), (f"{GROUP}/cpu/cpu.cfs_quota_us", f"{GROUP}/cpu/cpu.cfs_period_us")]
LIMITS = [f"{GROUP}/memory.max", f"{GROUP}/memory/memory.limit_in_bytes"]


def number_in(path, pattern):
    """The number that a pattern finds in a file of the system, or None."""
    try:
        with open(path, encoding="ascii") as file:
            return int(re.search(pattern, file.read())[1])
    except (OSError, TypeError):
        return None


def lanes():
    """How many checks run side by side: one a processor, and no more than memory holds at 3 GB for each."""
    processors, memory = len(os.sched_getaffinity(0)), 1024 * number_in("/proc/meminfo", r"MemAvailable:\s+(\d+)")
    for quota, period in QUOTAS:
        quota, period = number_in(quota, r"^(\d+)"), number_in(period, r"(\d+)$")
        if quota and period:
            processors = min(processors, quota // period)
    for limit in LIMITS:
        memory = min(memory, number_in(limit, r"^(\d+)") or memory)
    return max(1, min(processors, memory // 3_000_000_000))
