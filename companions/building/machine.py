"""What the machine has to give: processors, memory."""
import os
import re
from pathlib import Path

# The limits of a control group: its quota of time with the period, the most memory, and the memory that it holds.
QUOTA = Path("/sys/fs/cgroup/cpu.max")
MOST, HELD = Path("/sys/fs/cgroup/memory.max"), Path("/sys/fs/cgroup/memory.current")


def numbers_in(path, pattern):
    """The numbers of a file that a pattern finds; None where it has none such."""
    try:
        found = re.search(pattern, path.read_text(encoding="utf-8"), re.M)
    except OSError:
        return None
    return tuple(map(int, found.groups())) if found else None


def processors():
    """How many processors there are to use."""
    found = len(os.sched_getaffinity(0))
    quota = numbers_in(QUOTA, r"^(\d+) (\d+)")
    return min(found, max(1, quota[0] // quota[1])) if quota else found


def free_memory():
    """The free memory, in bytes."""
    free = 1024 * numbers_in(Path("/proc/meminfo"), r"^MemAvailable: +(\d+)")[0]
    most, held = numbers_in(MOST, r"^(\d+)"), numbers_in(HELD, r"^(\d+)")
    return min(free, most[0] - held[0]) if most and held else free
