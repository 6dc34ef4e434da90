"""Memory and processors of this machine."""
import os

# The bytes that a check takes at most, as a rule.
CHECK = 4_000_000_000


def free():
    """Returns the bytes of memory that are free."""
    with open("/proc/meminfo", encoding="ascii") as it:
        return next(1024 * int(line.split()[1]) for line in it if line.startswith("MemAvailable:"))


def lanes(each=CHECK):
    """Returns how many checks, or other runs that take `each` bytes, may run side by side."""
    return max(1, min(len(os.sched_getaffinity(0)), free() // each))
