"""How many crates are proved at a time, by tools/prove and by the gate."""
import os
import pathlib
import re

# Kilobytes of memory that the checks of crates take with one job: the largest (tests), and one beside it.
OF_THE_LARGEST, OF_ANOTHER = 7200000, 3500000
# With so much free memory, `rt ci` can keep to its own reckoning, which is two to three times what checks take.
ENOUGH_FOR_RT = 28000000


def free():
    return int(re.search(r"^MemAvailable: *(\d+)", pathlib.Path("/proc/meminfo").read_text(), re.M)[1])


def lanes():
    """Returns how many crates are proved at a time: one for each processor, and no more than free memory allows."""
    return max(1, min(1 + (free() - OF_THE_LARGEST) // OF_ANOTHER, len(os.sched_getaffinity(0))))


def for_gate():
    """Returns the variables for `rt ci`. With RT_JOBS each check has one job, and none waits for memory. Without it a check also has the
    processors that no other waits for, but many wait for memory that they don't take."""
    return {} if "RT_JOBS" in os.environ or free() > ENOUGH_FOR_RT else {"RT_JOBS": str(lanes())}
