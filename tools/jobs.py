"""How many proofs run at once, and what spares each of them time."""

import os
import re
from pathlib import Path

# What the largest proof takes, with a third to spare.
MEMORY_OF_A_PROOF = 4_000_000_000


def free_memory():
    """The bytes that processes may still take, or 0 where the system doesn't tell."""
    try:
        found = re.search(r"MemAvailable: *([0-9]+) kB", Path("/proc/meminfo").read_text())
    except OSError:
        found = None
    return 1024 * int(found[1]) if found else 0


def jobs_at_once():
    """How many proofs run at once: as many as there are processors, and memory for them, or what RT_JOBS says. By
    itself the toolchain gives two or more processors to a proof that is alone, which takes more of their time and
    spares none."""
    if os.environ.get("RT_JOBS", "").isdigit():
        return max(1, int(os.environ["RT_JOBS"]))
    return max(1, min(len(os.sched_getaffinity(0)), free_memory() // MEMORY_OF_A_PROOF))


def keep_memory():
    """Has the toolchain keep the memory that it gave up for what it needs next, in place of giving it back to the
    system and asking for it anew: a fortieth of a proof's time."""
    os.environ.setdefault("MIMALLOC_PURGE_DELAY", "-1")
