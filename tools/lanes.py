#!/usr/bin/env python3
"""Prints how many checks may run side by side: one for each processor, as long as each has 3 GiB of memory.

usage: tools/lanes.py
"""
import os
import re
from pathlib import Path

# A check of the largest crate takes two thirds of it.
ONE_CHECK = 3 << 20


def lanes() -> int:
    """As many as there are processors that this process may use, or fewer where their memory, in kB, isn't there."""
    found = re.search(r"^MemTotal:\s+(\d+)", Path("/proc/meminfo").read_text(), re.M)
    most = int(found[1]) // ONE_CHECK if found else 1
    return max(1, min(len(os.sched_getaffinity(0)), most))


if __name__ == "__main__":
    print(lanes())
