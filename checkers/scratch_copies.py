"""Scratch copies of the repository, in which crates are checked side by side, and how many can be."""

import os
import re
import shutil

from edits import PARTS
from run_program import ROOT

# The most memory that a check is likely to take where little of it is new, in bytes.
NEED = 3_000_000_000


def libraries():
    """Returns for each crate those of the repository that stand below it, lowest first."""
    listed, below = {}, {}
    with open(f"{ROOT}/crates.txt", encoding="utf-8") as lines:
        for line in lines:
            name, colon, named = line.partition("#")[0].partition(":")
            if colon:
                listed[name.split()[0]] = named.split()

    def of(name):
        if name not in below:
            found = [it for library in listed[name] if library in listed for it in [*of(library), library]]
            below[name] = list(dict.fromkeys(found))
        return below[name]

    return {name: of(name) for name in sorted(listed, key=lambda it: len(of(it)))}


def copied(room):
    """Copies the repository, without what its checks kept."""
    os.makedirs(f"{room}/crates")
    shutil.copy2(f"{ROOT}/crates.txt", f"{room}/crates.txt")
    for crate in libraries():
        os.makedirs(f"{room}/crates/{crate}/out")
        for part in PARTS:
            if os.path.isdir(f"{ROOT}/crates/{crate}/{part}"):
                shutil.copytree(f"{ROOT}/crates/{crate}/{part}", f"{room}/crates/{crate}/{part}")


def lanes():
    """Returns how many checks can run side by side."""
    with open("/proc/meminfo", encoding="utf-8") as file:
        free = 1024 * int(re.search(r"MemAvailable:\s+(\d+)", file.read())[1])
    return max(1, min(len(os.sched_getaffinity(0)), free // NEED))
