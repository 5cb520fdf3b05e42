#!/usr/bin/env python3
"""Proves and builds the program, crate by crate from the lowest, each with a job for each core, and says how far it is. What is not proved
is printed as it comes. Where it was broken off, it goes on with what was proved. Once the program is built it is run for its help, which is
not shown.

usage: checkers/build_program.py
"""

import re
import subprocess
import sys

from run_program import PROGRAM, ROOT
from scratch_copies import lanes, libraries

TOP = "collbench"
# Lines on what is proved, and on what was read for it.
PASSED_OVER = re.compile(
    r".*: proved(, may abort)?$|(\S+: )?note: |rt: (the quick pass|running|chose)"
    r"|(axioms|by-macro:|crate|library|linked|logic /|only=|statements) ?\S"
)


def told(crate, words, folder):
    """Runs `rt` in a crate's folder, and prints how far it is, and what is not proved. Returns its status."""
    how = {"stdin": subprocess.DEVNULL, "stdout": subprocess.PIPE, "stderr": subprocess.STDOUT}
    built = False
    with subprocess.Popen(["rt", *words], cwd=folder, encoding="utf-8", errors="replace", **how) as build:
        for line in build.stdout:
            so_far = re.match(r"so far: ([1-9]\d* of \d+ functions)", line)
            built = built or line.startswith("logic=proved")
            if so_far:
                print(f"{crate}: {so_far[1]}", flush=True)
            elif not built and not PASSED_OVER.match(line) and not line.startswith("so far: 0 "):
                print(f"{crate}: {line}", end="", flush=True)
    return build.returncode


def all_proved(libraries_below):
    """Proves the libraries below the program, lowest first, and says how many are. Returns whether all are."""
    for done, crate in enumerate(libraries_below, 1):
        if told(crate, ["lib", "--jobs", str(lanes())], f"{ROOT}/crates/{crate}"):
            return False
        print(f"{crate}: proved, {done} of {len(libraries_below) + 1} crates", flush=True)
    return True


def main():
    print("Proving and building the program: one to two hours from nothing, and less after a change.", flush=True)
    try:
        built = all_proved(libraries()[TOP]) and told(TOP, ["run", "--", "--help"], f"{ROOT}/crates/{TOP}") == 0
    except KeyboardInterrupt:
        print("Broken off. The next run goes on with what is proved by now.")
        return 1
    if not built:
        print("The program is not built.")
        return 1
    print(f"The program is proved and built: {PROGRAM}")
    return 0


if __name__ == "__main__":
    sys.exit(main())
