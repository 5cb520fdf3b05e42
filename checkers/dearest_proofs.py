#!/usr/bin/env python3
"""Prints what takes longest in a check of a crate: the thirty functions that the most time passed for.

usage: checkers/dearest_proofs.py CRATE

The crate is checked with one job, and `rt check` prints a line as the proof of each function ends: a function took the time since that of
the one before. A check begins with what checks kept, so it tells of what has changed since. The first function that needs a file of lemmas or a
library also pays for it. Nothing else should run meanwhile.
"""

import re
import subprocess
import sys
import time

from run_program import ROOT

# The line that a check prints as the proof of a function ends.
ENDED = re.compile(r"checked (\S+), \d+ of \d+")
MOST = 30


def timed(crate):
    """Checks a crate. Returns the seconds of each function, its whole time, and its status."""
    words, how = ["rt", "check", "--jobs", "1"], {"stdin": subprocess.DEVNULL, "stdout": subprocess.PIPE, "stderr": subprocess.STDOUT}
    begun = time.monotonic()
    before, found = begun, []
    with subprocess.Popen(words, cwd=f"{ROOT}/crates/{crate}", encoding="utf-8", errors="replace", **how) as check:
        for line in check.stdout:
            ended, now = ENDED.match(line), time.monotonic()
            if ended:
                found.append((now - before, ended[1]))
            if ended or not found:
                before = now
    return found, time.monotonic() - begun, check.returncode


def main(words):
    if len(words) != 1:
        print(__doc__.split("\n\n")[1])
        return 2
    found, whole, status = timed(words[0])
    print(f"{whole:7.1f} s: {words[0]}, of which {len(found)} functions were checked{'' if status == 0 else ', and it is not proved'}")
    for took, function in sorted(found, reverse=True)[:MOST]:
        print(f"{took:7.1f} s: {function}")
    return status


if __name__ == "__main__":
    sys.exit(main(sys.argv[1:]))
