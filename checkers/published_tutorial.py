#!/usr/bin/env python3
"""Runs docs/TUTORIAL.md over glibc's sources, in place of the small ones of examples/tutorial that have their names.

usage: checkers/published_tutorial.py [PROGRAM]

PROGRAM is crates/collbench/out/collbench where none is given. It wants the sources of glibc, in /usr/share/i18n/locales, which Debian's
package `locales` has, and is no part of the gate. Each command has to write what the page shows, and to end as it does there, but for what
larger sources make larger (LARGER): how much a table has, ranks, and the lines of the sources and how often they were changed.

The last line is 'N passed, M failed', where a run is one command.
"""

import os
import re
import sys

import tutorial
from run_program import PROGRAM

FOLDER = "/usr/share/i18n/locales"
SOURCES = ["iso14651_t1", "iso14651_t1_common", "sv_SE"]
# What is larger, with a number in place of it.
LARGER = [
    (r"^table entries \d+ declared \d+ sections \d+ ", "table entries 0 declared 0 sections 0 "),
    (rf"^({'|'.join(SOURCES)}):\d+: adjusted (\w+) \d+$", r"\1:0: adjusted \2 0"),
    (r"^(> )?[\d@ |]+ \|$", lambda key: re.sub(r"\d+", "0", key[0])),
    (r"\b\d+ (<\w+> of )", r"0 \1"),
    (r"^(5 block <AFTER-Z>) \d+$", r"\1 0"),
]


def alike(text):
    """What is left of a text where all that is larger is 0."""
    for larger, zero in LARGER:
        text = re.sub(larger, zero, text, flags=re.M)
    return text


def main():
    program = sys.argv[1] if len(sys.argv) > 1 else PROGRAM
    own = [path for path in tutorial.FILES if os.path.basename(path) not in SOURCES]
    passed, failed = tutorial.run_page(program, [*own, *(f"{FOLDER}/{name}" for name in SOURCES)], alike)
    print(f"{passed} passed, {failed} failed")
    return 1 if failed or not passed else 0


if __name__ == "__main__":
    sys.exit(main())
