#!/usr/bin/env python3
"""Sorts a million words of nine letters by glibc's common table, and by `sort --parallel=1` under the compiled locale of that order.

usage: bench/sort_words.py PROGRAM

PROGRAM is a build of collbench. It needs Debian's package `locales`, whose `localedef` compiles en_US, which is the common table
alone, and GNU time. The table is imported from the same source. Both sort the same words in turns, each bound to one core, and of
each the least processor time and the most memory are printed; then whether both gave the same output, and the first line at which they
didn't: glibc breaks ties by bytes, so words that compare equal stand in another order there.
"""

import os
import random
import subprocess
import sys
import tempfile

SOURCES = "/usr/share/i18n/locales"
LETTERS = "abcdefghijklmnopqrstuvwxyz"
WORDS = 1_000_000
TURNS = 5


def timed(words, given, to, environment):
    """The processor time in seconds of a program that reads a file and writes another, and its peak memory in megabytes."""
    with open(given, "rb") as source, open(to, "wb") as out:
        run = subprocess.run(["taskset", "-c", "0", "/usr/bin/time", "-f", "%U %S %M", *words], stdin=source, stdout=out,
                             stderr=subprocess.PIPE, text=True, check=True, env={**os.environ, **environment})
    user, system, kilobytes = run.stderr.split()
    return float(user) + float(system), int(kilobytes) / 1024


def first_difference(one, other):
    """The number of the first line at which two files differ, or none."""
    with open(one, "rb") as left, open(other, "rb") as right:
        for number, (line, at) in enumerate(zip(left, right), 1):
            if line != at:
                return number
    return None


def main(program):
    with tempfile.TemporaryDirectory() as room:
        given, table, ours, theirs = (f"{room}/{it}" for it in ("words", "common.txt", "ours", "theirs"))
        chosen = random.Random(7)
        with open(given, "w", encoding="utf-8") as out:
            out.writelines("".join(chosen.choices(LETTERS, k=9)) + "\n" for _ in range(WORDS))
        subprocess.run(["localedef", "-f", "UTF-8", "-i", "en_US", f"{room}/en_US.UTF-8"], check=True)
        with open(table, "wb") as out:
            subprocess.run([program, "import", f"{SOURCES}/iso14651_t1"], check=True, stdout=out, stderr=subprocess.DEVNULL)
        runs = []
        for _ in range(TURNS):
            mine = timed([program, "sort", table], given, ours, {})
            other = timed(["sort", "--parallel=1"], given, theirs, {"LOCPATH": room, "LC_ALL": "en_US.UTF-8"})
            runs.append((mine, other))
        for name, at in (("collbench sort", 0), ("sort --parallel=1", 1)):
            print(f"{name}: {min(it[at][0] for it in runs):.2f} s, {max(it[at][1] for it in runs):.0f} MB")
        number = first_difference(ours, theirs)
        print("the same output" if number is None else f"line {number} differs")


if __name__ == "__main__":
    if len(sys.argv) != 2:
        sys.exit(__doc__)
    main(os.path.abspath(sys.argv[1]))
