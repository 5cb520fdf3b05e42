#!/usr/bin/env python3
"""Runs the program and another one in turns, on loads, looks, keys and comparisons, and prints the processor time of each.

Run by hand, after `make`, which builds the program; no gate runs it:

    bench/against.py PROGRAM OTHER [TABLE]

OTHER is the program of another tree, as of the commit before a change. The tables are that of load_table.py and the one of keys.py
that has the weights of a real one. TABLE is a file that stands in their place, in which the letters a to z have entries. Of each
table are printed, for PROGRAM and for OTHER, the least of ten runs, and how many times that of OTHER the first takes:

- `check`;
- a `:key` and a `:compare` line, of 4,000 words of ten letters twenty-five times over, beyond a session of a first look alone;
- a look behind a change, as looks.py measures it, on its two tables, or on TABLE, two hundred of them;
- a first look: fifty such looks at a text that is too long for a short look (`kept_ranks.rt` of coll_bench), each of which makes all
  ranks.

Whatever else the machine does slows both alike. What is told apart so is a hundredth or two of a load, and more of the others.
"""

import os
import random
import subprocess
import sys
import tempfile

from keys import ACCENTED, LETTERS, PLAIN, REAL_LENGTH, letter, real_lines
from keys import written as written_lines
from load_table import DECLARATIONS, ENTRIES, written
from looks import RUNS, TURNS, least, looked_over, per_look
from serve_sessions import block_by_names
from withdrawals import timed

WORDS = 4_000
TIMES = 25
LONG = 4_000
LOOKS = 200
FIRST_LOOKS = 50
UNITS = {"s": 1, "ms": 1e-3, "microseconds": 1e-6, "ns": 1e-9}


def words_of(letters, count):
    """So many words of ten of these letters, in no order."""
    chosen = random.Random(11)
    return ["".join(chosen.choices(letters, k=REAL_LENGTH)) for _ in range(count)]


def show(what, times, unit):
    """Prints a row: the time with each program, and how many times that with the other one the first takes."""
    first, other = times
    print(f"{what}: {first / UNITS[unit]:.4g} and {other / UNITS[unit]:.4g} {unit}, {first / other:.3f} times", flush=True)


def beyond(times, less, count):
    """What each of so many took with each program, beyond what is there without them."""
    return [(time - other) / count for time, other in zip(times, less)]


def show_checks(name, programs, table):
    """Prints what it takes to load a table and to answer that it loads."""
    runs = [[timed([program, "check", table], subprocess.DEVNULL) for program in programs] for _ in range(RUNS)]
    show(f"{name}, check", [min(times) for times in zip(*runs)], "s")


def show_sessions(name, programs, table, letters):
    """Prints what lines behind a first look take."""
    words = words_of(letters, WORDS)
    first = f':key "{letters[0] * LONG}"\n'
    keys = "".join(f':key "{word}"\n' for word in words) * TIMES
    orders = "".join(f':compare "{word}" "{other}"\n' for word, other in zip(words, words[1:] + words[:1])) * TIMES
    looked, keyed, compared = least(programs, table, [first, first + keys, first + orders])
    show(f"{name}, a :key line", beyond(keyed, looked, WORDS * TIMES), "ns")
    show(f"{name}, a :compare line", beyond(compared, looked, WORDS * TIMES), "ns")


def generated(work):
    """The tables that are written here, each with its name and the letters of its words."""
    yield "the table of load_table.py", written(work, "table", ENTRIES, DECLARATIONS), [chr(letter(number)) for number in range(LETTERS)]
    yield "a table with real weights", written_lines(work, "real_table", real_lines()), [*PLAIN, *ACCENTED]


def given_alone(table):
    """A table that was given, with its name and the letters of its words."""
    yield os.path.basename(table), table, [*PLAIN]


def looked_over_alone(program, table):
    """That table with its name, blocks that each put a letter behind the first one, and the words that are looked up."""
    first, *others = (f"<U{ord(plain):04X}>" for plain in PLAIN)
    blocks = [block_by_names(first, [others[number % len(others)]]) for number in range(TURNS)]
    run = subprocess.run([program, "session", table], input="".join(blocks), capture_output=True, text=True, check=True)
    if "refused" in run.stdout:
        sys.exit(f"{table}: one of the letters a to z has no entry, so no block puts it behind another")
    yield os.path.basename(table), table, blocks, words_of(PLAIN, 2 * TURNS)


def main(programs, given, work):
    for name, table, letters in given_alone(given) if given else generated(work):
        show_checks(name, programs, table)
        show_sessions(name, programs, table, letters)
    for name, table, blocks, words in looked_over_alone(programs[0], given) if given else looked_over(work):
        show(f"{name}, a look behind a change", per_look(programs, table, blocks[: LOOKS // 2], words[:LOOKS]), "microseconds")
        long = [word[0] * LONG for word in words[:FIRST_LOOKS]]
        show(f"{name}, a first look", per_look(programs, table, blocks[: FIRST_LOOKS // 2], long), "ms")


if __name__ == "__main__":
    paths = [os.path.abspath(path) for path in sys.argv[1:]]
    if len(paths) not in (2, 3):
        sys.exit("usage: bench/against.py PROGRAM OTHER [TABLE]")
    with tempfile.TemporaryDirectory() as folder:
        main(paths[:2], paths[2] if len(paths) > 2 else None, folder)
