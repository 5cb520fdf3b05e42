#!/usr/bin/env python3
"""Changes a table and asks for a key behind each change, and prints the time that a look takes.

Run by hand, after `make`, which builds the program; no gate runs it:

    bench/looks.py [PROGRAM [OTHER]]

The tables are those of load_table.py, with 1,000 and with 105,000 entries. A session is a block of one line, a look, `:undo` and a look,
1,000 times, where a look is the `:key` of a word of ten letters; and the same a hundred times with texts of 64, 300, 1,000 and 3,000
letters.
Printed is its processor time beyond the same session without looks, per look, the least of ten runs. OTHER is a second program, which
runs in turns with the first.
"""

import os
import sys
import tempfile

from load_table import DECLARATIONS, ENTRIES, ROOT, written
from serve_sessions import SMALL
from withdrawals import one_line, session

PROGRAM = os.path.join(ROOT, "crates", "collbench", "out", "collbench")
RUNS = 10
TURNS = 1_000
LETTERS = 10
LONGER, FEWER_TURNS = (64, 300, 1_000, 3_000), 100


def word(number, entries, letters):
    """A text of so many letters that have entries in a table of so many."""
    return "".join(chr(0x10000 + (number * letters + letter) % (entries // 2)) for letter in range(letters))


def looked_over(work, letters=LETTERS):
    """The tables, each with its name, the blocks that change it, and the texts that are looked up."""
    for entries in (SMALL, ENTRIES):
        table = written(work, f"table{entries}", entries, DECLARATIONS * entries // ENTRIES)
        blocks = [one_line(number, entries) for number in range(TURNS)]
        yield f"{entries:,} entries", table, blocks, [word(number, entries, letters) for number in range(2 * TURNS)]


def lines(blocks, looks):
    """The lines of a session of these blocks, with a look behind each, and one behind its `:undo`."""
    return "".join(f"{block}{looks[2 * number]}:undo\n{looks[2 * number + 1]}" for number, block in enumerate(blocks))


def least(programs, table, texts):
    """The least times of sessions of these texts, in turns: of each text those of all programs."""
    runs = [[session(program, table, text) for text in texts for program in programs] for _ in range(RUNS)]
    times = [min(each) for each in zip(*runs)]
    return [times[first : first + len(programs)] for first in range(0, len(times), len(programs))]


def per_look(programs, table, blocks, words):
    """The least time of a look with each program, in seconds."""
    looks = [f':key "{word}"\n' for word in words]
    asked, alone = least(programs, table, [lines(blocks, looks), lines(blocks, [""] * len(looks))])
    return [(time - other) / len(looks) for time, other in zip(asked, alone)]


def main(programs, work):
    for letters, turns in [(LETTERS, TURNS), *((letters, FEWER_TURNS) for letters in LONGER)]:
        for name, table, blocks, words in looked_over(work, letters):
            times = per_look(programs, table, blocks[:turns], words[: 2 * turns])
            for program, time in zip(programs, times):
                shown = f"{time * 1e6:.1f} microseconds a look"
                print(f"{name}, {letters:,} letters, {os.path.relpath(program, ROOT)}: {shown}", flush=True)


if __name__ == "__main__":
    with tempfile.TemporaryDirectory() as folder:
        main([os.path.abspath(path) for path in sys.argv[1:]] or [PROGRAM], folder)
