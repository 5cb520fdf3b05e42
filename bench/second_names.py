#!/usr/bin/env python3
"""Loads tables with many second names of symbols, and compares with tables that have as many symbols in their place.

Run by hand, after `make`, which builds the program; no gate runs it:

    bench/second_names.py [PROGRAM [COUNT]]

The first two tables declare names and don't use them: further symbols, or second names of one symbol. The next two have as many
symbols, each with an entry, and as many characters, each with a symbol as its weight; beside them stand further symbols that
nothing names, or else second names of those symbols, one of each, by which the order lines and the weights then name them. So two
tables that are compared have as many lines, declarations and entries.

Printed are the least processor times of ten runs of `check`, in turns over both tables, and how many times that of symbols the
one of second names takes.

Target: at most 1.3 times, at 100,000 second names.
"""

import os
import sys
import tempfile

from hostile_names import taken, written
from load_table import ROOT

PROGRAM = os.path.join(ROOT, "crates", "collbench", "out", "collbench")
COUNT = 100_000
RUNS = 10


def declared(line, count):
    """The lines of a table that declares so many names by a line of this form."""
    yield "LC_COLLATE\ncollating-symbol <S0000000>\n"
    for number in range(count):
        yield line.format(f"N{number:07d}", "S0000000")
    yield "order_start forward\n<S0000000>\norder_end\nEND LC_COLLATE\n"


def used(line, named, count):
    """The lines of a table that declares so many names by a line of this form, and names its symbols so."""
    yield "LC_COLLATE\n"
    for number in range(count):
        yield f"collating-symbol <S{number:07d}>\n"
    for number in range(count):
        yield line.format(f"N{number:07d}", f"S{number:07d}")
    yield "order_start forward\n"
    for number in range(count):
        yield f"<{named}{number:07d}>\n"
    for number in range(count):
        yield f"<U{0x10000 + number:08X}> <{named}{number:07d}>\n"
    yield "order_end\nEND LC_COLLATE\n"


SYMBOL = "collating-symbol <{}>\n"
SECOND = "symbol-equivalence <{}> <{}>\n"


def show(name, program, tables):
    """Prints the least times over a table of symbols and one of second names, whose runs take turns."""
    times = [[taken([program, "check", table], os.devnull) for table in tables] for _ in range(RUNS)]
    symbols, second = map(min, zip(*times))
    print(f"{name}: symbols {symbols:.3f} s, second names {second:.3f} s, {second / symbols:.2f} times")


def main(program, count, work):
    tables = [
        written(work, "symbols", declared(SYMBOL, count)),
        written(work, "second_names", declared(SECOND, count)),
    ]
    show(f"{count:,} declared", program, tables)
    tables = [
        written(work, "used_symbols", used(SYMBOL, "S", count)),
        written(work, "used_second_names", used(SECOND, "N", count)),
    ]
    show(f"{count:,} declared and used", program, tables)
    print("target: at most 1.3 times")


if __name__ == "__main__":
    with tempfile.TemporaryDirectory() as folder:
        words = sys.argv[1:]
        main(os.path.abspath(words[0]) if words else PROGRAM, int(words[1]) if len(words) > 1 else COUNT, folder)
