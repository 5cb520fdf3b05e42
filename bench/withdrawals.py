#!/usr/bin/env python3
"""Withdraws statements from long histories, and compares with the undos and statements of the same run.

Run by hand, after `make`, which builds the program; no gate runs it:

    bench/withdrawals.py [PROGRAM]

The tables are those of load_table.py, with 105,000 entries and with 1,000. Printed are processor times beyond a session that makes the
history alone, each the least of five runs, in turns.

Targets: the first of 2,000 blocks of one line withdrawn in at most twice what 2,000 undos and 2,000 statements take; the last of
60,000 blocks in at most twice what an undo and a statement take, on either table; and a withdrawal that the last statement refuses in
at most three times one that is accepted.
"""

import os
import resource
import subprocess
import sys
import tempfile

from load_table import DECLARATIONS, ENTRIES, ROOT, written
from serve_sessions import SMALL, block, identifier

PROGRAM = os.path.join(ROOT, "crates", "collbench", "out", "collbench")
RUNS = 5
BLOCKS = 2_000
LONG = 60_000
TURNS = 50_000
FIRST = 100


def session(program, table, lines):
    """The processor time of a session of these lines."""
    with tempfile.NamedTemporaryFile("w", suffix=".txt") as file:
        file.write(lines)
        file.flush()
        with open(file.name, "rb") as given:
            return timed([program, "session", table], given)


def timed(words, given):
    """The processor time of a run, whose standard input this is."""
    before = resource.getrusage(resource.RUSAGE_CHILDREN)
    run = subprocess.run(words, stdin=given, stdout=subprocess.DEVNULL, stderr=subprocess.PIPE)
    after = resource.getrusage(resource.RUSAGE_CHILDREN)
    if run.returncode != 0:
        sys.exit(f"the program ended with status {run.returncode}: {run.stderr.decode()}")
    return after.ru_utime + after.ru_stime - before.ru_utime - before.ru_stime


def beyond(program, table, history, *more):
    """The least times of sessions that go on behind a history in different ways, beyond the least of the history alone."""
    times = [[session(program, table, history + lines) for lines in ("", *more)] for _ in range(RUNS)]
    alone, *least = map(min, zip(*times))
    return [time - alone for time in least]


def show(name, time, beside):
    print(f"{name}: {time:.3f} s, and {beside:.3f} s, {time / beside:.2f} times")


def one_line(number, entries):
    """A block that puts an entry of a table of so many entries behind the first one."""
    return block(1, [2 + number % (entries - 2)])


def main(program, work):
    tables = {count: written(work, f"table{count}", count, DECLARATIONS * count // ENTRIES) for count in (ENTRIES, SMALL)}
    history = "".join(one_line(number, ENTRIES) for number in range(BLOCKS))
    again = (":undo\n" * BLOCKS + history) * FIRST
    withdrawn = "".join(":withdraw 1\n" + one_line(number, ENTRIES) for number in range(FIRST))
    anew, first = beyond(program, tables[ENTRIES], history, again, withdrawn)
    show(f"the first of {BLOCKS:,} blocks, and all undone and made anew, {FIRST} times", first, anew)
    for count, table in tables.items():
        history = "".join(one_line(number, count) for number in range(LONG))
        last = one_line(LONG - 1, count)
        anew, withdrawn = beyond(program, table, history, (":undo\n" + last) * TURNS, (f":withdraw {LONG}\n" + last) * TURNS)
        show(f"the last of {LONG:,} blocks, and undone and made anew, {TURNS:,} times, {count:,} entries", withdrawn, anew)
    blocks = "".join(one_line(number, ENTRIES) for number in range(BLOCKS))
    needed = "collating-symbol <NEEDED>\n" + blocks + block(1, [2]).replace(identifier(2), "<NEEDED>")
    refused, accepted = beyond(program, tables[ENTRIES], needed, ":withdraw 1\n" * FIRST, "".join(":withdraw 2\n" for _ in range(FIRST)))
    show(f"the first of {BLOCKS + 2:,} statements, which the last one needs, and the second, {FIRST} times", refused, accepted)
    print("targets: at most 2 times, and 3 times where it is refused")


if __name__ == "__main__":
    with tempfile.TemporaryDirectory() as folder:
        main(os.path.abspath(sys.argv[1]) if len(sys.argv) > 1 else PROGRAM, folder)
