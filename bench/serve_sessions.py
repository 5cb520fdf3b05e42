#!/usr/bin/env python3
"""Runs the program on a large table, batches and sessions, and prints the processor time and the peak memory of each.

Run by hand, after `make`, which builds the program; no gate runs it:

    bench/serve_sessions.py [PROGRAM]

The table is that of load_table.py. Of a session, what is printed goes beyond a session without lines, which is the load.

Targets: 0.4 s for `print` in all; 0.05 s for 2,000 blocks of one to ten lines; 0.02 s for a block of 4,096 lines; 0.1 s for a
listing; 0.5 s and 60 MB for 65,535 blocks without lines and as many `:undo`; and an undo of a block of one line takes as long on
a table of 1,000 entries as on one of 105,000. `check` takes at most 1.1 times what load_table.py shows for a load.
"""

import os
import random
import resource
import subprocess
import sys
import tempfile

from load_table import DECLARATIONS, ENTRIES, ROOT, RUNS, written

PROGRAM = os.path.join(ROOT, "crates", "collbench", "out", "collbench")
SMALL = 1_000
REMAINING = 65_535
TURNS = 50_000


def identifier(number):
    """The identifier of the entry with this number in a table of load_table.py."""
    half = number // 2
    return f"<S{half:07d}>" if number % 2 == 0 else f"<U{0x10000 + half:08X}>"


def block(target, entries):
    """The lines of a block that puts entries behind a target, by their numbers."""
    return block_by_names(identifier(target), map(identifier, entries))


def block_by_names(target, entries):
    """The lines of a block that puts entries behind a target, by their identifiers."""
    return "".join(f"{line}\n" for line in (f"reorder-after {target}", *entries, "reorder-end"))


def blocks(count, least, most):
    """Blocks of so many lines, each over other entries."""
    chance = random.Random(1)
    for _ in range(count):
        target, *entries = chance.sample(range(ENTRIES), chance.randint(least, most) + 1)
        yield block(target, entries)


def measured(words, lines=""):
    """The processor times of some runs, in their order, and the peak memory in kilobytes.

    GNU time starts the program, since a child of this script would count the script's own memory.
    """
    times, memory = [], 0
    with tempfile.TemporaryFile() as session:
        session.write(lines.encode())
        for _ in range(RUNS):
            session.seek(0)
            before = resource.getrusage(resource.RUSAGE_CHILDREN)
            how = {"stdin": session, "stdout": subprocess.DEVNULL, "stderr": subprocess.PIPE, "text": True}
            run = subprocess.run(["/usr/bin/time", "-f", "%M", *words], **how)
            after = resource.getrusage(resource.RUSAGE_CHILDREN)
            if run.returncode != 0:
                sys.exit(f"the program ended with status {run.returncode}: {run.stderr}")
            times.append(after.ru_utime + after.ru_stime - before.ru_utime - before.ru_stime)
            memory = max(memory, int(run.stderr.split()[-1]))
    return sorted(times), memory


def show(name, times, memory, load=(0.0,) * RUNS):
    print(f"{name}: least {times[0] - load[0]:.3f} s, middle {times[RUNS // 2] - load[RUNS // 2]:.3f} s of {RUNS} runs, {memory} kB")


def main(program, work):
    table = written(work, "table", ENTRIES, DECLARATIONS)
    small = written(work, "small", SMALL, DECLARATIONS * SMALL // ENTRIES)
    for subcommand in ("check", "print", "compile"):
        show(subcommand, *measured([program, subcommand, table]))
    load, memory = measured([program, "session", table])
    show("session without lines", load, memory)
    sessions = {
        "2,000 blocks of one to ten lines": "".join(blocks(2_000, 1, 10)),
        "a block of 4,096 lines": "".join(blocks(1, 4_096, 4_096)),
        ":list": ":list\n",
        ":print": ":print\n",
        ":key": ':key "a"\n',
    }
    for name, lines in sessions.items():
        show(name, *measured([program, "session", table], lines), load)
    turns = block(11, [SMALL - 1]) + ":undo\n:redo\n" * TURNS
    show(f"{TURNS:,} times :undo and :redo", *measured([program, "session", table], turns), load)
    load_small, memory = measured([program, "session", small])
    show("small session without lines", load_small, memory)
    show(f"small, {TURNS:,} times :undo and :redo", *measured([program, "session", small], turns), load_small)
    empty = block(11, []) * REMAINING + ":undo\n" * REMAINING
    show("65,535 blocks and :undo", *measured([program, "session", table], empty), load)
    show("small, 65,535 blocks and :undo", *measured([program, "session", small], empty), load_small)


if __name__ == "__main__":
    with tempfile.TemporaryDirectory() as folder:
        main(os.path.abspath(sys.argv[1]) if len(sys.argv) > 1 else PROGRAM, folder)
