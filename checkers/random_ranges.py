#!/usr/bin/env python3
"""Imports random sources that declare symbols by ranges, and compares with the same sources in which each name has a line of its own.

usage: checkers/random_ranges.py [PROGRAM [SOURCES]]

PROGRAM is crates/collbench/out/collbench where none is given. An import keeps a range as it is where none of its names is known, where
it stands apart from those that are kept, and where there are fewer than 64 of them; a name of a line of its own is kept by itself. So
both imports have to print the same table, or tell the same fault, and have to tell the same of what was changed, but for the ranges
themselves. Lines are told apart by the range that they were written for. Sources have ranges that follow each other, meet, lie within
others, stand between their names without meeting them, or have names of one length in common; few of them and up to eighty; short names
and long ones; ends in upper and in lower case; names, elements and second names before, between and behind them; decimal numbers; and
names in order lines and weights that are declared or not. They are the same in each run.

The last line is 'N passed, M failed', where a run is one source.
"""

import concurrent.futures
import os
import random
import re
import subprocess
import sys
import tempfile

from run_program import PROGRAM

SOURCES = 400
# So many ranges are about as many as are kept.
FEW_LOST, MOST_APART = 55, 80
PREFIXES = ["S", "T", "S0:", "S:", "Zq_", "LETTERS_OF_A_SCRIPT_", "s"]
# What tells that a range was written out, which only one of both imports does.
OF_RANGES = "SymbolRange"


def spelled(prefix, width, number, decimal):
    """The name of a number of a range."""
    return f"{prefix}{number:0{width}{'d' if decimal else 'X'}}"


def end(chance, prefix, width, number, decimal):
    """The first or the last name of a range as a source may spell it: letters that both ends have stay, and the rest is a number."""
    name = spelled(prefix, width, number, decimal)
    return prefix + name[len(prefix) :].lower() if chance.random() < 0.2 else name


def ranges(chance):
    """Random ranges: what their names begin with, how many digits these have, the first and the last number, and if they are decimal."""
    kind = chance.random()
    if kind < 0.2:
        return many_apart(chance)
    if kind < 0.4:
        return between(chance)
    return near(chance)


def many_apart(chance):
    """More ranges than are kept, or nearly so many, none of which meets another, in any order."""
    starts = list(range(0, 0x10 * MOST_APART, 0x10))
    chance.shuffle(starts)
    return [("S", 4, at, at + chance.choice([1, 2, 3]), False) for at in starts[: chance.randint(FEW_LOST, MOST_APART)]]


def between(chance):
    """Ranges whose names stand between two names of others, by their bytes, and are none of these."""
    found = [
        ("S", 4, 0x9F0 + chance.randrange(16), 0xA00 + chance.randrange(16), False),
        ("S0:", 2, 0, chance.randrange(40), False),
        ("S09G", 1, 2, 9, False),
        ("S", 2, 0x90 + chance.randrange(16), 0xA0 + chance.randrange(16), False),
        ("S:", 1, 0, chance.randrange(16), False),
    ]
    chance.shuffle(found)
    return found


def near(chance):
    """Ranges that follow each other, meet, or lie within others."""
    found, at = [], chance.randrange(0x40)
    few = chance.random() < 0.7
    for _ in range(chance.randint(1, 6) if few else chance.randint(FEW_LOST, MOST_APART)):
        prefix, width = chance.choice(PREFIXES if few else PREFIXES[:2]), chance.choice([2, 4, 4, 4, 5])
        first = chance.randrange(0x90) if chance.random() < 0.3 else at
        last = first + chance.choice([0, 1, 2, 14, 15, 16, 40] if few else [0, 1, 3])
        at = last + chance.choice([0, 1, 1, 1, 5])
        decimal = chance.random() < 0.1
        most = 10**width - 1 if decimal else 16**width - 1
        found.append((prefix, width, min(first, most), min(last, most), decimal))
    return found


def names_near(chance, of):
    """A name of a range, or one that looks like it."""
    prefix, width, first, last, decimal = chance.choice(of)
    number = chance.randint(max(0, first - 2), last + 2)
    name = spelled(prefix, width, number, decimal)
    return chance.choice([name, name, name, name, name.lower(), name + "0", name[:-1], prefix])


def source(chance):
    """A random source: its lines, each with the lines that stand for it where ranges are written out."""
    lines, of = [("LC_COLLATE", None)], ranges(chance)
    # Names of lines of their own between many ranges would leave these taken name by name.
    alone = 1 if len(of) < FEW_LOST else 0
    for prefix, width, first, last, decimal in of:
        while chance.random() < 0.25 * alone:
            lines.append((f"collating-symbol <{names_near(chance, of)}>", None))
        dots = chance.choice(["...", "...."]) if decimal else ".."
        ends = [end(chance, prefix, width, number, decimal) for number in (first, last)]
        front = os.path.commonprefix(ends)
        names = [front + spelled(prefix, width, number, decimal)[len(front) :] for number in range(first, last + 1)]
        written = [f"collating-symbol <{name}>" for name in names]
        lines.append((f"collating-symbol <{ends[0]}>{dots}<{ends[1]}>", written))
        if chance.random() < 0.1 * alone:
            lines.append((f'collating-element <{names_near(chance, of)}> from "{chance.choice(["ch", "ll", "dz"])}"', None))
        if chance.random() < 0.1 * alone:
            lines.append((f"symbol-equivalence <{names_near(chance, of)}> <{names_near(chance, of)}>", None))
        if chance.random() < 0.02:
            lines.append(("collating-symbol", None))
    lines.append(("order_start <PART>;forward;forward", None))
    for code in range(chance.randint(0, 30)):
        names = [f"<{names_near(chance, of)}>" for _ in range(3)]
        lines.append((chance.choice([names[0], names[0], f"<U{0x61 + code:04X}> {names[1]};{names[2]}"]), None))
    return [*lines, ("order_end", None), ("END LC_COLLATE", None)]


def imported(program, path, lines):
    """What the import of these lines prints, its status, and what it tells, each with its line as this tells it."""
    with open(path, "w", encoding="utf-8") as file:
        file.write("".join(f"{text}\n" for text, _ in lines))
    ran = subprocess.run([program, "import", path], capture_output=True, encoding="utf-8", timeout=60, check=False)
    told = []
    for line in ran.stderr.splitlines():
        at = re.match(r"[^:]*:(\d+): (.*)", line)
        number, what = (lines[int(at[1]) - 1][1], at[2]) if at and 0 < int(at[1]) <= len(lines) else (None, line.replace(path, ""))
        if OF_RANGES not in what:
            told.append((number, what))
    return ran.returncode, ran.stdout, told


def differs(program, folder, seed):
    """How the import of one source differs from that of the same written out, or none."""
    lines = source(random.Random(seed))
    whole = [(text, number) for number, (text, _) in enumerate(lines)]
    parts = [(part, number) for number, (text, written) in enumerate(lines) for part in written or [text]]
    answer, wanted = (imported(program, os.path.join(folder, f"{name}{seed}"), it) for name, it in (("whole", whole), ("parts", parts)))
    return None if answer == wanted else f"source {seed}: {answer}, wanted {wanted}"


def checked(program, folder, seed):
    """The same, also where the program doesn't run."""
    try:
        return differs(program, folder, seed)
    except (OSError, subprocess.SubprocessError, UnicodeError) as error:
        return f"source {seed}: {type(error).__name__} {error}"


def run_all(program, sources=SOURCES):
    """Imports all sources. Returns how many passed, and how many failed."""
    failed = 0
    with tempfile.TemporaryDirectory() as folder, concurrent.futures.ThreadPoolExecutor(os.cpu_count()) as pool:
        for why in pool.map(lambda seed: checked(program, folder, seed), range(sources)):
            if why:
                failed += 1
                print(f"FAILED: {why}")
    return sources - failed, failed


def main():
    words = sys.argv[1:]
    passed, failed = run_all(os.path.abspath(words[0]) if words else PROGRAM, int(words[1]) if len(words) > 1 else SOURCES)
    print(f"{passed} passed, {failed} failed")
    return 1 if failed else 0


if __name__ == "__main__":
    sys.exit(main())
