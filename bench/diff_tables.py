#!/usr/bin/env python3
"""Compares large tables by `collbench diff`, and their printed texts by the system's `diff`.

usage: bench/diff_tables.py PROGRAM

PROGRAM is a build of collbench. It needs Debian's packages `locales` and `diffutils`, and GNU time. The pairs are a table of 200,000
entries and the same in reverse, the same and a random order, and glibc's common table, imported from its source, and the same with
three more symbols, declared and placed behind its third one. Both programs compare each pair in turns, bound to one core, and of each
the least processor time, the most memory, and the number of lines that it writes are printed; beside them what `collbench check` of
the two tables takes, so that it is seen how much of the time is their load.
"""

import os
import random
import subprocess
import sys
import tempfile

SOURCES = "/usr/share/i18n/locales"
ENTRIES = 200_000
TURNS = 3
SYMBOLS = ("one", "two", "three")


def timed(words):
    """The processor time in seconds of a program that may find a difference, its peak memory in megabytes, and its lines."""
    run = subprocess.run(["taskset", "-c", "0", "/usr/bin/time", "-q", "-f", "%U %S %M", *words], capture_output=True, check=False)
    if run.returncode not in (0, 1):
        sys.exit(run.stderr.decode())
    user, system, kilobytes = run.stderr.split()[-3:]
    return float(user) + float(system), int(kilobytes) / 1024, run.stdout.count(b"\n")


def written(path, points):
    """Writes a table with one level, in which these code points stand in this order."""
    with open(path, "w", encoding="utf-8") as out:
        out.write("LC_COLLATE\norder_start forward\n")
        out.writelines(f"<U{point:08X}>\n" for point in points)
        out.write("order_end\nEND LC_COLLATE\n")
    return path


def with_symbols(path, table):
    """Writes a table with three more symbols, declared behind its third symbol, and placed behind its third entry."""
    with open(table, encoding="utf-8") as file:
        lines = file.readlines()
    declared = [at for at, line in enumerate(lines) if line.startswith("collating-symbol ")][2]
    placed = next(at for at, line in enumerate(lines) if line.startswith("order_start ")) + 3
    lines[placed + 1 : placed + 1] = [f"<{name}>\n" for name in SYMBOLS]
    lines[declared + 1 : declared + 1] = [f"collating-symbol <{name}>\n" for name in SYMBOLS]
    with open(path, "w", encoding="utf-8") as out:
        out.writelines(lines)
    return path


def pairs(program, room):
    """The pairs of tables, each with what it is called."""
    points = [point for point in range(0x20, ENTRIES + 0x900) if not 0xD800 <= point <= 0xDFFF][:ENTRIES]
    ordered = written(f"{room}/ordered.txt", points)
    yield "the reverse order", ordered, written(f"{room}/reversed.txt", reversed(points))
    yield "a random order", ordered, written(f"{room}/random.txt", random.Random(7).sample(points, ENTRIES))
    common = f"{room}/common.txt"
    with open(common, "wb") as out:
        subprocess.run([program, "import", f"{SOURCES}/iso14651_t1"], check=True, stdout=out, stderr=subprocess.DEVNULL)
    yield "glibc's common table", common, with_symbols(f"{room}/more.txt", common)


def printed(program, path, table):
    """Writes the canonical text of a table."""
    with open(path, "wb") as out:
        subprocess.run([program, "print", table], check=True, stdout=out)
    return path


def main(program):
    with tempfile.TemporaryDirectory() as room:
        for name, first, second in pairs(program, room):
            texts = printed(program, f"{room}/first", first), printed(program, f"{room}/second", second)
            words = {
                "collbench diff": [[program, "diff", first, second]],
                "diff": [["diff", *texts]],
                "collbench check of both": [[program, "check", first], [program, "check", second]],
            }
            runs = {it: [] for it in words}
            for _ in range(TURNS):
                for it, each in words.items():
                    ran = [timed(word) for word in each]
                    runs[it].append((sum(one[0] for one in ran), max(one[1] for one in ran), sum(one[2] for one in ran)))
            for it, ran in runs.items():
                seconds, megabytes, lines = min(one[0] for one in ran), max(one[1] for one in ran), ran[0][2]
                print(f"{name}, {it}: {seconds:.2f} s, {megabytes:.0f} MB, {lines} lines")


if __name__ == "__main__":
    if len(sys.argv) != 2:
        sys.exit(__doc__)
    main(os.path.abspath(sys.argv[1]))
