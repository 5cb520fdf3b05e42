#!/usr/bin/env python3
"""Runs the program on tables whose collating elements all begin alike, and compares tables with many of them and with few.

Run by hand, after `make`, which builds the program; no gate runs it:

    bench/hostile_elements.py [PROGRAM [COUNT]]

Elements of one table share their first character, those of the other the first eleven of sixteen. Texts are one letter over and over,
and what an element begins with over and over, so that at each place many elements fit far and none fits whole. Printed are the least
processor times of some runs of a `:key` and a `:compare` of long texts, of which a session has forty, beyond that of a session with
one short text, and how many times that of the table with few elements the one with many takes.

Target: with 100,000 such elements at most 3 times the time with ten.
"""

import os
import random
import sys
import tempfile

from slow_texts import PROGRAM, RUNS, time

FEW, COUNT = 10, 100_000
LONG, LONG_PAIR, LINES = 60_000, 32_000, 40
LETTERS = "bcdefghijklmnopqrstuvwxyz"


def first_alike(count):
    """Strings of ten letters with the same first one."""
    chance = random.Random(3)
    return {"a" + "".join(chance.choices(LETTERS, k=9)): None for _ in range(count)}


def eleven_alike(count):
    """Strings of sixteen letters with the same first eleven."""
    return ["a" * 11 + f"{number:05d}".translate(str.maketrans("0123456789", "bcdefghijk")) for number in range(count)]


def table(strings):
    """A table of elements with these strings, and of the letters."""
    declared = "".join(f'collating-element <e{number}> from "{string}"\n' for number, string in enumerate(strings))
    placed = "".join(f"<e{number}>\n" for number in range(len(strings)))
    letters = "".join(f"{letter}\n" for letter in "a" + LETTERS)
    return f"LC_COLLATE\n{declared}order_start forward\n{letters}{placed}order_end\nEND LC_COLLATE\n"


def sessions(strings):
    """Lines of sessions on long texts, each with its name."""
    most = list(strings)[0][:-1]
    behind = ("an element without its first letter, behind that", most + "a")
    for name, part in (("one letter", "a"), ("the prefix of an element", most), behind):
        text = part * (LONG // len(part))
        other = part * (LONG_PAIR // len(part))
        yield f":key of {name}", f':key "{text}"\n'
        yield f":compare with {name}", f':compare "{other}b" "{other}c"\n'


def beyond(program, path, line):
    """The time that a line takes, beyond the load and the ranks."""
    words, first = ["session", path], ':key "a"\n'
    return (time(program, words, (first + line * LINES).encode()) - time(program, words, first.encode())) / LINES


def main(program, count, folder):
    for name, strings in (("first letter alike", first_alike), ("eleven letters alike", eleven_alike)):
        paths = []
        for size in (FEW, count):
            paths.append(f"{folder}/{size}")
            with open(paths[-1], "w", encoding="utf-8") as file:
                file.write(table(strings(size)))
        for line_name, line in sessions(strings(FEW)):
            few, many = (beyond(program, path, line) for path in paths)
            told = f"{1000 * many:.2f} ms with {count:,}, {many / few:.1f} times {1000 * few:.2f} ms with {FEW}"
            print(f"{name}, {line_name}: {told}, least of {RUNS} runs", flush=True)


if __name__ == "__main__":
    with tempfile.TemporaryDirectory() as scratch:
        chosen = os.path.abspath(sys.argv[1]) if len(sys.argv) > 1 else PROGRAM
        main(chosen, int(sys.argv[2]) if len(sys.argv) > 2 else COUNT, scratch)
