#!/usr/bin/env python3
"""Reviews 200 statements over 100,000 words of nine letters, by glibc's common table.

usage: bench/review_words.py PROGRAM

PROGRAM is a build of collbench. It needs the source of the common table, from Debian's package `locales`, and GNU time. Three delta
files are reviewed: in one every statement declares a symbol, so that no word is looked at; in one every statement moves what a Greek
letter weighs, which no word has, so that the words are only looked over; and in one every statement moves what a letter weighs behind
that of another one, so that words move. Of each the processor time and the most memory are printed, and how many of its statements
parted words; and last what `sort --parallel=1` takes for the same words once, under the compiled locale of the common table.
"""

import os
import random
import subprocess
import sys
import tempfile

from sort_words import timed

SOURCES = "/usr/share/i18n/locales"
LETTERS = "abcdefghijklmnopqrstuvwxyz"
UNUSED = "αβγδεζηθικλμ"
WORDS = 100_000
STATEMENTS = 200


def moves(chosen, letters):
    """The lines of a block that moves the symbol that one of these letters weighs behind that of another one."""
    letter, other = chosen.sample(letters, 2)
    return f"reorder-after <S{ord(other):04X}>\n<S{ord(letter):04X}>\nreorder-end\n"


def reviewed(program, table, delta, words):
    """The processor time in seconds of a review, its peak memory in megabytes, and how many statements parted words."""
    run = subprocess.run(["/usr/bin/time", "-f", "%U %S %M", program, "review", table, delta, words], capture_output=True, text=True, check=True)
    user, system, kilobytes = run.stderr.split()
    told = [line for line in run.stdout.splitlines() if line.startswith("parted ")]
    if len(told) != STATEMENTS:
        sys.exit(f"{len(told)} statements were told")
    return float(user) + float(system), int(kilobytes) / 1024, sum(line != "parted 0" for line in told)


def main(program):
    chosen = random.Random(7)
    with tempfile.TemporaryDirectory() as room:
        words, table, delta = (f"{room}/{it}" for it in ("words.txt", "common.txt", "delta.txt"))
        with open(words, "w", encoding="utf-8") as out:
            out.writelines("".join(chosen.choices(LETTERS, k=9)) + "\n" for _ in range(WORDS))
        with open(table, "wb") as out:
            subprocess.run([program, "import", f"{SOURCES}/iso14651_t1"], check=True, stdout=out, stderr=subprocess.DEVNULL)
        for name, statement in (
            ("declarations", lambda n: f"collating-symbol <NEW_{n}>\n"),
            ("moved letters that no word has", lambda n: moves(chosen, UNUSED)),
            ("moved letters", lambda n: moves(chosen, LETTERS)),
        ):
            with open(delta, "w", encoding="utf-8") as out:
                out.write("LC_COLLATE\n" + "".join(map(statement, range(STATEMENTS))) + "END LC_COLLATE\n")
            seconds, megabytes, parted = reviewed(program, table, delta, words)
            print(f"{name}: {seconds:.2f} s, {megabytes:.0f} MB, {parted} of {STATEMENTS} part words")
        subprocess.run(["localedef", "-f", "UTF-8", "-i", "en_US", f"{room}/en_US.UTF-8"], check=True)
        seconds, _ = timed(["sort", "--parallel=1"], words, f"{room}/sorted", {"LOCPATH": room, "LC_ALL": "en_US.UTF-8"})
        print(f"sort --parallel=1 of the words, once: {seconds:.2f} s")


if __name__ == "__main__":
    if len(sys.argv) != 2:
        sys.exit(__doc__)
    main(os.path.abspath(sys.argv[1]))
