#!/usr/bin/env python3
"""The merge gate: whether each edit of crates/*/more-edits/ can still be applied, whether the code tells of each fault what is documented,
`rt ci`, and then the runs of the programs that it built, withdrawals from random histories, explanations of pairs, reviews of random
delta files, imports of random ranges, lints of damaged texts, edits and refused runs at a terminal, lines of progress, lists of words in
edits, the commands of the tutorial, man pages, completions, colours of vim and the ways to install among them, and whether the version
that is told is that of the changelog and of the kit. What the prover says of those edits, `make edits` tells.

usage: checkers/gate.py

The last line is 'N passed, M failed' over all of them, and the status is 1 where one failed.
"""

import re
import subprocess
import sys

import advice_of_faults
import completions
import damaged_texts
import edit_terminal
import edits
import explained_pairs
import installed_programs
import listed_words
import man_pages
import progress_lines
import random_ranges
import random_reviews
import random_withdrawals
import refuse_growths
import refused_lines
import run_program
import tutorial
import vim_syntax


def proofs_and_tests():
    """Runs `rt ci`, with its lines as they come. Returns how many of its parts passed, and how many failed."""
    counts = None
    how = {"stdout": subprocess.PIPE, "encoding": "utf-8", "errors": "replace"}
    try:
        gate = subprocess.Popen(["rt", "ci"], cwd=run_program.ROOT, **how)
    except OSError as error:
        print(f"FAILED: rt ci did not start: {error}", flush=True)
        return 0, 1
    with gate:
        for line in gate.stdout:
            last = re.fullmatch(r"(\d+) passed, (\d+) failed\n?", line)
            counts = (int(last[1]), int(last[2])) if last else None
            print(f"rt ci: {line}" if last else line, end="", flush=True)
    if counts is None:
        print("FAILED: rt ci has not counted what passed", flush=True)
        return 0, 1
    if gate.returncode and not counts[1]:
        print(f"FAILED: rt ci ended with status {gate.returncode}", flush=True)
        return counts[0], 1
    return counts


def same_logic(kit, other):
    """Whether two kits have the same name and logic. A letter behind the name counts what is built anew, with the same logic."""
    parts = [re.fullmatch(r"(rattle-kit-\d+)[a-z]* (logic \w+)", line) for line in (kit, other)]
    return all(parts) and parts[0].groups() == parts[1].groups()


def version():
    """Returns 1, 0 where `collbench version` tells the version of the changelog, and a kit of this logic, as README does; else 0, 1."""
    with open(f"{run_program.ROOT}/CHANGELOG.md", encoding="utf-8") as changes:
        number = re.search(r"^## ([\d.]+)", changes.read(), re.M)[1]
    with open(f"{run_program.ROOT}/README.md", encoding="utf-8") as readme:
        told = readme.read()
    kit = subprocess.run(["rt", "version"], stdout=subprocess.PIPE, encoding="utf-8", check=False).stdout.strip()
    ran = subprocess.run([run_program.PROGRAM, "version"], stdout=subprocess.PIPE, encoding="utf-8", check=False)
    said = re.fullmatch(r"collbench (.*)\nproved with (.*)\n", ran.stdout)
    if ran.returncode == 0 and said and said[1] == number and same_logic(said[2], kit) and said[2] in told:
        return 1, 0
    print(f"FAILED: the version told is not {number}, proved with {kit}, in the program and in README: {ran.stdout}", flush=True)
    return 0, 1


# What is tried before the proofs, and what is run behind them, each with what it counts.
BEFORE = [
    ("edits that can be applied", edits.run_all),
    ("faults told as they are documented", advice_of_faults.run_all),
]
BEHIND = [
    ("runs of the program", lambda: run_program.run_all(run_program.PROGRAM)),
    ("withdrawals from random histories", lambda: random_withdrawals.run_all(run_program.PROGRAM)),
    ("explanations of pairs of words", lambda: explained_pairs.run_all(run_program.PROGRAM)),
    ("reviews of random delta files", lambda: random_reviews.run_all(run_program.PROGRAM)),
    ("imports of random ranges", lambda: random_ranges.run_all(run_program.PROGRAM)),
    ("lints of damaged texts", lambda: damaged_texts.run_all(run_program.PROGRAM)),
    ("edits at a terminal", lambda: edit_terminal.run_all(run_program.PROGRAM)),
    ("lines of progress at a terminal", lambda: progress_lines.run_all(run_program.PROGRAM)),
    ("refused runs at a terminal", lambda: refused_lines.run_all(run_program.PROGRAM)),
    ("lists of words in edits", lambda: listed_words.run_all(run_program.PROGRAM)),
    ("commands of the tutorial", lambda: tutorial.run_all(run_program.PROGRAM)),
    ("man pages", lambda: man_pages.run_all(run_program.PROGRAM)),
    ("completions of command lines", lambda: completions.run_all(run_program.PROGRAM)),
    ("texts coloured by vim", vim_syntax.run_all),
    ("ways to install", lambda: installed_programs.run_all(run_program.PROGRAM)),
    ("runs with refused growths", refuse_growths.run_all),
    ("version", version),
]


def counted(what, run):
    """Runs what is counted, and says and returns how many passed, and how many failed."""
    passed, failed = run()
    print(f"{what}: {passed} passed, {failed} failed", flush=True)
    return passed, failed


def main():
    before = [counted(what, run) for what, run in BEFORE]
    proved = proofs_and_tests()
    behind = [counted(what, run) for what, run in BEHIND]
    passed, failed = (sum(counts) for counts in zip(*before, proved, *behind))
    print(f"{passed} passed, {failed} failed")
    return 1 if failed or not behind[0][0] else 0


if __name__ == "__main__":
    sys.exit(main())
