#!/usr/bin/env python3
"""Lists words in edits, and compares with the words sorted before and behind the last statement that remains.

usage: checkers/listed_words.py [PROGRAM]

PROGRAM is crates/collbench/out/collbench where none is given. An edit makes the keys of few words by the places of the table's entries,
and those of many by ranks, and sorts once where no statement remains; `sort` has one way for all. So lists are asked for over tables
whose entries are just enough, and one too few, for the places. Each has to have the words as `sort` puts them behind the statements that
remain (`:write`), and a mark before those of which the neighbours are others than in the words sorted without the last of these. Words
are told apart by their lines.

The last line is 'N passed, M failed', where a run is one list.
"""

import concurrent.futures
import itertools
import os
import subprocess
import sys
import tempfile

from random_reviews import kept, numbered, written
from run_program import PROGRAM

# What stands before the entries of a table.
HEADS = [
    """LC_COLLATE
collating-symbol <LOW>
collating-symbol <CAP>
collating-symbol <LOOSE>
symbol-equivalence <SMALL> <LOW>
collating-element <ab> from "<U0061><U0062>"
order_start forward;backward
<LOW>
<CAP>
""",
    """LC_COLLATE
collating-symbol <LOW>
collating-symbol <CAP>
collating-symbol <LOOSE>
symbol-equivalence <SMALL> <LOW>
collating-element <ab> from "<U0061><U0062>"
order_start backward;forward,position
UNDEFINED
<CAP>
<LOW>
""",
]
# What stands behind them.
ENTRIES = """<U0061> <U0061>;<LOW>
<U0041> <U0061>;<CAP>
section <FIRST>
section <EMPTY>
<U0062> <U0062>;<SMALL>
<U0042> <U0062>;<CAP>
<U0063> <U0061>;IGNORE
<ab> "<U0061><U0063>";<LOW>
section <LAST>
<U0064> IGNORE;<U0064>
<U0065> <U0065>;<LOW>
order_end
END LC_COLLATE
"""
# How many characters stand between both. With them the first table has 10, 303, 304, 319 and 320 entries: one character is looked up
# for each 16 of them at most where places serve.
FILLERS = [0, 293, 294, 309, 310]
# The lines before a list.
STATEMENTS = [
    "",
    "reorder-after <U0065>\n<U0061>\nreorder-end\n",
    "reorder-after <U0065>\n<U0061>\nreorder-end\n:undo\n",
    "reorder-after <U0065>\n<U0061>\nreorder-end\n:undo\n:redo\n",
    "reorder-after <U0064>\n<U0063> <U0063>;<CAP>\n<U00F6>\nreorder-end\ncollating-symbol <X>\n",
    "collating-symbol <X>\nreorder-after <LOW>\n<ab>\n<U0042>\nreorder-end\n",
    "collating-symbol <X>\nreorder-after <LOW>\n<ab>\n<U0042>\nreorder-end\n:withdraw 1\n",
    "reorder-section-after <FIRST> <LAST>\n",
    "<U0063> <U0065>;<U0065>\n<U0061> IGNORE;IGNORE\n",
    'collating-element <aa> from "<U0061><U0061>"\nreorder-after <U0065>\n<aa>\nreorder-end\n',
    "reorder-after <LOOSE>\n<U0061>\nreorder-end\n",
]
# The words of a list. Together with eight for each word they are looked up for 0, 9, 18, 19, 20 and more characters.
WORDS = [
    [],
    ["a"],
    ["b", "a"],
    ["ab", "a"],
    ["ab", "ba"],
    ["aab", "ba"],
    ["a", "a", "A"],
    ["", "", "z"],
    ["c", "abc", "ac", "ab", "aB", "Ab", "dab", "abd"],
    ["eee", "dd", "edcba", "abcde", "aaa", "ee", "e", "d", "dd", "ö", "zö"],
    ["aabb", "bbaa", "ab ab", "bab"],
]


def table_text(head, filler):
    """A table with so many characters more."""
    return head + "".join(f"<U5{number:03}>\n" for number in range(filler)) + ENTRIES


def lists(output):
    """The lists that an edit writes: the words of each, behind their marks."""
    listed, found = [], []
    for line in output.split("\n"):
        if line[:2] in ("* ", "  "):
            listed.append(line)
        elif line == f"words {len(listed)}":
            found.append(listed)
            listed = []
    return found


def beside(order):
    """What stands before and behind each word of an order, by its number."""
    around = [None, *order, None]
    return {word: (around[place], around[place + 2]) for place, word in enumerate(order)}


def wanted(program, table, before, behind, words):
    """The list that words have, by the statements before and by those now."""
    given = "".join(f"{word}\n" for word in words)
    old, new = (numbered(words, written(program, ["sort", table, delta], given)) for delta in (before, behind))
    stood, stands = beside(old), beside(new)
    return [f"{'  ' if stood[word] == stands[word] else '* '}{words[word]}" for word in new]


def differ(program, folder, number, table, lines, files):
    """How the lists behind these lines differ from what is wanted."""
    before, behind = (os.path.join(folder, f"{name}{number}.txt") for name in ("before", "behind"))
    asked = "".join(f":words {path}\n" for path in files)
    asked = f"{lines}{asked}:write {behind}\n:undo\n:write {before}\n"
    ran = subprocess.run([program, "edit", table], input=asked.encode(), capture_output=True, timeout=60, check=False)
    given = lists(ran.stdout.decode())
    if len(given) != len(WORDS):
        return [f"{lines!r}: {len(given)} lists: {ran.stderr.decode()}"] * len(WORDS)
    hoped = [wanted(program, table, before, behind, words) for words in WORDS]
    return [f"{lines!r}: {one}, wanted {other}" for one, other in zip(given, hoped) if one != other]


def checked(program, folder, number, table, lines, files):
    """The same, also where the program doesn't run."""
    try:
        return differ(program, folder, number, table, lines, files)
    except (OSError, RuntimeError, subprocess.SubprocessError, IndexError) as error:
        return [f"{lines!r}: {type(error).__name__} {error}"] * len(WORDS)


def run_all(program):
    """Compares all lists. Returns how many passed, and how many failed."""
    passed, failed = 0, 0
    with tempfile.TemporaryDirectory() as folder, concurrent.futures.ThreadPoolExecutor(os.cpu_count()) as pool:
        files = [kept(os.path.join(folder, f"words{number}.txt"), "".join(f"{word}\n" for word in words)) for number, words in enumerate(WORDS)]
        tables = [kept(os.path.join(folder, f"table{number}.txt"), table_text(*parts)) for number, parts in enumerate(itertools.product(HEADS, FILLERS))]
        runs = enumerate(itertools.product(tables, STATEMENTS))
        for why in pool.map(lambda run: checked(program, folder, run[0], *run[1], files), runs):
            failed += len(why)
            passed += len(WORDS) - len(why)
            for one in why:
                print(f"FAILED: {one}")
    return passed, failed


def main():
    words = sys.argv[1:]
    passed, failed = run_all(os.path.abspath(words[0]) if words else PROGRAM)
    print(f"{passed} passed, {failed} failed")
    return 1 if failed else 0


if __name__ == "__main__":
    sys.exit(main())
