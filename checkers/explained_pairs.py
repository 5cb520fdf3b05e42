#!/usr/bin/env python3
"""Explains all pairs of a list of words, and compares what is told with the written keys of the words.

usage: checkers/explained_pairs.py [PROGRAM]

PROGRAM is crates/collbench/out/collbench where none is given. Of each word the elements are told by hand, and the key is asked for
by itself. For each pair the level, the place and the numbers have to be the first at which the two keys differ, word by word; the
identifier of a number has its rank in the list of the table, and its element is one of the word's; and the last line is the order
that the two keys have as lists.

The last line is 'N passed, M failed', where a run is one pair.
"""

import concurrent.futures
import itertools
import os
import re
import subprocess
import sys
import tempfile

from run_program import PROGRAM

RULES = ["forward", "backward", "backward,position", "forward,position"]
TABLE = f"""LC_COLLATE
collating-symbol <BASE>
collating-symbol <GRAVE>
collating-symbol <ACUTE>
collating-symbol <MIN>
collating-symbol <CAP>
collating-element <ch> from "ch"
collating-element <Ch> from "Ch"
order_start {';'.join(RULES)}
<BASE>
<GRAVE>
<ACUTE>
<MIN>
<CAP>
a a;<BASE>;<MIN>;IGNORE
A a;<BASE>;<CAP>;IGNORE
c c;<BASE>;<MIN>;IGNORE
<ch> <ch>;<BASE>;<MIN>;IGNORE
<Ch> <ch>;<BASE>;<CAP>;IGNORE
e e;<BASE>;<MIN>;IGNORE
<U00E8> e;<GRAVE>;<MIN>;IGNORE
<U00E9> e;<ACUTE>;<MIN>;IGNORE
h h;<BASE>;IGNORE;IGNORE
<U00E6> "ae";"<BASE><BASE>";"<MIN><CAP>";IGNORE
<U002D> IGNORE;IGNORE;IGNORE;<U002D>
<U0027> IGNORE;IGNORE;IGNORE;<U0027>
order_end
END LC_COLLATE
"""
# The words, with a point between their elements.
WORDS = """a A e è é æ c ch Ch h z y a.c A.c a.ch a.Ch A.ch a.c.a c.e c.è c.é e.e e.é é.e é.é è.é é.è a.e A.e a.e.a æ.a æ.æ a.e.æ æ.a.e
a.- a.-.e a.e.- a.-.- a.-.-.e a.-.e.- a.' a.'.e a.-.' a.'.- a.z a.z.- a.-.z z.- z.' z.y ch.a c.z a.ch.- a.-.ch h.h a.h a.h.- h.e
e.h e.z""".split()


def spelled(element):
    """The spelling of an element: its name where it has several characters, and else its code point."""
    return f"<{element}>" if len(element) > 1 else f"<U{ord(element):04X}>"


def written(program, words, given=""):
    """What the program writes, as lines."""
    ran = subprocess.run([program, *words], input=given.encode(), capture_output=True, timeout=60)
    if ran.returncode or ran.stderr:
        raise RuntimeError(f"status {ran.returncode}: {ran.stderr.decode()}")
    return ran.stdout.decode().splitlines()


def levels_of(key):
    """The numbers of each level of a written key, as they are written."""
    levels, level = [], []
    for word in key.split():
        if word == "|":
            levels.append(level)
            level = []
        else:
            level.append(word)
    return levels


def number_of(word):
    """The number of a word of a key, as one that can be compared: a position, or a rank and what was added."""
    rank, _, added = word.removeprefix("@").partition("+")
    return int(rank), int(added or 0)


def told(word, ranked, elements):
    """What may be told of a word of a key: one way for each element of its text, or that the list has ended."""
    if word is None:
        return {"end"}
    if word.startswith("@"):
        return {f"gap {word[1:]} before {element}" for element in elements}
    return {f"{word} {ranked[number_of(word)[0]]} of {element}" for element in elements}


def differs(given, word, other, keys, ranked):
    """Why an explanation isn't that of two words, or none."""
    elements = [[spelled(element) for element in it.split(".") if element] for it in (word, other)]
    wanted = [f"{' '.join([letter, *those])}" for letter, those in zip("AB", elements)]
    order = "equal"
    for number, (rule, left, right) in enumerate(zip(RULES, keys[word], keys[other]), 1):
        pairs = enumerate(itertools.zip_longest(left, right), 1)
        apart = next(((place, pair) for place, pair in pairs if pair[0] != pair[1]), None)
        if apart is None:
            wanted.append(f"level {number} {rule} equal")
            continue
        place, pair = apart
        order = "less" if list(map(number_of, left)) < list(map(number_of, right)) else "greater"
        line = given[len(wanted)] if len(wanted) < len(given) else ""
        found = re.fullmatch(rf"level {number} {rule} differs at {place}: (.*), (.*)", line)
        if not found or any(said not in told(it, ranked, those) for said, it, those in zip(found.groups(), pair, elements)):
            return f"{line!r} of {pair} at {place}"
        wanted.append(line)
        break
    wanted.append(order)
    return None if given == wanted else f"{given}, wanted {wanted}"


def checked(program, table, pair, keys, ranked):
    """The same of a pair that is explained now."""
    try:
        given = written(program, ["explain", table, *(it.replace(".", "") for it in pair)])
        return differs(given, *pair, keys, ranked)
    except (OSError, RuntimeError, subprocess.SubprocessError) as error:
        return f"{type(error).__name__} {error}"


def run_all(program):
    """Explains all pairs. Returns how many passed, and how many failed."""
    failed, pairs = 0, list(itertools.product(WORDS, repeat=2))
    with tempfile.TemporaryDirectory() as folder, concurrent.futures.ThreadPoolExecutor(os.cpu_count()) as pool:
        table = os.path.join(folder, "table.txt")
        with open(table, "w", encoding="utf-8") as file:
            file.write(TABLE)
        lines = written(program, ["key", table, *(it.replace(".", "") for it in WORDS)])
        keys = dict(zip(WORDS, map(levels_of, lines)))
        listed = [line.split() for line in written(program, ["session", table], ":list\n")[:-1]]
        ranked = {int(rank): identifier for rank, identifier in listed}
        ranked[len(ranked) + 1] = "UNDEFINED"
        for pair, why in zip(pairs, pool.map(lambda it: checked(program, table, it, keys, ranked), pairs)):
            if why:
                failed += 1
                print(f"FAILED: {pair[0]} and {pair[1]}: {why}")
    return len(pairs) - failed, failed


def main():
    words = sys.argv[1:]
    passed, failed = run_all(os.path.abspath(words[0]) if words else PROGRAM)
    print(f"{passed} passed, {failed} failed")
    return 1 if failed else 0


if __name__ == "__main__":
    sys.exit(main())
