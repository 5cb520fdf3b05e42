#!/usr/bin/env python3
"""Withdraws statements from random histories, and compares with sessions in which the others alone were made.

usage: checkers/random_withdrawals.py [PROGRAM [HISTORIES]]

PROGRAM is crates/collbench/out/collbench where none is given. Each history is a session of random lines on a small table:
statements of all kinds, `:undo`, `:redo` and `:withdraw`, each followed by `:print`, `:history` and `:key`. Behind each `:withdraw
K` a fresh session makes the statements that remained, but the K-th. Where it accepts all of them, the statement has to be
withdrawn, and table, history and key are those of the fresh session; else `:withdraw` is refused with the number, in the old list,
of the first statement that the fresh session refuses, and its refusal, and all is as it was. Behind each line the key and the order,
for which the places of entries may follow what was done, are those that a fresh session answers which makes the statements that then
remain, and then all ranks, for a text that is too long to be looked up by itself. Behind all lines an edit writes the statements
that remain into a delta file: it gives the table that the session printed, and just these statements. The lines are the same in
each run.

The last line is 'N passed, M failed', where a run is one history.
"""

import concurrent.futures
import os
import random
import subprocess
import sys
import tempfile

from run_program import PROGRAM

HISTORIES = 300
LINES = 30
# Entries that no statement names: among so many a look lets the places that were given before follow a few statements.
OTHERS = "".join(f"<U{0x4E00 + number:04X}>\n" for number in range(400))
TABLE = f"""LC_COLLATE
collating-symbol <BASE>
collating-symbol <MIN>
collating-symbol <CAP>
collating-symbol <LOOSE>
collating-element <ch> from "ch"
order_start <FIRST>;forward;forward;backward
<BASE>
<MIN>
<CAP>
<U0061> <U0061>;<BASE>;<MIN>
<U0062> <U0062>;<BASE>;<MIN>
<U0063> <U0063>;<BASE>;<MIN>
<ch> <ch>;<BASE>;<MIN>
order_end
order_start <SECOND>
<U0064> <U0064>;<BASE>;<MIN>
<U0065> <U0065>;<BASE>;<MIN>
order_end
order_start <THIRD>
<U002D> IGNORE;IGNORE;<U002D>
order_end
order_start <FOURTH>
{OTHERS}order_end
END LC_COLLATE
"""
ASKED = [':key "chab-de"\n', ':compare "chad" "cd"\n']
LOOK = "".join([":print\n", ":history\n", *ASKED])
# A text that is too long for a short look, so all ranks are made for it, and serve what is asked behind it.
RANKED = f':key "{"a" * 1_025}"\n'
SYMBOLS = ["<BASE>", "<MIN>", "<CAP>", "<LOOSE>", "<S1>", "<S2>", "<N1>", "<N2>"]
CHARACTERS = ["<ch>", "<E1>", "<E2>", *(f"<U{code:04X}>" for code in (0x61, 0x62, 0x63, 0x64, 0x65, 0x66, 0x2D))]
SECTIONS = ["<FIRST>", "<SECOND>", "<THIRD>"]


def weights(chance, fewest):
    """The weights of an order line: at least so many, and at most three."""
    return ";".join(chance.choice(["IGNORE", *SYMBOLS, *CHARACTERS[3:]]) for _ in range(chance.randint(fewest, 3)))


def placed(chance, identifier):
    """The line of a block that places an identifier."""
    return f"{identifier}\n" if identifier in SYMBOLS else f"{identifier} {weights(chance, 0)}\n"


def statement(chance):
    """The lines of a random statement."""
    kind = chance.choice(["symbol"] * 3 + ["element", "equivalence", "equivalence"] + ["block"] * 6 + ["reweight"] * 3 + ["section"])
    if kind == "symbol":
        return f"collating-symbol {chance.choice(SYMBOLS[4:6])}\n"
    if kind == "element":
        return f"collating-element {chance.choice(CHARACTERS[1:3])} from \"{chance.choice(['ab', 'de', 'abd', 'bde'])}\"\n"
    if kind == "equivalence":
        return f"symbol-equivalence {chance.choice(SYMBOLS[6:])} {chance.choice(SYMBOLS)}\n"
    if kind == "section":
        return "reorder-section-after {} {}\n".format(*chance.sample(SECTIONS, 2))
    if kind == "reweight":
        return f"{chance.choice(CHARACTERS)} {weights(chance, 1)}\n"
    target, *lines = chance.sample([*SYMBOLS, *CHARACTERS], chance.randint(1, 3))
    return f"reorder-after {target}\n{''.join(placed(chance, line) for line in lines)}reorder-end\n"


def line(chance):
    """A random line, or the lines of a block. About half a dozen statements remain at most moments."""
    kind = chance.choice(["statement"] * 12 + ["undo", "redo", "withdraw", "withdraw", "withdraw"])
    if kind == "statement":
        return statement(chance)
    return f":withdraw {chance.randint(0, 8)}\n" if kind == "withdraw" else f":{kind}\n"


def replies(program, table, lines):
    """The replies of a session to these lines, a line of text each."""
    run = subprocess.run([program, "session", table], input="".join(lines).encode(), capture_output=True, timeout=60)
    if run.returncode or run.stderr:
        raise RuntimeError(f"status {run.returncode}: {run.stderr.decode()}")
    return run.stdout.decode().splitlines()


def seen(answers):
    """Takes what a look shows from the front of the answers."""
    look = []
    while not (look and look[-1].startswith("history ")):
        look.append(answers.pop(0))
    look += [answers.pop(0) for _ in ASKED]
    return look


def asked(program, table, remaining, known):
    """What is answered by ranks that are made anew, where these statements were made and nothing else."""
    made = tuple(remaining)
    if made not in known:
        known[made] = replies(program, table, [*made, RANKED, *ASKED])[-len(ASKED) :]
    return known[made]


def wanted(program, table, remaining, number, before):
    """What `:withdraw` of a number has to answer, and what a look behind it shows, where this was seen before."""
    if not 1 <= number <= len(remaining):
        return "refused 72 NoSuchStatement", before
    others = [(old, it) for old, it in enumerate(remaining, 1) if old != number]
    answers = replies(program, table, [*(it for _, it in others), LOOK])
    for old, _ in others:
        answer = answers.pop(0)
        if not answer.startswith("ok "):
            return f"refused 71 StillNeeded {old} {answer.removeprefix('refused ')}", before
    return f"withdrawn {len(others)}", seen(answers)


def written_otherwise(program, table, lines, printed, delta):
    """How the delta file that an edit writes behind these lines differs from the statements that remain, or none."""
    def ran(words, given=""):
        return subprocess.run([program, *words], input=given, capture_output=True, encoding="utf-8", timeout=60, check=True).stdout

    ran(["edit", table], f"{''.join(lines)}:write {delta}\n")
    with open(delta, encoding="utf-8") as file:
        statements = file.read()
    read = ran(["edit", table, delta], ":delta\n")
    table_of_it = ran(["print", table, delta]).splitlines()
    os.remove(delta)
    if read != statements:
        return f"{read!r} is read back of {statements!r}"
    return None if table_of_it == printed else f"{statements!r} gives {table_of_it}, and not {printed}"


def checked(program, table, seed):
    """What differs in one history, or none, and how often a statement was withdrawn and how often it was still needed."""
    try:
        return compared(program, table, seed)
    except (OSError, RuntimeError, subprocess.SubprocessError, IndexError) as error:
        return f"history {seed}: {type(error).__name__} {error}", (0, 0)


def compared(program, table, seed):
    """The same, where the program runs and its replies can be read."""
    chance = random.Random(seed)
    lines = [line(chance) for _ in range(LINES)]
    answers = replies(program, table, [LOOK, *(it + LOOK for it in lines)])
    before, remaining, undone, counts, known = seen(answers), [], [], [0, 0], {}
    for it in lines:
        answer = answers.pop(0)
        after = seen(answers)
        if it.startswith(":withdraw"):
            number = int(it.split()[1])
            right = wanted(program, table, remaining, number, before)
            if (answer, after) != right:
                return f"history {seed}, {it.strip()} of {remaining}: {answer} {after}, wanted {right}", counts
            counts[0] += answer.startswith("withdrawn ")
            counts[1] += answer.startswith("refused 71 ")
        if answer.startswith("withdrawn "):
            del remaining[number - 1]
            undone = []
        elif answer.startswith("undone "):
            undone.append(remaining.pop())
        elif answer.startswith("redone "):
            remaining.append(undone.pop())
        elif answer.startswith("ok "):
            remaining.append(it)
            undone = []
        right = asked(program, table, remaining, known)
        if after[-len(ASKED) :] != right:
            return f"history {seed}, {it.strip()}, behind which {remaining} remain: {after}, wanted {right}", counts
        before = after
    printed = before[: -len(ASKED) - 1 - len(remaining)]
    why = written_otherwise(program, table, lines, printed, f"{table}.{seed}")
    return why and f"history {seed}, {remaining} written: {why}", counts


def run_all(program, histories=HISTORIES):
    """Runs all histories. Returns how many passed, and how many failed."""
    failed, counts = 0, [0, 0]
    with tempfile.TemporaryDirectory() as folder, concurrent.futures.ThreadPoolExecutor(os.cpu_count()) as pool:
        table = os.path.join(folder, "table.txt")
        with open(table, "w", encoding="utf-8") as file:
            file.write(TABLE)
        for differs, of_one in pool.map(lambda seed: checked(program, table, seed), range(histories)):
            counts = [a + b for a, b in zip(counts, of_one)]
            if differs:
                failed += 1
                print(f"FAILED: {differs}")
    print(f"withdrawn {counts[0]} times, still needed {counts[1]} times")
    return histories - failed, failed


def main():
    words = sys.argv[1:]
    passed, failed = run_all(os.path.abspath(words[0]) if words else PROGRAM, int(words[1]) if len(words) > 1 else HISTORIES)
    print(f"{passed} passed, {failed} failed")
    return 1 if failed else 0


if __name__ == "__main__":
    sys.exit(main())
