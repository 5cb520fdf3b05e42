#!/usr/bin/env python3
"""Lints tables and delta files into which faults were put one by one, and compares what is told with these.

usage: checkers/damaged_texts.py [PROGRAM [TEXTS]]

PROGRAM is crates/collbench/out/collbench where none is given. Each text is made without fault: a table with names, elements, second
names and sections, or a delta file over one, with statements of all kinds and blocks of up to twenty lines. Then up to twelve faults are
put in at chosen places. Each is a line or two of its own that leaves the others as they are, and is known by its line, its number and the
identifier that it is about; they are those of lines, of the grammar, of tables, of statements and of blocks (docs/LANGUAGE.md, "All
faults"). Some lines name once more what isn't declared or isn't placed, which isn't told a second time. Each fault has to be told, once,
and nothing else: first the one that `check` answers, and the others in the order of their lines. The texts are the same in each run, half
of them delta files; behind them come a table and a delta file that are too long.

The last line is 'N passed, M failed', where a run is one text.
"""

import concurrent.futures
import os
import random
import re
import subprocess
import sys
import tempfile

from run_program import PROGRAM

TEXTS = 2200
MOST_FAULTS = 12
# What is told of a fault: its line, its number, and the identifier that it is about.
TOLD = re.compile(r"[^:]*:(\d+): (\d+) \w+(?: (<[^>]*>))?(?:: .*)?")
# The faults of a block that is judged where it ends: `check` tells them at the line where it begins.
JUDGED = {34, 36, 37, 38, 50, 51}
LETTERS = [f"<U{code:04X}>" for code in range(0x61, 0x7B)]


class Text:
    """A text that is made: its lines, and the faults that some of them have, a list for each line."""

    def __init__(self, chance, fresh=0):
        self.chance, self.lines, self.fresh = chance, [], fresh
        # What was told as not declared or not placed, and may be named once more: by an order line, in a weight, and behind a block alone.
        self.placed, self.weighed, self.noted = [], [], []

    def put(self, line, *faults):
        """Puts a line behind those before, with these faults."""
        self.lines.append((line if isinstance(line, bytes) else line.encode(), list(faults)))

    def put_all(self, lines):
        """Puts lines without fault."""
        for line in lines:
            self.put(line)

    def name(self):
        """A name that stands nowhere else."""
        self.fresh += 1
        return f"<NEW_{self.fresh}_{self.chance.randrange(1000):03}>"

    def letter(self):
        """A character that stands nowhere else."""
        self.fresh += 1
        return f"<U{0x4E00 + self.fresh:04X}>"

    def cut(self):
        """Ends the text here, which is a fault of its last line."""
        line, faults = self.lines.pop()
        self.lines.append((line, [*faults, (43, None)]))

    def note(self):
        """What was told may be named once more from here on."""
        for again, name in self.noted:
            again.append(name)
        self.noted.clear()

    def write(self, path):
        """Writes the text into a file. Returns the faults, by lines: those that `check` tells at another line have it beside theirs."""
        with open(path, "wb") as file:
            file.write(b"".join(line + b"\n" for line, _ in self.lines))
        return [(number, *fault) for number, (_, faults) in enumerate(self.lines, 1) for fault in faults]


class Base:
    """The names of a table, and its levels."""

    def __init__(self, chance):
        self.levels = chance.randint(1, 4)
        self.symbols = [f"<SYMBOL_{number}>" for number in range(chance.randint(3, 9))]
        # A fault that takes a symbol for itself has one of these.
        self.spare = [f"<SPARE_{number}>" for number in range(MOST_FAULTS)]
        self.elements = {f"<ELEMENT_{number}>": f"{LETTERS[number]}{LETTERS[-1 - number]}" for number in range(chance.randint(1, 6))}
        self.seconds = {f"<SECOND_{number}>": symbol for number, symbol in enumerate(self.symbols[:2])}
        self.sections = [f"<SECTION_{number}>" for number in range(chance.randint(2, 4))]
        self.letters = LETTERS[: chance.randint(8, len(LETTERS))]

    def weights(self, chance):
        """Weights of what is placed."""
        parts = ["IGNORE", *self.symbols, *self.seconds, *self.letters]
        return ";".join(chance.choice(parts) for _ in range(chance.randint(1, self.levels)))

    def rules(self):
        """The rules of its levels."""
        return ";".join(["forward"] * self.levels)


def faulty_lines(text, letter):
    """Lines that the lexer or the grammar refuses wherever they stand in a category, each with its fault. One begins with a letter."""
    name = text.name()
    return [
        (b"\xff", (1, None)),
        ("<BASE", (2, None)),
        ("<>", (3, None)),
        ("<a b>", (4, None)),
        ("<UD800>", (5, None)),
        (f'{letter} "ab', (6, None)),
        ("/d100", (8, None)),
        ("comment_char a", (11, None)),
        ("foo", (20, None)),
        ("collating-symbol", (21, None)),
        (f"collating-element {name}", (21, name)),
        (f"collating-symbol {name} {letter}", (22, name)),
        (f"{letter} <U0061> <U0062>", (22, letter)),
        (f'{letter} "{"<U0061>" * 33}"', (25, letter)),
        (f'collating-element {name} from "a"', (26, name)),
        (f'{letter} ""', (28, letter)),
        (f"{letter} ab", (29, letter)),
    ]


def faulty_declarations(text, base):
    """Declarations that are refused behind those of a table, each with its fault."""
    name, other = text.name(), text.name()
    symbol, element = text.chance.choice(base.symbols), text.chance.choice(list(base.elements))
    return [
        (f"collating-symbol {symbol}", (33, symbol)),
        (f'collating-element {element} from "<U0030><U0031>"', (33, element)),
        (f"symbol-equivalence {symbol} {base.symbols[0]}", (33, symbol)),
        (f"symbol-equivalence {name} {other}", (34, other)),
        (f'collating-element {name} from "{base.elements[element]}"', (39, name)),
        (f"symbol-equivalence {name} {element}", (73, element)),
    ]


def put_faulty(text, *kinds):
    """Puts one of some lines, with its fault."""
    line, fault = text.chance.choice([pair for kind in kinds for pair in kind])
    text.put(line, fault)


def entry_faults(text, base):
    """Order lines whose identifier or weights are at fault, each with its fault, and the list of those that may name the same again."""
    letter, name, unplaced = text.letter(), text.name(), text.letter()
    lines = [
        (name, (34, name), text.placed),
        (f"{letter} {name}", (34, name), text.weighed),
        (f"{letter} {unplaced}", (38, unplaced), text.weighed),
        (f"{letter} {';'.join(['IGNORE'] * (base.levels + 1))}", (37, letter), None),
    ]
    if base.spare:
        lines.append((f"{base.spare[-1]} IGNORE", (36, base.spare[-1]), None))
    return lines


def put_entry(text, base):
    """Puts an order line at fault, or one that names once more what was told."""
    chance = text.chance
    if text.weighed and chance.random() < 0.2:
        text.put(f"{text.letter()} {text.weighed.pop()}")
    elif text.placed and chance.random() < 0.2:
        text.put(text.placed.pop())
    else:
        line, fault, again = chance.choice(entry_faults(text, base))
        text.put(line, fault)
        if fault[0] == 36:
            base.spare.pop()
        if again is not None and chance.random() < 0.5:
            text.noted.append((again, fault[1]))


def declarations(base):
    """The lines that declare the names of a table."""
    lines = [f"collating-symbol {name}" for name in [*base.symbols, *base.spare]]
    lines += [f'collating-element {name} from "{string}"' for name, string in base.elements.items()]
    return lines + [f"symbol-equivalence {name} {symbol}" for name, symbol in base.seconds.items()]


def entries(chance, base):
    """The order lines of a table."""
    lines = [*base.symbols, *(f"{letter} {base.weights(chance)}" for letter in base.letters)]
    return lines + [f"{name} {base.weights(chance)}" for name in base.elements]


def places(chance, length, count):
    """How many faults stand before each of so many lines, and behind the last."""
    found = [0] * (length + 1)
    for _ in range(count):
        found[chance.randrange(length + 1)] += 1
    return found


def put_section_fault(text, base):
    """Puts lines that begin a section a second time, or an order with other rules or with none that may be."""
    section = text.chance.choice(base.sections)
    other = ";".join(["backward", *["forward"] * (base.levels - 1)])
    kind = text.chance.randrange(5)
    if kind == 0:
        text.put(f"section {section}", (40, section))
        return
    text.put("order_end")
    if kind == 1:
        text.put(f"order_start {section}", (40, section))
    elif kind == 2:
        text.put(f"order_start {other}", (32, None))
    elif kind == 3:
        text.put("order_start forward;sideways", (23, None))
    else:
        text.put("order_start forward;forward;forward;forward;forward", (24, None))


def put_order(text, base, faults):
    """Puts the order lines of a table, with faults."""
    lines = entries(text.chance, base)
    for before, line in zip(places(text.chance, len(lines), faults), [*lines, None]):
        for _ in range(before):
            put_order_fault(text, base)
        if line:
            text.put(line)


def put_order_fault(text, base):
    """Puts a line at fault into an order. A line of a table has a fault for each name in its weights that isn't declared."""
    kind = text.chance.random()
    if kind < 0.4:
        put_faulty(text, faulty_lines(text, text.letter()))
    elif kind < 0.5:
        first, second = text.name(), text.name()
        text.put(f'{text.letter()} "{first}{second}"', (34, first), (34, second))
    else:
        put_entry(text, base)
        text.note()


def table(chance, faults):
    """A table with so many faults at most, and what it declares."""
    text, base = Text(chance), Base(chance)
    text.put_all(["comment_char %", "escape_char /", "LC_COLLATE"])
    first = chance.randint(0, faults)
    put_declarations(text, base, first)
    text.put(f"order_start {base.rules()}")
    put_order(text, base, max(faults - first - 1, 0))
    text.put_all(f"section {section}" for section in base.sections)
    if first < faults:
        put_last(text, base)
    text.put("order_end")
    if faults and chance.random() < 0.1:
        letter = text.letter()
        text.put(letter, (41, letter))
    if faults and chance.random() < 0.1:
        text.cut()
    else:
        text.put("END LC_COLLATE")
    return text, base


def put_declarations(text, base, faults):
    """Puts the declarations of a table, with so many faults."""
    lines = declarations(base)
    last = faults and text.chance.randrange(2)
    for before, line in zip(places(text.chance, len(lines), faults - last), [*lines, None]):
        for _ in range(before):
            put_faulty(text, faulty_lines(text, text.letter()))
        if line:
            text.put(line)
    if last:
        put_faulty(text, faulty_declarations(text, base))


def put_last(text, base):
    """Puts a fault behind all entries of a table: one that is placed a second time, or a section."""
    if text.chance.random() < 0.5:
        put_section_fault(text, base)
        return
    again = text.chance.choice([*base.letters, *base.symbols, *base.seconds, *base.elements])
    text.put(again, (35, again))


def put_block(text, base, faults):
    """Puts a block, all but its end: its lines move letters, and so many others are at fault, or its target alone is."""
    chance, begins = text.chance, len(text.lines)
    target, *moved = chance.sample(base.letters, chance.randint(1, min(len(base.letters), 8)))
    moved += [text.letter() for _ in range(chance.randint(0, 12))]
    if faults and chance.random() < 0.1:
        target, faults = chance.choice([text.letter(), text.name()]), 0
        text.put(f"reorder-after {target}", (50, target))
    else:
        text.put(f"reorder-after {target}")
    for before, (place, line) in zip(places(chance, len(moved), faults), enumerate([*moved, None])):
        for _ in range(before):
            put_block_fault(text, base, [target, *moved[:place]])
        if line:
            text.put(f"{line} {base.weights(chance)}" if chance.random() < 0.7 else line)
    text.note()
    for at in range(begins, len(text.lines)):
        line, told = text.lines[at]
        text.lines[at] = (line, [(*fault, begins + 1) if fault[0] in JUDGED else fault for fault in told])


def put_block_fault(text, base, stands):
    """Puts a line at fault into a block, in which these stand before it."""
    kind = text.chance.random()
    if kind < 0.4:
        put_faulty(text, faulty_lines(text, text.letter()))
    elif kind < 0.8:
        put_entry(text, base)
    elif kind < 0.9:
        again = text.chance.choice(stands)
        text.put(again, (51, again))
    else:
        text.put(f"collating-symbol {text.name()}", (62, None))


def put_alone(text, base, fault):
    """Puts a statement that is no block, at fault or not."""
    chance = text.chance
    name, letter = text.name(), text.letter()
    first, second = chance.sample(base.sections, 2)
    if not fault:
        text.put(
            chance.choice(
                [
                    f"collating-symbol {name}",
                    f'collating-element {name} from "{letter}<U0061>"',
                    f"symbol-equivalence {name} {chance.choice(base.symbols)}",
                    f"reorder-section-after {first} {second}",
                    f"{chance.choice(base.letters)} {base.weights(chance)}",
                ]
            )
        )
        return
    there = chance.choice(base.letters)
    alone = [
        ("reorder-end", (69, None)),
        (f"{letter} IGNORE", (54, letter)),
        (f"{name} IGNORE", (34, name)),
        (there, (55, there)),
        (f"{there} {name}", (34, name)),
        (f"{there} {letter}", (38, letter)),
        (f"reorder-section-after {name} {first}", (52, name)),
        (f"reorder-section-after {first} {name}", (52, name)),
        (f"reorder-section-after {first} {first}", (53, first)),
    ]
    put_faulty(text, alone, faulty_declarations(text, base), faulty_lines(text, letter))


def delta(chance, base, faults):
    """A delta file over a table, with so many faults at most. Its names are others than those that a table is made with."""
    text = Text(chance, 1000)
    text.put_all(["comment_char %", "escape_char /", "LC_COLLATE"])
    for count in places(chance, chance.randint(0, 7), faults):
        if chance.random() < 0.6:
            put_block(text, base, count)
            text.put("reorder-end")
        else:
            for _ in range(count):
                put_alone(text, base, True)
            put_alone(text, base, False)
    end_delta(text, base, faults)
    return text


def end_delta(text, base, faults):
    """Puts the end of a delta file, or, where it may have faults, perhaps none, or one of an open block."""
    chance = text.chance.random() if faults else 1
    if chance < 0.1:
        put_block(text, base, 0)
        text.put("END LC_COLLATE", (63, None))
    elif chance < 0.2:
        text.cut()
    else:
        text.put("END LC_COLLATE")


def answer(program, *words):
    """What a run prints, and its status."""
    ran = subprocess.run([program, *words], capture_output=True, encoding="utf-8", timeout=60, check=False)
    return ran.returncode, ran.stdout.splitlines(), ran.stderr.splitlines()


def told_of(line):
    """The line, the number and the identifier of a fault that is told."""
    told = TOLD.fullmatch(line)
    return (int(told[1]), int(told[2]), told[3]) if told else line


def wanted_order(faults, checked):
    """Faults as they are to be told: first the one that `check` tells at its line, then the others; none where it tells another."""
    first = next((fault for fault in faults if (fault[3] if len(fault) > 3 else fault[0], fault[1]) == checked), None)
    return first and [fault[:3] for fault in (first, *(fault for fault in faults if fault is not first))]


def differs(program, paths, faults):
    """How the lint of files with these faults differs from what is wanted, or none."""
    status, lines, errors = answer(program, "lint", *paths)
    told = [told_of(line) for line in lines if ": warning: " not in line]
    checked, _, refused = answer(program, "check", *paths)
    if not faults:
        return None if (status, checked, told, errors) == (0, 0, [], []) else f"{lines} {refused}, wanted no fault"
    wanted = wanted_order(faults, told_of(refused[0])[:2]) if refused else None
    return None if (status, told, errors) == (1, wanted, []) else f"{told} {errors}, check tells {refused}, wanted {wanted or faults}"


def made(program, folder, seed):
    """How the lint of one text differs, or none: a table, or a delta file over one without fault."""
    chance = random.Random(seed)
    faults = chance.randint(0, MOST_FAULTS)
    paths = [os.path.join(folder, f"table{seed}.txt")]
    if seed % 2:
        text, _ = table(chance, faults)
        return differs(program, paths, text.write(paths[0]))
    text, base = table(chance, 0)
    text.write(paths[0])
    paths.append(os.path.join(folder, f"delta{seed}.txt"))
    return differs(program, paths, delta(chance, base, faults).write(paths[1]))


def too_long(program, folder):
    """How the lints of texts that are too long differ: with a declaration or an entry too many, and with two lines too many."""
    text = Text(random.Random(0))
    text.put_all(["LC_COLLATE", *(f"collating-symbol <S{number}>" for number in range(262144))])
    text.put("collating-symbol <LAST>", (42, "<LAST>"))
    text.put_all(["order_start forward", "order_end", "END LC_COLLATE"])
    full = os.path.join(folder, "full.txt")
    yield differs(program, [full], text.write(full))
    base, long = (os.path.join(folder, name) for name in ("base.txt", "long.txt"))
    few = Text(random.Random(0))
    few.put_all(["LC_COLLATE", "order_start forward", "order_end", "END LC_COLLATE"])
    few.write(base)
    with open(long, "wb") as file:
        file.write(b"LC_COLLATE\n" + b"\n" * 4194305)
    # Of the lines that are too many one is told. The last line that is taken is the one before, and no end stands there.
    for paths in [long], [base, long]:
        yield differs(program, paths, [(4194305, 12, None), (4194304, 43, None)])
    table_of_all, block = (os.path.join(folder, name) for name in ("all.txt", "block.txt"))
    all_entries = Text(random.Random(0))
    all_entries.put_all(["LC_COLLATE", "order_start forward", *(f"<U{0x10000 + number:08X}>" for number in range(262144)), "order_end", "END LC_COLLATE"])
    all_entries.write(table_of_all)
    more = Text(random.Random(0))
    more.put("LC_COLLATE")
    # A block moves one that is there, and places one too many, which is a fault of the block as a whole.
    more.put("reorder-after <U00010000>", (42, None))
    more.put_all(["<U00010005>", "<U0061>", "reorder-end", "END LC_COLLATE"])
    yield differs(program, [table_of_all, block], more.write(block))


def checked(program, folder, seed):
    """The same, also where the program doesn't run."""
    try:
        return made(program, folder, seed)
    except (OSError, subprocess.SubprocessError, UnicodeError) as error:
        return f"{type(error).__name__} {error}"


def run_all(program, texts=TEXTS):
    """Lints all texts. Returns how many passed, and how many failed."""
    failed = 0
    with tempfile.TemporaryDirectory() as folder, concurrent.futures.ThreadPoolExecutor(os.cpu_count()) as pool:
        found = [*pool.map(lambda seed: checked(program, folder, seed), range(texts)), *too_long(program, folder)]
    for seed, why in enumerate(found):
        if why:
            failed += 1
            print(f"FAILED: text {seed}: {why}")
    return len(found) - failed, failed


def main():
    words = sys.argv[1:]
    passed, failed = run_all(os.path.abspath(words[0]) if words else PROGRAM, int(words[1]) if len(words) > 1 else TEXTS)
    print(f"{passed} passed, {failed} failed")
    return 1 if failed else 0


if __name__ == "__main__":
    sys.exit(main())
