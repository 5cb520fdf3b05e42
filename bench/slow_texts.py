#!/usr/bin/env python3
"""Looks for texts that make the program slow: for each subcommand and each kind of session line the text of some megabytes that was
found to make it slowest, at some size and at twice that size.

Run by hand, after `make`, which builds the program; no gate runs it:

    bench/slow_texts.py [PROGRAM [WORD..]]

What is printed is processor time; last what `sort --parallel=1` takes for a million words, by which runs on other machines can be
compared. Of a session it goes beyond that of the same session without its last lines. Names that share a
hash and elements that share their beginnings have scripts of their own, hostile_names.py and hostile_elements.py. Words choose the
rows whose names have one of them.

Target: twice the size takes at most 2.6 times as long, which is what sorting would take, or less than 0.1 s in all. Looks each of which
comes behind a change take, with the changes, at most four times as long as the same changes and then the same looks, or less than 0.1 s.
A review that is measured beside other words, or beside a sort, takes at most so many times as long as its row says.
"""

import os
import random
import resource
import subprocess
import sys
import tempfile

ROOT = os.path.dirname(os.path.dirname(os.path.abspath(__file__)))
PROGRAM = os.path.join(ROOT, "crates", "collbench", "out", "collbench")
TIMES, SECONDS = 2.6, 0.1
RUNS = 3
MOST_ENTRIES, MOST_LINES, MOST_BYTES, MOST_BLOCK, MOST_REMAINING = 262_144, 4_194_304, 65_536, 4_096, 65_535


def table(lines, before="", rules="forward"):
    """A table text of these order lines, with further lines before them."""
    return f"LC_COLLATE\n{before}order_start {rules}\n{lines}order_end\nEND LC_COLLATE\n"


def character(number):
    return f"<U{0x10000 + number:08X}>"


def symbols(count):
    """A table of symbols, each declared and placed."""
    names = [f"<S{number}>" for number in range(count)]
    declared = "".join(f"collating-symbol {name}\n" for name in names)
    return table("".join(f"{name}\n" for name in names), declared)


def elements(count):
    """A table of elements whose strings have all 16 characters, of which they share many."""
    declared = "".join(f'collating-element <e{number}> from "aaaaaaaaaaa{number:05x}"\n' for number in range(count))
    return table("".join(f"<e{number}>\n" for number in range(count)), declared)


def heavy(count, rules="forward,position;backward,position;forward,position;backward,position"):
    """A table of characters with the longest weights at four levels: a and further ones."""
    weight = '"' + "<U0061>" * 32 + '"'
    weights = ";".join([weight] * 4)
    return table(f"a {weights}\n" + "".join(f"{character(number)} {weights}\n" for number in range(count)), rules=rules)


def characters(count):
    return table("".join(f"{character(number)}\n" for number in range(count)))


def block(count, target="a"):
    """A block of this many lines, each with weights."""
    lines = "".join(f"{character(number)} {character(number)};a;IGNORE;a\n" for number in range(count))
    return f"reorder-after {target}\n{lines}reorder-end\n"


ALPHABET = "abcdefghijklmnopqrstuvwxyz"
# Combining marks.
MARKS = "\u0301\u0308"


def declared_symbols(count):
    """A table of four entries beside symbols that are declared and not placed."""
    return table("a\nb\nc\nd\n", "".join(f"collating-symbol <S{number}>\n" for number in range(count)))


def put_behind(target, moved):
    """A block that puts what is placed behind another."""
    return f"reorder-after {target}\n{''.join(f'{it}{chr(10)}' for it in moved)}reorder-end\n"


FLAT = table("a\nb\nc\nd\n", rules="forward;forward;forward;forward")

# Of each row: its name, the size, and what gives for a size the words behind the program, the files, and the lines of the session,
# in two parts.
LOADS = {
    "check: empty lines": (MOST_LINES, lambda n: "\n" * (n - 2) + "LC_COLLATE\n"),
    "check: lines that are continued": (MOST_LINES, lambda n: "LC_COLLATE\n" + ("\\\n" * 65_000 + "\n") * (n // 65_001)),
    "check: directives": (600_000, lambda n: "comment_char %\n" * n),
    "check: comments": (MOST_LINES, lambda n: "LC_COLLATE\n" + "#\n" * (n - 2)),
    "check: script": (800_000, lambda n: "LC_COLLATE\n" + "script <a>\n" * n),
    "check: symbols": (MOST_ENTRIES, symbols),
    "check: characters": (MOST_ENTRIES, characters),
    "check: elements of 16 characters": (120_000, elements),
    "check: the longest weights": (8_000, heavy),
    "check: sections": (1_022, lambda n: table("".join(f"section <{number}>\n" + f"{character(number)}\n" for number in range(n)))),
    "check: order_start": (300_000, lambda n: "LC_COLLATE\n" + "order_start forward\n" * n),
    "print: characters": (MOST_ENTRIES, characters),
    "print: the longest weights": (8_000, heavy),
    "compile: symbols": (MOST_ENTRIES, symbols),
    "compile: characters": (MOST_ENTRIES, characters),
    "compile: elements of 16 characters": (120_000, elements),
    "compile: the longest weights": (8_000, heavy),
}
# A name, the size, the table, and for a size the lines before and the lines that are measured.
LINES = {
    ":key of the longest weights": (65_000, heavy(1), lambda n: ("", f':key "{"a" * n}"\n')),
    ":key of characters without an entry": (65_000, FLAT, lambda n: ("", f':key "{"x" * n}"\n')),
    ":compare of the longest weights": (32_000, heavy(1), lambda n: ("", f':compare "{"a" * n}" "{"a" * (n - 1)}b"\n')),
    ":compare of equal texts": (32_000, heavy(1), lambda n: ("", f':compare "{"a" * n}" "{"a" * n}"\n')),
    ":key with too many operands": (65_000, FLAT, lambda n: ("", f':key {"a " * (n // 2)}\n')),
    "an order line of empty weights": (65_000, FLAT, lambda n: ("", f"a {';' * n}\n")),
    "an order line of symbols": (65_000, FLAT, lambda n: ("", f"a {'<b>' * (n // 3)}\n")),
    "an order line of strings": (65_000, FLAT, lambda n: ("", f"a {chr(34) + 'b' * n + chr(34)}\n")),
    "a continued line": (65_000, FLAT, lambda n: ("", "a\\\n" * (n // 2) + "\n")),
    "a block": (MOST_BLOCK, FLAT, lambda n: ("", block(n))),
    ":undo of a block": (MOST_BLOCK, FLAT, lambda n: (block(n), ":undo\n")),
    "a block that moves": (MOST_BLOCK, FLAT, lambda n: (block(n), block(n, "b"))),
    "lines of a spoiled block": (600_000, FLAT, lambda n: ("", "reorder-after a\n" + "x x x\n" * n)),
    ":history": (MOST_REMAINING, FLAT, lambda n: ("reorder-after a\nreorder-end\n" * n, ":history\n")),
    "a statement that empties what was undone": (
        MOST_REMAINING, FLAT, lambda n: ("reorder-after a\nreorder-end\n" * n + ":undo\n" * n, "<c> <d>\na a\n")),
    ":list": (MOST_ENTRIES, None, lambda n: ("", ":list\n")),
    ":print": (MOST_ENTRIES, None, lambda n: ("", ":print\n")),
    ":key after a change": (MOST_ENTRIES, None, lambda n: ("", f':key "{character(0)}"\n'.replace(character(0), chr(0x10000)))),
}


def alike(count):
    """Words that begin with the same 1,000 characters."""
    return "".join(f"{'a' * 1_000}{number:06}\n" for number in range(count))


def repeated(count):
    """Words of one character, a thousand times, and so on down to once, and again."""
    return "".join("a" * (1_000 - number % 1_000) + "\n" for number in range(count))


def delta(statements):
    """A delta file of these statements."""
    return f"LC_COLLATE\n{''.join(statements)}END LC_COLLATE\n"


def turned(count):
    """A delta file of statements each of which turns the order of 4,000 characters round."""
    def lines(numbers):
        return "".join(f"{character(number)}\n" for number in numbers)

    turns = (f"reorder-after a\n{lines(range(4_000) if turn % 2 else range(3_999, -1, -1))}reorder-end\n" for turn in range(count))
    return delta(turns)


def exchanged(count):
    """A delta file of statements each of which puts the first of two letters behind the second."""
    return delta(f"reorder-after {'ab'[turn % 2]}\n{'ba'[turn % 2]}\nreorder-end\n" for turn in range(count))


def declared(count):
    """A delta file of statements each of which declares a symbol."""
    return delta(f"collating-symbol <N{number}>\n" for number in range(count))


def moved(count):
    """A delta file of statements each of which moves one character among 4,000 from one end to the other."""
    return delta(f"reorder-after {'a' if turn % 2 else character(3_999)}\n{character(0)}\nreorder-end\n" for turn in range(count))


def backward(count):
    """A table of characters in the reverse order."""
    return table("".join(f"{character(number)}\n" for number in range(count - 1, -1, -1)))


def signs(rules):
    """A table of four levels that ignores an apostrophe and a hyphen but at the last one, and two combining marks at the first."""
    names = "".join(f"{name}\n" for name in ("<BASE>", "<MIN>", "<CAP>"))
    ignored = "".join(f"<U{ord(sign):04X}> IGNORE;IGNORE;IGNORE;<U{ord(sign):04X}>\n" for sign in "'-")
    ignored += "".join(f"<U{ord(mark):04X}> IGNORE;<U{ord(mark):04X}>;<MIN>;<U{ord(mark):04X}>\n" for mark in MARKS)
    letters = "".join(f"{low} {low};<BASE>;<MIN>;{low}\n{low.upper()} {low};<BASE>;<CAP>;{low.upper()}\n" for low in ALPHABET)
    declared = "".join(f"collating-symbol {name}\n" for name in names.split())
    return table(f"{names}{ignored}{letters}<U03B1>\n<U03B2>\n", declared, rules)


def letters_alone(count):
    """Words of nine letters."""
    some = random.Random(count)
    return "".join("".join(some.choices(ALPHABET, k=9)) + "\n" for _ in range(count))


def with_signs(count):
    """A third of them as they are, a third with an apostrophe behind them, and a third with a hyphen within."""
    words = letters_alone(count // 3).split()
    return "".join(f"{word}\n{word}'s\n{word[:4]}-{word[4:]}\n" for word in words)


def with_marks(count):
    """A third of them as they are, a third with a mark behind a letter, and a third with two."""
    words = letters_alone(count // 3).split()
    return "".join(f"{word}\n{word[:4]}{MARKS[0]}{word[4:]}\n{word[:2]}{MARKS[1]}{word[2:]}{MARKS[0]}\n" for word in words)


def spelled(words):
    """These words, each as it is, with a capital, and in capitals."""
    return "".join(f"{word}\n{word.capitalize()}\n{word.upper()}\n" for word in words)


def with_capitals(count):
    """A third of them as they are, a third with a capital, and a third of capitals."""
    return spelled(letters_alone(count // 3).split())


def greek(count):
    """A delta file of statements each of which puts the first of two Greek letters behind the second."""
    return delta(f"reorder-after <U03B{1 + turn % 2}>\n<U03B{2 - turn % 2}>\nreorder-end\n" for turn in range(count))


PLACED = table("a\n" + "".join(f"{character(number)}\n" for number in range(4_000)))
SINGLE = "".join(f"{chr(0x10000 + number)}\n" for number in range(4_000))
# Of each row of words or of two tables: its name, the size, and what gives for a size the words behind the program, the files that some
# of these name, and the lines of standard input.
FILES = {
    "sort: words alike for 1,000 characters": (10_000, lambda n: (["sort", "table"], {"table": FLAT}, alike(n))),
    "sort: words of one character many times": (16_000, lambda n: (["sort", "table"], {"table": FLAT}, repeated(n))),
    "sort: words of the longest weights": (40_000, lambda n: (["sort", "table"], {"table": heavy(1)}, "a\n" * n)),
    "explain: texts of the longest weights": (60_000, lambda n: (["explain", "table", "a" * n, "a" * n], {"table": heavy(1)}, "")),
    "explain: texts that differ at the end": (60_000, lambda n: (["explain", "table", "a" * n, "a" * n + "b"], {"table": FLAT}, "")),
    "review: statements that turn all words round": (
        100, lambda n: (["review", "table", "delta", "words"], {"table": PLACED, "delta": turned(n), "words": SINGLE}, "")),
    "review: statements that move a half of words alike for 1,000 characters": (
        20, lambda n: (["review", "table", "delta", "words"],
                       {"table": FLAT, "delta": exchanged(n), "words": alike(2_000) + alike(2_000).replace("a", "b")}, "")),
    "review: statements that move a word": (
        1_000, lambda n: (["review", "table", "delta", "words"], {"table": PLACED, "delta": moved(n), "words": SINGLE}, "")),
    "review: statements that declare": (
        100_000, lambda n: (["review", "table", "delta", "words"], {"table": PLACED, "delta": declared(n), "words": SINGLE}, "")),
    "diff: two tables in reverse order": (
        MOST_ENTRIES, lambda n: (["diff", "table", "other"], {"table": characters(n), "other": backward(n)}, "")),
}

# Of each row of looks behind changes: its name, how many times, the table, the lines before, the changes, and the look behind each.
TURNS = [":undo\n", ":redo\n"]
HIGH = f':key "{chr(0x10005)}"\n'
LOOKS = {
    "few entries beside many declarations, behind blocks": (
        20_000, lambda: declared_symbols(262_000), "", [put_behind("a", [it]) for it in "cd"], ':key "ab"\n'),
    "few entries beside many declarations, behind undos": (
        20_000, lambda: declared_symbols(262_000), put_behind("b", ["a"]), TURNS, ':key "b"\n'),
    "many entries, behind withdrawals that are refused": (
        2_000, lambda: characters(260_000), put_behind(character(1), ["a"]) + put_behind("a", [character(0)]), [":withdraw 1\n"], HIGH),
    "few entries, behind undos of a block that moves a half of them": (
        20_000, lambda: characters(300), put_behind(character(1), map(character, range(257, 1, -2))), TURNS, HIGH),
    "a thousand entries, behind undos of a block that moves some of them": (
        10_000, lambda: characters(1_100), put_behind(character(1), map(character, range(257, 1, -2))), TURNS, HIGH),
}
APART = 4

# Reviews of twenty statements that move none of the words, whose comparisons are what takes time. Of each row: its name, the rules of the
# table, the words, and how many times as long as `sort --parallel=1` takes for a million words the review may take.
FORWARD, SECOND_BACKWARD = "forward;forward;forward;forward,position", "forward;backward;forward;forward,position"
FIRST_BACKWARD = "backward;forward;forward;forward,position"
REVIEWED = {
    "review: words with signs": (FORWARD, with_signs, 0.5),
    "review: words with signs, the second level backward": (SECOND_BACKWARD, with_signs, 0.6),
    "review: words with capitals": (FORWARD, with_capitals, 0.6),
    "review: words with capitals, the second level backward": (SECOND_BACKWARD, with_capitals, 0.8),
    "review: words with signs, the first level backward": (FIRST_BACKWARD, with_signs, 1.0),
    "review: words with combining marks": (FORWARD, with_marks, 0.5),
    "review: words of letters, the first level backward": (FIRST_BACKWARD, letters_alone, 0.75),
}
REVIEWED_WORDS, REVIEWED_STATEMENTS = 60_000, 20


def words_of_a(second):
    """Words of nine letters, a fifth of which begin with a. One of these begins with this letter behind it, is last of them, and long."""
    letters = random.Random(7)
    firsts = "a" * 5 + "bcdefghijklmnopqrstu"
    made = ("".join([letters.choice(firsts), *letters.choices("bcdefghijklmnopqrstuvwxy", k=8)]) for _ in range(60_000))
    return "".join(f"{word}\n" for word in (*made, f"a{second}{'q' * 126}"))


def moved_to_the_end(count):
    """A delta file that declares an element, and has statements that put the letter a behind all letters, or before all."""
    moves = (f"reorder-after {'z0'[turn % 2]}\na\nreorder-end\n" for turn in range(count))
    return delta(['collating-element <az> from "az"\n', *moves])


def words_with(pair):
    """Words of nine letters, in each of which these two stand one behind the other, and no other element of Hungarian."""
    letters = random.Random(7)
    made = (letters.choices("abcdefghijklmnopqrtuvwx", k=7) for _ in range(60_000))
    return "".join(f"{''.join(word[:3])}{pair}{''.join(word[3:])}\n" for word in made)


def moved_apart(count):
    """A delta file whose statements put a character that no word has behind another one and back."""
    return delta(f"reorder-after {character(turn % 2 * 2)}\n{character(1)}\nreorder-end\n" for turn in range(count))


LETTERS = table("".join(f"{it}\n" for it in (*"0abcdefghijklmnopqrstuvwxyz", *map(character, range(100_000)))))
# The same with the collating elements of Hungarian behind their first letters.
PAIRS = ("cs", "dz", "gy", "ly", "ny", "sz", "ty", "zs")
DIGRAPHS = table(
    "".join(f"{it}\n" for letter in ALPHABET for it in (letter, *(f"<{pair}>" for pair in PAIRS if pair[0] == letter)))
    + "".join(f"{character(number)}\n" for number in range(100_000)),
    "".join(f'collating-element <{pair}> from "{pair}"\n' for pair in PAIRS))
# The same with capitals, which differ from small letters at the second level.
SPELLED = table(
    "<MIN>\n<CAP>\n" + "".join(f"{low} {low};<MIN>\n{low.upper()} {low};<CAP>\n" for low in ALPHABET)
    + "".join(f"<{pair}> <{pair}>;<MIN>\n<{pair.upper()}> <{pair}>;<CAP>\n" for pair in PAIRS)
    + "".join(f"{character(number)}\n" for number in range(100_000)),
    "collating-symbol <MIN>\ncollating-symbol <CAP>\n"
    + "".join(f'collating-element <{pair}> from "{pair}"\n' for low in PAIRS for pair in (low, low.upper())),
    "forward;forward")
# Of each row that is measured beside other words: its name, how many times as long as with these it may take, the table, the delta file,
# its words, and the others.
BESIDE = {
    "review: many words beside one that may hold an element": (3, LETTERS, moved_to_the_end(20), words_of_a("z"), words_of_a("y")),
    "review: words that each hold an element": (2, DIGRAPHS, moved_apart(20), words_with("cs"), words_with("ck")),
    "review: words in three spellings that each hold an element": (
        3, SPELLED, moved_apart(20), *(spelled(words_with(pair).split()[:20_000]) for pair in ("cs", "ck"))),
}


def time(program, words, lines=b"", accepted=False):
    """The least processor time of some runs, in seconds. Where they have to be accepted, one that isn't ends all."""
    least = float("inf")
    for _ in range(RUNS):
        before = resource.getrusage(resource.RUSAGE_CHILDREN)
        subprocess.run([program, *words], input=lines, stdout=subprocess.DEVNULL, stderr=subprocess.DEVNULL, check=accepted)
        after = resource.getrusage(resource.RUSAGE_CHILDREN)
        least = min(least, after.ru_utime + after.ru_stime - before.ru_utime - before.ru_stime)
    return least


def show(name, size, half, whole, length):
    """Prints a row, and returns whether it is as wanted."""
    met = whole <= max(SECONDS, TIMES * half)
    told = f"{whole:.3f} s at {size:,}, {length / 1e6:.1f} MB, and {half:.3f} s at half of it"
    print(f"{name}: {told}{'' if met else ', TOO SLOW'}", flush=True)
    return met


def loads(program, folder, chosen):
    for name, (size, text) in LOADS.items():
        if chosen(name):
            times = []
            for count in (size // 2, size):
                with open(f"{folder}/table", "w", encoding="utf-8") as file:
                    file.write(text(count))
                times.append(time(program, [name.partition(":")[0], f"{folder}/table"]))
            yield show(name, size, *times, os.path.getsize(f"{folder}/table"))


def sessions(program, folder, chosen):
    for name, (size, text, lines) in LINES.items():
        if chosen(name):
            times = []
            for count in (size // 2, size):
                with open(f"{folder}/table", "w", encoding="utf-8") as file:
                    file.write(text or characters(count))
                before, measured = (part.encode() for part in lines(count))
                words = ["session", f"{folder}/table"]
                times.append(time(program, words, before + measured) - time(program, words, before))
            yield show(f"session: {name}", size, *times, len(measured))


def files(program, folder, chosen):
    for name, (size, given) in FILES.items():
        if chosen(name):
            times = []
            for count in (size // 2, size):
                words, texts, lines = given(count)
                for file_name, text in texts.items():
                    with open(f"{folder}/{file_name}", "w", encoding="utf-8") as file:
                        file.write(text)
                times.append(time(program, [f"{folder}/{word}" if word in texts else word for word in words], lines.encode()))
            yield show(name, size, *times, sum(len(text.encode()) for text in (lines, *texts.values())))


def looks(program, folder, chosen):
    for name, (count, text, before, changes, look) in LOOKS.items():
        if chosen(name):
            with open(f"{folder}/table", "w", encoding="utf-8") as file:
                file.write(text())
            among = "".join(change + look for change in changes) * count
            apart = "".join(changes) * count + look * len(changes) * count
            load, *seconds = (time(program, ["session", f"{folder}/table"], (before + lines).encode()) for lines in ("", among, apart))
            mixed, parted = (it - load for it in seconds)
            met = mixed <= max(SECONDS, APART * parted)
            print(f"looks: {name}: {mixed:.3f} s, and {parted:.3f} s apart from the changes{'' if met else ', TOO SLOW'}", flush=True)
            yield met


def sorted_million():
    """What `sort --parallel=1` takes for a million words."""
    lines = letters_alone(1_000_000).encode()
    return time("/usr/bin/env", ["LC_ALL=C", "sort", "--parallel=1"], lines)


def reviews(program, folder, chosen):
    rows = {name: row for name, row in REVIEWED.items() if chosen(name)}
    million = sorted_million() if rows else 0
    for name, (rules, text, times) in rows.items():
        for file_name, lines in (("table", signs(rules)), ("delta", greek(REVIEWED_STATEMENTS)), ("words", text(REVIEWED_WORDS))):
            with open(f"{folder}/{file_name}", "w", encoding="utf-8") as file:
                file.write(lines)
        taken = time(program, ["review", *(f"{folder}/{file_name}" for file_name in ("table", "delta", "words"))], accepted=True)
        met = taken <= times * million
        print(f"{name}: {taken:.3f} s, {taken / million:.2f} times a sort of a million{'' if met else ', TOO SLOW'}", flush=True)
        yield met


def beside(program, folder, chosen):
    for name, (times, table_text, delta_text, *lists) in BESIDE.items():
        if chosen(name):
            taken = []
            for words_text in lists:
                texts = {"table": table_text, "delta": delta_text, "words": words_text}
                for file_name, text in texts.items():
                    with open(f"{folder}/{file_name}", "w", encoding="utf-8") as file:
                        file.write(text)
                taken.append(time(program, ["review", *(f"{folder}/{file_name}" for file_name in texts)], accepted=True))
            met = taken[0] <= times * taken[1]
            print(f"{name}: {taken[0]:.3f} s, and {taken[1]:.3f} s with other words{'' if met else ', TOO SLOW'}", flush=True)
            yield met


def words(program, folder, chosen):
    name, size = "key: many words", 100_000
    if chosen(name):
        with open(f"{folder}/table", "w", encoding="utf-8") as file:
            file.write(FLAT)
        half, whole = (time(program, ["key", f"{folder}/table", *["a"] * count]) for count in (size // 2, size))
        yield show(name, size, half, whole, 2 * size)


def main(program, folder, some):
    def chosen(name):
        return not some or any(word in name for word in some)

    met = [row for rows in (loads, sessions, looks, files, reviews, beside, words) for row in rows(program, folder, chosen)]
    print(f"{sum(met)} of {len(met)} rows are as wanted")
    print(f"sort --parallel=1 of a million words: {sorted_million():.3f} s")


if __name__ == "__main__":
    with tempfile.TemporaryDirectory() as scratch:
        main(os.path.abspath(sys.argv[1]) if len(sys.argv) > 1 else PROGRAM, scratch, sys.argv[2:])
