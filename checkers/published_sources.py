#!/usr/bin/env python3
"""Imports published locale sources, and compares the order of words in the tables with the system's own.

usage: checkers/published_sources.py [--table | --times] [PROGRAM [NAME..]]

PROGRAM is crates/collbench/out/collbench where none is given, and NAMEs are sources, all where none is given. It wants the sources of
glibc, in /usr/share/i18n/locales, and `localedef`, which Debian's package `locales` has, and is no part of the gate.

Each source of SOURCES is imported, which has to tell nothing that is lost, and the table has to load with as many entries and
declarations as stated. Each tailoring goes through `import-delta` over the table of what it copies: it may lose what LOST states and
nothing else, the names that it places in another spelling than it declares have to be told, and `check` has to accept the delta
file; of one with a block of 4,000 lines `lint` has to tell what is put wrong in the last of these, and nothing else. A source that
copies a tailoring alone has to give the same statements. Then the order of words is compared with `strcoll` under the locale that
`localedef` compiles of the same source, and under that which it compiles of the exported table:

- 3,000 random words of many scripts' characters and, for a tailoring, of those that it names, put into the order of their keys: each
  two neighbours and 20,000 other pairs. Under the first locale those may stand otherwise in which marks stand in a row that combine
  with a letter: glibc compares these from the right, since their section alone has `backward` at the second level. And a pair may
  stand as `strxfrm` says where that and `strcoll` contradict each other, which glibc's do. How many these are is told. The pairs of
  OTHERWISE have to stand otherwise under both;
- all words of a list of Debian's (WORDS), put into the system's order: each two neighbours. A list that isn't there is told.

The last line is 'N passed, M failed', and the status is 1 where one failed.

--table  prints the rows of the table of docs/IMPORT.md, and compares nothing
--times  prints for each tailoring how long `import-delta` takes, and `check` of its table: the least of five runs each, in turns
"""

import argparse
import collections
import functools
import glob
import os
import random
import re
import subprocess
import sys
import tempfile
import time
import unicodedata

from run_program import PROGRAM

FOLDER = "/usr/share/i18n/locales"
LATIN = "abcdefghijklmnopqrstuvwxyzABCDEFGHIJKLMNOPQRSTUVWXYZàáâãäåæçèéêëìíîïñòóôõöøùúûüýÿœßšžčřěůőűąęłńśźż"
COMMON = [LATIN, LATIN.upper(), "αβγδεζηθικλμνξοπρστυφχψω", "абвгдежзийклмнопрстуфхцчшщъыьэюя", "0123456789", " -'.,!"]
COMMON += ["אבגדה", "ابتثجح", "一七三上下不与丑专"]
# Each source: the locale that is compiled to compare with, what `check` counts in its table, and characters of its words.
SOURCES = {
    "iso14651_t1": ("en_US", "entries 105091 declared 82546 sections 23 levels 4", COMMON),
    "POSIX": (None, "entries 129 declared 0 sections 1 levels 1", []),
    "ja_JP": (None, "entries 13168 declared 0 sections 1 levels 1", []),
    "ko_KR": (None, "entries 17171 declared 0 sections 1 levels 1", []),
    "km_KH": (None, "entries 547 declared 272 sections 1 levels 4", []),
    "lo_LA": (None, "entries 312 declared 150 sections 1 levels 4", []),
    "th_TH": (None, "entries 408 declared 225 sections 1 levels 4", []),
}
# Tailorings that no locale is compiled of, by the locale that copies them.
LOCALES = {"iso14651_t1_pinyin": "zh_CN", "cns11643_stroke": "cmn_TW"}
# Tailorings that stand on another table than `iso14651_t1`: its source, and the names that are defined.
TABLES = {
    "iso14651_t1_pinyin": ("iso14651_t1_common",),
    "cns11643_stroke": ("iso14651_t1_common",),
    "fr_CA": ("iso14651_t1", "DIACRIT_BACKWARD"),
}
# Names that a tailoring places and doesn't declare: the line of the first, and how many.
SLIPS = {"sv_SE": (94, 1), "se_NO": (141, 1), "ik_CA": (99, 1), "dsb_DE": (116, 4), "dz_BT": (1687, 1)}
# What a tailoring loses: how many things of each kind.
LOST = {"dsb_DE": {"SymbolWeights": 4}, "dz_BT": {"SymbolWeights": 1}}
# Pairs of words that stand otherwise in glibc, which at a `backward` level turns the weights round and not the names in one: by the source;
# of each the first word is less here, and greater there.
OTHERWISE = {"fr_CA": [("ế", "ê"), ("cœur", "coéur")]}
# The categories of a locale beside its order.
OTHERS = "IDENTIFICATION CTYPE MONETARY NUMERIC TIME MESSAGES PAPER NAME ADDRESS TELEPHONE MEASUREMENT".split()
# Lists of words, by the source that orders them.
WORDS = {
    "iso14651_t1": ["dict/ngerman", "dict/french", "dict/italian", "dict/portuguese", "dict/catalan", "dict/irish"],
    "bg_BG": ["dict/bulgarian"],
    "cs_CZ": ["hunspell/cs_CZ.dic"],
    "da_DK": ["dict/danish"],
    "eo": ["dict/esperanto"],
    "es_ES": ["dict/spanish"],
    "fr_CA": ["dict/french"],
    "hr_HR": ["hunspell/hr_HR.dic"],
    "hu_HU": ["hunspell/hu_HU.dic"],
    "is_IS": ["hunspell/is_IS.dic"],
    "lt_LT": ["hunspell/lt_LT.dic"],
    "lv_LV": ["hunspell/lv_LV.dic"],
    "nb_NO": ["dict/bokmaal"],
    "pl_PL": ["dict/polish"],
    "ro_RO": ["hunspell/ro_RO.dic"],
    "sl_SI": ["hunspell/sl_SI.dic"],
    "sv_SE": ["dict/swedish"],
    "uk_UA": ["dict/ukrainian"],
    "vi_VN": ["hunspell/vi_VN.dic"],
}
# So many comparisons are made in one session, whose text has at most 4,194,304 lines.
LINES = 1_000_000
# What is run under the locale: it reads pairs of words, and writes for each -1, 0 or 1 by `strcoll`, and another by `strxfrm`.
ORDERS = """
import locale, sys
locale.setlocale(locale.LC_COLLATE, sys.argv[1])
for line in sys.stdin.buffer.read().decode().splitlines():
    pair = line.split("\\t")
    order, (first, second) = locale.strcoll(*pair), map(locale.strxfrm, pair)
    print((order > 0) - (order < 0), (first > second) - (first < second))
"""
# What is run under the locale: it reads words, a line each, and writes them in their order.
SORTED = """
import locale, sys
locale.setlocale(locale.LC_COLLATE, sys.argv[1])
words = sys.stdin.buffer.read().decode().split("\\n")
sys.stdout.buffer.write("\\n".join(sorted(words, key=locale.strxfrm)).encode())
"""


class Unwanted(Exception):
    """What isn't as wanted, in a line."""


def number(item):
    """Returns the number of an item of a written key."""
    if item.startswith("@"):
        return int(item[1:])
    rank, _, added = item.partition("+")
    return int(rank) << 21 | int(added or 0)


def key(line):
    """Returns a written key as lists of numbers, one for each level."""
    return [[number(item) for item in level.split()] for level in line.split("|")[:-1]]


def literal(word):
    """Returns a word as the string of a command."""
    return "".join(f"<U{ord(c):08X}>" for c in word)


def ran(program, *words, output=None):
    """Runs the program, and returns what it wrote and told. Its status has to be 0."""
    ended = subprocess.run([program, *words], stdout=output or subprocess.PIPE, stderr=subprocess.PIPE, check=False)
    told = ended.stderr.decode()
    if ended.returncode:
        raise Unwanted(f"{words[0]}: {told[:300]!r}, status {ended.returncode}")
    return ended.stdout, told


def written(program, *words, to):
    """Runs the program with its output to a file, and returns what it told."""
    with open(to, "wb") as output:
        return ran(program, *words, output=output)[1]


def replies(program, table, lines):
    """Returns the replies of a session over a table."""
    ended = subprocess.run([program, "session", table], input="".join(lines).encode(), capture_output=True, check=True)
    return ended.stdout.decode().splitlines()


def compiled(source, name, room):
    """Compiles the locale of a source, and returns its name."""
    how = {"env": {**os.environ, "I18NPATH": os.path.dirname(FOLDER)}, "check": False, "capture_output": True}
    subprocess.run(["localedef", "-c", "-i", source, "-f", "UTF-8", f"{room}/{name}.UTF-8"], **how)
    if not os.path.exists(f"{room}/{name}.UTF-8/LC_COLLATE"):
        raise Unwanted(f"localedef doesn't compile {source}")
    return f"{name}.UTF-8"


def under(locale, room, script, text):
    """Runs a script of Python under a locale, and returns what it wrote."""
    how = {"input": text.encode(), "capture_output": True, "check": True}
    return subprocess.run([sys.executable, "-c", script, locale], env={**os.environ, "LOCPATH": room}, **how).stdout.decode()


def orders(pairs, locale, room):
    """Returns for each pair of words -1, 0 or 1, as `strcoll` and as `strxfrm` say under a locale."""
    lines = under(locale, room, ORDERS, "".join(f"{a}\t{b}\n" for a, b in pairs)).splitlines()
    return [tuple(map(int, line.split())) for line in lines]


def some_words(pools):
    """Returns 3,000 random words of some characters, each of a pool or two."""
    words, draw = set(), random.Random(7)
    while len(words) < 3000:
        pool = "".join(draw.sample(pools, draw.choice((1, 1, 2))))
        words.add("".join(draw.choice(pool) for _ in range(draw.randint(1, 8))))
    return sorted(words)


def ordered_pairs(program, table, pools):
    """Returns pairs of random words, and for each -1, 0 or 1 by their keys in a table."""
    words = some_words(pools)
    keys = dict(zip(words, map(key, replies(program, table, [f':key "{literal(word)}"\n' for word in words]))))
    words.sort(key=functools.partial(dict.get, keys))
    draw = random.Random(8)
    pairs = list(zip(words, words[1:])) + [(draw.choice(words), draw.choice(words)) for _ in range(20_000)]
    return pairs, [(keys[a] > keys[b]) - (keys[a] < keys[b]) for a, b in pairs]


def listed(path):
    """Returns the words of a list of Debian's, or none where it isn't there."""
    if not os.path.exists(path):
        return []
    with open(path, "rb") as file:
        text = file.read()
    if not path.endswith(".dic"):
        return sorted(set(decoded(text).split("\n")) - {""})
    with open(path.replace(".dic", ".aff"), encoding="latin-1") as file:
        charset = re.search(r"^SET (\S+)", file.read(), re.M)[1]
    words = {re.split(r"[/\t]", line)[0].strip() for line in text.decode(charset.replace("ISO8859", "iso8859")).split("\n")[1:]}
    return sorted(words - {""})


def decoded(text):
    """Returns the characters of a text that is UTF-8, or else ISO/IEC 8859-1."""
    try:
        return text.decode()
    except UnicodeDecodeError:
        return text.decode("iso8859-1")


def neighbours(program, table, words, locale, room):
    """Returns each two neighbours of words in the order of a locale, and -1, 0 or 1 for each as a table says."""
    words = under(locale, room, SORTED, "\n".join(words)).split("\n")
    pairs = list(zip(words, words[1:]))
    signs = {"less": -1, "equal": 0, "greater": 1}
    found = []
    for first in range(0, len(pairs), LINES):
        lines = [f':compare "{literal(a)}" "{literal(b)}"\n' for a, b in pairs[first : first + LINES]]
        found += [signs[reply] for reply in replies(program, table, lines)]
    return pairs, found


def has_marks_in_a_row(word):
    """Whether two marks that combine with a letter stand in a word with nothing but signs between them."""
    kinds = "".join(unicodedata.category(c)[0] for c in word)
    return bool(re.search("M[PSZ]*M", kinds))


def differing(pairs, found, locale, room):
    """Returns the pairs of words whose order isn't that of a locale, and on how many of them `strxfrm` says so against `strcoll`."""
    unlike, torn = [], 0
    for pair, ours, (by_strcoll, by_strxfrm) in zip(pairs, found, orders(pairs, locale, room)):
        if ours not in (by_strcoll, by_strxfrm):
            unlike.append(pair)
        torn += ours == by_strxfrm != by_strcoll
    return unlike, torn


def exported(program, table, room):
    """Compiles a locale of an exported table, of which `localedef` may say nothing, and returns its name."""
    source = f"{room}/exported"
    with open(source, "w", encoding="utf-8") as file:
        file.write(ran(program, "export", table)[0].decode())
        file.writelines(f'LC_{name}\ncopy "en_US"\nEND LC_{name}\n' for name in OTHERS)
    ended = subprocess.run(["localedef", "-i", source, "-f", "UTF-8", f"{source}.UTF-8"], capture_output=True, check=False)
    if ended.returncode or ended.stderr:
        raise Unwanted(f"localedef says of the exported table: {ended.stderr.decode()[:300]!r}, status {ended.returncode}")
    return "exported.UTF-8"


def compare(program, name, locale, table, pools, room):
    """Compares the order of words in a table with that of its locale, compiled of its source and of the exported table."""
    own, again = compiled(locale, "own", room), exported(program, table, room)
    pairs, found = ordered_pairs(program, table, pools)
    unlike, torn = differing(pairs, found, own, room)
    with_marks = [pair for pair in unlike if any(map(has_marks_in_a_row, pair))]
    if with_marks or torn:
        print(f"{name}: of {len(pairs)} pairs {len(with_marks)} have marks in a row, and on {torn} strcoll and strxfrm differ", flush=True)
    refuse_unlike([pair for pair in unlike if pair not in with_marks], len(pairs), "words of its source")
    refuse_unlike(differing(pairs, found, again, room)[0], len(pairs), "words of its exported table")
    for pair in OTHERWISE.get(name, []):
        ours = replies(program, table, [':compare "{}" "{}"\n'.format(*pair)])
        if ours != ["less"] or orders([pair], own, room) != [(1, 1)] or orders([pair], again, room) != [(1, 1)]:
            raise Unwanted(f"{pair} don't stand otherwise")
    for path in WORDS.get(name, []):
        words = listed(f"/usr/share/{path}")
        if words:
            pairs, found = neighbours(program, table, words, own, room)
            refuse_unlike(differing(pairs, found, own, room)[0], len(pairs), path)
            refuse_unlike(differing(pairs, found, again, room)[0], len(pairs), f"{path}, by the exported table")
        print(f"{name}: {len(words) or 'there are no'} words of {path}", flush=True)


def refuse_unlike(unlike, count, of):
    """Refuses pairs of words that stand otherwise, if there are any."""
    if unlike:
        raise Unwanted(f"{len(unlike)} of {count} pairs stand otherwise, of {of}, as {unlike[0]}")


def category(name):
    """Returns the lines of the order of a source, or nothing."""
    with open(f"{FOLDER}/{name}", encoding="utf-8", errors="replace") as source:
        found = re.search(r"^LC_COLLATE\n(.*?)^END LC_COLLATE", source.read(), re.S | re.M)
    return found[1] if found else ""


def is_tailoring(name):
    """Whether a source changes another one."""
    return bool(re.search(r"^\s*reorder-after", category(name), re.M))


def tailorings():
    """Returns the sources that change another one."""
    return [name for name in sorted(map(os.path.basename, glob.glob(f"{FOLDER}/*"))) if is_tailoring(name)] + ["fr_CA"]


def copying():
    """Returns for each tailoring the sources that copy it alone."""
    of = collections.defaultdict(list)
    for name in sorted(map(os.path.basename, glob.glob(f"{FOLDER}/*"))):
        last, copied = name, re.fullmatch(r'(?:\s|%.*\n)*copy "(.*)"\s*(?:%.*\n|\s)*', category(name))
        while copied and not is_tailoring(last):
            last, copied = copied[1], re.fullmatch(r'(?:\s|%.*\n)*copy "(.*)"\s*(?:%.*\n|\s)*', category(copied[1]))
        if last != name and is_tailoring(last):
            of[last].append(name)
    return of


def named(name):
    """Returns the characters that a source names."""
    codes = {int(code, 16) for code in re.findall(r"<U([0-9A-Fa-f]{4,8})>", category(name))}
    return "".join(chr(code) for code in sorted(codes) if code > 32)


class Tables:
    """The tables that are imported, each once."""

    def __init__(self, program, room):
        self.program, self.room, self.told = program, room, {}

    def table(self, source, *defined):
        """Returns the table of a source, where some names are defined."""
        path = f"{self.room}/{'-'.join((source, *defined))}.txt"
        if path not in self.told:
            self.told[path] = written(self.program, "import", f"{FOLDER}/{source}", *defined, to=path)
        return path

    def below(self, name):
        """Returns the table that a tailoring stands on."""
        return self.table(*TABLES.get(name, ("iso14651_t1",)))


def adjusted(told):
    """Returns what was told of an import: for each kind of change its place and its count, and how many things each kind lost."""
    kinds = {kind: (place, int(count)) for place, kind, count in re.findall(r"^(.*): adjusted (\w+) (\d+)$", told, re.M)}
    return kinds, collections.Counter(re.findall(r": dropped (\w+) ", told))


def check_source(program, tables, name, room):
    """Imports a source that orders everything."""
    locale, wanted, pools = SOURCES[name]
    table = tables.table(name)
    if ": dropped " in tables.told[table]:
        raise Unwanted(tables.told[table][:300])
    counted = ran(program, "check", table)[0].decode()
    if counted != f"table {wanted}\n":
        raise Unwanted(f"{counted!r}, and not {wanted}")
    if locale:
        compare(program, name, locale, table, pools, room)


def lint_damaged(program, below, delta, damaged):
    """Lints a delta file in which line 4,000 of a block, if one has so many, places what isn't declared."""
    with open(delta, encoding="utf-8") as file:
        lines = file.read().split("\n")
    for start, line in enumerate(lines):
        if line.startswith("reorder-after ") and lines.index("reorder-end", start) > start + 4000:
            lines[start + 4000] = "<no-such-name>"
            break
    else:
        return
    with open(damaged, "w", encoding="utf-8") as file:
        file.write("\n".join(lines))
    linted = subprocess.run([program, "lint", below, damaged], capture_output=True, encoding="utf-8", check=False)
    told = [line for line in linted.stdout.splitlines() if ": warning: " not in line]
    wanted = f"{damaged}:{start + 4001}: 34 NotDeclared <no-such-name>: "
    if linted.returncode != 1 or len(told) != 1 or not told[0].startswith(wanted):
        raise Unwanted(f"a damaged line is told as {told[:3]}, and not as {wanted}")


def check_tailoring(program, tables, name, copied_by, room):
    """Imports a tailoring."""
    below, delta, changed = tables.below(name), f"{room}/delta.txt", f"{room}/changed.txt"
    kinds, lost = adjusted(written(program, "import-delta", below, f"{FOLDER}/{name}", to=delta))
    if lost != LOST.get(name, {}):
        raise Unwanted(f"it loses {dict(lost)}")
    place, count = kinds.get("UndeclaredDeclared", (f"{FOLDER}/{name}:0", 0))
    if (place, count) != (f"{FOLDER}/{name}:{SLIPS.get(name, (0, 0))[0]}", SLIPS.get(name, (0, 0))[1]):
        raise Unwanted(f"{place}: {count} names are placed and not declared")
    ran(program, "check", below, delta)
    lint_damaged(program, below, delta, f"{room}/damaged.txt")
    for copying_it in copied_by:
        if written(program, "import-delta", below, f"{FOLDER}/{copying_it}", to=changed) and not same(delta, changed):
            raise Unwanted(f"{copying_it}, which copies it alone, gives other statements")
    written(program, "print", below, delta, to=changed)
    pool = named(name)
    compare(program, name, LOCALES.get(name, name), changed, [*COMMON, pool] if pool else COMMON, room)


def same(one, other):
    """Whether two files have the same bytes."""
    with open(one, "rb") as first, open(other, "rb") as second:
        return first.read() == second.read()


def print_table(program, names, room):
    """Prints what was adjusted in the tailorings, those alike in one row, and which sources copy them alone."""
    tables, copied_by, alike = Tables(program, room), copying(), collections.defaultdict(list)
    for name in names or tailorings():
        kinds, lost = adjusted(written(program, "import-delta", tables.below(name), f"{FOLDER}/{name}", to=f"{room}/delta.txt"))
        told = ", ".join(f"{kind} {count}" for kind, (_, count) in kinds.items())
        alike[told + "".join(f"; lost: {kind} {count}" for kind, count in lost.items())].append(name)
    print("| Tailorings | What is told |\n|---|---|")
    for told, of in sorted(alike.items(), key=lambda row: -len(row[1])):
        print(f"| {', '.join(map(shown, of))} | {told} |")
    print("\n| Tailoring | Copied alone by |\n|---|---|")
    for name in sorted(copied_by):
        print(f"| {shown(name)} | {', '.join(map(shown, copied_by[name]))} |")


def shown(name):
    """Returns a name as documents show it."""
    return f"`{name}`"


def seconds(program, *words):
    """Returns how long a run takes."""
    begun = time.perf_counter()
    subprocess.run([program, *words], stdout=subprocess.DEVNULL, stderr=subprocess.DEVNULL, check=True)
    return time.perf_counter() - begun


def print_times(program, names, room):
    """Prints how long the import of each tailoring takes, and the check of its table."""
    tables = Tables(program, room)
    for name in names or tailorings():
        below = tables.below(name)
        both = [(seconds(program, "import-delta", below, f"{FOLDER}/{name}"), seconds(program, "check", below)) for _ in range(5)]
        took, check = map(min, zip(*both))
        print(f"{name}: import-delta {took:.3f} s, check {check:.3f} s, {took / check:.2f} times", flush=True)


def failures(program, names, room):
    """Imports and compares all, prints what isn't as wanted, and returns how many passed and failed."""
    tables, copied_by = Tables(program, room), copying()
    checks = {name: functools.partial(check_source, program, tables, name, room) for name in SOURCES}
    checks.update({name: functools.partial(check_tailoring, program, tables, name, copied_by[name], room) for name in tailorings()})
    passed = failed = 0
    for name in names or checks:
        try:
            checks[name]()
            passed += 1
        except Unwanted as why:
            print(f"FAILED: {name}: {why}", flush=True)
            failed += 1
    return passed, failed


def main():
    words = argparse.ArgumentParser(description=__doc__, formatter_class=argparse.RawDescriptionHelpFormatter)
    words.add_argument("--table", action="store_true")
    words.add_argument("--times", action="store_true")
    words.add_argument("program", nargs="?", default=PROGRAM)
    words.add_argument("names", nargs="*")
    asked = words.parse_args()
    with tempfile.TemporaryDirectory() as room:
        if asked.table or asked.times:
            (print_table if asked.table else print_times)(asked.program, asked.names, room)
            return 0
        passed, failed = failures(asked.program, asked.names, room)
    print(f"{passed} passed, {failed} failed")
    return 1 if failed or not passed else 0


if __name__ == "__main__":
    sys.exit(main())
