#!/usr/bin/env python3
"""Gives the same jobs to localedef and GNU sort, to ICU, to Perl's Unicode::Collate and to collbench, and prints the tables of
docs/COMPARED.md.

usage: bench/compared.py [PROGRAM [features | times | ROW..]]

PROGRAM is crates/collbench/out/collbench where none is given. `features` is the table of what each of them does, `times` that of what
they take, and without either both are printed. A ROW is the name of a feature: its commands are shown, each with what it printed. A
command runs in a folder of tables, locales and words that are made first, where `L` is the folder of glibc's sources, `under NAME`
runs a program under a compiled locale, `uc` is Perl with Unicode::Collate::Locale, and `peers` is ICU, by peers.c.

It needs Debian's packages locales, time and wswedish. Where libicu-dev with icu-devtools and a C compiler, or perl, isn't there, what
needs it is left out, and that is told. Each command has to print what stands below it in compared.txt, or the cell of the table says
so; and where the page has another row, that is told. The line behind the features is 'N passed, M failed', and the status is 1 where
one failed.

Times are medians of five, by turns: processor time, user's and system's, of each whole process, or of one of many that a process did;
those of keys and comparisons are told by the program that makes them. Behind a time stands the most memory that a process held.
"""

import collections
import os
import random
import re
import shutil
import statistics
import subprocess
import sys
import tempfile

ROOT = os.path.dirname(os.path.dirname(os.path.abspath(__file__)))
PROGRAM = f"{ROOT}/crates/collbench/out/collbench"
PAGE = f"{ROOT}/docs/COMPARED.md"
FEATURES = f"{ROOT}/bench/compared.txt"
SOURCES = "/usr/share/i18n/locales"
WORDS = "/usr/share/dict/swedish"
PEERS = ("sort", "ICU", "Perl", "collbench")
TURNS = 5
SORTED = 100_000
MANY = 1_000_000
TRIES = 10
LOOKS = 50
PERL = ["perl", "-CSDA", "-Mutf8", "-MUnicode::Collate::Locale", "-e"]

# What each command of the shell begins with.
SETUP = r"""
under() { LC_ALL="$1.UTF-8" "${@:2}"; }
uc() { perl -CSDA -Mutf8 -MUnicode::Collate::Locale -e "$@"; }
"""
# The order of Swedish as CLDR has it, which glibc's sv_SE follows.
SWEDISH_RULES = """&D<<đ<<<Đ<<ð<<<Ð
&t<<<þ/h
&T<<<Þ/H
&Y<<ü<<<Ü<<ű<<<Ű
&[before 1]ǀ<å<<<Å<ä<<<Ä<<æ<<<Æ<<ę<<<Ę<ö<<<Ö<<ø<<<Ø<<ő<<<Ő<<œ<<<Œ<<ô<<<Ô
"""
# A tailoring with two faults, as localedef and collbench read it, and as ICU and its genrb do.
BROKEN = """comment_char %
escape_char /
LC_COLLATE
copy "iso14651_t1"
collating-symbol <o-diaeresis>
reorder-after <AFTER-Z>
<o-diaeresis>
<U00F6> <o-diaresis>;<BASE>;<MIN>;IGNORE
<U00F8> <o-diaeresis>;<VRNT1>;<MINN>;IGNORE
reorder-end
END LC_COLLATE
"""
BROKEN_RULES = "&z\n<ö\n<ø <<<\n&[before 4]a<b\n"
# What puts a Greek letter before all Latin ones.
GREEK = """comment_char %
escape_char /
LC_COLLATE
copy "iso14651_t1"
reorder-after <BEFORE-LATIN>
<S03B1>
reorder-end
END LC_COLLATE
"""
# What moves letters behind others in Perl, and then compares or sorts words.
MOVED_ENTRIES = """
use Unicode::Collate::Locale; ($words, @moves) = @ARGV; open F, "<:utf8", $words or die; chomp(@words = <F>);
for (@moves) {
    ($letter, $other) = split //; ($after) = Unicode::Collate->new->viewSortKey($other) =~ /\\[(\\w+)/; $after = 1 + hex $after;
    $entry = join "", map { sprintf "%04X ; [.%04X.0020.%04X]\\n", ord $$_[0], $after, $$_[1] } [$letter, 2], [uc $letter, 8];
    $order = Unicode::Collate::Locale->new(locale => "sv__reformed", entry => $entry);
    if (@words > 2) { $sorted = join "\\n", $order->sort(@words) } else { print $order->cmp(@words), "\\n" }
}
"""
KEYS_OF_PERL = """
use Unicode::Collate::Locale; open F, "<:utf8", $ARGV[0] or die; chomp(@words = <F>);
$order = Unicode::Collate::Locale->new(locale => "sv__reformed");
$begun = times; $order->getSortKey($_) for @words; $keyed = times; $order->cmp($words[$_ - 1], $words[$_]) for 1..$#words; $ended = times;
printf "key %.1f comparison %.1f", map { 1e9 * $_ / @words } $keyed - $begun, $ended - $keyed;
"""


class Room:
    """A folder with what the commands need, and how they are run in it."""

    def __init__(self, program, folder):
        self.folder, self.weighs = folder, False
        self.environment = {**os.environ, "L": SOURCES, "LOCPATH": folder, "LC_ALL": "C.UTF-8", "LANGUAGE": "",
                            "PATH": f"{folder}/bin:{os.environ['PATH']}"}
        os.mkdir(f"{folder}/bin")
        os.symlink(program, f"{folder}/bin/collbench")
        self.lacking = {"sort": self.no_sort(), "ICU": self.no_icu(), "Perl": self.no_perl(), "collbench": ""}
        if self.lacking["sort"]:
            sys.exit(f"all others are compared over the sources of glibc: {self.lacking['sort']}")
        self.write_texts()
        self.write_orders()

    def no_sort(self):
        """What lacks for localedef and sort."""
        lacking = [it for it in ("localedef", "sort", "/usr/bin/time") if not shutil.which(it)]
        return ", ".join([*lacking, *(it for it in (SOURCES, WORDS) if not os.path.exists(it))])

    def no_icu(self):
        """What lacks for ICU, whose program is built here."""
        words = ["cc", "-O2", "-o", f"{self.folder}/bin/peers", f"{ROOT}/bench/peers.c", "-licui18n", "-licuuc"]
        if not shutil.which("cc") or subprocess.run(words, stderr=subprocess.DEVNULL, check=False).returncode:
            return "cc or libicu-dev"
        return "" if shutil.which("genrb") else "icu-devtools"

    def no_perl(self):
        """What lacks for Unicode::Collate."""
        found = shutil.which("perl") and not subprocess.run([*PERL, "1"], stderr=subprocess.DEVNULL, check=False).returncode
        return "" if found else "its module"

    def text(self, name, text):
        """Writes a file, and returns its path."""
        with open(f"{self.folder}/{name}", "w", encoding="utf-8") as file:
            file.write(text)
        return file.name

    def shell(self, command):
        """What a command of the shell prints, on standard output and standard error."""
        how = {"cwd": self.folder, "env": self.environment, "stdout": subprocess.PIPE, "stderr": subprocess.STDOUT, "check": False}
        return subprocess.run(["bash", "-c", SETUP + command], **how).stdout.decode(errors="replace")

    def write_texts(self):
        """Writes the words, the rules and the sources."""
        with open(WORDS, encoding="latin-1") as file:
            words = [word for word in file.read().split("\n") if word]
        chosen = random.Random(7)
        chosen.shuffle(words)
        self.words = words[:SORTED]
        self.text("words.txt", "".join(f"{word}\n" for word in self.words))
        self.text("million.txt", "".join("".join(chosen.choices("abcdefghijklmnopqrstuvwxyz", k=9)) + "\n" for _ in range(MANY)))
        self.text("swedish.rules", SWEDISH_RULES)
        self.text("broken.rules", BROKEN_RULES)
        lines = "".join(f'"{line}\\n"\n' for line in BROKEN_RULES.splitlines())
        self.text("bad.txt", f"bad {{\ncollations {{\nstandard {{\nSequence {{\n{lines}}} }} }} }}\n")
        self.text("broken.col", BROKEN)
        self.text("broken.src", locale_source(BROKEN))
        self.text("greek.txt", GREEK)
        self.text("greek.src", locale_source(GREEK))
        self.text("swedish.src", locale_source(swedish()))
        self.text("moved.src", locale_source(swedish().replace("\nreorder-end\n", f"\n{moved('x', 'q')}")))
        self.text("moved.txt", f"LC_COLLATE\n{moved('x', 'q')}END LC_COLLATE\n")
        self.text("moved.rules", f"{SWEDISH_RULES}&q<x<<<X\n")

    def write_orders(self):
        """Makes the tables and the locales."""
        told = self.shell("""
            for name in sv_SE en_US cs_CZ fr_CA; do localedef -i $name -f UTF-8 ./$name.UTF-8; done
            localedef -i ./moved.src -f UTF-8 ./moved.UTF-8
            collbench import $L/iso14651_t1 > common.txt 2> told
            collbench import $L/iso14651_t1 DIACRIT_BACKWARD > french.txt 2> told
            collbench import-delta common.txt $L/sv_SE > swedish.txt 2> told
            collbench import-delta common.txt $L/cs_CZ > czech.txt 2> told
            collbench print common.txt swedish.txt > swedish_table.txt
            under sv_SE sort words.txt | md5sum > swedish.md5
        """)
        if told:
            sys.exit(told)


def swedish():
    """The category LC_COLLATE of glibc's Swedish."""
    with open(f"{SOURCES}/sv_SE", encoding="utf-8") as file:
        return "comment_char %\nescape_char /\n" + re.search(r"^LC_COLLATE\n.*?^END LC_COLLATE\n", file.read(), re.S | re.M)[0]


def moved(letter, other):
    """A block that moves a letter behind another in glibc's table."""
    return f"reorder-after <S{ord(other):04X}>\n<S{ord(letter):04X}>\nreorder-end\n"


def locale_source(category):
    """A source of a locale with this category, and small ones beside it."""
    others = {"POSIX": ("CTYPE", "MONETARY", "NUMERIC", "TIME", "MESSAGES"),
              "en_US": ("IDENTIFICATION", "PAPER", "NAME", "ADDRESS", "TELEPHONE", "MEASUREMENT")}
    return category + "".join(f'LC_{it}\ncopy "{name}"\nEND LC_{it}\n' for name, all_of in others.items() for it in all_of)


def rows():
    """The features: the name of each, what it is, and for each peer its answer, and the lines of a command and of what it prints."""
    with open(FEATURES, encoding="utf-8") as file:
        text = file.read()
    for row in text.strip().split("\n\n")[1:]:
        head, *lines = row.split("\n")
        name, feature = re.fullmatch(r"== (\w+): (.*)", head).groups()
        cells, peer = {}, None
        for line in lines:
            found = re.fullmatch(rf"({'|'.join(PEERS)}): (.*)", line)
            if found and found[1] not in cells:
                peer = found[1]
                cells[peer] = [found[2]]
            else:
                cells[peer].append(line)
        yield name, feature, cells


def plain(text):
    """A text with one blank wherever it has blanks or line feeds."""
    return " ".join(text.split())


def command(cell):
    """The command of a cell, or nothing where it has none."""
    return "\n".join(line[2:] for line in cell[1:] if line.startswith(("$ ", "> ")))


def checked(room, cell):
    """Runs the command of a cell, and returns what it printed, and whether that was wanted."""
    printed = plain(room.shell(command(cell)))
    return printed, printed == plain("\n".join(line for line in cell[1:] if not line.startswith(("$ ", "> "))))


def answer(room, peer, cell, counts):
    """The answer of a cell where its command prints what is wanted, and else what it prints."""
    if room.lacking[peer]:
        return "left out"
    printed, wanted = checked(room, cell) if command(cell) else ("", None)
    counts[wanted] += 1
    return f"CHANGED: {printed}" if wanted is False else cell[0]


def features(room):
    """Prints the rows of the table of features, and returns how many passed and failed."""
    with open(PAGE, encoding="utf-8") as file:
        page = file.read().splitlines()
    counts = collections.Counter()
    for name, feature, cells in rows():
        answers = [answer(room, peer, cells[peer], counts) for peer in PEERS]
        line = f"| {feature} | {' | '.join(answers)} | `{name}` |"
        print(line, flush=True)
        if any(room.lacking.values()):
            continue
        counts[line in page] += 1
        if line not in page:
            print(f"FAILED: {PAGE} has another row {name}")
    return counts[True], counts[False]


def show(room, names):
    """Shows the commands of some features, and what they print."""
    for name, feature, cells in rows():
        if name not in names:
            continue
        print(f"{name}: {feature}")
        for peer in PEERS:
            print(f"  {peer}: {cells[peer][0]}")
            if room.lacking[peer]:
                print(f"    left out, for want of {room.lacking[peer]}")
                continue
            print("".join(f"    {line}\n" for line in cells[peer][1:] if line[:2] in ("$ ", "> ", "= ")), end="")
            if command(cells[peer]):
                printed, wanted = checked(room, cells[peer])
                print(f"      {printed if wanted else 'CHANGED: ' + printed}")


def spent(room, words, given=None, **environment):
    """The processor time of a process in seconds, or where the room weighs, the most memory that it held in megabytes: its input comes
    from a file, and no output is kept."""
    weighed = ["/usr/bin/time", "-o", f"{room.folder}/held", "-f", "%M"] if room.weighs else []
    with open(given or os.devnull, "rb") as source:
        run = subprocess.Popen(weighed + words, stdin=source, stdout=subprocess.DEVNULL, stderr=subprocess.DEVNULL, cwd=room.folder,
                               env={**room.environment, **environment})
        _, status, used = os.wait4(run.pid, 0)
        run.returncode = os.waitstatus_to_exitcode(status)
    if run.returncode > (words[0] == "diff"):
        sys.exit(f"{' '.join(words)[:200]}: status {run.returncode}")
    if not room.weighs:
        return used.ru_utime + used.ru_stime
    with open(f"{room.folder}/held", encoding="utf-8") as held:
        return int(held.read().split()[-1]) / 1024


def together(room, *runs):
    """What several processes took, one after another: their times added, or the most memory."""
    return max(runs) if room.weighs else sum(runs)


def each(room, figure, count):
    """What one of so many took, that were done by one process."""
    return figure if room.weighs else figure / count


def within(room, *words, **environment):
    """Two times in seconds that a program tells in nanoseconds, of a key and of a comparison."""
    how = {"cwd": room.folder, "env": {**room.environment, **environment}, "capture_output": True, "text": True, "check": True}
    return tuple(float(it) / 1e9 for it in re.findall(r"(?:key|comparison) ([0-9.]+)", subprocess.run(words, **how).stdout))


def swedish_made(room):
    """The order of Swedish, made of its source."""
    return {
        "sort": lambda: spent(room, ["localedef", "-i", "./swedish.src", "-f", "UTF-8", "./timed.UTF-8"]),
        "ICU": lambda: spent(room, ["peers", "rules", "swedish.rules"]),
        "Perl": lambda: spent(room, [*PERL, 'Unicode::Collate::Locale->new(locale => "sv__reformed")']),
        "collbench": lambda: together(room, spent(room, ["collbench", "import", f"{SOURCES}/iso14651_t1"]),
                                      spent(room, ["collbench", "import-delta", "common.txt", f"{SOURCES}/sv_SE"])),
    }


def swedish_sorted(room, words):
    """The words of a file, sorted by that order."""
    sort = 'chomp(@words = <STDIN>); print map {"$_\\n"} Unicode::Collate::Locale->new(locale => "sv__reformed")->sort(@words)'
    return {
        "sort": lambda: spent(room, ["sort", "--parallel=1"], words, LC_ALL="sv_SE.UTF-8"),
        "ICU": lambda: spent(room, ["peers", "sort", "sv"], words),
        "Perl": lambda: spent(room, [*PERL, sort], words),
        "collbench": lambda: spent(room, ["collbench", "sort", "common.txt", "swedish.txt"], words),
    }


def million_sorted(room):
    """A million words, sorted by the common order."""
    words = f"{room.folder}/million.txt"
    return {
        "sort": lambda: spent(room, ["sort", "--parallel=1", "-S", "8M"], words, LC_ALL="en_US.UTF-8"),
        "ICU": lambda: spent(room, ["peers", "sort", "en"], words),
        "collbench": lambda: spent(room, ["collbench", "sort", "common.txt"], words),
    }


def keys_made(room):
    """A key and a comparison; of collbench as lines of a session, read and answered."""
    nothing, keys = room.text("nothing", ':key "a"\n'), room.text("keys", "".join(f':key "{word}"\n' for word in room.words))
    pairs = room.text("pairs", "".join(f':compare "{a}" "{b}"\n' for a, b in zip(room.words, room.words[1:])))

    def in_a_session():
        loaded, keyed, compared = (spent(room, ["collbench", "session", "swedish_table.txt"], it) for it in (nothing, keys, pairs))
        return tuple((time - loaded) / SORTED for time in (keyed, compared))

    return {
        "sort": lambda: within(room, "peers", "strings", "sv_SE.UTF-8", "words.txt"),
        "ICU": lambda: within(room, "peers", "times", "sv", "words.txt"),
        "Perl": lambda: within(room, *PERL, KEYS_OF_PERL, "words.txt"),
        "collbench": in_a_session,
    }


def move_looked_at(room):
    """A letter put behind another, and two words compared."""
    two = room.text("two", "xa\nra\n")
    nothing, looks = room.text("nothing", ':key "a"\n'), room.text("looks", f'{moved("x", "q")}:compare "xa" "ra"\n:undo\n' * LOOKS)

    def in_a_session():
        loaded, whole = (spent(room, ["collbench", "session", "swedish_table.txt"], it) for it in (nothing, looks))
        return whole if room.weighs else (whole - loaded) / LOOKS

    return {
        "sort": lambda: together(room, spent(room, ["localedef", "-i", "./moved.src", "-f", "UTF-8", "./timed.UTF-8"]),
                                 spent(room, ["sort"], two, LC_ALL="timed.UTF-8")),
        "ICU": lambda: each(room, spent(room, ["peers", "tries", "xa", "ra", *["moved.rules"] * LOOKS]), LOOKS),
        "Perl": lambda: each(room, spent(room, [*PERL, MOVED_ENTRIES, two, *["xq"] * LOOKS]), LOOKS),
        "collbench": in_a_session,
    }


def moves_reviewed(room):
    """A letter put behind another, and what that did to the words; of collbench each of ten such statements of one review."""
    words, chosen = f"{room.folder}/words.txt", random.Random(7)
    pairs, compared = [chosen.sample("abdefghiklmnoprstuvy", 2) for _ in range(TRIES)], ["diff", "before", "behind"]
    room.text("before", room.shell("under sv_SE sort words.txt"))
    room.text("behind", room.shell("under moved sort words.txt"))
    room.text("moves.txt", f"LC_COLLATE\n{''.join(moved(*pair) for pair in pairs)}END LC_COLLATE\n")
    return {
        "sort": lambda: together(room, spent(room, ["localedef", "-i", "./moved.src", "-f", "UTF-8", "./timed.UTF-8"]),
                                 spent(room, ["sort", "--parallel=1"], words, LC_ALL="timed.UTF-8"), spent(room, compared)),
        "ICU": lambda: together(room, spent(room, ["peers", "sort", "@moved.rules"], words), spent(room, compared)),
        "Perl": lambda: together(room, spent(room, [*PERL, MOVED_ENTRIES, words, "xq"]), spent(room, compared)),
        "collbench": lambda: each(room, spent(room, ["collbench", "review", "swedish_table.txt", "moves.txt", "words.txt"]), TRIES),
    }


def by_turns(room, jobs):
    """What the runs of some jobs took, by turns: for each job and each peer that is there a list."""
    figures = {(what, peer): [] for what, peers in jobs.items() for peer in peers if not room.lacking[peer]}
    for _ in range(TURNS):
        for (what, peer), runs in figures.items():
            runs.append(jobs[what][peer]())
    return figures


def shown(seconds):
    """A time as the table has it."""
    for least, unit in ((1, "s"), (1e-3, "ms"), (1e-6, "µs"), (1e-9, "ns")):
        if seconds >= least:
            break
    number = seconds / least
    return f"{number:.{2 if number < 10 else 1 if number < 100 else 0}f} {unit}"


def print_row(what, cells):
    """Prints a row of the table of times."""
    print(f"| {what} | " + " | ".join(cells.get(peer, "—") for peer in PEERS) + " |", flush=True)


def times(room):
    """Prints the rows of the table of times; of memory one run more."""
    jobs = {
        "Swedish, made of its source": swedish_made(room),
        "two words sorted by it": swedish_sorted(room, room.text("zon", "zon\nön\n")),
        "100,000 words sorted by it": swedish_sorted(room, f"{room.folder}/words.txt"),
        "a million words of nine letters, by the common order": million_sorted(room),
        "a letter put elsewhere, and two words compared": move_looked_at(room),
        "a letter put elsewhere, and what moved among 100,000 words": moves_reviewed(room),
    }
    found, keys = by_turns(room, jobs), by_turns(room, {"keys": keys_made(room)})
    room.weighs = True
    for what, peers in jobs.items():
        medians = {peer: statistics.median(found[what, peer]) for peer in peers if (what, peer) in found}
        print_row(what, {peer: f"{shown(time)}, {peers[peer]():.0f} MB" for peer, time in medians.items()})
    for at, what in enumerate(("a key of one of the words", "two of them compared")):
        print_row(what, {peer: shown(statistics.median(run[at] for run in runs)) for (_, peer), runs in keys.items()})


def main():
    program, *asked = sys.argv[1:] or [PROGRAM]
    names = {name for name, _, _ in rows()}
    if not os.path.exists(program) or not set(asked) <= names | {"features", "times"}:
        sys.exit(__doc__)
    failed = 0
    with tempfile.TemporaryDirectory() as folder:
        room = Room(os.path.abspath(program), folder)
        for peer in PEERS:
            if room.lacking[peer]:
                print(f"left out: {peer}, for want of {room.lacking[peer]}")
        show(room, names & set(asked))
        if "features" in asked or not asked:
            passed, failed = features(room)
            print(f"{passed} passed, {failed} failed", flush=True)
        if "times" in asked or not asked:
            times(room)
    return 1 if failed else 0


if __name__ == "__main__":
    sys.exit(main())
