#!/usr/bin/env python3
"""Ranks a large table, makes keys and compares words by it, and prints what each took.

Run by hand, with the toolchain's `rt` on the path; no gate runs it:

    bench/keys.py

It writes two tables of four levels, with 105,000 entries in 23 sections, of which half are collating symbols and half characters
with four weights. In the first the weights are spread, the last level ignores all, and there are 800 collating elements, five for
each of 160 first characters, of which two are letters of the words. Of 100,000 words of nine letters in their order it takes 4,000,
forty times a hundred that follow one another. The second has the weights of a real one (ISO 14651, as glibc has it): a letter's
are its symbol, a mark and a case that many share, and itself, a letter with an accent has two marks and two cases, and no level
ignores a letter. Its words are 3,000 of ten letters, in no order, of which three in 29 have an accent and two bytes.

It builds a small program over coll_key that loads a table, and then makes its ranks, a key of each word, a comparison of each word
with the next one, keys of 4,096 short texts and of eight long ones, and a listing. Each is done fifty times, in turn, and the least
time is printed, since each is so short that it is seldom interrupted. The first of the long keys takes a twentieth more time than
the later ones, since other work has driven its memory out of the processor's caches. The memory of the ranks is what the program
took at most with them, less what it took without, and less the words. All of it stands in a temporary folder, which is removed at
the end. The first build proves the crates below and takes some minutes; with a folder as its argument the script keeps what it
builds there, and a second run is quick.

An older commit is measured beside this one with its working tree as a second argument, as in

    git worktree add /tmp/older 5aada37 && bench/keys.py /tmp/key_times /tmp/older

The same program is then built over the crates of both, and the two are run in turn, ten times each. What is printed is the least of
each row, of this tree and then of the other one. A third argument is a table, in which the letters of the second table's words have
entries: its ranks are made as well, and the keys of these words by it.

Targets, for the first table: 160 ns for a key of a word of nine letters, 35 ns for a comparison of adjacent words, 15 ms and 16 MB
for the ranks, for a key of 65,536 characters at most 500 times that of 128, and 0.1 s for a listing. For the second: a key of a word
of ten letters in at most 0.6 of what it took at commit 5aada37.
"""

import os
import random
import subprocess
import sys
import tempfile

from small_programs import ROOT, built

ENTRIES = 105_000
ELEMENTS = 800
SECTIONS = 23
WORDS = 100_000
WINDOW, WINDOWS = 100, 40
LETTERS = 26
LENGTH = 9
SHORT, LONG, TEXTS = 128, 65_536, 8
TURNS = 10
# The letters of the second table's words: those without an accent, and for each other one the letter and the accent that it has.
PLAIN = "abcdefghijklmnopqrstuvwxyz"
ACCENTED = {"å": ("a", "RING"), "ä": ("a", "TREMA"), "ö": ("o", "TREMA")}
REAL_LENGTH, REAL_WORDS = 10, 3_000

PROGRAM = """#![tactic(auto)]

ghost use Rattle.coll_nodes.specs.TableLayout.{collation};
ghost use Rattle.coll_ranks.specs.Ranks.{AreRanksOf};

use anyhow::{Context, Result};
use coll_key::{Ranks, compare, key, write_compiled};
use coll_lex::{Counted, Sink};
use coll_table::{Table, load};
use std::env;
use std::fs::{self, File};
use std::io::BufWriter;
use std::time::Instant;

const RUNS: usize = 50;

fn main(rt: HostRuntime) -> Result<()> {
    let path = env::args(&rt)?.nth(1).context("a table is wanted")?;
    let mut input = Counted::new(File::open(&rt, path.as_str())?);
    let table = load(rt.alloc(), &mut input)?;
    if env::args(&rt)?.nth(2).is_some() {
        measure(&rt, &table)?;
    }
    Ok(())
}

fn measure_ranks(rt: &HostRuntime, table: &Table) -> Result<()> {
    let start = Instant::now(rt)?;
    let _ranks = Ranks::new(rt.alloc(), table)?;
    tell(rt, "ranks", start, table.len())
}

// What is measured goes over the files that the words behind the table's name.
fn measure(rt: &HostRuntime, table: &Table) -> Result<()> {
    for _ in 0..RUNS {
        measure_ranks(rt, table)?;
    }
    let ranks = Ranks::new(rt.alloc(), table)?;
    measure_each(rt, table, &ranks)
}

// Tells how many nanoseconds something took, and how much it gave.
fn tell(rt: &HostRuntime, what: &str, start: Instant, given: usize) -> Result<()> {
    let time = start.elapsed(rt)?;
    println!(rt; "{what} {} {given}", time.as_nanos())?;
    Ok(())
}

fn measure_each(rt: &HostRuntime, table: &Table, ranks: &Ranks) -> Result<()>
    requires { AreRanksOf ranks.now (collation table.now) }
{
    let words = text_of(rt, 2)?;
    let pairs = text_of(rt, 3)?;
    let short = text_of(rt, 4)?;
    let long = text_of(rt, 5)?;
    for _ in 0..RUNS {
        measure_words(rt, table, ranks, words.as_str())?;
        measure_pairs(rt, table, ranks, pairs.as_str())?;
        measure_texts(rt, table, ranks, short.as_str(), long.as_str())?;
        measure_listing(rt, table, ranks)?;
    }
    Ok(())
}

// The text of the file that a word of the command line names.
fn text_of(rt: &HostRuntime, word: usize) -> Result<String> {
    let path = env::args(rt)?.nth(word).context("a file is wanted")?;
    let text = fs::read_to_string(rt, path.as_str())?;
    Ok(text)
}

fn measure_words(rt: &HostRuntime, table: &Table, ranks: &Ranks, words: &str) -> Result<()>
    requires { AreRanksOf ranks.now (collation table.now) }
{
    let start = Instant::now(rt)?;
    let made = keys(rt, table, ranks, words)?;
    tell(rt, "keys", start, made)?;
    let start = Instant::now(rt)?;
    let walked = walk(words);
    tell(rt, "words", start, walked)
}

fn measure_pairs(rt: &HostRuntime, table: &Table, ranks: &Ranks, pairs: &str) -> Result<()>
    requires { AreRanksOf ranks.now (collation table.now) }
{
    let start = Instant::now(rt)?;
    let less = comparisons(rt, table, ranks, pairs)?;
    tell(rt, "comparisons", start, less)?;
    let start = Instant::now(rt)?;
    let walked = walk_pairs(pairs)?;
    tell(rt, "pairs", start, walked)
}

// The short texts are as long, all together, as the long ones.
fn measure_texts(rt: &HostRuntime, table: &Table, ranks: &Ranks, short: &str, long: &str) -> Result<()>
    requires { AreRanksOf ranks.now (collation table.now) }
{
    let start = Instant::now(rt)?;
    let made = keys(rt, table, ranks, short)?;
    tell(rt, "short", start, made)?;
    let start = Instant::now(rt)?;
    let made = keys(rt, table, ranks, long)?;
    tell(rt, "long", start, made)
}

fn measure_listing(rt: &HostRuntime, table: &Table, ranks: &Ranks) -> Result<()>
    requires { AreRanksOf ranks.now (collation table.now) }
{
    let file = File::create(rt, "/dev/null")?;
    let mut out = Counted::new(BufWriter::new(rt.alloc(), file)?);
    let start = Instant::now(rt)?;
    write_compiled(table, ranks, &mut out)?;
    out.flush()?;
    tell(rt, "listing", start, table.len())
}

// The numbers in the keys of all words.
fn keys(rt: &HostRuntime, table: &Table, ranks: &Ranks, words: &str) -> Result<usize>
    requires { AreRanksOf ranks.now (collation table.now) }
{
    let mut numbers = 0usize;
    for word in words.lines() {
        let made = key(rt.alloc(), table, ranks, word)?;
        numbers = numbers.wrapping_add(made.len());
    }
    Ok(numbers)
}

// How many words come before the one beside them.
fn comparisons(rt: &HostRuntime, table: &Table, ranks: &Ranks, pairs: &str) -> Result<usize>
    requires { AreRanksOf ranks.now (collation table.now) }
{
    let mut before = 0usize;
    for pair in pairs.lines() {
        let (word, other) = pair.split_once(' ').context("two words are wanted")?;
        if compare(rt.alloc(), table, ranks, word, other)?.is_lt() {
            before = before.wrapping_add(1);
        }
    }
    Ok(before)
}

// The bytes of all words, found as for keys.
fn walk(words: &str) -> usize {
    let mut bytes = 0usize;
    for word in words.lines() {
        bytes = bytes.wrapping_add(word.len());
    }
    bytes
}

// The bytes of all words, found as for comparisons.
fn walk_pairs(pairs: &str) -> Result<usize> {
    let mut bytes = 0usize;
    for pair in pairs.lines() {
        let (word, other) = pair.split_once(' ').context("two words are wanted")?;
        bytes = bytes.wrapping_add(word.len()).wrapping_add(other.len());
    }
    Ok(bytes)
}
"""


def table_lines():
    """The lines of the first table. Its letters are the first characters that have entries."""
    symbols = ENTRIES // 2
    characters = ENTRIES - symbols - ELEMENTS
    declared = [f"collating-symbol <S{number:07d}>\n" for number in range(symbols)]
    for number in range(ELEMENTS):
        first, second = first_of(number // 5), letter(number % 5 + 5)
        declared.append(f'collating-element <E{number:07d}> from "<U{first:08X}><U{second:08X}>"\n')
    lines = [f"<S{number:07d}>\n" for number in range(symbols)]
    for number in range(characters):
        code = 0x10000 + number
        lines.append(f"<U{code:08X}> <S{number:07d}>;<S{number // 2:07d}>;<S{number // 3:07d}>;IGNORE\n")
    for number in range(ELEMENTS):
        lines.append(f"<E{number:07d}> <S{number:07d}>;<S{number // 2:07d}>;<S{number // 3:07d}>;IGNORE\n")
    return in_sections(declared, lines)


def real_lines():
    """The lines of the second table, in which a character's weights are those that a real one gives it."""
    marks = ["BASE", "RING", "TREMA", "MIN"]
    others = range(0x10000, 0x10000 + ENTRIES // 2 - len(PLAIN) - len(ACCENTED))
    symbols = marks + [f"S{code:08X}" for code in others] + [f"S{ord(plain):04X}" for plain in PLAIN]
    lines = [f"<{symbol}>\n" for symbol in symbols]
    lines += [f"<U{code:08X}> <S{code:08X}>;<BASE>;<MIN>;<U{code:08X}>\n" for code in others]
    for plain in PLAIN:
        lines.append(f"<U{ord(plain):04X}> <S{ord(plain):04X}>;<BASE>;<MIN>;<U{ord(plain):04X}>\n")
    for accented, (plain, accent) in ACCENTED.items():
        code = f"U{ord(accented):04X}"
        lines.append(f'<{code}> <S{ord(plain):04X}>;"<BASE><{accent}>";"<MIN><MIN>";<{code}>\n')
    return in_sections([f"collating-symbol <{symbol}>\n" for symbol in symbols], lines)


def in_sections(declared, lines):
    """The lines of a table with these declarations, and these order lines in sections."""
    yield "comment_char %\nescape_char /\nLC_COLLATE\n"
    yield from declared
    yield "order_start forward;forward;forward;forward,position\n"
    each = len(lines) // SECTIONS
    for number, line in enumerate(lines):
        if number and number % each == 0 and number // each < SECTIONS:
            yield f"section <PART{number // each:02d}>\n"
        yield line
    yield "order_end\nEND LC_COLLATE\n"


def letter(number):
    """The code point of a letter of the words."""
    return 0x10000 + number


def first_of(number):
    """The first character of so many elements: two letters, and then characters that no word has."""
    return letter(number) if number < 2 else letter(LETTERS + number)


def written(work, name, lines):
    """The file with these lines."""
    path = os.path.join(work, name + ".txt")
    with open(path, "w") as out:
        out.writelines(lines)
    return path


def texts(work):
    """The files with words in their order, with each word and the next one, with texts of 128 characters, and with texts of 65,536."""
    chosen = random.Random(9)
    some = lambda count: "".join(chr(letter(chosen.randrange(LETTERS))) for _ in range(count))
    all_words = sorted(some(LENGTH) for _ in range(WORDS))
    words = [word for first in range(0, WORDS, WORDS // WINDOWS) for word in all_words[first : first + WINDOW]]
    return text_files(work, "", words, some)


def real_texts(work):
    """The same files for the second table, with words in no order."""
    chosen = random.Random(10)
    some = lambda count: "".join(chosen.choices(PLAIN + "".join(ACCENTED), k=count))
    return text_files(work, "real_", [some(REAL_LENGTH) for _ in range(REAL_WORDS)], some)


def text_files(work, name, words, some):
    """The files of these words, and of texts that are some letters."""
    return [
        written(work, name + "words", (word + "\n" for word in words)),
        written(work, name + "pairs", (f"{word} {other}\n" for word, other in zip(words, words[1:] + words[:1]))),
        written(work, name + "short", (some(SHORT) + "\n" for _ in range(TEXTS * (LONG // SHORT)))),
        written(work, name + "long", (some(LONG) + "\n" for _ in range(TEXTS))),
    ]


def run(program, *files):
    """The least time of each thing that the program did, in nanoseconds, and its peak memory in kilobytes."""
    done = subprocess.run(["/usr/bin/time", "-f", "%M", program, *files], capture_output=True, text=True)
    if done.returncode != 0:
        sys.exit(f"the program ended with status {done.returncode}: {done.stderr}")
    least = {}
    for line in done.stdout.splitlines():
        name, nanoseconds = line.split()[:2]
        least[name] = min(least.get(name, int(nanoseconds)), int(nanoseconds))
    return least, int(done.stderr.split()[-1])


def run_in_turn(programs, *files):
    """The same of each program, where they are run in turn: the least of all runs of each."""
    runs = [[run(program, *files) for program in programs] for _ in range(TURNS if len(programs) > 1 else 1)]
    return [least_of([turn[place] for turn in runs]) for place in range(len(programs))]


def least_of(runs):
    """The least of some runs of a program."""
    times = [least for least, _ in runs]
    return {name: min(least[name] for least in times) for name in times[0]}, min(peak for _, peak in runs)


def told(what, figures, aim):
    """Prints a row: what was measured, the figure of each program, and the aim."""
    print(f"{what}: {', '.join(figures)}" + (f" (aim {aim})" if aim else ""))


def each(measured, name, less, count):
    """The nanoseconds that each of so many took, less what it takes to find them."""
    return [f"{(least[name] - least[less]) / count:.0f} ns" for least, _ in measured]


def built_over(work, tree):
    """The program, built in this folder over copies of the crates of a working tree."""
    os.makedirs(work, exist_ok=True)
    empty = written(work, "empty", ["LC_COLLATE\norder_start\norder_end\nEND LC_COLLATE\n"])
    return built(work, "key_times", ["coll_lex", "coll_nodes", "coll_table", "coll_ranks", "coll_key", "anyhow"], PROGRAM, [empty], tree)


def ranks_told(what, measured, kilobytes):
    """Prints what the ranks of a table take."""
    told(what, [f"{least['ranks'] / 1e6:.2f} ms" for least, _ in measured] + [f"{size} kB" for size in kilobytes], "")


def main(work, trees, given):
    programs = [built_over(os.path.join(work, str(place)) if place else work, tree) for place, tree in enumerate(trees)]
    table, real_table = written(work, "table", table_lines()), written(work, "real_table", real_lines())
    without = run_in_turn(programs, table)
    files = texts(work)
    spread = run_in_turn(programs, table, *files)
    real = run_in_turn(programs, real_table, *real_texts(work))
    held = sum(os.path.getsize(file) for file in files) // 1024
    kilobytes = [with_ranks - before - held for (_, with_ranks), (_, before) in zip(spread, without)]
    ranks_told("ranks (aim 15 ms, 16000 kB)", spread, kilobytes)
    told("a key", each(spread, "keys", "words", WINDOW * WINDOWS), "160 ns")
    told("a comparison", each(spread, "comparisons", "pairs", WINDOW * WINDOWS), "35 ns")
    for least, _ in spread:
        short, long = least["short"] / (TEXTS * (LONG // SHORT)), least["long"] / TEXTS
        told(f"keys of {SHORT} and of {LONG} characters", [f"{short:.0f} ns", f"{long:.0f} ns", f"{long / short:.0f} times"], "500 times")
    told("a listing", [f"{least['listing'] / 1e9:.4f} s" for least, _ in spread], "0.1 s")
    told("a key of a real word", each(real, "keys", "words", REAL_WORDS), "")
    told("a comparison of real words", each(real, "comparisons", "pairs", REAL_WORDS), "")
    if given:
        on_given = run_in_turn(programs, given, *real_texts(work))
        ranks_told(f"ranks of {os.path.basename(given)}", on_given, [])
        told("a key of a real word in it", each(on_given, "keys", "words", REAL_WORDS), "")
        told("a comparison of real words", each(on_given, "comparisons", "pairs", REAL_WORDS), "")
        told("a listing of it", [f"{least['listing'] / 1e9:.4f} s" for least, _ in on_given], "")


if __name__ == "__main__":
    if len(sys.argv) > 1:
        os.makedirs(sys.argv[1], exist_ok=True)
        main(os.path.abspath(sys.argv[1]), [ROOT] + sys.argv[2:3], sys.argv[3] if len(sys.argv) > 3 else None)
    else:
        with tempfile.TemporaryDirectory() as folder:
            main(folder, [ROOT], None)
