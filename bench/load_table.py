#!/usr/bin/env python3
"""Loads a large table, writes it out again, and prints the processor time of both and the peak memory.

Run by hand, with the toolchain's `rt` on the path; no gate runs it:

    bench/load_table.py

It writes a table of the shape of a real one: 82,000 declarations, and 105,000 entries in 23 sections, half of them collating
symbols and half characters with four weights, of which two are names; some 6 MB. It builds a small program over
coll_table that loads a file, and runs it on this table, on one of twice the size, and on one with no entries. Then the program
loads the table and prints it to a file, which takes so much longer. All of it stands in a temporary folder, which is removed
at the end. The first build proves the crates below and takes some minutes; with a folder as its argument the script keeps what
it builds there, and a second run is quick.

Targets: 0.25 s of processor time, and 90 MB of memory in all; twice the table in at most 2.2 times that time; 0.15 s for the
printing.
"""

import os
import sys
import tempfile

from small_programs import ROOT, built, measured

DECLARATIONS = 82_000
ENTRIES = 105_000
SECTIONS = 23
RUNS = 7

PROGRAM = """#![tactic(auto)]

use anyhow::{Context, Result};
use coll_lex::{Counted, Sink};
use coll_table::{Table, load};
use std::env;
use std::fs::File;
use std::io::BufWriter;

fn main(rt: HostRuntime) -> Result<()> {
    let path = env::args(&rt)?.nth(1).context("a file is wanted")?;
    let mut input = Counted::new(File::open(&rt, path.as_str())?);
    let table = load(rt.alloc(), &mut input)?;
    tell(&rt, &table)
}

// Tells how many entries a table has, and prints it to a file if one is named.
fn tell(rt: &HostRuntime, table: &Table) -> Result<()> {
    println!(rt; "{} entries", table.len())?;
    match env::args(rt)?.nth(2) {
        Some(path) => print_to(rt, table, path.as_str()),
        None => Ok(()),
    }
}

fn print_to(rt: &HostRuntime, table: &Table, path: &str) -> Result<()> {
    let file = File::create(rt, path)?;
    let mut out = Counted::new(BufWriter::new(rt.alloc(), file)?);
    table.print(&mut out)?;
    out.flush()?;
    Ok(())
}
"""


def table_lines(entries, declarations):
    """The lines of a table with so many entries and declarations."""
    yield "comment_char %\nescape_char /\nLC_COLLATE\n"
    for number in range(declarations):
        yield f"collating-symbol <S{number:07d}>\n"
    yield "order_start forward;backward;forward;forward,position\n"
    each = entries // SECTIONS
    for number in range(entries):
        if number and number % each == 0 and number // each < SECTIONS:
            yield f"section <PART{number // each:02d}>\n"
        half = number // 2
        if number % 2 == 0:
            yield f"<S{half:07d}>\n"
        else:
            code = 0x10000 + half
            yield f"<U{code:08X}> <S{half:07d}>;<S{half // 2:07d}>;IGNORE;<U{code:08X}>\n"
    yield "order_end\nEND LC_COLLATE\n"


def written(work, name, entries, declarations):
    """The file with a table of so many entries and declarations."""
    path = os.path.join(work, name + ".txt")
    with open(path, "w") as out:
        out.writelines(table_lines(entries, declarations))
    return path


def times_of(program, *words):
    """What the program printed, its processor times in so many runs, the least first, and its peak memory in kilobytes."""
    runs = [measured(program, *words) for _ in range(RUNS)]
    return runs[0][0].strip(), sorted(time for _, time, _ in runs), max(memory for _, _, memory in runs)


def main(work):
    program = built(work, "load_table", ["coll_lex", "coll_table", "anyhow"], PROGRAM, [written(work, "empty", 0, 0)])
    tables = [
        ("none", written(work, "empty", 0, 0)),
        ("one", written(work, "table", ENTRIES, DECLARATIONS)),
        ("twice", written(work, "twice", 2 * ENTRIES, 2 * DECLARATIONS)),
    ]
    for name, path in tables:
        said, times, memory = times_of(program, path)
        size = os.path.getsize(path)
        print(f"{name}: {size} bytes, {said}: least {times[0]:.3f} s, middle {times[RUNS // 2]:.3f} s of {RUNS} runs, {memory} kB")
    loading = times_of(program, tables[1][1])[1]
    printing = times_of(program, tables[1][1], os.path.join(work, "printed.txt"))[1]
    print(f"printing: least {printing[0] - loading[0]:.3f} s, middle {printing[RUNS // 2] - loading[RUNS // 2]:.3f} s of {RUNS} runs")
    print("targets: one in 0.25 s and 90000 kB, twice in 2.2 times that time, printing in 0.15 s")


if __name__ == "__main__":
    if len(sys.argv) > 1:
        os.makedirs(sys.argv[1], exist_ok=True)
        main(sys.argv[1])
    else:
        with tempfile.TemporaryDirectory() as folder:
            main(folder)
