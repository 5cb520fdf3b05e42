#!/usr/bin/env python3
"""Parses many order lines, and prints the processor time that this takes.

Run by hand, with the toolchain's `rt` on the path; no gate runs it:

    bench/parse_lines.py

It writes 100,000 order lines of four weights, builds a small program over coll_lex and coll_syntax that lexes them from
a file and parses each as a line of a table as often as it is told. The time of a pass is what ten
passes take more than none, divided by ten. All of it stands in a temporary folder, which is removed at the end. The first
build proves the crates below and takes some minutes; with a folder as its argument the script keeps what it builds there,
and a second run is quick.

Target: 0.06 s of processor time for a pass.
"""

import os
import sys
import tempfile

from small_programs import built, measured

LINES = 100_000
PASSES = 10
RUNS = 5

PROGRAM = """#![tactic(auto)]

use anyhow::{Context, Result};
use coll_lex::{Counted, Lexer, Line, LineReader};
use coll_syntax::parse_table_line;
use std::env;
use std::fs::File;

fn main(rt: HostRuntime) -> Result<()> {
    let path = env::args(&rt)?.nth(1).context("a file is wanted")?;
    let passes: u32 = env::args(&rt)?.nth(2).context("a number is wanted")?.parse()?;
    let mut input = Counted::new(File::open(&rt, path.as_str())?);
    let mut reader = LineReader::new(rt.alloc())?;
    let mut lexer = Lexer::new(rt.alloc())?;
    let mut lines = 0u64;
    let mut parsed = 0u64;
    for _ in 0..u64::MAX {
        if !reader.advance(&mut input)? {
            break;
        }
        if let Some(line) = lexer.feed(reader.line())? {
            lines = lines.wrapping_add(1);
            for _ in 0..passes {
                let read = parse_table_line(rt.alloc(), &line)?;
                drop(read);
                parsed = parsed.wrapping_add(1);
            }
        }
    }
    println!(rt; "{lines} lines, {parsed} parsed")?;
    Ok(())
}
"""


def order_lines():
    """Order lines: a character, a weight of its own, two names, and a string of two characters."""
    for number in range(LINES):
        code = 0x4E00 + number % 0x5000
        yield f'<U{code:04X}> <U{code:04X}>;<BASE>;<MIN>;"<U{code:04X}><CAP>"\n'


def main(work):
    text, nothing = os.path.join(work, "text.txt"), os.path.join(work, "empty.txt")
    with open(text, "w") as out, open(nothing, "w"):
        out.writelines(order_lines())
    program = built(work, "parse_lines", ["coll_lex", "coll_syntax", "anyhow"], PROGRAM, [nothing, "0"])
    times = []
    for _ in range(RUNS):
        _, lexed, _ = measured(program, text, "0")
        said, parsed, _ = measured(program, text, str(PASSES))
        times.append((parsed - lexed) / PASSES)
    times.sort()
    print(f"{LINES} lines of {os.path.getsize(text)} bytes, {PASSES} passes: {said.strip()}")
    print(f"processor time of a pass: least {times[0]:.3f} s, middle {times[len(times) // 2]:.3f} s of {RUNS} runs (target 0.06 s)")


if __name__ == "__main__":
    if len(sys.argv) > 1:
        os.makedirs(sys.argv[1], exist_ok=True)
        main(sys.argv[1])
    else:
        with tempfile.TemporaryDirectory() as folder:
            main(folder)
