#!/usr/bin/env python3
"""Reads and lexes a large table text, and prints the processor time and the peak memory.

Run by hand, with the toolchain's `rt` on the path; no gate runs it:

    bench/read_lines.py

It writes a text of 200,000 lines and 6 MB, builds a small program over coll_lex that reads the text from
a file by `LineReader` through `Counted` and feeds each line to a `Lexer`, and runs it. All of it stands in a
temporary folder, which is removed at the end. The first build proves coll_devices and coll_lex and takes some
minutes; with a folder as its argument the script keeps what it builds there, and a second run is quick.

Targets: 0.10 s of processor time, and under 4 MB more memory than on an empty text.
"""

import os
import sys
import tempfile

from small_programs import built, measured

LINES = 200_000
RUNS = 7

PROGRAM = """#![tactic(auto)]

use anyhow::{Context, Result};
use coll_lex::{Counted, Lexer, LineReader};
use std::env;
use std::fs::File;

fn main(rt: HostRuntime) -> Result<()> {
    let path = env::args(&rt)?.nth(1).context("a file is wanted")?;
    let mut input = Counted::new(File::open(&rt, path.as_str())?);
    let mut reader = LineReader::new(rt.alloc())?;
    let mut lexer = Lexer::new(rt.alloc())?;
    let mut lines = 0u64;
    let mut tokens = 0usize;
    for _ in 0..u64::MAX {
        if !reader.advance(&mut input)? {
            break;
        }
        if let Some(line) = lexer.feed(reader.line())? {
            lines = lines.wrapping_add(1);
            tokens = tokens.wrapping_add(line.tokens.get().len());
        }
    }
    lexer.finish()?;
    println!(rt; "{lines} lines, {tokens} tokens")?;
    Ok(())
}
"""


def order_lines():
    """Order lines of 30 bytes each: a character, and three weights."""
    for number in range(LINES):
        code = 0x4E00 + number % 0x5000
        yield f"<U{code:04X}> <BASE1>;<MIN>;<U{code:04X}>\n"


def main(work):
    text, nothing = os.path.join(work, "text.txt"), os.path.join(work, "empty.txt")
    with open(text, "w") as out, open(nothing, "w"):
        out.writelines(order_lines())
    program = built(work, "read_lines", ["coll_lex", "anyhow"], PROGRAM, [nothing])
    empty = measured(program, nothing)
    runs = [measured(program, text) for _ in range(RUNS)]
    size = os.path.getsize(text)
    times = sorted(time for _, time, _ in runs)
    memory = max(memory for _, _, memory in runs)
    print(f"{LINES} lines of {size} bytes: {runs[0][0].strip()}")
    print(f"processor time: least {times[0]:.3f} s, middle {times[len(times) // 2]:.3f} s of {RUNS} runs (target 0.10 s)")
    print(f"peak memory: {memory} kB, {memory - empty[2]} kB more than on an empty text (target under 4096 kB)")


if __name__ == "__main__":
    if len(sys.argv) > 1:
        os.makedirs(sys.argv[1], exist_ok=True)
        main(sys.argv[1])
    else:
        with tempfile.TemporaryDirectory() as folder:
            main(folder)
