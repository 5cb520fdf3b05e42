#!/usr/bin/env python3
"""Moves nodes between rings at random, and prints the processor time.

Run by hand, with the toolchain's `rt` on the path; no gate runs it:

    bench/link_and_unlink.py

It builds a small program over coll_order that fills 23 rings with 105,000 nodes, and then takes a node out and puts it
in elsewhere ten million times: node and place are picked at random, one place in sixteen is a head. Each call's
conditions are tested before it, which is measured too. All of it stands in a temporary folder, which is removed at the
end. The first build proves coll_order; with a folder as its argument the script keeps what it builds there, and a
second run is quick.

Target: 1.5 s of processor time for the ten million pairs, the rings' making left out.
"""

import os
import sys
import tempfile

from small_programs import built, measured

PAIRS = 10_000_000
RUNS = 5

PROGRAM = """#![tactic(auto)]

use anyhow::{Context, Result};
use coll_order::{NodeId, Place, RingId, Rings};
use std::env;

const RINGS: usize = 23;
const NODES: usize = 105_000;

#[derive(Drop)]
struct Random {
    state: u64,
}

impl Random {
    fn pick<X: Copy>(&mut self, items: &[X]) -> Option<X> {
        let product = self.state.wrapping_mul(6_364_136_223_846_793_005);
        self.state = product.wrapping_add(1_442_695_040_888_963_407);
        if items.is_empty() {
            return None;
        }
        items.get((self.state >> 33) as usize % items.len()).copied()
    }
}

// Puts a loose node after another, or where that isn't linked first in a ring.
fn put(rings: &mut Rings, node: NodeId, other: NodeId, ring: RingId) -> bool {
    if !rings.is_loose(node) {
        return false;
    }
    if rings.is_linked(other) {
        rings.link(node, Place::After(other));
        return true;
    }
    if rings.is_ring(ring) {
        rings.link(node, Place::Head(ring));
        return true;
    }
    false
}

fn take(rings: &mut Rings, node: NodeId) -> bool {
    if !rings.is_linked(node) {
        return false;
    }
    let _place = rings.unlink(node);
    true
}

fn turn(rings: &mut Rings, names: &[NodeId], ring_names: &[RingId], random: &mut Random) -> bool {
    let (Some(node), Some(other), Some(ring)) = (random.pick(names), random.pick(names), random.pick(ring_names)) else {
        return false;
    };
    let other = if random.state >> 60 == 0 { node } else { other };
    take(rings, node) && put(rings, node, other, ring)
}

fn main(rt: HostRuntime) -> Result<()> {
    let pairs: u64 = env::args(&rt)?.nth(1).context("a number is wanted")?.parse()?;
    let mut rings = Rings::new(rt.alloc());
    let mut ring_names = Vec::new(rt.alloc());
    for _ in 0..RINGS {
        ring_names.push(rings.new_ring()?)?;
    }
    let mut names = Vec::new(rt.alloc());
    let mut random = Random { state: 1 };
    for tag in 0..NODES {
        let node = rings.new_node(tag)?;
        let other = random.pick(names.as_slice()).unwrap_or(node);
        if let Some(ring) = random.pick(ring_names.as_slice()) {
            let other = if tag < RINGS { node } else { other };
            let _put = put(&mut rings, node, other, ring);
        }
        names.push(node)?;
    }
    let mut turns = 0u64;
    for _ in 0..pairs {
        if turn(&mut rings, names.as_slice(), ring_names.as_slice(), &mut random) {
            turns = turns.wrapping_add(1);
        }
    }
    let steps = rings.steps();
    println!(rt; "{turns} pairs, {steps} steps")?;
    Ok(())
}
"""


def main(work):
    program = built(work, "link_and_unlink", ["coll_order", "anyhow"], PROGRAM, ["0"])
    making = min(measured(program, "0")[1] for _ in range(RUNS))
    runs = [measured(program, str(PAIRS)) for _ in range(RUNS)]
    times = sorted(time - making for _, time, _ in runs)
    print(runs[0][0].strip())
    print(f"processor time: least {times[0]:.2f} s, middle {times[RUNS // 2]:.2f} s of {RUNS} runs (target 1.50 s)")
    print(f"making the rings took {making:.3f} s before that")


if __name__ == "__main__":
    if len(sys.argv) > 1:
        os.makedirs(sys.argv[1], exist_ok=True)
        main(sys.argv[1])
    else:
        with tempfile.TemporaryDirectory() as folder:
            main(folder)
