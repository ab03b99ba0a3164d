#!/usr/bin/env python3
"""Times the search on worlds whose walk goes back much, and on drawn ones.

Makes a program in a temporary folder that stands on copies of this repository's crates, builds it with `rt`,
runs it, and prints one line for each measurement. Needs `rt` on the path and `/usr/bin/time`. Usage: bench/search.py
"""
import shutil
import tempfile

from built import built, quickest
from nets import generated, nets
from weighing import weighing

MAIN = r"""//! Makes an instance, and searches it so many times.
#![tactic(auto)]

mod nets;
mod seeking;
mod weighing;

use anyhow::Result;
use nets::{pair_of, pigeons, world};
use seeking::sought;
use std::env;

fn number(word: Option<String>) -> u32 {
    match word {
        Some(text) => text.as_str().parse::<u32>().unwrap_or(0),
        None => 0,
    }
}

fn main(rt: HostRuntime) -> Result<()> {
    let alloc = rt.alloc();
    let mut words = env::args(&rt)?;
    let _name = words.next();
    let times = number(words.next());
    let budget = number(words.next());
    let from = number(words.next());
    let below = number(words.next());
    let packages = number(words.next());
    let states = number(words.next());
    let free = number(words.next());
    if states == 0 {
        return Ok(());
    }
    let mut pairs = Vec::new(alloc);
    for word in words {
        pairs.push(pair_of(number(Some(word)), packages, states))?;
    }
    let made = if pairs.is_empty() {
        pigeons(alloc, packages, states, free)
    } else {
        world(alloc, packages, states, below, pairs.as_slice())
    };
    match made {
        Ok(instance) => {
            let told = sought(alloc, &instance, from, below, budget, times)?;
            println!(rt; "{told}")?;
        }
        Err(fault) => println!(rt; "{fault:?}")?,
    }
    Ok(())
}
"""

SEEKING = r"""//! Searches, and how they end.
ghost use Rattle.maxsum_messages.specs.Field.{AreFieldsFor};

use crate::weighing::fields_of;
use decimation_repair::{Outcome, Search};
use lex_weights::Lex3;
use maxsum_messages::Fields;
use refutation_log::{Node, NodeKind};
use std::alloc::{AllocError, Global};
use version_graph::Instance;

/// How the last of so many searches ends: its outcome, how many nodes it logged, and how many of them branch on the
/// packages from one on before the first that doesn't.
pub fn sought(
    alloc: Global,
    instance: &Instance,
    from: u32,
    below: u32,
    budget: u32,
    times: u32,
) -> Result<String, AllocError> {
    let fields = fields_of(alloc, instance, from, below)?;
    match last_of(alloc, instance, &fields, budget, times)? {
        Some(outcome) => told(alloc, &outcome, from),
        None => String::from_str(alloc, "none"),
    }
}

fn last_of(
    alloc: Global,
    instance: &Instance,
    fields: &Fields<Lex3>,
    budget: u32,
    times: u32,
) -> Result<Option<Outcome>, AllocError>
    requires { AreFieldsFor instance.now fields.now }
{
    let mut ended = None;
    for _time in 0..times {
        let search = Search::make(alloc, instance, fields, budget)?;
        ended = Some(search.run());
    }
    Ok(ended)
}

fn told(alloc: Global, outcome: &Outcome, from: u32) -> Result<String, AllocError> {
    match outcome {
        Outcome::Found(_, log) => line(alloc, "found", log.items(), from),
        Outcome::Empty(log) => line(alloc, "empty", log.items(), from),
        Outcome::Spent(log) => line(alloc, "spent", log.items(), from),
    }
}

fn line(alloc: Global, name: &str, nodes: &[Node], from: u32) -> Result<String, AllocError> {
    let count = nodes.len();
    let first = branches_first(nodes, from);
    format!(in alloc; "{name} {count} {first}")
}

fn branches_first(nodes: &[Node], from: u32) -> u32 {
    let mut count: u32 = 0;
    for node in nodes {
        if !is_branch(*node, from) {
            return count;
        }
        count = count.saturating_add(1);
    }
    count
}

fn is_branch(node: Node, from: u32) -> bool {
    match node.kind {
        NodeKind::Leaf => false,
        NodeKind::Branch { package, .. } => package >= from,
    }
}
"""

FILES = {
    "src/main.rt": MAIN,
    "src/seeking.rt": SEEKING,
    **nets("search_bench"),
    **weighing("search_bench"),
}


def tell(program, title, budget, heavy, packages, states, free=0, codes=()):
    """Prints how a search of the world ends, and what it takes, of so many that they take about a second."""
    world = (budget, *heavy, packages, states, free, *codes)
    made, _, _ = quickest(program, 0, *world)
    once, _, printed = quickest(program, 1, *world)
    times = max(1, min(1000, int(1 / max(once - made, 0.001))))
    seconds = (quickest(program, times, *world)[0] - made) / times
    outcome, nodes, first = printed.split()
    first = f"; the first {first} branch on free packages" if free else ""
    print(f"{title}: {outcome} after {nodes} nodes in {seconds * 1e3:.3f} ms, {int(nodes) / seconds:.0f} a second{first}", flush=True)


def main():
    top = tempfile.mkdtemp(prefix="search-bench-")
    try:
        stands_on = ["decimation_repair", "refutation_log", "maxsum_messages", "lex_weights", "version_graph", "anyhow"]
        program = built(top, "search_bench", stands_on, FILES)
        for n in [5, 6, 7]:
            tell(program, f"{n + 1} packages of {n} states", 131072, (0, 0), n + 1, n + 1)
        for n in [4, 5, 6, 7]:
            title = f"{n + 1} packages of {n} states behind 14 free ones"
            tell(program, title, 131072, (n + 1, n + 15), n + 1, n + 1, 14)
        for seed in [1, 2, 3]:
            title = f"300 packages of 9 states, as the generator draws them from {seed}"
            tell(program, title, 16384, (0, 10), 300, 9, codes=generated(seed))
    finally:
        shutil.rmtree(top)


if __name__ == "__main__":
    main()
