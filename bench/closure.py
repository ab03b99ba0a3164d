#!/usr/bin/env python3
"""Times the closure of domains and the limits of an instance.

Makes a program in a temporary folder that stands on copies of this repository's crates, builds it with `rt`,
runs it, and prints one line for each measurement. Needs `rt` on the path and `/usr/bin/time`. Usage: bench/closure.py
With `--beside REVISION..` it also builds the programs of these revisions, each by its own bench/closure.py over its own
crates, and runs all of them in turns; that needs `git` and `valgrind`.
"""
import os
import shutil
import subprocess
import sys
import tempfile

from built import TOP, built, instructions, quickest, timed
from nets import nets

MAIN = r"""//! Makes an instance, and closes its domains after one choice at a time.
#![tactic(auto)]

mod drive;
mod nets;

use anyhow::Result;
use drive::rounds;
use graph_pruning::{Closed, close};
use nets::{falling_pairs, general, mesh_pairs, net_pairs, world};
use std::alloc::{AllocError, Global};
use std::env;
use version_graph::{Domains, Instance, Trail};

fn number(word: Option<String>) -> u32 {
    match word {
        Some(text) => text.as_str().parse::<u32>().unwrap_or(0),
        None => 0,
    }
}

fn close_once(alloc: Global, instance: &Instance) -> Result<bool, AllocError> {
    let mut domains = Domains::full(alloc, instance)?;
    let mut trail = Trail::make(alloc, instance)?;
    Ok(close(instance, &mut domains, &mut trail) == Closed::Stable)
}

fn main(rt: HostRuntime) -> Result<()> {
    let alloc = rt.alloc();
    let mut words = env::args(&rt)?;
    let _name = words.next();
    let mesh = number(words.next());
    let packages = number(words.next());
    let states = number(words.next());
    let times = number(words.next());
    if states == 0 {
        return Ok(());
    }
    if mesh == 2 {
        let closed = match general(alloc, packages, states) {
            Ok(instance) => close_once(alloc, &instance)?,
            Err(_) => false,
        };
        println!(rt; "{closed}")?;
        return Ok(());
    }
    let pairs = match mesh {
        1 => mesh_pairs(alloc, packages)?,
        3 => falling_pairs(alloc, packages)?,
        _ => net_pairs(alloc, packages, states)?,
    };
    let instance = match world(alloc, packages, states, 0, pairs.as_slice()) {
        Ok(instance) => instance,
        Err(fault) => {
            println!(rt; "{fault:?}")?;
            return Ok(());
        }
    };
    if mesh == 1 || mesh == 3 {
        println!(rt; "finished")?;
        return Ok(());
    }
    let mut domains = Domains::full(alloc, &instance)?;
    let mut trail = Trail::make(alloc, &instance)?;
    let taken = rounds(&instance, &mut domains, &mut trail, times);
    println!(rt; "{taken}")?;
    Ok(())
}
"""

DRIVE = r"""//! Closing the domains after one choice at a time.
ghost use Rattle.version_graph.specs.Noted.{Holds};

use graph_pruning::{close, undo_to};
use version_graph::{Domains, Instance, Trail};

/// Closes after each choice of one state, and undoes it; how many states were taken out in all.
pub fn rounds(instance: &Instance, domains: &mut Domains, trail: &mut Trail, times: u32) -> u64
    requires { Holds instance.now domains.old trail.old }
{
    let _closed = close(instance, domains, trail);
    let mut taken: u64 = 0;
    for round in 0..times {
        for p in 0..instance.packages() {
            let more = choose(instance, domains, trail, p, round % 9);
            taken = taken.saturating_add(u64::from(more));
        }
    }
    taken
}

fn choose(instance: &Instance, domains: &mut Domains, trail: &mut Trail, p: u32, i: u32) -> u32
    requires { Holds instance.now domains.old trail.old }
    ensures { Holds instance.now domains.new trail.new }
{
    let mark = trail.mark();
    if p >= instance.packages() || i >= instance.states(p) || !domains.has(p, i) {
        return 0;
    }
    domains.narrow(p, i, trail);
    let _closed = close(instance, domains, trail);
    let taken = trail.mark().saturating_sub(mark);
    undo_to(domains, trail, mark);
    taken
}
"""
ROUNDS = """use Rattle.version_graph.specs.Noted.{Holds}
use Rattle.closure_bench.proofs.drive.rounds.Given as goal

abbrev pub invariant-loop-round : goal.invariant-loop-round
invariant-loop-round l = Holds l.instance l.domains l.trail

abbrev pub invariant-loop-p : goal.invariant-loop-p
invariant-loop-p l = Holds l.instance l.domains l.trail
"""

FILES = {
    "src/main.rt": MAIN,
    "src/drive.rt": DRIVE,
    "proofs/drive/rounds/Invariants.antt": ROUNDS,
    **nets("closure_bench"),
}


# Prints the path of the program that the bench/closure.py of a folder builds. The first revisions built it by themselves, the later ones by `built`.
OF_FOLDER = """
import sys
sys.path.insert(0, sys.argv[1] + "/bench")
import closure
if hasattr(closure, "build"):
    print(closure.build(sys.argv[2]))
else:
    print(closure.built(sys.argv[2], "closure_bench", ["graph_pruning", "version_graph", "anyhow"], closure.FILES))
"""


def build(top):
    """The path of the program, once it is built in the folder `top`."""
    return built(top, "closure_bench", ["graph_pruning", "version_graph", "anyhow"], FILES)


def of_revision(top, revision):
    """The path of the program of a revision, once it is built below the folder `top`."""
    tree, made = os.path.join(top, revision, "tree"), os.path.join(top, revision, "made")
    os.makedirs(tree)
    packed = subprocess.run(["git", "archive", revision], cwd=TOP, capture_output=True, check=True).stdout
    subprocess.run(["tar", "-x", "-C", tree], input=packed, check=True)
    os.makedirs(made)
    ended = subprocess.run([sys.executable, "-c", OF_FOLDER, tree, made], capture_output=True, text=True)
    if ended.returncode:
        sys.exit(ended.stdout + ended.stderr)
    return ended.stdout.split()[-1]


def in_turns(programs, packages, states, times):
    """Prints what a closure takes by each of the programs: the quickest of three runs in turns, and its instructions."""
    least = {}
    for _ in range(3):
        for name, program in programs.items():
            for count in (0, times):
                run = timed(program, 0, packages, states, count)
                least[name, count] = min(run, least.get((name, count), run))
    closures = packages * times
    for name, program in programs.items():
        without, (seconds, memory, taken) = least[name, 0][0], least[name, times]
        counted = instructions(program, 0, packages, states, times) - instructions(program, 0, packages, states, 0)
        print(
            f"{name}: {packages} packages of {states} states: {closures / (seconds - without):.0f} closures and undos a second, "
            f"{counted / closures:.0f} instructions each, {int(taken) / closures:.1f} states taken out each, "
            f"made and closed first in {without:.3f} seconds, {memory} KiB at most"
        )


def alone(program):
    """Prints what the closures and the limits take by the program."""
    for packages, states, times in [(300, 9, 900), (3000, 9, 90), (300, 64, 270)]:
        without, _, _ = quickest(program, 0, packages, states, 0)
        seconds, memory, taken = quickest(program, 0, packages, states, times)
        closures = packages * times
        each = (seconds - without) / closures
        print(
            f"{packages} packages of {states} states: {closures} closures and undos, {1 / each:.0f} a second, "
            f"{each * 1e6:.1f} microseconds each, {int(taken) / closures:.1f} states taken out each, "
            f"made and closed first in {without:.2f} seconds, {memory} KiB at most"
        )
    for packages, states in [(1024, 40), (1024, 32), (4096, 2), (2, 32768)]:
        seconds, memory, printed = timed(program, 1, packages, states, 0)
        print(f"{packages} packages of {states} states: {printed} in {seconds:.2f} seconds, {memory} KiB at most")
    for packages, states in [(2048, 2), (4096, 2)]:
        seconds, memory, printed = timed(program, 3, packages, states, 0)
        print(f"{packages} packages of {states} states, neighbours falling: {printed} in {seconds:.2f} seconds, {memory} KiB at most")
    seconds, memory, printed = timed(program, 2, 500, 45, 0)
    print(f"500 packages of 45 states: closed {printed} in {seconds:.2f} seconds, {memory} KiB at most")


def main(words):
    top = tempfile.mkdtemp(prefix="closure-bench-")
    try:
        program = build(os.path.join(top, "now"))
        if words[:1] == ["--beside"]:
            programs = {it: of_revision(top, it) for it in words[1:]}
            programs["now"] = program
            for packages, states, times in [(300, 9, 900), (300, 64, 90)]:
                in_turns(programs, packages, states, times)
        else:
            alone(program)
    finally:
        shutil.rmtree(top)


if __name__ == "__main__":
    main(sys.argv[1:])
