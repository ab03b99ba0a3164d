#!/usr/bin/env python3
"""Times the finishing of solutions: packages are raised one after another.

Makes a program in a temporary folder that stands on copies of this repository's crates, builds it with `rt`,
runs it, and prints one line for each measurement. Needs `rt` on the path and `/usr/bin/time`. Usage: bench/raise.py
"""
import shutil
import tempfile

from built import built, quickest

MAIN = r"""//! Makes an instance, and finishes its lowest states so many times.
#![tactic(auto)]

mod drive;
mod worlds;

use anyhow::Result;
use drive::finished;
use std::env;
use worlds::world;

fn number(word: Option<String>) -> u32 {
    match word {
        Some(text) => text.as_str().parse::<u32>().unwrap_or(0),
        None => 0,
    }
}

fn main(rt: HostRuntime) -> Result<()> {
    let alloc = rt.alloc();
    let mut words = env::args(&rt)?;
    let _name = words.next();
    let kind = number(words.next());
    let packages = number(words.next());
    let states = number(words.next());
    let times = number(words.next());
    if states == 0 {
        return Ok(());
    }
    let total = match world(alloc, kind, packages, states) {
        Ok(instance) => finished(alloc, &instance, times)?,
        Err(_) => None,
    };
    match total {
        Some(total) => println!(rt; "{total}")?,
        None => println!(rt; "no solution")?,
    }
    Ok(())
}
"""

WORLDS = r"""//! Instances whose lowest states are a solution.
ghost use Rattle.std.specs.Prelude.{◌≡◌, ◌<◌, ◌↔◌, IsTrue, length, slice_index};

use std::alloc::Global;
use version_graph::{GraphFault, Instance, InstanceBuilder};

/// Packages of so many states each, the last of them the absent one. 0: all are roots, and no pair is forbidden.
/// 1: the first is the root, and each needs the next. 2: the first half are roots, whose lowest states need one of
/// the others each. 3: all are roots, and a package is at most one state away from the next and from that half way round.
pub fn world(alloc: Global, kind: u32, packages: u32, states: u32) -> Result<Instance, GraphFault>
    requires { 0 < states }
{
    let sizes = vec![in alloc; states; packages as usize]?;
    let mut builder = InstanceBuilder::make(alloc, sizes.as_slice())?;
    for p in 0..packages {
        forbid_absent(&mut builder, sizes.as_slice(), p, states, is_root(kind, p, packages));
        forbid_block(&mut builder, sizes.as_slice(), p, partner(kind, p, packages), (kind, states))?;
        forbid_block(&mut builder, sizes.as_slice(), p, other_partner(kind, p, packages), (kind, states))?;
    }
    builder.finish(alloc)
}

fn is_root(kind: u32, p: u32, packages: u32) -> bool {
    match kind {
        1 => p == 0,
        2 => p < packages / 2,
        _ => true,
    }
}

fn partner(kind: u32, p: u32, packages: u32) -> u32 {
    match kind {
        1 | 3 => p.wrapping_add(1),
        2 => p.wrapping_add(packages / 2),
        _ => p,
    }
}

fn other_partner(kind: u32, p: u32, packages: u32) -> u32 {
    match kind {
        3 => p.wrapping_add(packages / 2),
        _ => p,
    }
}

fn is_refused(kind: u32, i: u32, j: u32, absent: u32) -> bool {
    match kind {
        1 => i != absent && j == absent,
        2 => i == 0 && j == absent,
        _ => i != absent && j != absent && (i > j.wrapping_add(1) || j > i.wrapping_add(1)),
    }
}

fn forbid_absent(builder: &mut InstanceBuilder, sizes: &[u32], p: u32, states: u32, wanted: bool)
    requires sizes { builder.old.sizes ≡ sizes.now }
    requires some { 0 < states }
    ensures { builder.new.sizes ≡ sizes.now }
{
    if wanted && has_state(sizes, p, states - 1) {
        builder.forbid_state(p, states - 1);
    }
}

fn forbid_block(
    builder: &mut InstanceBuilder,
    sizes: &[u32],
    p: u32,
    q: u32,
    kind_states: (u32, u32),
) -> Result<(), GraphFault>
    requires { builder.old.sizes ≡ sizes.now }
    ensures { builder.new.sizes ≡ sizes.now }
{
    let (kind, states) = kind_states;
    for i in 0..states {
        for j in 0..states {
            if is_refused(kind, i, j, states.wrapping_sub(1))
                && p != q
                && has_state(sizes, p, i)
                && has_state(sizes, q, j)
            {
                builder.forbid_pair(p, i, q, j)?;
            }
        }
    }
    Ok(())
}

fn has_state(sizes: &[u32], p: u32, i: u32) -> bool
    ensures { IsTrue result ↔ ((p < length sizes.now) × (i < slice_index sizes.now p)) }
{
    (p as usize) < sizes.len() && i < sizes[p as usize]
}
"""

DRIVE = r"""//! Finishing the lowest states of an instance.
ghost use Rattle.std.specs.Prelude.{◌≡◌, ◌≢◌, ◌<◌, ℕ, true, false, IsTrue, length, slice_index};
ghost use Rattle.version_graph.specs.Graph.{packages, states, last, is_offered, is_forbidden, IsPlain, IsSolution};

use pkg_world::States;
use raise_pass::{RaiseScratch, raise};
use std::alloc::{AllocError, Global};
use version_graph::Instance;

/// The sum of the states once the lowest ones are finished, which is done so many times.
pub fn finished(alloc: Global, instance: &Instance, times: u32) -> Result<Option<u64>, AllocError> {
    let lowest = States::of_vec(vec![in alloc; 0u32; instance.packages() as usize]?);
    if !is_plain(instance) || !is_solution(instance, lowest.items()) {
        return Ok(None);
    }
    let total = finish(alloc, instance, &lowest, times)?;
    Ok(Some(total))
}

fn finish(alloc: Global, instance: &Instance, lowest: &States, times: u32) -> Result<u64, AllocError>
    requires plain { IsPlain instance.now }
    requires solution { IsSolution instance.now lowest.now.items }
{
    let roots = instance.roots(alloc)?;
    let needs = instance.needs(alloc)?;
    let mut scratch = RaiseScratch::make(alloc, instance)?;
    let mut total: u64 = 0;
    'rounds: for _ in 0..times {
        let mut states = lowest.copy(alloc)?;
        raise(instance, roots.items(), &needs, &mut states, &mut scratch);
        total = sum_of(states.items());
    }
    Ok(total)
}

fn sum_of(states: &[u32]) -> u64 {
    let mut sum: u64 = 0;
    for state in states {
        sum = sum.saturating_add(u64::from(*state));
    }
    sum
}

fn is_solution(instance: &Instance, chosen: &[u32]) -> bool
    ensures { IsTrue result → IsSolution instance.now chosen.now }
{
    if chosen.len() != instance.packages() as usize {
        return false;
    }
    all_offered(instance, chosen) && all_allowed(instance, chosen)
}

fn is_offered(instance: &Instance, p: u32, i: u32) -> bool
    requires { p < packages instance.now }
    ensures known { IsTrue result → i < states instance.now p }
    ensures offered { IsTrue result → is_offered instance.now p i ≡ true }
{
    i < instance.states(p) && instance.is_offered(p, i)
}

fn are_allowed(instance: &Instance, p: u32, i: u32, q: u32, j: u32) -> bool
    requires first { p < packages instance.now }
    requires second { q < packages instance.now }
    ensures { IsTrue result → p ≢ q → is_forbidden instance.now p i q j ≡ false }
{
    if p == q {
        return true;
    }
    i < instance.states(p) && j < instance.states(q) && instance.allowed(p, i, q, j)
}

fn all_offered(instance: &Instance, chosen: &[u32]) -> bool
    requires { length chosen.now ≡ packages instance.now }
    ensures { IsTrue result → (p : ℕ) → p < packages instance.now → is_offered instance.now p (slice_index chosen.now p) ≡ true }
{
    for p in 0..instance.packages() {
        if !is_offered(instance, p, chosen[p as usize]) {
            return false;
        }
    }
    true
}

fn all_allowed(instance: &Instance, chosen: &[u32]) -> bool
    requires { length chosen.now ≡ packages instance.now }
    ensures { IsTrue result → (p q : ℕ) → p < packages instance.now → q < packages instance.now → p ≢ q → is_forbidden instance.now p (slice_index chosen.now p) q (slice_index chosen.now q) ≡ false }
{
    for p in 0..instance.packages() {
        for q in 0..instance.packages() {
            if !are_allowed(instance, p, chosen[p as usize], q, chosen[q as usize]) {
                return false;
            }
        }
    }
    true
}

fn is_plain(instance: &Instance) -> bool
    ensures { IsTrue result → IsPlain instance.now }
{
    for p in 0..instance.packages() {
        for q in 0..instance.packages() {
            if !are_allowed(instance, p, instance.states(p) - 1, q, instance.states(q) - 1) {
                return false;
            }
        }
    }
    true
}
"""

WORLD = """use Rattle.std.proofs.Common.{◌≡◌}
use Rattle.raise_bench.proofs.worlds.world.Given as goal

abbrev pub invariant-loop-p : goal.invariant-loop-p
invariant-loop-p l = l.builder.sizes ≡ l.sizes.items
"""

BLOCK = """use Rattle.std.proofs.Common.{◌≡◌}
use Rattle.raise_bench.proofs.worlds.forbid_block.Given as goal

abbrev pub invariant-loop-i : goal.invariant-loop-i
invariant-loop-i l = l.builder.sizes ≡ l.sizes

abbrev pub invariant-loop-j : goal.invariant-loop-j
invariant-loop-j l = l.builder.sizes ≡ l.sizes
"""

FINISH = """use Rattle.raise_pass.specs.Scratch.{IsScratchFor}
use Rattle.raise_bench.proofs.drive.finish.Given as goal

abbrev pub invariant-rounds : goal.invariant-rounds
invariant-rounds l = IsScratchFor l.instance l.scratch
"""

OFFERED = """use Rattle.std.proofs.Common.{◌≡◌, ◌<◌, ℕ, true, slice_index}
use Rattle.version_graph.specs.Graph.{is_offered}
use Rattle.raise_bench.proofs.drive.all_offered.Given as goal

abbrev pub invariant-loop-p : goal.invariant-loop-p
invariant-loop-p l = (a : ℕ) → a < l.p → is_offered l.instance a (slice_index l.chosen a) ≡ true
"""

ALLOWED = """use Rattle.std.proofs.Common.{◌≡◌, ◌≢◌, ◌<◌, ℕ, false, slice_index}
use Rattle.version_graph.specs.Graph.{packages, is_forbidden}
use Rattle.raise_bench.proofs.drive.all_allowed.Given as goal

abbrev pub invariant-loop-p : goal.invariant-loop-p
invariant-loop-p l =
    (a b : ℕ) → a < l.p → b < packages l.instance → a ≢ b → is_forbidden l.instance a (slice_index l.chosen a) b (slice_index l.chosen b) ≡ false

abbrev pub invariant-loop-q : goal.invariant-loop-q
invariant-loop-q l =
    (b : ℕ) → b < l.q → l.p ≢ b → is_forbidden l.instance l.p (slice_index l.chosen l.p) b (slice_index l.chosen b) ≡ false
"""

PLAIN = """use Rattle.std.proofs.Common.{◌≡◌, ◌≢◌, ◌<◌, ℕ, false}
use Rattle.version_graph.specs.Graph.{packages, last, is_forbidden}
use Rattle.raise_bench.proofs.drive.is_plain.Given as goal

abbrev pub invariant-loop-p : goal.invariant-loop-p
invariant-loop-p l =
    (a b : ℕ) → a < l.p → b < packages l.instance → a ≢ b → is_forbidden l.instance a (last l.instance a) b (last l.instance b) ≡ false

abbrev pub invariant-loop-q : goal.invariant-loop-q
invariant-loop-q l =
    (b : ℕ) → b < l.q → l.p ≢ b → is_forbidden l.instance l.p (last l.instance l.p) b (last l.instance b) ≡ false
"""

FILES = {
    "src/main.rt": MAIN,
    "src/worlds.rt": WORLDS,
    "src/drive.rt": DRIVE,
    "proofs/worlds/world/Invariants.antt": WORLD,
    "proofs/worlds/forbid_block/Invariants.antt": BLOCK,
    "proofs/drive/finish/Invariants.antt": FINISH,
    "proofs/drive/all_offered/Invariants.antt": OFFERED,
    "proofs/drive/all_allowed/Invariants.antt": ALLOWED,
    "proofs/drive/is_plain/Invariants.antt": PLAIN,
}

# what the instance is like, its kind, packages, states, and how many times it is finished
WORLDS_TIMED = [
    ("roots, nothing else is forbidden", 0, 4096, 3, 500),
    ("a chain of needs", 1, 4096, 3, 500),
    ("roots whose newest states need one package less each", 2, 4096, 3, 20),
    ("roots in a net, each at most one state away from its neighbours", 3, 4096, 9, 20),
]


def main():
    top = tempfile.mkdtemp(prefix="raise-bench-")
    try:
        program = built(top, "raise_bench", ["raise_pass", "version_graph", "pkg_world", "anyhow"], FILES)
        for name, kind, packages, states, times in WORLDS_TIMED:
            without, _, _ = quickest(program, kind, packages, states, 0)
            seconds, memory, total = quickest(program, kind, packages, states, times)
            print(
                f"{packages} packages of {states} states, {name}: finished in {(seconds - without) / times:.4f} seconds "
                f"with states of {total} together, {memory} KiB at most"
            )
    finally:
        shutil.rmtree(top)


if __name__ == "__main__":
    main()
