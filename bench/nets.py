"""Instances for benchmarks: a source file that makes them, its proofs, and the pairs of drawn ones."""

NETS = r"""//! Instances: packages that are all neighbours, nets, and one like that of the General registry.
ghost use Rattle.std.specs.Prelude.{◌≡◌, ◌<◌, ◌↔◌, IsTrue, length, slice_index};

use std::alloc::{AllocError, Global};
use version_graph::{GraphFault, Instance, InstanceBuilder};

type Pairs = Vec<(u32, u32, u32, u32)>;

/// The first states of each two packages.
pub fn mesh_pairs(alloc: Global, packages: u32) -> Result<Pairs, AllocError> {
    let mut pairs = Vec::new(alloc);
    for q in 0..packages {
        for p in 0..q {
            pairs.push((p, 0, q, 0))?;
        }
    }
    Ok(pairs)
}

/// The first states of each two packages, the greatest packages first, so that each package's neighbours come falling.
pub fn falling_pairs(alloc: Global, packages: u32) -> Result<Pairs, AllocError> {
    let mut pairs = Vec::new(alloc);
    for q in (0..packages).rev() {
        for p in (0..q).rev() {
            pairs.push((p, 0, q, 0))?;
        }
    }
    Ok(pairs)
}

/// Each package with the next one and with that half way round; a third of the states of each two.
pub fn net_pairs(alloc: Global, packages: u32, states: u32) -> Result<Pairs, AllocError> {
    let mut pairs = Vec::new(alloc);
    for p in 0..packages {
        let next = p.wrapping_add(1) % packages;
        push_thirds(&mut pairs, p, next, states)?;
        let across = p.wrapping_add(packages / 2) % packages;
        if p < across {
            push_thirds(&mut pairs, p, across, states)?;
        }
    }
    Ok(pairs)
}

fn push_thirds(pairs: &mut Pairs, p: u32, q: u32, states: u32) -> Result<(), AllocError> {
    for i in 0..states {
        for j in 0..states {
            if i.wrapping_add(j).wrapping_add(p) % 3 == 0 {
                pairs.push((p, i, q, j))?;
            }
        }
    }
    Ok(())
}

/// Packages of so many states each, each with those 1, 7 and 31 further on, and the first six tenths with the one
/// 101 further on; somewhat more than half of the pairs of each two are forbidden.
pub fn general(alloc: Global, packages: u32, states: u32) -> Result<Instance, GraphFault>
    requires { 0 < states }
{
    let sizes = vec![in alloc; states; packages as usize]?;
    let mut builder = InstanceBuilder::make(alloc, sizes.as_slice())?;
    for p in 0..packages {
        forbid_block(&mut builder, sizes.as_slice(), p, p.wrapping_add(1) % packages, states)?;
        forbid_block(&mut builder, sizes.as_slice(), p, p.wrapping_add(7) % packages, states)?;
        forbid_block(&mut builder, sizes.as_slice(), p, p.wrapping_add(31) % packages, states)?;
        if p % 10 < 6 {
            forbid_block(&mut builder, sizes.as_slice(), p, p.wrapping_add(101) % packages, states)?;
        }
    }
    builder.finish(alloc)
}

fn forbid_block(
    builder: &mut InstanceBuilder,
    sizes: &[u32],
    p: u32,
    q: u32,
    states: u32,
) -> Result<(), GraphFault>
    requires { builder.old.sizes ≡ sizes.now }
    ensures { builder.new.sizes ≡ sizes.now }
{
    for i in 0..states {
        for j in 0..states {
            if i.wrapping_add(j).wrapping_add(p) % 20 < 11
                && p != q
                && has_state(sizes, p, i)
                && has_state(sizes, q, j)
            {
                builder.forbid_pair(p, i, q, j)?;
            }
        }
    }
    Ok(())
}

/// Packages that may not have the same state, all of them roots with so many states each, and after them so many free
/// ones, which have two states and of which nothing is forbidden.
pub fn pigeons(alloc: Global, packages: u32, states: u32, free: u32) -> Result<Instance, GraphFault>
    requires { 0 < states }
{
    let all = packages.saturating_add(free);
    let sizes = vec![in alloc; states; all as usize]?;
    let mut builder = InstanceBuilder::make(alloc, sizes.as_slice())?;
    for p in 0..all {
        let first = if p < packages { states - 1 } else { 2 };
        forbid_from(&mut builder, sizes.as_slice(), p, first, states);
    }
    for p in 0..packages {
        for q in 0..p {
            forbid_same(&mut builder, sizes.as_slice(), p, q, states - 1)?;
        }
    }
    builder.finish(alloc)
}

/// Forbids the states of p from one on.
fn forbid_from(builder: &mut InstanceBuilder, sizes: &[u32], p: u32, first: u32, states: u32)
    requires { builder.old.sizes ≡ sizes.now }
    ensures { builder.new.sizes ≡ sizes.now }
{
    for i in first..states {
        if has_state(sizes, p, i) {
            builder.forbid_state(p, i);
        }
    }
}

/// Forbids that p and q have the same offer.
fn forbid_same(
    builder: &mut InstanceBuilder,
    sizes: &[u32],
    p: u32,
    q: u32,
    offers: u32,
) -> Result<(), GraphFault>
    requires { builder.old.sizes ≡ sizes.now }
    ensures { builder.new.sizes ≡ sizes.now }
{
    for i in 0..offers {
        if p != q && has_state(sizes, p, i) && has_state(sizes, q, i) {
            builder.forbid_pair(p, i, q, i)?;
        }
    }
    Ok(())
}

/// The pair that a code stands for.
pub fn pair_of(code: u32, packages: u32, states: u32) -> (u32, u32, u32, u32)
    requires { 0 < states }
{
    let first = code / states / packages.max(1);
    let second = code / states % packages.max(1);
    (first / states, first % states, second, code % states)
}

/// Packages of so many states each, with the last state of the first so many and these pairs forbidden.
pub fn world(
    alloc: Global,
    packages: u32,
    states: u32,
    roots: u32,
    pairs: &[(u32, u32, u32, u32)],
) -> Result<Instance, GraphFault>
    requires { 0 < states }
{
    let sizes = vec![in alloc; states; packages as usize]?;
    let mut builder = InstanceBuilder::make(alloc, sizes.as_slice())?;
    for p in 0..roots {
        if has_state(sizes.as_slice(), p, states - 1) {
            builder.forbid_state(p, states - 1);
        }
    }
    for &(p, i, q, j) in pairs {
        if p != q && has_state(sizes.as_slice(), p, i) && has_state(sizes.as_slice(), q, j) {
            builder.forbid_pair(p, i, q, j)?;
        }
    }
    builder.finish(alloc)
}

fn has_state(sizes: &[u32], p: u32, i: u32) -> bool
    ensures { IsTrue result ↔ ((p < length sizes.now) × (i < slice_index sizes.now p)) }
{
    (p as usize) < sizes.len() && i < sizes[p as usize]
}
"""

PROOFS = {
    "world": """use Rattle.std.proofs.Common.{◌≡◌}
use Rattle.NAME.proofs.nets.world.Given as goal

abbrev pub invariant-loop-p : goal.invariant-loop-p
invariant-loop-p l = l.builder.sizes ≡ l.sizes.items

abbrev pub invariant-loop-p-2 : goal.invariant-loop-p-2
invariant-loop-p-2 l = l.builder.sizes ≡ l.sizes.items
""",
    "general": """use Rattle.std.proofs.Common.{◌≡◌}
use Rattle.NAME.proofs.nets.general.Given as goal

abbrev pub invariant-loop-p : goal.invariant-loop-p
invariant-loop-p l = l.builder.sizes ≡ l.sizes.items
""",
    "pigeons": """use Rattle.std.proofs.Common.{◌≡◌}
use Rattle.NAME.proofs.nets.pigeons.Given as goal

abbrev pub invariant-loop-p : goal.invariant-loop-p
invariant-loop-p l = l.builder.sizes ≡ l.sizes.items

abbrev pub invariant-loop-p-2 : goal.invariant-loop-p-2
invariant-loop-p-2 l = l.builder.sizes ≡ l.sizes.items

abbrev pub invariant-loop-q : goal.invariant-loop-q
invariant-loop-q l = l.builder.sizes ≡ l.sizes.items
""",
    "forbid_from": """use Rattle.std.proofs.Common.{◌≡◌}
use Rattle.NAME.proofs.nets.forbid_from.Given as goal

abbrev pub invariant-loop-i : goal.invariant-loop-i
invariant-loop-i l = l.builder.sizes ≡ l.sizes
""",
    "forbid_same": """use Rattle.std.proofs.Common.{◌≡◌}
use Rattle.NAME.proofs.nets.forbid_same.Given as goal

abbrev pub invariant-loop-i : goal.invariant-loop-i
invariant-loop-i l = l.builder.sizes ≡ l.sizes
""",
    "forbid_block": """use Rattle.std.proofs.Common.{◌≡◌}
use Rattle.NAME.proofs.nets.forbid_block.Given as goal

abbrev pub invariant-loop-i : goal.invariant-loop-i
invariant-loop-i l = l.builder.sizes ≡ l.sizes

abbrev pub invariant-loop-j : goal.invariant-loop-j
invariant-loop-j l = l.builder.sizes ≡ l.sizes
""",
}


def nets(name):
    """The files of a crate of this name that make the instances."""
    proofs = {f"proofs/nets/{call}/Invariants.antt": text.replace("NAME", name) for call, text in PROOFS.items()}
    return {"src/nets.rt": NETS, **proofs}


def generated(number):
    """The codes of the forbidden pairs of 300 packages of nine states, as the generator of worlds draws them."""
    state = number

    def draw(count):
        nonlocal state
        state = (state * 6364136223846793005 + 1442695040888963407) % 2**64
        return (state >> 33) % count

    middle = [draw(8) for _ in range(300)]
    needed = []
    for k in range(300):
        drawn = [k + 1 + draw(20) for _ in range(draw(4))]
        needed.append(list(dict.fromkeys(d for d in drawn if d < 300)))
    pairs = []
    for k, d in ((k, d) for k in range(300) for d in needed[k]):
        for i in range(8):
            low = draw(middle[d] + 1)
            high = middle[d] + draw(8 - middle[d])
            pairs += [(k, i, d, j) for j in range(9) if not low <= j <= high]
    return [((p * 9 + i) * 300 + q) * 9 + j for p, i, q, j in pairs]
