#!/usr/bin/env python3
"""Times rounds of messages beside one read of each pair's bit a round.

Makes a program in a temporary folder that stands on copies of this repository's crates, builds it with `rt`,
runs it, and prints one line for each measurement. Needs `rt` and `valgrind` on the path and `/usr/bin/time`. Usage: bench/messages.py
"""
import shutil
import tempfile

from built import built, instructions, quickest
from nets import generated, nets
from weighing import weighing

MAIN = r"""//! Makes an instance, closes its domains, and sends messages for some rounds or reads each pair's bit as often.
#![tactic(auto)]

mod nets;
mod reading;
mod talking;
mod weighing;

use anyhow::Result;
use nets::{general, pair_of, world};
use reading::read_all;
use std::env;
use talking::talk;

fn number(word: Option<String>) -> u32 {
    match word {
        Some(text) => text.as_str().parse::<u32>().unwrap_or(0),
        None => 0,
    }
}

fn main(rt: HostRuntime) -> Result<()> {
    let alloc = rt.alloc();
    let mut words = env::args(&rt)?;
    let _name = words.next();
    let rounds = number(words.next());
    let reads = number(words.next());
    let packages = number(words.next());
    let states = number(words.next());
    let roots = number(words.next());
    if states == 0 {
        return Ok(());
    }
    let mut pairs = Vec::new(alloc);
    for word in words {
        pairs.push(pair_of(number(Some(word)), packages, states))?;
    }
    let made = if pairs.is_empty() {
        general(alloc, packages, states)
    } else {
        world(alloc, packages, states, roots, pairs.as_slice())
    };
    let instance = match made {
        Ok(instance) => instance,
        Err(fault) => {
            println!(rt; "{fault:?}")?;
            return Ok(());
        }
    };
    let chosen = talk(alloc, &instance, roots, rounds)?;
    let allowed = read_all(&instance, reads);
    println!(rt; "{chosen:?} {allowed}")?;
    Ok(())
}
"""

READING = r"""//! Reading whether each pair of states is allowed.
ghost use Rattle.std.specs.Prelude.{◌≢◌, ◌<◌};
ghost use Rattle.version_graph.specs.Graph.{packages};

use version_graph::Instance;

/// How many pairs are allowed, read so many times.
pub fn read_all(instance: &Instance, times: u32) -> u64 {
    let mut allowed: u64 = 0;
    for _time in 0..times {
        for p in 0..instance.packages() {
            allowed = allowed.saturating_add(read_from(instance, p));
        }
    }
    allowed
}

fn read_from(instance: &Instance, p: u32) -> u64
    requires { p < packages instance.now }
{
    let mut allowed: u64 = 0;
    let neighbours = instance.neighbours(p);
    for k in 0..neighbours.len() {
        if p < neighbours[k] {
            allowed = allowed.saturating_add(read_pair(instance, p, neighbours[k]));
        }
    }
    allowed
}

fn read_pair(instance: &Instance, p: u32, q: u32) -> u64
    requires first { p < packages instance.now }
    requires second { q < packages instance.now }
    requires apart { p ≢ q }
{
    let mut allowed: u64 = 0;
    for i in 0..instance.states(p) {
        for j in 0..instance.states(q) {
            if instance.allowed(p, i, q, j) {
                allowed = allowed.saturating_add(1);
            }
        }
    }
    allowed
}
"""

TALKING = r"""//! Messages over an instance whose domains are closed.
ghost use Rattle.std.specs.Prelude.{IsTrue, IfOk, IfSome};
ghost use Rattle.version_graph.specs.Domain.{has, IsFor};
ghost use Rattle.version_graph.specs.Noted.{Holds, IsSettled};
ghost use Rattle.maxsum_messages.specs.Field.{AreFieldsFor};
ghost use Rattle.maxsum_messages.specs.Post.{IsPostFor};

use crate::weighing::fields_of;
use graph_pruning::{Closed, close};
use lex_weights::Lex3;
use maxsum_messages::{Fields, Messages, Order, closure_is_stable};
use std::alloc::{AllocError, Global};
use version_graph::{Domains, Instance, Trail};

fn is_closed(instance: &Instance, domains: &mut Domains, trail: &mut Trail) -> bool
    requires { Holds instance.now domains.old trail.old }
    ensures made { IsFor instance.now domains.new }
    ensures settled { IsTrue result → IsSettled instance.now (has domains.new) }
{
    closure_is_stable();
    match close(instance, domains, trail) {
        Closed::Stable => true,
        Closed::Empty(_) => false,
    }
}

fn closed(alloc: Global, instance: &Instance) -> Result<Option<Domains>, AllocError>
    ensures made { IfOk result (λ found. IfSome found (λ domains. IsFor instance.now domains)) }
    ensures settled { IfOk result (λ found. IfSome found (λ domains. IsSettled instance.now (has domains))) }
{
    let mut domains = Domains::full(alloc, instance)?;
    let mut trail = Trail::make(alloc, instance)?;
    if !is_closed(instance, &mut domains, &mut trail) {
        return Ok(None);
    }
    Ok(Some(domains))
}

fn said(
    alloc: Global,
    instance: &Instance,
    fields: &Fields<Lex3>,
    domains: &Domains,
    rounds: u32,
) -> Result<Messages<Lex3>, AllocError>
    requires fields { AreFieldsFor instance.now fields.now }
    requires made { IsFor instance.now domains.now }
    requires settled { IsSettled instance.now (has domains.now) }
    ensures { IfOk result (λ messages. IsPostFor instance.now messages) }
{
    let mut messages = Messages::make(alloc, instance)?;
    'rounds: for _ in 0..rounds {
        messages.round(instance, fields, domains);
    }
    Ok(messages)
}

fn choice(
    alloc: Global,
    instance: &Instance,
    fields: &Fields<Lex3>,
    domains: &Domains,
    messages: &Messages<Lex3>,
) -> Result<Option<u32>, AllocError>
    requires fields { AreFieldsFor instance.now fields.now }
    requires made { IsFor instance.now domains.now }
    requires messages { IsPostFor instance.now messages.now }
{
    let mut order = Order::make(alloc, instance)?;
    let chosen = messages.choose(fields, domains, &mut order);
    Ok(chosen)
}

/// The package that is chosen after so many rounds, the first so many packages being roots.
pub fn talk(
    alloc: Global,
    instance: &Instance,
    roots: u32,
    rounds: u32,
) -> Result<Option<u32>, AllocError> {
    let fields = fields_of(alloc, instance, 0, roots)?;
    match closed(alloc, instance)? {
        Some(domains) => {
            let messages = said(alloc, instance, &fields, &domains, rounds)?;
            choice(alloc, instance, &fields, &domains, &messages)
        }
        None => Ok(None),
    }
}
"""

PROOFS = {
    "is_closed/Answers.antt": """use Rattle.version_graph.specs.Domain.{has}
use Rattle.messages_bench.proofs.talking.is_closed.Goals as goal

pub returns-in-Stable-clause-settled : goal.returns-in-Stable-clause-settled
returns-in-Stable-clause-settled c =
    let answer = c.in-Stable.ensures.answer in
    λ _. record {
      stable = c.closure_is_stable.ensures c.args.instance.now (has c.args.domains.now) (has c.close.new.domains) answer.closure;
      filled = answer.filled;
    }
""",
    "said/Invariants.antt": """use Rattle.maxsum_messages.specs.Post.{IsPostFor}
use Rattle.messages_bench.proofs.talking.said.Given as goal

abbrev pub invariant-rounds : goal.invariant-rounds
invariant-rounds l = IsPostFor l.instance l.messages
""",
    "choice/Answers.antt": """use Rattle.std.proofs.Common.{ℕ, List, ap, sym, subst, arith, length, get_or}
use Rattle.maxsum_messages.specs.Kept.{AreAligned}
use Rattle.messages_bench.proofs.talking.choice.Goals as goal

pub choose-chosen-requires-clause-aligned : goal.choose-chosen-requires-clause-aligned
choose-chosen-requires-clause-aligned c =
    subst (λ (xs : List ℕ). AreAligned xs c.args.fields.now c.args.domains.now) (sym c.requires.messages.sizes)
    (record {
      fields = c.requires.fields.each;
      field_places = c.requires.fields.wide;
      domains = c.requires.made.each;
      domain_places = c.requires.made.wide;
    })

pub choose-chosen-requires-clause-room : goal.choose-chosen-requires-clause-room
choose-chosen-requires-clause-room c p h =
    omega (arith, c.in_ok-order.ensures.room.room p (omega (arith, h, ap length c.requires.messages.sizes)), ap (λ (xs : List ℕ). get_or xs p 0) c.requires.messages.sizes)
""",
}

FILES = {
    "src/main.rt": MAIN,
    "src/reading.rt": READING,
    "src/talking.rt": TALKING,
    **{f"proofs/talking/{name}": text for name, text in PROOFS.items()},
    **nets("messages_bench"),
    **weighing("messages_bench"),
}


def tell(program, title, times, packages, states, roots, codes=()):
    """Prints what 8 rounds and 8 reads of all pairs take, from so many times as many."""
    world = (packages, states, roots, *codes)
    made, _, _ = quickest(program, 0, 0, *world)
    said, _, chosen = quickest(program, 8 * times, 0, *world)
    read, _, allowed = quickest(program, 0, 8 * times, *world)
    rounds, reads = (said - made) / times, (read - made) / times
    counted = instructions(program, 8, 0, *world) - instructions(program, 0, 0, *world)
    print(
        f"{title}: 8 rounds in {rounds * 1e3:.2f} ms and {counted / 1e6:.1f} million instructions, each pair read 8 times in {reads * 1e3:.2f} ms, "
        f"{reads / rounds:.2f} of it; {int(allowed.split()[-1]) // (8 * times)} allowed pairs, chosen {chosen.split()[0]}"
    )


def main():
    top = tempfile.mkdtemp(prefix="messages-bench-")
    try:
        stands_on = ["maxsum_messages", "graph_pruning", "version_graph", "lex_weights", "anyhow"]
        program = built(top, "messages_bench", stands_on, FILES)
        tell(program, "500 packages of 45 states, like General", 1, 500, 45, 50)
        tell(program, "500 packages of 12 states, like General", 10, 500, 12, 50)
        tell(program, "300 packages of 9 states, as the generator draws them", 100, 300, 9, 10, generated(1))
    finally:
        shutil.rmtree(top)


if __name__ == "__main__":
    main()
