"""The fields of a benchmark's instance: a source file that makes them, and its proofs."""

WEIGHING = r"""//! Fields: what each state weighs by itself.
ghost use Rattle.std.specs.Prelude.{◌^◌, IfOk};
ghost use Rattle.maxsum_messages.specs.Field.{AreFieldsFor};

use lex_weights::{Level, Lex, Lex3, Weight};
use maxsum_messages::Fields;
use std::alloc::{AllocError, Global};
use version_graph::Instance;

fn small(first: u8, second: u8, third: u8) -> Lex3
    ensures { ⟦<Lex3 as Weight>⟧.is_within (2 ^ 24) result }
{
    Lex(
        Level(i64::from(first)),
        Lex(Level(i64::from(second)), Level(i64::from(third))),
    )
}

fn field_of(i: u32, is_heavy: bool) -> Lex3
    ensures { ⟦<Lex3 as Weight>⟧.is_within (2 ^ 24) result }
{
    let number = u8::try_from(i).unwrap_or(255);
    if is_heavy {
        small(number, 0, 0)
    } else {
        small(0, number, 0)
    }
}

/// A state's number, at the first level for the packages from one on and below another, else at the second.
pub fn fields_of(
    alloc: Global,
    instance: &Instance,
    from: u32,
    below: u32,
) -> Result<Fields<Lex3>, AllocError>
    ensures { IfOk result (λ fields. AreFieldsFor instance.now fields) }
{
    let mut fields = Fields::make(alloc, instance)?;
    for p in 0..instance.packages() {
        let is_heavy = from <= p && p < below;
        for i in 0..instance.states(p) {
            fields.set(p, i, field_of(i, is_heavy));
        }
    }
    Ok(fields)
}
"""

PROOFS = {
    "small/Answers.antt": """use Rattle.std.proofs.Common.{arith}
use Rattle.std.proofs.lemmas.Int.{ints}
use Rattle.NAME.proofs.weighing.small.Goals as goal

pub returns : goal.returns
returns c = (
  record { above = omega (arith, ints); below = omega (arith, ints) },
  (
    record { above = omega (arith, ints); below = omega (arith, ints) },
    record { above = omega (arith, ints); below = omega (arith, ints) },
  ),
)
""",
    "fields_of/Invariants.antt": """use Rattle.maxsum_messages.specs.Field.{AreFieldsFor}
use Rattle.NAME.proofs.weighing.fields_of.Given as goal

abbrev pub invariant-loop-p : goal.invariant-loop-p
invariant-loop-p l = AreFieldsFor l.instance l.fields

abbrev pub invariant-loop-i : goal.invariant-loop-i
invariant-loop-i l = AreFieldsFor l.instance l.fields
""",
    "fields_of/Answers.antt": """use Rattle.std.proofs.Common.{◌∙◌, arith}
use Rattle.NAME.proofs.weighing.fields_of.Goals as goal

pub set-requires-clause-known : goal.set-requires-clause-known
set-requires-clause-known c = omega (arith, c.loop-i.invariant.each)

pub set-requires-clause-state : goal.set-requires-clause-state
set-requires-clause-state c = omega (arith, c.loop-i.invariant.wide c.loop-p.p (omega arith))

pub loop-i-preserved : goal.loop-i-preserved
loop-i-preserved c = record {
  each = c.set.ensures.each ∙ c.loop-i.invariant.each;
  wide = λ q h. c.set.ensures.wide q ∙ c.loop-i.invariant.wide q h;
}
""",
}


def weighing(name):
    """The files of a crate of this name that make the fields."""
    proofs = {f"proofs/weighing/{path}": text.replace("NAME", name) for path, text in PROOFS.items()}
    return {"src/weighing.rt": WEIGHING, **proofs}
