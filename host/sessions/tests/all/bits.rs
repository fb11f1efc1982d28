//! Every single bit of a small table flipped, with and without pairs pending, and every call on
//! each: refused or made as the model says. Where the table still opens, inner restores come before
//! outer ones too.

use crate::{agreed, fail, library};
use domain_model::rules::{SCALE, ZEROS, pattern};
use domain_model::{Buffers, Call, FULL, Model, Sizes};
use domain_sessions::check::{Checker, Line, Mismatch};

fn every_bit(checker: &mut Checker, line: &Line) -> Result<(), Mismatch> {
    // All but make, which asks nothing of a table: once about the outer domain and a cell that both
    // hold, once about the inner one and a cell that nobody holds.
    let (outer, inner) = (Call::one_of_each(1, 0), Call::one_of_each(2, 1));
    let mut calls = [&outer[1..], &inner[1..]].concat();
    // About the cells that are held by rules, too.
    calls.extend([
        Call::pattern(1, 1, 0, 1),
        Call::via_parent(3, 1, 0),
        Call::Look { handle: 1, cell: 3 },
        Call::Look { handle: 2, cell: 4 },
    ]);
    for word in 0..line.buffers.table.len() {
        for bit in 0..32 {
            let mut flipped = line.buffers.clone();
            flipped.table[word] ^= 1 << bit;
            let flipped = Line::new(flipped, checker.model);
            checker.tally.damaged += 1;
            let told = |m: Mismatch| Mismatch {
                call: format!("word {word}, bit {bit}: {}", m.call),
                what: m.what,
            };
            checker.inner_first(&flipped, bit).map_err(told)?;
            for call in &calls {
                checker
                    .call(&mut flipped.clone(), call, FULL)
                    .map_err(told)?;
            }
        }
    }
    Ok(())
}

#[test]
fn every_bit_of_a_small_table() {
    let store = library();
    let mut checker = Checker::new(&*store, Model::default());
    let mut line = Line::new(
        Buffers::any(Sizes { m: 5, e: 6, b: 3 }.lengths(), 8),
        checker.model,
    );
    line.buffers.memory.fill(0);
    line.buffers.write_cell(4, &pattern(SCALE).expect("a rule"));
    let mut played = || -> Result<(), Mismatch> {
        for call in [
            Call::Make,
            Call::Create,
            Call::copy(0, 1, 1),
            Call::pattern(3, 1, ZEROS, 0),
            Call::Create,
            Call::via_parent(0, 1, 1),
            Call::copy(2, 1, 0),
            Call::pattern(4, 1, SCALE, 1),
        ] {
            checker.call(&mut line, &call, FULL)?;
        }
        every_bit(&mut checker, &line)?;
        // A restore cut when its pairs are stored: two domains, five entries, all kinds of named
        // words. Four cells are put back, and three entries are freed with the inner domain.
        let mut pending = line.clone();
        checker.call(
            &mut pending,
            &Call::Restore { handle: 1 },
            4 * 64 + 2 * 8 + 3,
        )?;
        assert!(pending.buffers.table[6] != 0);
        every_bit(&mut checker, &pending)
    };
    if let Err(m) = played() {
        fail(m);
    }
    println!(
        "every bit flipped: {} calls, {} of them refused by 4",
        checker.tally.calls(),
        checker.tally.answered(4)
    );
    agreed(&checker.tally);
}
