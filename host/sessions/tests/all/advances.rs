//! Request A.2 on the lent buffers: an advance copies the changed cells alone, and leaves every other
//! entry and body where it stands.

use crate::edges::{both, done, made};
use crate::fail;
use domain_model::rules::{INDEX, SCALE, pattern};
use domain_model::{Call, FULL, Sizes};
use domain_sessions::check::{Checker, Line};

const ADVANCE: Call = Call::Advance { handle: 0 };

/// Domain 1 holds cells 0 to 7 as copies. Domain 2 holds 0 and 1 via parent, 2 and 3 by rules, 4 and
/// 5 as copies of its own bytes, all read-write, and 6 and 7 read-only: as a copy and by a rule.
/// Eleven bodies are in use, so that B = 17 is enough for all six read-write cells.
fn two_domains(checker: &mut Checker, b: u32) -> Line {
    let mut line = made(checker, Sizes { m: 8, e: 16, b });
    for cell in 0..8 {
        line.buffers.write_cell(cell, &[10 + cell as u8; 64]);
    }
    done(checker, &mut line, &Call::Create);
    done(checker, &mut line, &Call::copy(0, 8, 1));
    done(checker, &mut line, &Call::Create);
    for (cell, rule) in [(2, INDEX), (3, SCALE), (7, SCALE)] {
        let bytes = pattern(rule).expect("a rule");
        line.buffers.write_cell(cell, &bytes);
    }
    line.buffers.write_cell(4, &[20; 64]);
    line.buffers.write_cell(5, &[21; 64]);
    for call in [
        Call::via_parent(0, 2, 1),
        Call::pattern(2, 1, INDEX, 1),
        Call::pattern(3, 1, SCALE, 1),
        Call::copy(4, 2, 1),
        Call::copy(6, 1, 0),
        Call::pattern(7, 1, SCALE, 0),
    ] {
        done(checker, &mut line, &call);
    }
    line
}

/// The two words of domain 2's entry of a cell: it took the second half of the entries, in order.
fn entry(line: &Line, cell: usize) -> [u32; 2] {
    let at = 16 + 2 * (8 + cell);
    [line.buffers.table[at], line.buffers.table[at + 1]]
}

/// Every set of changed cells, cut at every step where few are: the words of the others stay.
#[test]
fn every_set_of_changed_cells() {
    both(|checker| {
        let held = two_domains(checker, 17);
        for set in 0..1u32 << 8 {
            let mut line = held.clone();
            for cell in (0..8).filter(|cell| set >> cell & 1 == 1) {
                // One byte, at either end or between.
                let byte = 64 * cell + [0, 63, 31][cell % 3];
                line.buffers.memory[byte] ^= 0x40;
            }
            let copied = |cell: usize| cell < 6 && set >> cell & 1 == 1;
            let k = (0..8).filter(|cell| copied(*cell)).count() as u64;
            if k <= 2 {
                checker
                    .every_cut(&line, &ADVANCE, set.into())
                    .unwrap_or_else(|m| fail(m));
            }
            let reply = checker
                .call(&mut line, &ADVANCE, FULL)
                .unwrap_or_else(|m| fail(m));
            let steps = if k == 0 { 0 } else { 70 * k + 2 };
            assert_eq!((reply.code, reply.steps), (0, steps), "cells {set:#b}");
            for cell in 0..8 {
                let (was, is) = (entry(&held, cell), entry(&line, cell));
                if copied(cell) {
                    assert_eq!(is[0], 0x2800_0000 | cell as u32, "cells {set:#b}");
                    assert!(is[1] >= 11, "cells {set:#b}: body {}", is[1]);
                } else {
                    assert_eq!(is, was, "cells {set:#b}: cell {cell}");
                }
            }
            // Once more: nothing has changed since, at any budget.
            let stood = line.buffers.clone();
            for budget in [0, 1, FULL] {
                let reply = checker.call(&mut line, &ADVANCE, budget);
                let reply = reply.unwrap_or_else(|m| fail(m));
                assert_eq!((reply.code, reply.steps), (0, 0), "cells {set:#b}");
            }
            assert_eq!(line.buffers.differs(&stood), None, "cells {set:#b}");
        }
    });
}

/// One byte of each read-write cell, at every place of it: each is seen.
#[test]
fn every_byte_is_compared() {
    both(|checker| {
        let held = two_domains(checker, 12);
        for byte in 0..64 * 6 {
            let mut line = held.clone();
            line.buffers.memory[byte] ^= 1 << (byte % 8);
            let reply = checker.call(&mut line, &ADVANCE, FULL);
            let reply = reply.unwrap_or_else(|m| fail(m));
            assert_eq!((reply.code, reply.steps), (0, 72), "byte {byte}");
        }
    });
}

/// As many free bodies as changed cells, and one fewer: read-only cells and unchanged ones take none.
#[test]
fn bodies_for_the_changed_cells() {
    both(|checker| {
        for k in 1..=6 {
            for (b, answer) in [(11 + k, 0), (10 + k, 17)] {
                let mut line = two_domains(checker, b);
                for cell in (0..k as usize).chain([6, 7]) {
                    line.buffers.memory[64 * cell + 63] ^= 1;
                }
                if k <= 3 {
                    checker
                        .every_cut(&line, &ADVANCE, k.into())
                        .unwrap_or_else(|m| fail(m));
                }
                let reply = checker.call(&mut line, &ADVANCE, FULL);
                let reply = reply.unwrap_or_else(|m| fail(m));
                assert_eq!(reply.code, answer, "{k} changed cells, {b} bodies");
            }
        }
    });
}
