//! Request A.1 on the lent buffers: tables that are damaged by hand in what belongs to rules, and
//! stores that must not be taken for damaged.

use crate::edges::{both, done, made};
use crate::fail;
use domain_model::rules::{INDEX, ONES, SCALE, ZEROS, pattern};
use domain_model::{Call, FULL, Sizes};
use domain_sessions::check::{Checker, Line};

/// Sets table words by hand, and asks every call but make: each answers by this number, or goes on
/// as the model says where it is 0.
fn with_words(checker: &mut Checker, line: &Line, name: &str, words: &[(usize, u32)], answer: u32) {
    let mut buffers = line.buffers.clone();
    for (word, value) in words {
        buffers.table[*word] = *value;
    }
    let damaged = Line::new(buffers, checker.model);
    for call in &Call::one_of_each(0, 0)[1..] {
        let mut line = damaged.clone();
        let reply = checker
            .call(&mut line, call, FULL)
            .unwrap_or_else(|m| panic!("{name}: {}: {}", m.call, m.what));
        assert!(
            answer == 0 || reply.code == answer,
            "{name}: {call}: {reply:?}"
        );
        assert!(answer != 0 || reply.code != 4, "{name}: {call}: {reply:?}");
    }
}

/// Domain 1 holds cell 0 by rule 3 and cell 1 by a copy, domain 2 holds cell 1 via parent and cell 0
/// by rule 3: entries 0, 1, 2 and 3.
fn two_domains(checker: &mut Checker) -> Line {
    let mut line = made(checker, Sizes { m: 4, e: 6, b: 2 });
    line.buffers.write_cell(0, &pattern(SCALE).expect("a rule"));
    for call in [
        Call::Create,
        Call::pattern(0, 1, SCALE, 0),
        Call::copy(1, 1, 1),
        Call::Create,
        Call::via_parent(1, 1, 1),
        Call::pattern(0, 1, SCALE, 1),
    ] {
        done(checker, &mut line, &call);
    }
    line
}

#[test]
fn damaged_rules() {
    both(|checker| {
        let line = two_domains(checker);
        let written = [
            0x1200_0000,
            3,
            0x1800_0001,
            0,
            0x2C00_0001,
            0,
            0x2A00_0000,
            3,
        ];
        assert_eq!(line.buffers.table[16..24], written);
        let mut word = |name, words: &[(usize, u32)], answer| {
            with_words(checker, &line, name, words, answer);
        };
        word("a rule of 4", &[(17, 4)], 4);
        word("a rule that is no rule", &[(17, u32::MAX)], 4);
        word("bit 24 beside a rule", &[(16, 0x1300_0000)], 4);
        word("bit 24 beside a copy", &[(18, 0x1900_0001)], 4);
        word("bit 16 beside a rule", &[(16, 0x1201_0000)], 4);
        word("bits 25 and 26", &[(20, 0x2E00_0001)], 4);
        word(
            "bits 25 and 26, with a rule",
            &[(20, 0x2E00_0001), (21, 3)],
            4,
        );
        word("via parent on a rule", &[(18, 0x1A00_0001)], 4);
        word(
            "via parent on another rule",
            &[(22, 0x2C00_0000), (23, 0)],
            4,
        );
        word(
            "a rule turned into a copy without a body",
            &[(16, 0x1000_0000)],
            4,
        );
        word(
            "a cell twice, by two rules",
            &[(24, 0x1200_0000), (25, 1)],
            4,
        );
        word(
            "a rule deeper than any domain",
            &[(24, 0x3200_0002), (25, 1)],
            4,
        );
        word(
            "a rule on a cell past memory",
            &[(24, 0x1200_0004), (25, 1)],
            4,
        );
        // These are right: rules share numbers with each other and with bodies, and B has no part
        // in them.
        word("another rule", &[(17, 0)], 0);
        word(
            "a rule with the number of the body in use",
            &[(17, 0), (23, 0)],
            0,
        );
        word("a rule inside a copy", &[(20, 0x2A00_0001), (21, 1)], 0);
        word("one rule more", &[(24, 0x1A00_0002), (25, 2)], 0);
        word(
            "a rule turned into a copy",
            &[(16, 0x1000_0000), (17, 1)],
            0,
        );
    });
}

/// Pairs that wait for an opening mean rules as raw words do.
#[test]
fn pending_rules() {
    both(|checker| {
        let line = two_domains(checker);
        let pairs_at = line.buffers.sizes().pairs_at();
        for (second, answer) in [(1, 0), (4, 4)] {
            // One rule more, at entry 4, which is words 24 and 25.
            let words = [24, 0x1200_0003, 25, second];
            let mut buffers = line.buffers.clone();
            buffers.table[pairs_at..pairs_at + 4].copy_from_slice(&words);
            buffers.table[6] = 2;
            let mut pending = Line::new(buffers, checker.model);
            checker
                .every_cut(&pending, &Call::Open, 1)
                .unwrap_or_else(|m| fail(m));
            let reply = checker.call(&mut pending, &Call::Open, FULL);
            assert_eq!(reply.unwrap_or_else(|m| fail(m)).code, answer);
        }
    });
}

/// Every call that meets cells by all four rules beside a copy, cut at every step.
#[test]
fn every_cut_beside_copies() {
    both(|checker| {
        let mut line = made(checker, Sizes { m: 5, e: 12, b: 12 });
        for (cell, rule) in [(0, ZEROS), (1, ONES), (3, INDEX), (4, SCALE)] {
            line.buffers
                .write_cell(cell, &pattern(rule).expect("a rule"));
        }
        line.buffers.write_cell(2, &[7; 64]);
        // Each group of calls is followed by a program write of every cell.
        let groups = [
            vec![
                Call::Create,
                Call::pattern(0, 1, ZEROS, 1),
                Call::pattern(1, 1, ONES, 0),
                Call::copy(2, 1, 1),
                Call::pattern(3, 1, INDEX, 1),
                Call::pattern(4, 1, SCALE, 0),
            ],
            vec![
                Call::Restore { handle: 1 },
                Call::pattern(4, 1, SCALE, 1),
                Call::Create,
                Call::pattern(1, 1, ONES, 1),
                Call::copy(3, 1, 0),
            ],
            vec![
                Call::Restore { handle: 2 },
                Call::Restore { handle: 1 },
                Call::Create,
                Call::pattern(0, 1, ZEROS, 1),
                Call::Commit { handle: 0 },
            ],
            vec![Call::Advance { handle: 1 }],
            vec![Call::Restore { handle: 1 }, Call::delete(1, 0, 5)],
        ];
        for group in groups {
            for call in group {
                checker
                    .every_cut(&line, &call, 5)
                    .unwrap_or_else(|m| fail(m));
                done(checker, &mut line, &call);
            }
            line.buffers.memory.fill(200);
        }
    });
}
