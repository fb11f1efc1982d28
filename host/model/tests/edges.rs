//! The edges on the model alone: states and memory, no buffers.

mod meant;

use domain_model::edges::{Line, scripts};
use domain_model::rules::pattern;
use domain_model::{Call, Lengths, Reading, Sizes};
use meant::Meant;

#[test]
fn every_edge() {
    for script in scripts() {
        let name = script.name;
        let mut meant = Meant::fresh(script.sizes, 0);
        for line in &script.lines {
            match line {
                Line::Fill(cell, byte) => meant.cell(*cell).fill(*byte),
                Line::Pattern(cell, rule) => meant.follow(*cell, *rule),
                Line::Byte(at, byte) => meant.memory[*at] = *byte,
                Line::Answers(call, answer) => {
                    assert_eq!(meant.play(call).0, *answer, "{name}: {call}");
                }
                Line::Takes(call, steps) => {
                    let work = meant.work(call);
                    assert_eq!(work.need, *steps, "{name}: {call}");
                    meant.carry_out(&work);
                }
                Line::CreateGives(handle) => {
                    assert_eq!(meant.play(&Call::Create), (0, *handle), "{name}");
                }
                Line::See(cell, byte) => assert_eq!(meant.cell(*cell), [*byte; 64], "{name}"),
                Line::SeePattern(cell, rule) => {
                    let should = pattern(*rule).expect("a rule");
                    assert_eq!(meant.cell(*cell), should, "{name}: cell {cell}");
                }
                Line::Looks(handle, cell, place, rule) => {
                    let told = meant.looks(*handle, *cell);
                    assert_eq!(told, (*place, *rule), "{name}: cell {cell}");
                }
                Line::Live(n) => assert_eq!(meant.state().domains.len(), *n, "{name}"),
                Line::Set(word, value) => {
                    assert_eq!(*word, 5, "the scripts set the next handle only");
                    meant.state().next = *value;
                }
            }
        }
    }
}

#[test]
fn lengths_of_tables() {
    let lengths = |table| Lengths {
        memory: 64,
        bodies: 64,
        table,
    };
    assert_eq!(lengths(42).sizes().map(|s| s.e), Some(1));
    assert_eq!(lengths(24_612).sizes().map(|s| s.e), Some(4096));
    for table in [0, 5, 35, 36, 41, 43, 24_611, 24_613, 24_618] {
        assert_eq!(lengths(table).sizes(), None, "{table} words");
    }
    let memory = |memory| Lengths {
        memory,
        bodies: 64,
        table: 42,
    };
    assert_eq!(memory(64 * 65_536).sizes().map(|s| s.m), Some(65_536));
    for bytes in [0, 63, 65, 64 * 65_536 + 1, 64 * 65_537] {
        assert_eq!(memory(bytes).sizes(), None, "{bytes} bytes");
    }
    let bodies = |bodies| Lengths {
        memory: 64,
        bodies,
        table: 42,
    };
    assert_eq!(bodies(64 * 4_096).sizes().map(|s| s.b), Some(4_096));
    assert_eq!(bodies(64 * 4_097).sizes(), None);
}

/// Step counts worked out by hand from document 01.
#[test]
fn steps_by_hand() {
    let mut meant = Meant::fresh(Sizes { m: 4, e: 8, b: 8 }, 0);
    let add = Call::add;
    let advance = Call::Advance { handle: 2 };
    let list: [(Call, u64); 16] = [
        (Call::Make, 33),                         // 2 x 8 + 17
        (Call::Open, 0),                          // nothing pending
        (Call::Create, 11),                       // p = 3
        (add(0, 2, 0, 0), 128 + 14),              // two copies, p = 4
        (add(0, 1, 0, 1), 8),                     // a raised label, p = 2
        (add(0, 2, 0, 0), 0),                     // nothing new, nothing raised
        (Call::Create, 11),                       //
        (add(0, 2, 1, 1), 14),                    // two via parent, p = 4
        (add(2, 1, 0, 0), 64 + 8),                // a copy
        (advance.clone(), 128 + 14),              // two read-write cells, both written before
        (Call::Commit { handle: 2 }, 3 * 10 + 2), // 2, two freed (4), one raised (2), one moved (2)
        (Call::Create, 11),                       //
        (Call::Create, 11),                       //
        (add(3, 1, 0, 0), 64 + 8),                //
        (Call::Restore { handle: 1 }, 256 + 17), // four cells; two domains and one entry end: p = 1 + 2 + 2
        (Call::delete(1, 0, 3), 20),             // p = 6
    ];
    for (call, need) in list {
        if call == advance {
            meant.memory.fill(9);
        }
        let work = meant.work(&call);
        assert_eq!(work.need, need, "{call}");
        meant.carry_out(&work);
    }
}

/// What each cut of a restore leaves.
#[test]
fn cuts_of_a_restore() {
    let mut meant = Meant::fresh(Sizes { m: 2, e: 4, b: 4 }, 7);
    for call in [Call::Create, Call::Create, Call::copy(1, 1, 1)] {
        assert_eq!(meant.play(&call).0, 0);
    }
    meant.memory.fill(9);
    let work = meant.work(&Call::Restore { handle: 1 });
    // One cell; one domain and one entry end: p = 4.
    assert_eq!((work.byte_steps(), work.words, work.need), (64, 4, 78));
    let live = |r: &Reading| match r {
        Reading::Store { state, pending } => (state.domains.len(), *pending),
        _ => panic!(),
    };
    for k in 0..=78 {
        let mut mixed = meant.memory.clone();
        work.memory_after(&mut mixed, k);
        let stored = k.min(64) as usize;
        assert!(mixed[..64].iter().all(|b| *b == 9));
        assert!(
            mixed[64..64 + stored].iter().all(|b| *b == 7)
                && mixed[64 + stored..].iter().all(|b| *b == 9)
        );
        // Eight steps store the pairs, the next one word 6: from there on the call is made.
        let expected = match k {
            0..=72 => (2, 0),
            73..=77 => (1, 4),
            _ => (1, 0),
        };
        assert_eq!(
            live(&work.reading_after(&meant.reading, k)),
            expected,
            "after {k} steps"
        );
    }
}
