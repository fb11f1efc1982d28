//! Request A.1 by hand: the bytes of each rule, step counts, and what each cut leaves.

mod meant;

use domain_model::calls::{READ_ONLY as RO, READ_WRITE as RW};
use domain_model::rules::{INDEX, ONES, RULES, SCALE, ZEROS, followed, pattern};
use domain_model::{Call, Ended, FULL, Holding, Kept, Notebook, Reading, Sizes};
use meant::Meant;

#[test]
fn the_bytes_of_each_rule() {
    assert_eq!(pattern(ZEROS), Some([0; 64]));
    assert_eq!(pattern(ONES), Some([255; 64]));
    let index = pattern(INDEX).unwrap();
    assert_eq!((index[0], index[1], index[62], index[63]), (0, 1, 62, 63));
    let scale = pattern(SCALE).unwrap();
    assert_eq!(scale[..8], [0, 0, 128, 63, 0, 0, 128, 63]);
    assert_eq!(scale[60..], [0, 0, 128, 63]);
    // Sixteen scales of one.
    for four in scale.as_chunks().0 {
        assert_eq!(f32::from_le_bytes(*four), 1.0);
    }
    assert_eq!(pattern(4), None);
    assert_eq!(pattern(u32::MAX), None);
    for rule in RULES {
        let mut bytes = pattern(rule).unwrap();
        assert_eq!(followed(&bytes), Some(rule));
        bytes[63] ^= 4;
        assert_eq!(followed(&bytes), None);
    }
}

const USUAL: Sizes = Sizes { m: 4, e: 8, b: 8 };

/// Step counts worked out by hand: a pattern stores no bytes, p is 2 for each entry taken or raised.
#[test]
fn steps_by_hand() {
    let mut meant = Meant::fresh(USUAL, 0);
    meant.follow(1, SCALE);
    meant.follow(2, SCALE);
    let advance = Call::Advance { handle: 2 };
    let list: [(Call, u64); 16] = [
        (Call::Create, 11),
        (Call::pattern(0, 1, ZEROS, RO), 8),  // one entry, p = 2
        (Call::pattern(1, 2, SCALE, RW), 14), // two entries, p = 4
        (Call::pattern(0, 1, ZEROS, RO), 0),  // nothing new, nothing raised
        (Call::pattern(0, 1, ONES, RW), 8),   // a raised label; the rule stays
        (Call::copy(3, 1, RO), 64 + 8),       // a copy
        (Call::Restore { handle: 0 }, 256),   // three by rules and a copy; nobody ends
        (Call::Create, 11),                   //
        (Call::pattern(1, 2, SCALE, RO), 14), //
        (Call::pattern(1, 2, SCALE, RW), 14), // both raised
        (Call::delete(2, 2, 1), 8),           // p = 2
        (advance.clone(), 64 + 8),            // one changed read-write cell becomes a copy
        (Call::Commit { handle: 2 }, 3 * 4 + 2), // 2, and one entry freed
        (Call::Create, 11),                   //
        (Call::pattern(1, 1, SCALE, RW), 8),  //
        (Call::Restore { handle: 1 }, 256 + 3 * 4 + 2), // one domain and one entry end: p = 1 + 1 + 2
    ];
    for (call, need) in list {
        // The advance finds cell 1 written; after it the program writes the scale again.
        if call == advance {
            meant.cell(1).fill(9);
        }
        let work = meant.work(&call);
        assert_eq!(work.need, need, "{call}");
        meant.carry_out(&work);
        if call == advance {
            meant.follow(1, SCALE);
        }
    }
    // Three read-write cells by rules: no copy while memory follows these, and three afterwards.
    assert_eq!(meant.work(&Call::Advance { handle: 1 }).need, 0);
    meant.memory.fill(9);
    let work = meant.work(&Call::Advance { handle: 1 });
    assert_eq!((work.byte_steps(), work.words, work.need), (192, 6, 212));
}

/// What domain 1 holds of cell 0, and how many pairs are pending.
fn held(reading: &Reading) -> (Option<Holding>, u32) {
    match reading {
        Reading::Store { state, pending } => (state.domains[0].cells.get(&0).copied(), *pending),
        other => panic!("{other:?}"),
    }
}

/// A scale of one that is held by its rule and then advanced: each cut is the rule or the new copy.
#[test]
fn cuts_of_an_advance() {
    let mut meant = Meant::fresh(USUAL, 0);
    meant.follow(0, SCALE);
    meant.play(&Call::Create);
    meant.play(&Call::pattern(0, 1, SCALE, RW));
    meant.cell(0).fill(8);
    let work = meant.work(&Call::Advance { handle: 0 });
    assert_eq!((work.byte_steps(), work.words, work.need), (64, 2, 72));
    let (rule, copy) = (Kept::Rule(SCALE), Kept::Copy([8; 64]));
    for k in 0..=72 {
        // 64 bytes, 4 words of pairs, word 6: from there on the advance is made.
        let (kept, pending) = match k {
            0..=68 => (rule, 0),
            69..=71 => (copy, 2),
            _ => (copy, 0),
        };
        let read_write = true;
        let should = (Some(Holding { read_write, kept }), pending);
        assert_eq!(
            held(&work.reading_after(&meant.reading, k)),
            should,
            "after {k} steps"
        );
    }
}

/// Each cut of an add: the cell is held by the rule from word 6 on, and no byte is stored.
#[test]
fn cuts_of_an_add() {
    let mut meant = Meant::fresh(USUAL, 255);
    meant.play(&Call::Create);
    let work = meant.work(&Call::pattern(0, 1, ONES, RO));
    assert_eq!((work.byte_steps(), work.words, work.need), (0, 2, 8));
    for k in 0..=8 {
        let holding = Holding {
            read_write: false,
            kept: Kept::Rule(ONES),
        };
        let should = match k {
            0..=4 => (None, 0),
            5..=7 => (Some(holding), 2),
            _ => (Some(holding), 0),
        };
        assert_eq!(
            held(&work.reading_after(&meant.reading, k)),
            should,
            "after {k} steps"
        );
    }
}

/// Each cut of a restore: the bytes of the rules, rising by cell and byte, beside a copy.
#[test]
fn cuts_of_a_restore() {
    let mut meant = Meant::fresh(USUAL, 7);
    for (cell, rule) in [(0, INDEX), (1, SCALE), (3, ONES)] {
        meant.follow(cell, rule);
    }
    meant.play(&Call::Create);
    for call in [
        Call::pattern(0, 1, INDEX, RW),
        Call::pattern(1, 1, SCALE, RO),
        Call::copy(2, 1, RW),
        Call::pattern(3, 1, ONES, RW),
    ] {
        assert_eq!(meant.play(&call).0, 0);
    }
    let mut wanted: Vec<u8> = (0..64).collect();
    wanted.extend([0, 0, 128, 63].repeat(16));
    wanted.extend([7; 64]);
    wanted.extend([255; 64]);
    meant.memory.fill(200);
    let work = meant.work(&Call::Restore { handle: 1 });
    assert_eq!((work.words, work.need), (0, 256));
    for k in 0..=256 {
        let mut mixed = meant.memory.clone();
        work.memory_after(&mut mixed, k as u64);
        assert_eq!(mixed[..k], wanted[..k], "after {k} steps");
        assert!(
            mixed[k..].iter().all(|byte| *byte == 200),
            "after {k} steps"
        );
    }
}

/// The notebook knows no rules, and its zero count covers such cells: memory had to match at the add.
#[test]
fn the_zero_count_covers_patterns() {
    let mut memory = pattern(SCALE).unwrap().to_vec();
    let mut book = Notebook::new(None);
    let done = |book: &mut Notebook, call, memory: &[u8]| {
        book.call(&call, FULL, Ended::Done, 0, memory).unwrap()
    };
    done(&mut book, Call::Create, &memory);
    done(&mut book, Call::pattern(0, 1, SCALE, RW), &memory);
    memory.fill(9);
    book.write(0, 64);
    let count = done(&mut book, Call::Restore { handle: 1 }, &memory).unwrap();
    assert_eq!((count.differ, count.looked_at), (64, 64));
    memory.copy_from_slice(&pattern(SCALE).unwrap());
    let count = done(&mut book, Call::Restore { handle: 1 }, &memory).unwrap();
    assert_eq!((count.differ, count.looked_at), (0, 64));
}
