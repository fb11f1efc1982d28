//! Request A.4 on the lent buffers: an inner advance gives the next domain out what it lacks, with the old
//! body and in the lowest free entries, and both domains go back to points of their own.

use crate::edges::{both, cut, done, made, plain, played, takes_the_lowest_places};
use crate::fail;
use domain_model::rules::{SCALE, pattern};
use domain_model::{Call, FULL, Notebook, STOPPED, Sizes};
use domain_sessions::check::{Checker, Line};
use domain_sessions::session::{Input, Session};

const ADVANCE: Call = Call::Advance { handle: 0 };

/// Bit 27 of an entry's first word.
const READ_WRITE: u32 = 1 << 27;
/// One depth.
const DEPTH: u32 = 1 << 28;
/// The second domain's read-write copy of cell 0.
const INNER: u32 = (2 * DEPTH) | READ_WRITE;

/// A made store with a notebook, and memory of 7.
fn noted(checker: &mut Checker, sizes: Sizes) -> Line {
    let mut line = made(checker, sizes);
    line.buffers.memory.fill(7);
    line.notebook = Some(Notebook::new(None));
    line
}

/// The program fills a cell.
fn fill(line: &mut Line, cell: u32, byte: u8) {
    write(line, cell, &[byte; 64]);
}

/// The program writes a cell.
fn write(line: &mut Line, cell: u32, bytes: &[u8; 64]) {
    line.buffers.write_cell(cell, bytes);
    let notebook = line.notebook.as_mut().expect("kept");
    notebook.write(64 * cell as usize, 64);
}

/// The program writes another byte than stands there.
fn touch(line: &mut Line, at: usize) {
    line.buffers.memory[at] ^= 0x40;
    let notebook = line.notebook.as_mut().expect("kept");
    notebook.write(at, 1);
}

/// Advances with this budget, and opens where it was stopped.
fn advance_and_open(checker: &mut Checker, line: &mut Line, budget: u64) {
    let reply = checker.call(line, &ADVANCE, budget);
    if reply.unwrap_or_else(|m| fail(m)).code == STOPPED {
        done(checker, line, &Call::Open);
    }
}

/// The bytes of some cells after a restore, on a copy on which the program has written all of them.
fn restored(checker: &mut Checker, line: &Line, handle: u32, cells: u32) -> Vec<u8> {
    let mut line = line.clone();
    (0..cells).for_each(|cell| fill(&mut line, cell, 99));
    done(checker, &mut line, &Call::Restore { handle });
    line.buffers.memory[..64 * cells as usize].to_vec()
}

/// Cuts an advance at every budget, opens, and restores each live domain on a copy: the domains around the
/// one that advances go back to the same bytes as before it, and that one to its old point or to the new.
/// k cells are copied, and g given. Beside the bytes the notebook's counts are looked at, and what it has of
/// holdings.
fn both_points_at_every_cut(checker: &mut Checker, line: &Line, (k, g): (u64, u64), cells: u32) {
    let live = line.state().expect("a store").domains.clone();
    let now = line.buffers.memory[..64 * cells as usize].to_vec();
    let before: Vec<_> = live
        .iter()
        .map(|domain| restored(checker, line, domain.handle, cells))
        .collect();
    let need = 70 * k + 6 * g + 2;
    for budget in 0..=need {
        let mut line = line.clone();
        advance_and_open(checker, &mut line, budget);
        // 64k bytes, the pairs of two words for each entry, and word 6.
        let made = budget > 64 * k + 4 * (k + g);
        for (at, domain) in live.iter().enumerate() {
            let should = match at + 1 == live.len() && made {
                true => &now,
                false => &before[at],
            };
            let found = restored(checker, &line, domain.handle, cells);
            assert!(
                found == *should,
                "domain {} at budget {budget}",
                domain.handle
            );
        }
    }
}

/// The example of document 02: cycle 1 holds nothing, tile 2 copies cell 0 = 7 read-write, write 9.
#[test]
fn the_cycle_and_the_tile() {
    both(|checker| {
        let mut line = noted(checker, Sizes { m: 4, e: 8, b: 8 });
        for call in [Call::Create, Call::Create, Call::copy(0, 1, 1)] {
            done(checker, &mut line, &call);
        }
        let reply = checker.call(&mut line.clone(), &ADVANCE, 0);
        assert_eq!(reply.unwrap_or_else(|m| fail(m)).code, 0);
        fill(&mut line, 0, 9);
        both_points_at_every_cut(checker, &line, (1, 1), 1);
        takes_the_lowest_places(checker, &line, &ADVANCE);
        let reply = checker.call(&mut line, &ADVANCE, FULL);
        assert_eq!(reply.unwrap_or_else(|m| fail(m)).steps, 78);
        // The inner entry stays in place 0, with the new body; the given one has the old body.
        let words = [INNER, 1, INNER - DEPTH, 0];
        assert_eq!(line.buffers.table[16..20], words);
        assert_eq!(restored(checker, &line, 1, 1), [7; 64]);
        assert_eq!(restored(checker, &line, 2, 1), [9; 64]);
    });
}

/// Domain 1 holds cells 1 and 5 read-write and 2 read-only; two entries before these and one behind them
/// are free. Domain 2 holds 0 to 2 as copies, 3 and 4 by a rule and 5 via parent, all read-write, and 6 as a
/// copy, read-only: of its read-write cells domain 1 lacks 0, 3 and 4.
fn two_domains(checker: &mut Checker, e: u32, b: u32) -> Line {
    let mut line = noted(checker, Sizes { m: 8, e, b });
    let scale = pattern(SCALE).expect("a rule");
    let outer = [
        Call::Create,
        Call::copy(6, 2, 1),
        Call::copy(1, 1, 1),
        Call::copy(2, 1, 0),
        Call::copy(5, 1, 1),
        Call::copy(0, 1, 0),
        Call::Create,
    ];
    outer.iter().for_each(|call| done(checker, &mut line, call));
    (0..3).for_each(|cell| fill(&mut line, cell, 8));
    (3..5).for_each(|cell| write(&mut line, cell, &scale));
    let inner = [
        Call::copy(0, 3, 1),
        Call::pattern(3, 2, SCALE, 1),
        Call::via_parent(5, 1, 1),
        Call::copy(6, 1, 0),
        Call::delete(1, 6, 2),
        Call::delete(1, 0, 1),
    ];
    inner.iter().for_each(|call| done(checker, &mut line, call));
    line
}

/// Entries and bodies in use by [`two_domains`].
const ENTRIES: u32 = 10;
const BODIES: u32 = 7;

/// Every set of changed cells: entries of what is given and of what is copied, and every other as it was.
#[test]
fn every_set_of_changed_cells() {
    both(|checker| {
        let held = two_domains(checker, 14, 16);
        for set in 0..1u32 << 7 {
            let mut line = held.clone();
            for cell in (0..7).filter(|cell| set >> cell & 1 == 1) {
                touch(&mut line, 64 * cell + [0, 63, 31][cell % 3]);
            }
            let copied: Vec<u32> = (0..6).filter(|cell| set >> cell & 1 == 1).collect();
            let lacking = |cell: &&u32| [0, 3, 4].contains(*cell);
            let given: Vec<u32> = copied.iter().filter(lacking).copied().collect();
            let (k, g) = (copied.len() as u64, given.len() as u64);
            if k + g <= 3 {
                let cuts = checker.every_cut(&line, &ADVANCE, set.into());
                cuts.unwrap_or_else(|m| fail(m));
            }
            let reply = checker.call(&mut line, &ADVANCE, FULL);
            let reply = reply.unwrap_or_else(|m| fail(m));
            let need = if k == 0 { 0 } else { 70 * k + 6 * g + 2 };
            assert_eq!((reply.code, reply.steps), (0, need), "cells {set:#b}");
            check_entries(&held, &line, &copied, &given);
        }
    });
}

/// The entries after an advance from `held`, by hand.
fn check_entries(held: &Line, line: &Line, copied: &[u32], given: &[u32]) {
    let words = |line: &Line| line.buffers.table[16..16 + 2 * 14].to_vec();
    let (was, is) = (words(held), words(line));
    let mut should = was.clone();
    let places = |first: u32| was.iter().step_by(2).position(|word| *word == first);
    let inner = |cell: u32| {
        let kinds = [0, 1 << 25, 1 << 26];
        let words = kinds.map(|kind| INNER | kind | cell);
        words.into_iter().find_map(places).expect("held")
    };
    let free = (0..14).filter(|place| was[2 * place] == 0);
    for (place, cell) in free.zip(given) {
        let old = 2 * inner(*cell);
        should[2 * place] = was[old] - DEPTH;
        should[2 * place + 1] = was[old + 1];
    }
    let decoded = held.buffers.decode(None).expect("a store");
    for (body, cell) in decoded.free_bodies().into_iter().zip(copied) {
        let place = 2 * inner(*cell);
        should[place] = INNER | cell;
        should[place + 1] = body;
    }
    assert_eq!(is, should, "copied {copied:?}, given {given:?}");
}

/// Both points at every cut, with all kinds of cells changed.
#[test]
fn both_points_with_every_kind() {
    both(|checker| {
        let mut line = two_domains(checker, ENTRIES + 3, BODIES + 6);
        (0..6).for_each(|cell| fill(&mut line, cell, 9));
        takes_the_lowest_places(checker, &line, &ADVANCE);
        both_points_at_every_cut(checker, &line, (6, 3), 6);
    });
}

/// Three domains: what is given stays in the middle one, and a second advance, after a commit, gives it to
/// the outermost.
#[test]
fn three_domains() {
    both(|checker| {
        let mut line = noted(checker, Sizes { m: 2, e: 6, b: 6 });
        for call in [
            Call::Create,
            Call::Create,
            Call::Create,
            Call::copy(0, 1, 1),
        ] {
            done(checker, &mut line, &call);
        }
        fill(&mut line, 0, 9);
        both_points_at_every_cut(checker, &line, (1, 1), 1);
        advance_and_open(checker, &mut line, FULL);
        done(checker, &mut line, &Call::Commit { handle: 3 });
        fill(&mut line, 0, 11);
        both_points_at_every_cut(checker, &line, (1, 1), 1);
        advance_and_open(checker, &mut line, FULL);
        assert_eq!(restored(checker, &line, 1, 1), [7; 64]);
        assert_eq!(restored(checker, &line, 2, 1), [11; 64]);
    });
}

/// Entries and bodies just enough, and one too few of each; 16 comes before 17.
#[test]
fn room_for_what_is_given() {
    both(|checker| {
        for (e, b, answer) in [(6, 6, 0), (5, 6, 16), (6, 5, 17), (5, 5, 16), (3, 3, 16)] {
            let mut line = noted(checker, Sizes { m: 4, e, b });
            for call in [Call::Create, Call::Create, Call::copy(0, 3, 1)] {
                done(checker, &mut line, &call);
            }
            (0..3).for_each(|cell| fill(&mut line, cell, 9));
            let cuts = checker.every_cut(&line, &ADVANCE, 3);
            cuts.unwrap_or_else(|m| fail(m));
            let reply = checker.call(&mut line, &ADVANCE, FULL);
            let reply = reply.unwrap_or_else(|m| fail(m));
            assert_eq!(reply.code, answer, "E = {e}, B = {b}");
            if e == 5 && b == 5 {
                // One cell fewer, and there is room for both.
                fill(&mut line, 1, 7);
                both_points_at_every_cut(checker, &line, (2, 2), 3);
            }
        }
    });
}

/// The largest store: half of the entries and of the bodies is in use by the inner domain, and an advance of
/// all of it takes the other half. Then there is room for no body more, and later for no entry.
#[test]
fn in_the_largest_store() {
    let write = |first: usize, count: usize, byte| Input::Write {
        at: 64 * first,
        bytes: vec![byte; 64 * count],
    };
    let session = Session {
        sizes: Sizes::LARGEST,
        fill: 77,
        inputs: vec![
            plain(Call::Make),
            plain(Call::Create),
            plain(Call::Create),
            plain(Call::copy(63_000, 1_024, 1)),
            plain(Call::copy(10, 1_024, 1)),
            plain(ADVANCE),
            write(63_000, 1_024, 9),
            write(10, 1_024, 9),
            cut(ADVANCE),
            plain(ADVANCE),
            write(63_100, 1, 8),
            // No entry is needed, but a body is.
            plain(ADVANCE),
            plain(Call::Restore { handle: 2 }),
            plain(Call::Restore { handle: 1 }),
            plain(Call::Create),
            plain(Call::copy(5_000, 1_024, 1)),
            plain(Call::delete(1, 10, 1)),
            write(5_000, 1_024, 6),
            // All 1,024 take an entry more; of entries and bodies one is left, which the next add takes.
            cut(ADVANCE),
            plain(Call::copy(6_500, 1, 1)),
            write(6_500, 1, 6),
            plain(ADVANCE),
            plain(Call::Restore { handle: 3 }),
            plain(Call::Restore { handle: 1 }),
        ],
    };
    let tally = played(&session);
    assert_eq!(tally.entries, 4_096);
    let given = tally.advances.given;
    assert_eq!((given.some, given.exact), (2, 1));
    assert_eq!((tally.answered(16), tally.answered(17)), (1, 1));
}
