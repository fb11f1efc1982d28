//! Request A.3 on the lent buffers: an add of several ranges holds all of them or none, takes the lowest
//! free places in order of cell, and one of a single range is the plain add.

use crate::edges::{both, cut, done, made, plain, played, takes_the_lowest_places};
use crate::fail;
use domain_model::edges::{TILE, one_cell_records};
use domain_model::rules::{INDEX, SCALE, pattern};
use domain_model::{Call, FULL, Record, Sizes};
use domain_sessions::check::{Checker, Line};
use domain_sessions::session::{Input, Session};

/// Domain 1 holds cells 0 to 3 and leaves holes in table and bodies; domain 2, inside it, holds cell 6
/// read-only. The cells of the tile have the values that it needs.
fn before_the_tile(checker: &mut Checker) -> Line {
    let mut line = made(
        checker,
        Sizes {
            m: 16,
            e: 20,
            b: 12,
        },
    );
    for cell in 0..16 {
        line.buffers.write_cell(cell, &[100 + cell as u8; 64]);
    }
    for (cell, rule) in [(9, INDEX), (10, INDEX), (12, SCALE), (13, SCALE)] {
        let bytes = pattern(rule).expect("a rule");
        line.buffers.write_cell(cell, &bytes);
    }
    line.buffers.write_cell(5, &[0; 64]);
    for call in [
        Call::Create,
        Call::copy(14, 2, 1),
        Call::copy(0, 4, 1),
        Call::delete(1, 14, 1),
        Call::Create,
        Call::copy(6, 1, 0),
        Call::delete(1, 15, 1),
    ] {
        done(checker, &mut line, &call);
    }
    line
}

/// Nine ranges of a tile, cut at every step.
#[test]
fn nine_ranges_of_a_tile() {
    both(|checker| {
        let mut line = before_the_tile(checker);
        let tile = Call::ranges(TILE);
        checker
            .every_cut(&line, &tile, 1)
            .unwrap_or_else(|m| fail(m));
        let reply = checker.call(&mut line, &tile, FULL);
        let reply = reply.unwrap_or_else(|m| fail(m));
        assert_eq!((reply.code, reply.steps), (0, 3 * 64 + 11 * 6 + 2));
        let memory = line.buffers.memory.to_vec();
        line.buffers.memory.fill(1);
        done(checker, &mut line, &Call::Restore { handle: 2 });
        for record in TILE {
            let cells = 64 * record.first as usize..64 * (record.first + record.count) as usize;
            assert_eq!(line.buffers.memory[cells.clone()], memory[cells]);
        }
    });
}

/// Places are the lowest free ones in order of cell, whichever record takes a cell.
#[test]
fn the_lowest_places_in_order_of_cell() {
    both(|checker| {
        let line = before_the_tile(checker);
        let mut turned = TILE;
        turned.reverse();
        let overlapping = [
            Record::copy(14, 2, 0),
            Record::copy(6, 3, 1),
            Record::copy(4, 4, 0),
            Record::copy(7, 1, 1),
        ];
        for records in [&TILE[..], &turned, &overlapping] {
            takes_the_lowest_places(checker, &line, &Call::ranges(records));
        }
    });
}

/// Every pair of ranges in five cells, by every pair of kinds and labels, where the outer domain holds
/// some of the cells: as the model says, and as plain adds say.
#[test]
fn every_pair_of_ranges() {
    both(|checker| {
        let mut line = made(checker, Sizes { m: 5, e: 8, b: 6 });
        line.buffers.write_cell(1, &[7; 64]);
        for call in [
            Call::Create,
            Call::copy(1, 2, 1),
            Call::pattern(3, 1, 0, 0),
            Call::Create,
            Call::copy(4, 1, 0),
        ] {
            done(checker, &mut line, &call);
        }
        let mut ranges = Vec::new();
        for (first, count) in (0..5).flat_map(|first| (1..=5 - first).map(move |n| (first, n))) {
            for kind in 0..3 {
                // The label goes with the rest, so that all of them come with each other.
                let label = (first + count + kind) % 2;
                ranges.push(Record::new(first, count, kind, label));
            }
        }
        for one in &ranges {
            for other in &ranges {
                for label in 0..2 {
                    let other = Record { label, ..*other };
                    let call = Call::ranges([*one, other]);
                    let mut after = line.clone();
                    checker
                        .call(&mut after, &call, FULL)
                        .unwrap_or_else(|m| fail(m));
                }
            }
        }
    });
}

/// A list of one record and the plain add: the same answer and the same buffers at every budget.
#[test]
fn a_list_of_one_is_the_plain_add() {
    both(|checker| {
        let line = before_the_tile(checker);
        for record in TILE.into_iter().chain([Record::copy(4, 5, 1)]) {
            let (handle, list) = (0, Call::ranges([record]));
            let plain = Call::Add { handle, record };
            for budget in (0..420).chain([FULL]) {
                let (mut one, mut other) = (line.buffers.clone(), line.buffers.clone());
                let replies = [
                    checker.store.call(&mut one, &plain, budget),
                    checker.store.call(&mut other, &list, budget),
                ];
                assert_eq!(replies[0], replies[1], "{plain} with budget {budget}");
                assert_eq!(one.differs(&other), None, "{plain} with budget {budget}");
            }
        }
    });
}

/// 64 records that take every entry and every body, cut at their joints, and with one cell too many.
#[test]
fn as_many_as_there_may_be() {
    both(|checker| {
        for (e, b, answer) in [(64, 64, 0), (63, 64, 16), (64, 63, 17)] {
            let mut line = made(checker, Sizes { m: 64, e, b });
            done(checker, &mut line, &Call::Create);
            let mut records = one_cell_records(64, 0, 1);
            records.reverse();
            let call = Call::ranges(records);
            checker
                .every_cut(&line, &call, 7)
                .unwrap_or_else(|m| fail(m));
            let reply = checker.call(&mut line, &call, FULL);
            let reply = reply.unwrap_or_else(|m| fail(m));
            assert_eq!(reply.code, answer, "E = {e}, B = {b}");
        }
    });
}

/// The largest store: cells far apart and in no order, by lists of 64 records; then lists that find them
/// held, one that is cut at its joints, and lists that take all the room there is and a little more.
#[test]
fn lists_in_the_largest_store() {
    // An odd factor, so that no cell comes twice.
    let record = |at: u32| Record::copy((at * 40_503 + 17) % 65_536, 1, at % 2);
    let list = |from: u32| Call::ranges((from..from + 64).map(record).collect::<Vec<_>>());
    let wide = |count| {
        let records = (0..64).map(|at| Record::copy(1_000 * at, count, 1));
        Call::ranges(records.collect::<Vec<_>>())
    };
    let mut inputs = vec![plain(Call::Make), plain(Call::Create)];
    inputs.extend((0..4).map(|at| plain(list(64 * at))));
    inputs.push(Input::Write {
        at: 64 * 17,
        bytes: vec![9; 64 * 500],
    });
    inputs.extend([
        plain(list(0)),
        cut(list(224)),
        plain(Call::Restore { handle: 1 }),
        // 64 times 58 cells besides, of which few are held already, then 64 more, and 64 too many.
        plain(wide(58)),
        plain(wide(59)),
        plain(wide(60)),
        plain(Call::Restore { handle: 1 }),
    ]);
    let session = Session {
        sizes: Sizes::LARGEST,
        fill: 77,
        inputs,
    };
    let tally = played(&session);
    assert!(tally.entries > 3_900, "most entries {}", tally.entries);
    assert_eq!(tally.answered(16), 1);
}
