//! Request A.5 by hand: a channel inside a tile inside a cycle. Restoring an inner domain and then one
//! around it leaves what restoring the outer one alone leaves, also where the inner restore was cut.

mod meant;

use domain_model::calls::{READ_ONLY as RO, READ_WRITE as RW};
use domain_model::rules::{ONES, SCALE, pattern};
use domain_model::{Call, Domain, Holding, Kept, Sizes, State};
use meant::Meant;

const SIZES: Sizes = Sizes { m: 4, e: 8, b: 8 };

fn restore(handle: u32) -> Call {
    Call::Restore { handle }
}

/// Makes a call, which has to be done.
fn done(meant: &mut Meant, call: Call) {
    assert_eq!(meant.play(&call).0, 0, "{call}");
}

/// What these restores leave, one after the other.
fn restored(meant: &Meant, handles: &[u32]) -> Meant {
    let mut meant = meant.clone();
    handles.iter().for_each(|h| done(&mut meant, restore(*h)));
    meant
}

/// The program fills a cell, and the innermost domain copies it.
fn keep(meant: &mut Meant, cell: u32, byte: u8, label: u32) {
    meant.cell(cell).fill(byte);
    done(meant, Call::copy(cell, 1, label));
}

/// Cycle 1 holds cell 0 = 7 read-write, tile 2 holds cell 1 = 1, channel 3 holds cell 0 = 8 and cell 2 = 2.
/// Then all of memory is 9.
fn channel() -> Meant {
    let mut meant = Meant::fresh(SIZES, 0);
    done(&mut meant, Call::Create);
    keep(&mut meant, 0, 7, RW);
    done(&mut meant, Call::Create);
    keep(&mut meant, 1, 1, RO);
    done(&mut meant, Call::Create);
    keep(&mut meant, 0, 8, RW);
    keep(&mut meant, 2, 2, RO);
    meant.memory.fill(9);
    meant
}

/// The cycle with what it holds, and nothing inside it.
fn cycle() -> State {
    let held = Holding {
        read_write: true,
        kept: Kept::Copy([7; 64]),
    };
    State {
        next: 4,
        domains: vec![Domain {
            handle: 1,
            cells: [(0, held)].into(),
        }],
    }
}

/// Four cells, each of one byte.
fn cells(bytes: [u8; 4]) -> Vec<u8> {
    bytes.map(|byte| [byte; 64]).concat()
}

/// Both leave the same.
fn same(one: &mut Meant, other: &mut Meant, what: &str) {
    assert_eq!(one.memory, other.memory, "{what}");
    assert_eq!(one.state(), other.state(), "{what}");
}

/// Every way to the cycle, with what each restore takes: 64 steps for each cell that is put back and, where
/// domains end, 3p + 2. There p is 1 for their number, 1 for each of them and 2 for each entry of theirs.
#[test]
fn every_way_to_the_cycle() {
    let alone = 3 * 64 + 3 * 9 + 2;
    let ways: [&[(u32, u64)]; 7] = [
        &[(1, alone)],
        // The channel has its own cells back and stays, and so does its value of cell 2.
        &[(3, 2 * 64), (1, alone)],
        &[(0, 2 * 64), (1, alone)],
        // The channel ends. Nobody holds cell 2 any more, and memory has its value.
        &[(2, 3 * 64 + 3 * 6 + 2), (1, 2 * 64 + 3 * 4 + 2)],
        &[
            (3, 2 * 64),
            (2, 3 * 64 + 3 * 6 + 2),
            (1, 2 * 64 + 3 * 4 + 2),
        ],
        // The cycle twice: the second time there is its own cell alone.
        &[(1, alone), (1, 64)],
        &[(1, alone), (0, 64)],
    ];
    for way in ways {
        let mut meant = channel();
        for (handle, need) in way {
            let work = meant.work(&restore(*handle));
            assert_eq!(work.need, *need, "restore {handle} of {way:?}");
            meant.carry_out(&work);
        }
        assert_eq!(meant.memory, cells([7, 1, 2, 9]), "{way:?}");
        assert_eq!(*meant.state(), cycle(), "{way:?}");
    }
}

/// What each restore leaves alone; and made twice it leaves no more, also by the name 0, which the domain
/// has by then.
#[test]
fn twice_is_once() {
    for (handle, memory, live) in [
        (3, [8, 9, 2, 9], 3),
        (2, [8, 1, 2, 9], 2),
        (1, [7, 1, 2, 9], 1),
    ] {
        let mut once = restored(&channel(), &[handle]);
        assert_eq!(once.memory, cells(memory), "restore {handle}");
        assert_eq!(once.state().domains.len(), live, "restore {handle}");
        for second in [handle, 0] {
            let mut twice = restored(&once, &[second]);
            same(&mut twice, &mut once, &format!("{handle}, then {second}"));
        }
    }
}

/// The tile's restore is cut at each step. Opening finds it made from the step on that tells of its six
/// pairs; either way the cycle's restore, and the tile's made again, leave what they leave alone.
#[test]
fn a_cut_before_the_outer_one() {
    let channel = channel();
    let tile = restore(2);
    for steps in 0..channel.work(&tile).need {
        let mut cut = channel.clone();
        let made = cut.cut(&tile, steps);
        assert_eq!(made, steps > 3 * 64 + 2 * 6, "after {steps} steps");
        let live = if made { 2 } else { 3 };
        assert_eq!(cut.state().domains.len(), live, "after {steps} steps");
        for handle in [1, 2] {
            let mut alone = restored(&channel, &[handle]);
            let mut after = restored(&cut, &[handle]);
            same(
                &mut after,
                &mut alone,
                &format!("{handle} after {steps} steps"),
            );
        }
    }
}

/// Values from outside the outer domain, and rules. Cycle 1 holds cell 0 = 7 and cell 1 by a rule; tile 2
/// holds cell 0 via parent and cell 1 = 1; channel 3 holds cell 0 = 8, and cells 1 and 2 by rules.
#[test]
fn via_parent_and_rules() {
    let mut meant = Meant::fresh(SIZES, 0);
    done(&mut meant, Call::Create);
    keep(&mut meant, 0, 7, RW);
    meant.follow(1, SCALE);
    done(&mut meant, Call::pattern(1, 1, SCALE, RO));
    done(&mut meant, Call::Create);
    done(&mut meant, Call::via_parent(0, 1, RW));
    keep(&mut meant, 1, 1, RO);
    done(&mut meant, Call::Create);
    keep(&mut meant, 0, 8, RO);
    meant.follow(1, ONES);
    done(&mut meant, Call::pattern(1, 1, ONES, RW));
    meant.follow(2, SCALE);
    done(&mut meant, Call::pattern(2, 1, SCALE, RW));
    meant.memory.fill(9);

    let scale = pattern(SCALE).expect("a rule");
    let should = |zero: u8, one: [u8; 64]| [[zero; 64], one, scale, [9; 64]].concat();
    for way in [&[3][..], &[0], &[3, 3]] {
        assert_eq!(
            restored(&meant, way).memory,
            should(8, [255; 64]),
            "{way:?}"
        );
    }
    for way in [&[2][..], &[3, 2], &[0, 2], &[2, 2]] {
        assert_eq!(restored(&meant, way).memory, should(7, [1; 64]), "{way:?}");
    }
    for way in [&[1][..], &[2, 1], &[3, 1], &[3, 2, 1], &[2, 2, 1, 1]] {
        assert_eq!(restored(&meant, way).memory, should(7, scale), "{way:?}");
        let mut alone = restored(&meant, &[1]);
        same(&mut restored(&meant, way), &mut alone, &format!("{way:?}"));
    }
}
