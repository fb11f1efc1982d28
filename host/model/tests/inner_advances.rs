//! Request A.4 by hand: which cells an inner advance gives outwards, its steps, its room, what each cut
//! leaves, and the notebook's line.

mod meant;

use domain_model::calls::{READ_ONLY as RO, READ_WRITE as RW};
use domain_model::rules::{SCALE, pattern};
use domain_model::{Call, Ended, FULL, Holding, Kept, Notebook, Reading, Sizes, State};
use meant::Meant;
use std::collections::BTreeMap;

const ADVANCE: Call = Call::Advance { handle: 0 };

fn restore(handle: u32) -> Call {
    Call::Restore { handle }
}

/// Makes these calls, which have to be done.
fn done(meant: &mut Meant, calls: &[Call]) {
    for call in calls {
        assert_eq!(meant.play(call).0, 0, "{call}");
    }
}

/// Cycle 1 holds nothing, tile 2 copies cell 0 = 7 read-write.
fn tile() -> Meant {
    let mut meant = Meant::fresh(Sizes { m: 1, e: 4, b: 4 }, 7);
    done(
        &mut meant,
        &[Call::Create, Call::Create, Call::copy(0, 1, RW)],
    );
    meant
}

/// The example of document 02.
#[test]
fn the_cycle_and_the_tile_go_back_to_points_of_their_own() {
    for (handle, byte) in [(1, 7), (2, 9)] {
        let mut meant = tile();
        assert_eq!(meant.work(&ADVANCE).need, 0, "nothing has changed");
        meant.memory.fill(9);
        let work = meant.work(&ADVANCE);
        assert_eq!((work.need, work.words), (78, 4));
        assert_eq!(work.given, [(0, 0)]);
        meant.carry_out(&work);
        meant.memory.fill(11);
        done(&mut meant, &[restore(handle)]);
        assert_eq!(*meant.memory, [byte; 64], "restore {handle}");
        // The tile's restore leaves the cycle's way back.
        done(&mut meant, &[restore(1)]);
        assert_eq!(*meant.memory, [7; 64]);
    }
}

/// How domain 1 holds the cells of [`two_domains`].
fn outside(state: &State) -> BTreeMap<u32, Holding> {
    state.domains[0].cells.clone()
}

/// Domain 1 holds cell 1 read-write, 2 read-only and 5 read-write, as copies of 7. Domain 2 holds 0 and 1
/// as copies of 8, 2 as a copy of 8, 3 and 4 by a rule, 5 via parent, all read-write, and 6 as a copy,
/// read-only. So of its read-write cells domain 1 lacks 0, 3 and 4. Seven bodies and ten entries are in
/// use.
fn two_domains(e: u32, b: u32) -> Meant {
    let mut meant = Meant::fresh(Sizes { m: 7, e, b }, 7);
    done(
        &mut meant,
        &[
            Call::Create,
            Call::copy(1, 1, RW),
            Call::copy(2, 1, RO),
            Call::copy(5, 1, RW),
        ],
    );
    meant.memory[..64 * 3].fill(8);
    meant.follow(3, SCALE);
    meant.follow(4, SCALE);
    done(
        &mut meant,
        &[
            Call::Create,
            Call::copy(0, 3, RW),
            Call::pattern(3, 2, SCALE, RW),
            Call::via_parent(5, 1, RW),
            Call::copy(6, 1, RO),
        ],
    );
    assert_eq!((meant.state().entries(), meant.state().copies()), (10, 7));
    meant
}

/// What domain 1 lacks of domain 2's read-write cells.
const LACKING: [u32; 3] = [0, 3, 4];

fn state_of(reading: &Reading) -> &State {
    match reading {
        Reading::Store { state, .. } => state,
        other => panic!("{other:?}"),
    }
}

/// The state after an advance that gives these cells and copies those.
fn advanced(meant: &mut Meant, given: &[u32], copied: &[u32]) -> State {
    let before = meant.state().clone();
    let mut after = before.clone();
    for cell in given {
        let old = before.domains[1].cells[cell];
        assert!(after.domains[0].cells.insert(*cell, old).is_none());
    }
    for cell in copied {
        let now = (&*meant.cell(*cell)).try_into().unwrap();
        let held = after.domains[1].cells.get_mut(cell).expect("held");
        held.kept = Kept::Copy(now);
    }
    after
}

/// Every set of changed cells. The changed read-write ones that domain 1 lacks enter it as they were held,
/// and all else there stays; domain 2 copies each changed one; every cut leaves all of it or nothing.
#[test]
fn every_set_of_changed_cells() {
    for set in 0..1u32 << 7 {
        let mut meant = two_domains(13, 13);
        let changed: Vec<u32> = (0..7).filter(|cell| set >> cell & 1 == 1).collect();
        for &cell in &changed {
            let byte = [0, 63, 31][cell as usize % 3];
            meant.cell(cell)[byte] ^= 0x40;
        }
        let copied: Vec<u32> = changed.into_iter().filter(|cell| *cell != 6).collect();
        let lacking = |cell: &&u32| LACKING.contains(*cell);
        let given: Vec<u32> = copied.iter().filter(lacking).copied().collect();
        let (k, g) = (copied.len() as u64, given.len() as u64);
        let work = meant.work(&ADVANCE);
        let need = if k == 0 { 0 } else { 70 * k + 6 * g + 2 };
        assert_eq!((work.need, work.words), (need, 2 * k + 2 * g), "{copied:?}");
        assert!(need <= 76 * k + 2);

        let before = meant.state().clone();
        let after = advanced(&mut meant, &given, &copied);
        for steps in 0..=need {
            // 64k bytes, the pairs, and word 6: from there on the advance is made.
            let made = steps == need || steps > 64 * k + 4 * (k + g);
            let reading = work.reading_after(&meant.reading, steps);
            let should = if made { &after } else { &before };
            assert_eq!(state_of(&reading), should, "{copied:?} after {steps} steps");
        }
    }
}

/// A restore of the domain around brings the same bytes before an inner advance and after it.
#[test]
fn the_outer_point_stays() {
    for set in 0..1u32 << 7 {
        let mut meant = two_domains(13, 13);
        for cell in (0..7).filter(|cell| set >> cell & 1 == 1) {
            meant.cell(cell).fill(99);
        }
        let mut without = meant.clone();
        done(&mut without, &[restore(1)]);
        done(&mut meant, &[ADVANCE]);
        meant.memory.fill(50);
        done(&mut meant, &[restore(1)]);
        let cells = without.memory.chunks(64).zip(meant.memory.chunks(64));
        for (cell, (should, is)) in cells.enumerate() {
            assert_eq!(is, should, "cell {cell}, changed {set:#b}");
        }
    }
}

/// Questions 16 and 17: an entry more for each cell given, a body more for each changed cell; 16 first.
#[test]
fn room_for_what_is_given() {
    // All six have changed, and three of them are given.
    for (e, b, answer) in [
        (13, 13, 0),
        (12, 13, 16),
        (13, 12, 17),
        (12, 12, 16),
        (10, 13, 16),
    ] {
        let mut meant = two_domains(e, b);
        meant.memory.fill(99);
        assert_eq!(meant.play(&ADVANCE).0, answer, "E = {e}, B = {b}");
    }
    // What is held outside takes no entry: cells 1, 2 and 5.
    let mut meant = two_domains(10, 10);
    for cell in [1, 2, 5] {
        meant.cell(cell).fill(99);
    }
    assert_eq!(meant.work(&ADVANCE).need, 3 * 70 + 2);
}

/// What the next domain out holds stays as it stands there, read-only too.
#[test]
fn what_is_held_outside_stays() {
    let mut meant = two_domains(13, 13);
    let before = outside(meant.state());
    meant.memory.fill(99);
    done(&mut meant, &[ADVANCE]);
    let after = outside(meant.state());
    for (cell, held) in before {
        assert_eq!(after[&cell], held, "cell {cell}");
    }
    assert_eq!(after[&3].kept, Kept::Rule(SCALE));
    assert!(LACKING.iter().all(|cell| after[cell].read_write));
}

/// A notebook with memory of so many cells, all 7.
struct Noted {
    book: Notebook,
    memory: Vec<u8>,
}

impl Noted {
    fn new(cells: usize) -> Noted {
        Noted {
            book: Notebook::new(None),
            memory: vec![7; 64 * cells],
        }
    }

    fn done(&mut self, call: Call) -> Option<u64> {
        let memory = &self.memory;
        let count = self.book.call(&call, FULL, Ended::Done, 0, memory);
        count.unwrap().map(|count| count.differ)
    }

    fn write(&mut self, cell: usize, bytes: &[u8]) {
        self.memory[64 * cell..][..bytes.len()].copy_from_slice(bytes);
        self.book.write(64 * cell, bytes.len());
    }
}

/// The notebook's line, told by what a restore of the outer domain has to bring.
#[test]
fn the_notebook_counts_what_was_given() {
    let mut noted = Noted::new(2);
    for call in [Call::Create, Call::Create, Call::copy(0, 2, RW)] {
        noted.done(call);
    }
    noted.write(0, &[9; 64]);
    noted.done(ADVANCE);
    // Domain 1 is back at its point if both cells are 7.
    noted.memory.fill(7);
    assert_eq!(noted.done(restore(1)), Some(0));
    // It holds cell 0 read-write by then, so that a write is not spoilt; cell 1 did not change, was not
    // given, and its holder has ended.
    noted.write(0, &[5; 64]);
    noted.write(1, &[5; 64]);
    assert_eq!(noted.done(restore(1)), Some(64));
    // Its own advance takes the bytes of what it was given.
    noted.done(ADVANCE);
    assert_eq!(noted.done(restore(1)), Some(0));
}

/// The notebook has the state's holdings, with labels and bytes, before and after.
#[test]
fn the_notebook_agrees_with_the_state() {
    let mut meant = Meant::fresh(Sizes { m: 4, e: 8, b: 12 }, 7);
    let mut noted = Noted::new(4);
    let scale = pattern(SCALE).expect("a rule");
    let write = |meant: &mut Meant, noted: &mut Noted, cell: u32, bytes: &[u8]| {
        meant.cell(cell).copy_from_slice(bytes);
        noted.write(cell as usize, bytes);
    };
    write(&mut meant, &mut noted, 2, &scale);
    let calls = [
        Call::Create,
        Call::copy(0, 1, RO),
        Call::Create,
        Call::copy(0, 2, RW),
        Call::pattern(2, 1, SCALE, RW),
        Call::copy(3, 1, RW),
        ADVANCE,
        ADVANCE,
        Call::Commit { handle: 0 },
        ADVANCE,
    ];
    for (at, call) in calls.into_iter().enumerate() {
        if call == ADVANCE {
            // The last cell keeps its bytes.
            for cell in 0..3 {
                write(&mut meant, &mut noted, cell, &[90 + at as u8; 64]);
            }
        }
        assert_eq!(meant.play(&call).0, 0, "{call}");
        noted.done(call.clone());
        let agrees = noted.book.agrees_with(meant.state());
        assert_eq!(agrees, Ok(()), "after {call}");
    }
    let state = meant.state();
    let held: Vec<u32> = state.domains[0].cells.keys().copied().collect();
    assert_eq!(held, [0, 1, 2, 3]);
    each_difference_is_told(&noted.book, state);
}

/// Another label, other bytes, a cell less, a domain more: a notebook that agreed does so no more.
fn each_difference_is_told(book: &Notebook, state: &State) {
    let changes: [fn(&mut State); 4] = [
        |state| state.domains[0].cells.get_mut(&1).unwrap().read_write = false,
        |state| state.domains[0].cells.get_mut(&1).unwrap().kept = Kept::Copy([1; 64]),
        |state| _ = state.domains[0].cells.remove(&1),
        |state| state.domains.push(state.domains[0].clone()),
    ];
    for change in changes {
        let mut other = state.clone();
        change(&mut other);
        assert!(book.agrees_with(&other).is_err());
    }
}
