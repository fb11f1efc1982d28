//! Request A.2 by hand: which cells an advance copies, its steps, its room, and what each cut leaves.
//! The next domain out holds every cell, so that nothing is given to it.

mod meant;

use domain_model::calls::{READ_ONLY as RO, READ_WRITE as RW};
use domain_model::rules::{SCALE, ZEROS};
use domain_model::{Bytes, Call, Ended, FULL, Kept, Notebook, Reading, Sizes, State};
use meant::Meant;

const ADVANCE: Call = Call::Advance { handle: 0 };

/// Domain 1 holds cells 0 to 6 as copies, read-write. Domain 2 holds 0 and 1 via parent, 2 and 3 by
/// rules, 4 and 5 as copies, all read-write, and 6 as a copy, read-only. So ten copies are in use, and
/// `free` bodies are not.
fn two_domains(free: u32) -> Meant {
    let mut meant = Meant::fresh(
        Sizes {
            m: 7,
            e: 14,
            b: 10 + free,
        },
        0,
    );
    meant.follow(3, SCALE);
    for call in [
        Call::Create,
        Call::copy(0, 7, RW),
        Call::Create,
        Call::via_parent(0, 2, RW),
        Call::pattern(2, 1, ZEROS, RW),
        Call::pattern(3, 1, SCALE, RW),
        Call::copy(4, 2, RW),
        Call::copy(6, 1, RO),
    ] {
        assert_eq!(meant.play(&call).0, 0, "{call}");
    }
    assert_eq!(meant.state().copies(), 10);
    meant
}

/// How the innermost domain holds each cell.
fn kinds(state: &State) -> Vec<Kept> {
    let inner = state.domains.last().expect("live");
    inner.cells.values().map(|held| held.kept).collect()
}

fn state_of(reading: &Reading) -> (&State, u32) {
    match reading {
        Reading::Store { state, pending } => (state, *pending),
        other => panic!("{other:?}"),
    }
}

/// Every set of changed cells: each is copied, the others keep kind and body; 70k + 2 steps, or none.
#[test]
fn every_set_of_changed_cells() {
    for set in 0..1u32 << 7 {
        let mut meant = two_domains(6);
        let changed: Vec<u32> = (0..7).filter(|cell| set >> cell & 1 == 1).collect();
        for &cell in &changed {
            // One byte, at either end or between.
            let byte = [0, 63, 31][cell as usize % 3];
            meant.cell(cell)[byte] ^= 0x40;
        }
        // Cell 6 is read-only.
        let copied: Vec<u32> = changed.into_iter().filter(|cell| *cell != 6).collect();
        let k = copied.len() as u64;
        let work = meant.work(&ADVANCE);
        let need = if k == 0 { 0 } else { 70 * k + 2 };
        assert_eq!((work.need, work.words), (need, 2 * k), "{copied:?}");
        let taken: Vec<u32> = work.taken.iter().map(|(cell, _)| *cell).collect();
        assert_eq!(taken, copied);

        let before = kinds(meant.state());
        let mut after = before.clone();
        for &cell in &copied {
            let now: Bytes = (&*meant.cell(cell)).try_into().unwrap();
            after[cell as usize] = Kept::Copy(now);
        }
        for steps in 0..=need {
            // 64k bytes, 4k words of pairs, and word 6: from there on the advance is made.
            let made = steps == need || steps > 68 * k;
            let reading = work.reading_after(&meant.reading, steps);
            let (state, pending) = state_of(&reading);
            let waiting = if made && steps < need { 2 * k } else { 0 };
            assert_eq!(u64::from(pending), waiting, "after {steps} steps");
            let should = if made { &after } else { &before };
            assert_eq!(&kinds(state), should, "{copied:?} after {steps} steps");
            let labels = state.domains[1].cells.values();
            let read_write: Vec<bool> = labels.map(|held| held.read_write).collect();
            assert_eq!(read_write, [true, true, true, true, true, true, false]);
        }
        // Nothing has changed since: an advance takes no step, and a restore brings all of this.
        let memory = meant.memory.clone();
        meant.carry_out(&work);
        assert_eq!(meant.work(&ADVANCE).need, 0);
        meant.memory.fill(77);
        assert_eq!(meant.play(&Call::Restore { handle: 2 }).0, 0);
        // Cell 6 comes back as it was held at first.
        assert_eq!(meant.memory[..64 * 6], memory[..64 * 6], "{copied:?}");
        assert_eq!(*meant.cell(6), [0; 64]);
    }
}

/// Question 17 counts the changed read-write cells: exactly enough bodies, and one too few.
#[test]
fn room_for_the_changed_cells() {
    for k in 0..=6u32 {
        for (free, answer) in [(k, 0), (k.saturating_sub(1), 17)] {
            let mut meant = two_domains(free);
            for cell in (0..k).chain([6]) {
                meant.cell(cell)[63] ^= 1;
            }
            let answer = if k == 0 { 0 } else { answer };
            assert_eq!(meant.play(&ADVANCE).0, answer, "{k} changed, {free} free");
        }
    }
}

/// Without a changed cell the call is done at every budget.
#[test]
fn nothing_changed_at_budget_0() {
    let meant = two_domains(0);
    let verdict = meant.verdict(&ADVANCE);
    for budget in [0, 1, FULL] {
        let reply = verdict.reply(&ADVANCE, None, budget).unwrap();
        assert_eq!((reply.code, reply.steps), (0, 0));
    }
}

/// Written and written back is unchanged, whatever holds the cell.
#[test]
fn written_back() {
    let mut meant = two_domains(0);
    let memory = meant.memory.clone();
    meant.memory.fill(9);
    assert_eq!(meant.play(&ADVANCE).0, 17);
    meant.memory.copy_from_slice(&memory);
    assert_eq!(meant.work(&ADVANCE).need, 0);
}

/// The held value counts, not the next domain out's: like either of them, and like neither.
#[test]
fn compared_with_the_held_value() {
    let mut meant = Meant::fresh(Sizes { m: 1, e: 4, b: 4 }, 7);
    meant.play(&Call::Create);
    meant.play(&Call::copy(0, 1, RW));
    meant.memory.fill(9);
    meant.play(&Call::Create);
    meant.play(&Call::copy(0, 1, RW));
    for (byte, need) in [(9, 0), (7, 72), (8, 72)] {
        meant.memory.fill(byte);
        assert_eq!(meant.work(&ADVANCE).need, need, "memory of {byte}");
    }
}

/// The notebook does not know which cells a store copies: the picture and the read-write cells take
/// memory's bytes in every case.
#[test]
fn the_point_moves_in_every_case() {
    let mut memory = vec![0; 128];
    let mut book = Notebook::new(None);
    let done = |book: &mut Notebook, call, memory: &[u8]| {
        book.call(&call, FULL, Ended::Done, 0, memory).unwrap()
    };
    done(&mut book, Call::Create, &memory);
    done(&mut book, Call::copy(0, 1, RW), &memory);
    // Bytes that nobody holds become others without a program write, which no list of inputs does:
    // they show that the picture is taken anew though no held cell has changed.
    memory[64..].fill(5);
    let count = book.zero_count(1, &memory).unwrap().expect("counted");
    assert_eq!(count.differ, 64);
    done(&mut book, ADVANCE, &memory);
    let count = book.zero_count(1, &memory).unwrap().expect("counted");
    assert_eq!((count.differ, count.looked_at), (0, 128));
}
