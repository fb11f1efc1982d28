//! The notebook's lines, one by one.

use domain_model::{Call, Ended, FULL, Notebook};

fn add(first: u32, label: u32) -> Call {
    Call::copy(first, 1, label)
}

struct Bench {
    book: Notebook,
    memory: Vec<u8>,
}

impl Bench {
    fn new() -> Bench {
        Bench {
            book: Notebook::new(None),
            memory: vec![0; 128],
        }
    }

    fn write(&mut self, cell: usize, byte: u8) {
        self.memory[64 * cell..64 * cell + 64].fill(byte);
        self.book.write(64 * cell, 64);
    }

    fn call(&mut self, call: Call, ended: Ended, steps: u64) -> Option<u64> {
        let budget = if ended == Ended::Stopped { 5 } else { FULL };
        self.book
            .call(&call, budget, ended, steps, &self.memory)
            .expect("known domains")
            .map(|c| c.differ)
    }

    fn done(&mut self, call: Call) -> Option<u64> {
        self.call(call, Ended::Done, 0)
    }
}

#[test]
fn a_restore_that_touches_nothing_is_counted() {
    let mut b = Bench::new();
    b.done(Call::Create);
    b.done(add(0, 1));
    b.write(0, 9);
    assert_eq!(b.done(Call::Restore { handle: 1 }), Some(64));
    b.memory[..64].fill(0);
    assert_eq!(b.done(Call::Restore { handle: 0 }), Some(0));
}

#[test]
fn writes_beside_read_write_cells_are_spoilt() {
    let mut b = Bench::new();
    b.done(Call::Create);
    b.done(add(0, 0));
    b.write(0, 9);
    b.write(1, 9);
    assert_eq!(b.done(Call::Restore { handle: 1 }), Some(0));
}

#[test]
fn a_domain_further_in_keeps_the_outer_ones_bytes_good() {
    let mut b = Bench::new();
    b.done(Call::Create);
    b.done(Call::Create);
    b.done(add(0, 1));
    b.write(0, 9);
    // Not spoilt for the outer domain, so it has to come back.
    assert_eq!(b.done(Call::Restore { handle: 1 }), Some(64));
}

#[test]
fn a_delete_spoils_for_the_domain_and_all_around_it() {
    let mut b = Bench::new();
    b.done(Call::Create);
    b.done(Call::Create);
    b.done(add(0, 1));
    b.write(0, 9);
    b.done(Call::delete(2, 0, 1));
    assert_eq!(b.done(Call::Restore { handle: 2 }), Some(0));
    assert_eq!(b.done(Call::Restore { handle: 1 }), Some(0));
}

#[test]
fn advance_takes_a_new_picture_and_spoilt_bytes_stay_spoilt() {
    let mut b = Bench::new();
    b.done(Call::Create);
    b.done(add(0, 1));
    b.write(0, 9);
    b.write(1, 5);
    b.done(Call::Advance { handle: 0 });
    assert_eq!(b.done(Call::Restore { handle: 1 }), Some(0));
    b.write(1, 6);
    b.write(0, 3);
    assert_eq!(b.done(Call::Restore { handle: 1 }), Some(64));
}

#[test]
fn commit_hands_the_label_on() {
    let mut b = Bench::new();
    b.done(Call::Create);
    b.done(add(0, 0));
    b.done(Call::Create);
    b.done(add(0, 1));
    b.done(Call::Commit { handle: 0 });
    b.write(0, 9);
    assert_eq!(b.done(Call::Restore { handle: 1 }), Some(64));
}

#[test]
fn a_stopped_call_waits_for_the_first_done_opening() {
    let mut b = Bench::new();
    b.call(Call::Create, Ended::Stopped, 0);
    b.call(Call::Open, Ended::Stopped, 1);
    assert!(b.book.handles().is_empty());
    b.call(Call::Open, Ended::Done, 4);
    assert_eq!(b.book.handles(), [1]);
    // Not made: the opening took no step, and the call does not wait any longer.
    b.call(Call::Create, Ended::Stopped, 0);
    b.call(Call::Open, Ended::Done, 0);
    b.call(Call::Open, Ended::Done, 4);
    assert_eq!(b.book.handles(), [1]);
}

#[test]
fn a_stopped_restore_leaves_inner_domains_uncounted_and_is_counted_itself_when_carried_out() {
    let mut b = Bench::new();
    b.done(Call::Create);
    b.done(add(0, 1));
    b.done(Call::Create);
    b.write(0, 9);
    b.call(Call::Restore { handle: 1 }, Ended::Stopped, 0);
    b.call(Call::Open, Ended::Done, 0);
    assert_eq!(b.done(Call::Restore { handle: 2 }), None, "uncounted");
    b.call(Call::Restore { handle: 1 }, Ended::Stopped, 0);
    assert_eq!(b.call(Call::Open, Ended::Done, 3), Some(64));
    assert_eq!(b.book.handles(), [1]);
}

#[test]
fn refused_calls_and_readings_do_nothing_and_make_starts_anew() {
    let mut b = Bench::new();
    b.done(Call::Create);
    b.call(Call::Create, Ended::Refused, 0);
    b.done(Call::List);
    b.done(Call::Look { handle: 1, cell: 0 });
    assert_eq!(b.book.handles(), [1]);
    b.book
        .call(&Call::Make, 0, Ended::Stopped, 0, &b.memory)
        .unwrap();
    assert_eq!(b.book.handles(), [1]);
    b.call(Call::Make, Ended::Stopped, 0);
    assert!(b.book.handles().is_empty());
    b.done(Call::Make);
    b.done(Call::Create);
    assert_eq!(b.book.handles(), [1]);
}
