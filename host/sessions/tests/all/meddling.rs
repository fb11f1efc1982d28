//! A right store with one small thing done to the buffers after a call: the comparison has to see
//! each of them.

use crate::found;
use domain_model::calls::PATTERN;
use domain_model::reply::{BY_RULE, IN_BODIES};
use domain_model::{Buffers, Call, Record, Reply, STOPPED, Store};
use domain_sessions::StandIn;
use domain_sessions::run::{Plan, run};
use std::time::Duration;

/// What is done after a call.
type Meddle = fn(&mut Buffers, &Call, &mut Reply);

struct Meddler {
    meddle: Meddle,
}

impl Store for Meddler {
    fn call(&self, buffers: &mut Buffers, call: &Call, budget: u64) -> Reply {
        let mut reply = StandIn { fault: None }.call(buffers, call, budget);
        (self.meddle)(buffers, call, &mut reply);
        reply
    }
}

fn flip<T: Copy>(at: &mut [T], place: usize, change: impl Fn(T) -> T) {
    if let Some(value) = at.get_mut(place) {
        *value = change(*value);
    }
}

/// A store one element past a buffer, as C code could make it.
fn past<T: Copy>(buffer: &mut [T], change: impl Fn(T) -> T) {
    // The guards lie in the same allocation, so the place is there.
    unsafe {
        let place = buffer.as_mut_ptr().add(buffer.len());
        *place = change(*place);
    }
}

/// A store one element before a buffer.
fn before<T: Copy>(buffer: &mut [T], change: impl Fn(T) -> T) {
    // The guards lie in the same allocation, so the place is there.
    unsafe {
        let place = buffer.as_mut_ptr().sub(1);
        *place = change(*place);
    }
}

/// An advance that was done and copied nothing.
fn is_still(call: &Call, reply: &Reply) -> bool {
    matches!(call, Call::Advance { .. }) && (reply.code, reply.steps) == (0, 0)
}

/// Whether an advance that was done gave a cell: it took more than 70k + 2 steps.
fn gave(reply: &Reply) -> bool {
    reply.code == 0 && reply.steps > 0 && reply.steps % 70 != 2
}

#[test]
fn each_small_thing_is_seen() {
    let list: [(&str, Meddle); 32] = [
        ("one byte past memory", |b, c, _| {
            if matches!(c, Call::Restore { .. }) {
                past(&mut b.memory, |v| v ^ 1)
            }
        }),
        ("one byte before memory", |b, c, _| {
            if matches!(c, Call::Restore { .. }) {
                before(&mut b.memory, |v| v ^ 1)
            }
        }),
        ("one byte past the bodies", |b, c, _| {
            if matches!(c, Call::Advance { .. }) {
                past(&mut b.bodies, |v| v ^ 1)
            }
        }),
        ("one byte before the bodies", |b, c, _| {
            if matches!(c, Call::Advance { .. }) {
                before(&mut b.bodies, |v| v ^ 1)
            }
        }),
        ("one word past the table", |b, c, _| {
            if *c == Call::Make {
                past(&mut b.table, |v| v ^ 1)
            }
        }),
        ("one word before the table", |b, c, _| {
            if *c == Call::Open {
                before(&mut b.table, |v| v ^ 1)
            }
        }),
        ("a spare pair in a refused call", |b, _, r| {
            let last = b.table.len().saturating_sub(1);
            if r.code == 17 {
                flip(&mut b.table, last, |v| v ^ 1);
            }
        }),
        ("a body byte in a refused call", |b, _, r| {
            if r.code == 12 {
                flip(&mut b.bodies, 0, |v| v ^ 1)
            }
        }),
        ("a memory byte in a look", |b, c, _| {
            if matches!(c, Call::Look { .. }) {
                flip(&mut b.memory, 63, |v| v ^ 1)
            }
        }),
        ("a spare pair in a stopped opening", |b, c, r| {
            let last = b.table.len().saturating_sub(1);
            if *c == Call::Open && r.code == STOPPED {
                flip(&mut b.table, last, |v| v ^ 1);
            }
        }),
        ("a body byte in a delete", |b, c, r| {
            let last = b.bodies.len().saturating_sub(1);
            if matches!(c, Call::Delete { .. }) && r.code == 0 {
                flip(&mut b.bodies, last, |v| v ^ 1);
            }
        }),
        ("a stopped create that tells a handle", |_, c, r| {
            if *c == Call::Create && r.code == STOPPED {
                r.handle = 1
            }
        }),
        ("steps told by a refused call", |_, _, r| {
            if r.code == 13 {
                r.steps = 1
            }
        }),
        ("steps told by an advance without entries", |_, c, r| {
            if matches!(c, Call::Advance { .. }) && r.code == 16 {
                r.steps = 1
            }
        }),
        ("a spare pair in an advance without entries", |b, c, r| {
            let last = b.table.len().saturating_sub(1);
            if matches!(c, Call::Advance { .. }) && r.code == 16 {
                flip(&mut b.table, last, |v| v ^ 1);
            }
        }),
        ("the label of what an advance gave", |b, c, r| {
            if matches!(c, Call::Advance { .. }) && gave(r) {
                let entries = b.table[16..].iter_mut().step_by(2);
                let mut outer = entries.filter(|first| **first >> 27 == 0b11);
                if let Some(first) = outer.next() {
                    *first ^= 1 << 27;
                }
            }
        }),
        ("a handle left over in a list", |_, c, r| {
            if *c == Call::List && r.code == 0 && r.count < 8 {
                r.handles[7] = 9
            }
        }),
        ("a place told by a refused look", |_, c, r| {
            if matches!(c, Call::Look { .. }) && r.code == 5 {
                r.place = 1
            }
        }),
        ("a rule told by a refused look", |_, c, r| {
            if matches!(c, Call::Look { .. }) && r.code == 8 {
                r.rule = 3
            }
        }),
        ("a rule told beside a part of bodies", |_, _, r| {
            if r.place == IN_BODIES {
                r.rule = 1
            }
        }),
        ("a look that tells another rule", |_, _, r| {
            if r.place == BY_RULE {
                r.rule ^= 1
            }
        }),
        ("an offset told beside a rule", |_, _, r| {
            if r.place == BY_RULE {
                r.offset = 64
            }
        }),
        ("a body byte in an advance of no step", |b, c, r| {
            let last = b.bodies.len().saturating_sub(1);
            if is_still(c, r) {
                flip(&mut b.bodies, last, |v| v ^ 1);
            }
        }),
        ("a spare pair in an advance of no step", |b, c, r| {
            let last = b.table.len().saturating_sub(1);
            if is_still(c, r) {
                flip(&mut b.table, last, |v| v ^ 1);
            }
        }),
        (
            "an advance of no step that is told as stopped",
            |_, c, r| {
                if is_still(c, r) {
                    r.code = STOPPED
                }
            },
        ),
        ("a body byte in an add by a rule", |b, c, r| {
            let by_rule = |record: &Record| record.kind == PATTERN;
            if matches!(c, Call::Add { record, .. } if by_rule(record)) && r.code == 0 {
                flip(&mut b.bodies, 0, |v| v ^ 1);
            }
        }),
        ("a body byte in a list without copies", |b, c, r| {
            let copies = |records: &[Record]| records.iter().any(|record| record.kind == 0);
            let last = b.bodies.len().saturating_sub(1);
            if let Call::AddRanges { records, .. } = c
                && r.code == 0
                && !copies(records)
            {
                flip(&mut b.bodies, last, |v| v ^ 1);
            }
        }),
        ("a spare pair in a list of too many records", |b, _, r| {
            let last = b.table.len().saturating_sub(1);
            if r.code == 20 {
                flip(&mut b.table, last, |v| v ^ 1);
            }
        }),
        ("a body byte in a list that is refused late", |b, c, r| {
            if let Call::AddRanges { records, .. } = c
                && records.len() > 1
                && r.code == 18
            {
                flip(&mut b.bodies, 0, |v| v ^ 1);
            }
        }),
        ("steps told by a refused list", |_, c, r| {
            if matches!(c, Call::AddRanges { .. }) && r.code == 16 {
                r.steps = 8
            }
        }),
        ("a list of several that stores one byte more", |b, c, r| {
            if let Call::AddRanges { records, .. } = c
                && records.len() > 1
                && r.code == STOPPED
            {
                let last = b.bodies.len().saturating_sub(1);
                flip(&mut b.bodies, last, |v| v ^ 1);
            }
        }),
        ("a store beside an out parameter", |_, c, r| {
            if matches!(c, Call::Commit { .. }) {
                r.strayed = true
            }
        }),
    ];
    for (name, meddle) in list {
        let plan = Plan {
            shrink_for: Duration::ZERO,
            ..Plan::sessions(9, 400)
        };
        let (tally, failure) = run(&Meddler { meddle }, plan);
        let failure =
            failure.unwrap_or_else(|| panic!("{name}: not seen in {} calls", tally.calls()));
        println!(
            "{name}: seen in session {}, call {}: {}",
            failure.session,
            tally.calls(),
            failure.shrunk.mismatch.what
        );
    }
    found(list.len(), list.len(), "stray stores and wrong answers");
}
