//! Makes a failing session short: drops inputs and records of lists, takes out cuts and damage, lowers
//! numbers.

use crate::check::{Checker, Mismatch};
use crate::session::{Input, Made, Session};
use domain_model::{Call, FULL, Record, Sizes};
use std::time::{Duration, Instant};

/// A failing session made short, with the place of the failure and what differs there.
pub struct Shrunk {
    pub session: Session,
    pub at: usize,
    pub mismatch: Mismatch,
    pub tries: u64,
}

struct Shrinker<'a> {
    like: &'a Checker<'a>,
    best: Shrunk,
    until: Instant,
}

/// Shrinks a session that fails with a checker like this one.
pub fn shrink(
    like: &Checker,
    session: &Session,
    at: usize,
    mismatch: Mismatch,
    time: Duration,
) -> Shrunk {
    let best = Shrunk {
        session: session.clone(),
        at,
        mismatch,
        tries: 0,
    };
    let mut shrinker = Shrinker {
        like,
        best,
        until: Instant::now() + time,
    };
    // Nothing after the failure matters.
    let mut cut_off = shrinker.best.session.clone();
    cut_off.inputs.truncate(at + 1);
    shrinker.fails(cut_off);
    loop {
        let before = shrinker.best.session.clone();
        shrinker.drop_inputs();
        shrinker.lower_inputs();
        shrinker.lower_cells();
        shrinker.lower_sizes();
        if shrinker.best.session == before || Instant::now() > shrinker.until {
            return shrinker.best;
        }
    }
}

impl Shrinker<'_> {
    /// Plays a smaller session; keeps it if it still fails.
    fn fails(&mut self, session: Session) -> bool {
        if session == self.best.session || Instant::now() > self.until {
            return false;
        }
        self.best.tries += 1;
        let mut checker = Checker {
            counts_only: self.like.counts_only,
            ..Checker::new(self.like.store, self.like.model)
        };
        match session.play(&mut checker) {
            Ok(()) => false,
            Err((at, mismatch)) => {
                let mut session = session;
                session.inputs.truncate(at + 1);
                self.best = Shrunk {
                    session,
                    at,
                    mismatch,
                    tries: self.best.tries,
                };
                true
            }
        }
    }

    fn drop_inputs(&mut self) {
        let mut run = self.best.session.inputs.len().next_power_of_two() / 2;
        while run > 0 {
            let mut from = 0;
            while from < self.best.session.inputs.len() {
                let mut session = self.best.session.clone();
                let to = (from + run).min(session.inputs.len());
                session.inputs.drain(from..to);
                if !self.fails(session) {
                    from += run;
                }
            }
            run /= 2;
        }
    }

    fn lower_inputs(&mut self) {
        let mut at = 0;
        while at < self.best.session.inputs.len() {
            // Each simpler form is tried until none of them fails any more.
            let mut again = true;
            while again {
                again = false;
                let Some(input) = self.best.session.inputs.get(at).cloned() else {
                    break;
                };
                for simpler in simpler(&input) {
                    let mut session = self.best.session.clone();
                    session.inputs[at] = simpler;
                    if self.fails(session) {
                        again = true;
                        break;
                    }
                }
            }
            at += 1;
        }
    }

    /// Lowers the numbers of all cells together: a write and an add of the same cell have to move
    /// both.
    fn lower_cells(&mut self) {
        for by in [32, 8, 2, 1] {
            loop {
                let mut session = self.best.session.clone();
                let moved = session
                    .inputs
                    .iter_mut()
                    .all(|input| move_cells(input, by).is_some());
                if !moved || !self.fails(session) {
                    break;
                }
            }
        }
    }

    fn lower_sizes(&mut self) {
        let lower = |n: u32| {
            [1, n / 2, n.saturating_sub(1)]
                .into_iter()
                .filter(move |v| *v >= 1 && *v < n)
        };
        let mut again = true;
        while again {
            again = false;
            let Sizes { m, e, b } = self.best.session.sizes;
            let sizes = lower(m)
                .map(|m| Sizes { m, e, b })
                .chain(lower(e).map(|e| Sizes { m, e, b }))
                .chain(lower(b).map(|b| Sizes { m, e, b }));
            for sizes in sizes.collect::<Vec<Sizes>>() {
                let session = Session {
                    sizes,
                    ..self.best.session.clone()
                };
                if self.fails(session) {
                    again = true;
                    break;
                }
            }
        }
        let session = Session {
            fill: 0,
            ..self.best.session.clone()
        };
        self.fails(session);
    }
}

/// Moves the cells that an input names; None if one of them would fall below 0.
fn move_cells(input: &mut Input, by: u32) -> Option<()> {
    match input {
        Input::Write { at, .. } => *at = at.checked_sub(64 * by as usize)?,
        Input::Call(made) => match &mut made.call {
            Call::AddRanges { records, .. } => {
                for record in records {
                    record.first = record.first.checked_sub(by)?;
                }
            }
            call => {
                if let [_, Some(first), ..] = call.numbers_mut() {
                    *first = first.checked_sub(by)?;
                }
            }
        },
        Input::Damaged { .. } | Input::InnerFirst { .. } | Input::Lengths { .. } => {}
    }
    Some(())
}

fn lower(n: u32) -> Vec<u32> {
    let mut list = vec![0, 1, n / 2, n.saturating_sub(1)];
    list.retain(|v| *v < n);
    list.dedup();
    list
}

/// A list with fewer records, or with one that is simpler; a list of one as the plain add.
fn simpler_list(handle: u32, records: &[Record]) -> Vec<Call> {
    let mut list = Vec::new();
    let with = |records: Vec<Record>| Call::AddRanges { handle, records };
    if let [record] = *records {
        list.push(Call::Add { handle, record });
    }
    // One number of all of them, which a long list needs: all but the last, and all.
    for many in [records.len(), records.len().saturating_sub(1)] {
        for (place, number) in [(1, 1), (0, 0), (2, 0), (3, 0), (4, 0)] {
            let mut same = records.to_vec();
            for record in &mut same[..many] {
                let found = &mut record.numbers_mut()[place];
                **found = number.min(**found);
            }
            if same != records {
                list.push(with(same));
            }
        }
    }
    // Many at a time, and then each of them.
    let mut run = records.len() / 2;
    while run > 1 {
        for from in (0..records.len()).step_by(run) {
            let mut fewer = records.to_vec();
            fewer.drain(from..(from + run).min(records.len()));
            list.push(with(fewer));
        }
        run /= 2;
    }
    list.extend(fewer(records).map(with));
    for (at, record) in records.iter().enumerate() {
        let (mut numbers, places) = (*record, [1, 0, 2, 3]);
        for place in places {
            let found = *numbers.numbers_mut()[place];
            for number in lower(found) {
                let mut records = records.to_vec();
                *records[at].numbers_mut()[place] = number;
                list.push(with(records));
            }
        }
    }
    list
}

fn simpler_call(call: &Call) -> Vec<Call> {
    let mut list = Vec::new();
    if let Call::AddRanges { handle, records } = call {
        list.extend(simpler_list(*handle, records));
    }
    // A number that the call does not have is 0, below which there is none. The label stays.
    let order = match call {
        Call::Look { .. } => [0, 1, 2, 3, 4],
        _ => [2, 1, 0, 3, 4],
    };
    for at in order {
        for number in lower(call.clone().numbers()[at]) {
            let mut simpler = call.clone();
            if let Some(place) = &mut simpler.numbers_mut()[at] {
                **place = number;
            }
            list.push(simpler);
        }
    }
    list
}

/// Forms of a call that say less.
fn simpler_made(made: &Made) -> Vec<Made> {
    let mut list = Vec::new();
    if made.every_cut.is_some() {
        list.push(Made {
            every_cut: None,
            ..made.clone()
        });
    }
    if made.budget != FULL {
        list.push(Made {
            budget: FULL,
            openings: Vec::new(),
            ..made.clone()
        });
        let lowered = [0, made.budget / 2, made.budget.saturating_sub(1)];
        let lowered = lowered.into_iter().filter(|budget| *budget < made.budget);
        list.extend(lowered.map(|budget| Made {
            budget,
            ..made.clone()
        }));
    }
    list.extend(fewer(&made.openings).map(|openings| Made {
        openings,
        ..made.clone()
    }));
    list.extend(simpler_call(&made.call).into_iter().map(|call| Made {
        call,
        ..made.clone()
    }));
    list
}

/// The same list without one of its elements, each in turn.
fn fewer<T: Clone>(all: &[T]) -> impl Iterator<Item = Vec<T>> {
    (0..all.len()).map(|drop| {
        let mut fewer = all.to_vec();
        fewer.remove(drop);
        fewer
    })
}

/// A few low seeds in place of this one: they are easier to read.
fn lower_seed(seed: u64) -> impl Iterator<Item = u64> {
    (0..8).filter(move |low| *low < seed)
}

fn simpler_damaged(edits: &[(usize, u32)], seed: u64, then: &[(Call, u64)]) -> Vec<Input> {
    let mut list = Vec::new();
    let mut push = |edits: &[(usize, u32)], seed: u64, then: &[(Call, u64)]| {
        list.push(Input::Damaged {
            edits: edits.to_vec(),
            seed,
            then: then.to_vec(),
        });
    };
    fewer(edits).for_each(|edits| push(&edits, seed, then));
    fewer(then).for_each(|then| push(edits, seed, &then));
    lower_seed(seed).for_each(|seed| push(edits, seed, then));
    for (at, (call, budget)) in then.iter().enumerate() {
        let mut replace = |call: Call, budget: u64| {
            let mut then = then.to_vec();
            then[at] = (call, budget);
            push(edits, seed, &then);
        };
        if *budget != FULL {
            replace(call.clone(), FULL);
        }
        for simple in simpler_call(call) {
            replace(simple, *budget);
        }
    }
    list
}

/// Memory as it is, or of ones.
fn simpler_inner_first(fill: Option<u8>, seed: u64) -> Vec<Input> {
    let mut fills = Vec::new();
    if let Some(byte) = fill {
        fills.push(None);
        fills.extend((byte > 1).then_some(Some(1)));
    }
    let filled = fills.into_iter().map(|fill| (fill, seed));
    let simpler = filled.chain(lower_seed(seed).map(|seed| (fill, seed)));
    simpler
        .map(|(fill, seed)| Input::InnerFirst { fill, seed })
        .collect()
}

/// Forms of an input that say less.
fn simpler(input: &Input) -> Vec<Input> {
    let mut list = Vec::new();
    match input {
        Input::Write { at, bytes } => {
            if bytes.len() != 64 || at % 64 != 0 || bytes.iter().any(|b| *b != bytes[0]) {
                list.push(Input::Write {
                    at: at / 64 * 64,
                    bytes: vec![bytes[0]; 64],
                });
            }
            // A rule's bytes over several cells: over the first of them alone, or over all but one.
            if at % 64 == 0 && bytes.len() > 64 {
                for len in [64, (bytes.len() - 1) / 64 * 64] {
                    list.push(Input::Write {
                        at: *at,
                        bytes: bytes[..len].to_vec(),
                    });
                }
            }
            if bytes[0] > 1 && bytes.len() == 64 {
                list.push(Input::Write {
                    at: *at,
                    bytes: vec![1; 64],
                });
            }
            if at % 64 == 0 {
                list.extend(lower((at / 64) as u32).into_iter().map(|c| Input::Write {
                    at: 64 * c as usize,
                    bytes: bytes.clone(),
                }));
            }
        }
        Input::Call(made) => list.extend(simpler_made(made).into_iter().map(Input::Call)),
        Input::Damaged { edits, seed, then } => list.extend(simpler_damaged(edits, *seed, then)),
        Input::InnerFirst { fill, seed } => list.extend(simpler_inner_first(*fill, *seed)),
        Input::Lengths { .. } => {}
    }
    list
}
