//! Every state that a small store can reach: every call in it, and every cut of that call; and inner
//! restores before outer ones.
//!
//! Random sessions find what they happen on; here nothing is left to chance. States that differ in
//! handles only are looked at once.

use crate::{agreed, library};
use domain_model::rules::{SCALE, ZEROS};
use domain_model::{Buffers, Call, FULL, Holding, Kept, Model, Notebook, Record, Sizes, Store};
use domain_sessions::check::{Checker, Line, Mismatch};
use domain_sessions::run::short;
use std::collections::{BTreeSet, VecDeque};

/// How a cell is kept: the kind, and the byte of a copy or the rule.
type How = (u8, u32);

type Key = (Vec<Vec<(u32, bool, How)>>, Vec<u8>);

fn key(line: &Line) -> Key {
    let state = line.state().expect("a store");
    let kept = |h: &Holding| match h.kept {
        Kept::Copy(bytes) => (0, bytes[0].into()),
        Kept::ViaParent => (1, 0),
        Kept::Rule(rule) => (2, rule),
    };
    let domains = state
        .domains
        .iter()
        .map(|d| {
            d.cells
                .iter()
                .map(|(c, h)| (*c, h.read_write, kept(h)))
                .collect()
        })
        .collect();
    (
        domains,
        line.buffers.memory.chunks(64).map(|c| c[0]).collect(),
    )
}

/// Every list of two records by every kind and label, and lists that are refused for their number.
fn lists(ranges: &[(u32, u32)]) -> Vec<Call> {
    let mut records = Vec::new();
    for (first, count) in ranges {
        for label in [0, 1] {
            records.push(Record::copy(*first, *count, label));
            records.push(Record::via_parent(*first, *count, label));
            records.push(Record::pattern(*first, *count, ZEROS, label));
        }
    }
    let pairs = |one: &Record| {
        let one = *one;
        records.iter().map(move |other| Call::ranges([one, *other]))
    };
    let mut calls: Vec<Call> = records.iter().flat_map(pairs).collect();
    calls.push(Call::ranges([]));
    calls.push(Call::ranges(vec![records[0]; 65]));
    calls
}

fn walk(
    store: &dyn Store,
    sizes: Sizes,
    most_live: usize,
) -> Result<(usize, Checker<'_>), Mismatch> {
    let mut checker = Checker::new(store, Model::default());
    let mut line = Line::new(Buffers::any(sizes.lengths(), 5), checker.model);
    line.buffers.memory.fill(0);
    checker.call(&mut line, &Call::Make, FULL)?;
    line.notebook = Some(Notebook::new(None));
    let mut seen: BTreeSet<Key> = BTreeSet::from([key(&line)]);
    let mut waiting = VecDeque::from([line]);
    while let Some(line) = waiting.pop_front() {
        checker.inner_first(&line, seen.len() as u64)?;
        let live = line.state().expect("a store").domains.clone();
        let mut calls = vec![
            Call::Create,
            Call::Open,
            Call::List,
            Call::Commit { handle: 0 },
            Call::Advance { handle: 0 },
        ];
        let ranges: Vec<(u32, u32)> = (0..sizes.m)
            .flat_map(|first| (1..=sizes.m - first).map(move |count| (first, count)))
            .collect();
        for (first, count) in &ranges {
            for label in [0, 1] {
                calls.push(Call::copy(*first, *count, label));
                calls.push(Call::via_parent(*first, *count, label));
                // The program writes zeros, which follow a rule, or ones, which follow none.
                calls.extend(
                    [ZEROS, SCALE, 4].map(|rule| Call::pattern(*first, *count, rule, label)),
                );
            }
        }
        // With more than one cell there are hundreds of lists: a seventh of them in each state, others in
        // the next.
        let apart = if sizes.m > 1 { 7 } else { 1 };
        let lists = lists(&ranges).into_iter().enumerate();
        let chosen = lists.filter(|(at, _)| (at + seen.len()).is_multiple_of(apart));
        calls.extend(chosen.map(|(_, list)| list));
        for handle in live.iter().map(|d| d.handle).chain([0, 1000]) {
            calls.push(Call::Restore { handle });
            for (first, count) in &ranges {
                calls.push(Call::delete(handle, *first, *count));
                calls.push(Call::Look {
                    handle,
                    cell: *first,
                });
            }
        }
        for call in calls {
            if call == Call::Create && live.len() >= most_live {
                continue;
            }
            checker.every_cut(&line, &call, seen.len() as u64)?;
            let mut after = line.clone();
            checker.call(&mut after, &call, FULL)?;
            if seen.insert(key(&after)) {
                waiting.push_back(after);
            }
        }
        // The program writes one of two bytes.
        for (cell, byte) in (0..sizes.m).flat_map(|cell| [(cell, 0), (cell, 1)]) {
            let mut after = line.clone();
            after.buffers.write_cell(cell, &[byte; 64]);
            let notebook = after.notebook.as_mut().expect("kept");
            notebook.write(64 * cell as usize, 64);
            if seen.insert(key(&after)) {
                waiting.push_back(after);
            }
        }
    }
    Ok((seen.len(), checker))
}

fn walked(list: &[(Sizes, usize)]) {
    let store = library();
    for (sizes, live) in list {
        match walk(&*store, *sizes, *live) {
            Ok((states, checker)) => {
                println!(
                    "every state with {sizes:?} and {live} domains at most: {states} states, {}",
                    short(&checker.tally)
                );
                agreed(&checker.tally);
            }
            Err(m) => panic!("{sizes:?}: {}: {}", m.call, m.what),
        }
    }
}

#[test]
fn every_state_of_a_small_store() {
    walked(&[
        (Sizes { m: 1, e: 1, b: 1 }, 2),
        (Sizes { m: 1, e: 2, b: 2 }, 3),
    ]);
}

/// Minutes: more entries, more domains, and a second cell.
#[test]
#[ignore = "takes minutes"]
fn every_state_of_larger_small_stores() {
    walked(&[
        (Sizes { m: 1, e: 4, b: 3 }, 4),
        (Sizes { m: 2, e: 3, b: 3 }, 2),
    ]);
}
