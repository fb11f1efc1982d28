//! The edges on the lent buffers, and fixed cases at both ends of the sizes.

use crate::{agreed, fail, library};
use domain_model::calls::refusals;
use domain_model::edges::{Line as Edge, scripts};
use domain_model::rules::pattern;
use domain_model::{
    Buffers, Call, FULL, Lengths, Model, STOPPED, Sizes, Store, Verdict, plan, table,
};
use domain_sessions::StandIn;
use domain_sessions::check::{Checker, Line, Tally};
use domain_sessions::session::{Input, Made, Session};

/// The stand-in goes first, to show that a script itself is right; the account is the library's.
pub fn both(script: impl Fn(&mut Checker)) {
    for (store, counts) in [
        (Box::new(StandIn { fault: None }) as Box<dyn Store>, false),
        (library(), true),
    ] {
        let mut checker = Checker::new(&*store, Model::default());
        script(&mut checker);
        if counts {
            agreed(&checker.tally);
        }
    }
}

pub fn made(checker: &mut Checker, sizes: Sizes) -> Line {
    let mut line = Line::new(Buffers::any(sizes.lengths(), 5), checker.model);
    line.buffers.memory.fill(0);
    done(checker, &mut line, &Call::Make);
    line
}

/// Plays a session on the library, which has to do as the model says, and gives what was tried.
pub fn played(session: &Session) -> Tally {
    let store = library();
    let mut checker = Checker::new(&*store, Model::default());
    if let Err((at, m)) = session.play(&mut checker) {
        panic!("input {}: {}: {}", at + 1, m.call, m.what);
    }
    agreed(&checker.tally);
    checker.tally
}

/// An input of a session: a call, and one that is first cut at its joints.
pub fn plain(call: Call) -> Input {
    Input::Call(Made::with_budget(call, FULL))
}

pub fn cut(call: Call) -> Input {
    Input::Call(Made {
        every_cut: Some(11),
        ..Made::with_budget(call, FULL)
    })
}

/// A call that takes the lowest free places, in order of cell: so its stores, and what each cut leaves, are
/// known beforehand.
pub fn takes_the_lowest_places(checker: &Checker, line: &Line, call: &Call) {
    let model = Model::default();
    let reading = table::reading(&line.buffers.decode(None));
    let lengths = line.buffers.lengths();
    let verdict = model.verdict(lengths, &reading, &line.buffers.memory, call);
    let Verdict::Work(work) = verdict else {
        panic!("{call}: {verdict:?}");
    };
    let steps = plan::lowest(model, &line.buffers, call, &work).expect("places");
    let mut should = line.buffers.clone();
    for budget in 0..=steps.len() {
        let mut found = line.buffers.clone();
        let reply = checker.store.call(&mut found, call, budget as u64);
        let number = if budget < steps.len() { STOPPED } else { 0 };
        assert_eq!((reply.code, reply.steps), (number, budget as u64));
        assert_eq!(found.differs(&should), None, "{call} after {budget} steps");
        if let Some(step) = steps.get(budget) {
            step.apply(&mut should);
        }
    }
}

pub fn done(checker: &mut Checker, line: &mut Line, call: &Call) {
    let reply = checker.call(line, call, FULL).unwrap_or_else(|m| fail(m));
    assert_eq!(reply.code, 0, "{call}");
}

#[test]
fn every_edge() {
    both(|checker| {
        for script in scripts() {
            let name = script.name;
            let mut line = made(checker, script.sizes);
            for edge in &script.lines {
                match edge {
                    Edge::Fill(cell, byte) => line.buffers.write_cell(*cell, &[*byte; 64]),
                    Edge::Pattern(cell, rule) => {
                        let bytes = pattern(*rule).expect("a rule");
                        line.buffers.write_cell(*cell, &bytes);
                    }
                    Edge::Byte(at, byte) => line.buffers.memory[*at] = *byte,
                    Edge::Answers(call, answer) => {
                        checker
                            .every_cut(&line, call, 3)
                            .unwrap_or_else(|m| panic!("{name}: {}: {}", m.call, m.what));
                        let reply = checker
                            .call(&mut line, call, FULL)
                            .unwrap_or_else(|m| panic!("{name}: {}: {}", m.call, m.what));
                        assert_eq!(reply.code, *answer, "{name}: {call}");
                    }
                    Edge::Takes(call, steps) => {
                        checker
                            .every_cut(&line, call, 3)
                            .unwrap_or_else(|m| panic!("{name}: {}: {}", m.call, m.what));
                        // Steps that just suffice.
                        let reply = checker
                            .call(&mut line, call, *steps)
                            .unwrap_or_else(|m| panic!("{name}: {}: {}", m.call, m.what));
                        assert_eq!((reply.code, reply.steps), (0, *steps), "{name}: {call}");
                    }
                    Edge::CreateGives(handle) => {
                        let reply = checker
                            .call(&mut line, &Call::Create, FULL)
                            .unwrap_or_else(|m| panic!("{name}: {}: {}", m.call, m.what));
                        assert_eq!((reply.code, reply.handle), (0, *handle), "{name}");
                    }
                    Edge::See(cell, byte) => assert_eq!(
                        line.buffers.memory[64 * *cell as usize..][..64],
                        [*byte; 64],
                        "{name}"
                    ),
                    Edge::SeePattern(cell, rule) => assert_eq!(
                        line.buffers.memory[64 * *cell as usize..][..64],
                        pattern(*rule).expect("a rule"),
                        "{name}: cell {cell}"
                    ),
                    Edge::Looks(handle, cell, place, rule) => {
                        let look = Call::Look {
                            handle: *handle,
                            cell: *cell,
                        };
                        let reply = checker
                            .call(&mut line, &look, FULL)
                            .unwrap_or_else(|m| panic!("{name}: {}: {}", m.call, m.what));
                        let told = (reply.place, reply.rule);
                        assert_eq!(told, (*place, *rule), "{name}: {look}");
                    }
                    Edge::Live(n) => {
                        let reply = checker
                            .call(&mut line, &Call::List, FULL)
                            .unwrap_or_else(|m| panic!("{name}: {}", m.what));
                        assert_eq!(reply.count as usize, *n, "{name}");
                    }
                    Edge::Set(word, value) => {
                        line.buffers.table[*word] = *value;
                        line = Line::new(line.buffers.clone(), checker.model);
                    }
                }
            }
        }
    });
}

/// Every call on every length that is nearly right.
#[test]
fn lengths() {
    let calls = Call::one_of_each(0, 0);
    both(|checker| {
        let line = made(checker, Sizes { m: 2, e: 1, b: 1 });
        let right = line.buffers.lengths();
        let mut list = vec![right];
        list.extend([0, 1, 63, 65, 127, 129, 192].map(|memory| Lengths { memory, ..right }));
        list.extend(
            [0, 1, 63, 65, 128, 64 * 4096, 64 * 4096 + 1, 64 * 4097]
                .map(|bodies| Lengths { bodies, ..right }),
        );
        list.extend(
            [0, 1, 6, 15, 35, 36, 37, 41, 43, 48, 24_612, 24_613, 24_618]
                .map(|table| Lengths { table, ..right }),
        );
        list.extend([64 * 65_536, 64 * 65_537].map(|memory| Lengths { memory, ..right }));
        for lengths in list {
            // Four megabytes for each call are for one call only.
            let few = if lengths.memory > 1 << 20 {
                2
            } else {
                calls.len()
            };
            for call in &calls[..few] {
                let mut other = Line::new(line.buffers.resized(lengths), checker.model);
                let reply = checker
                    .call(&mut other, call, FULL)
                    .unwrap_or_else(|m| panic!("{lengths:?}: {}: {}", m.call, m.what));
                if lengths.sizes().is_none() {
                    assert_eq!(reply.code, 1, "{lengths:?}: {call}");
                }
            }
        }
    });
}

/// The largest store: nearly all entries and bodies in use, some calls cut at their joints.
#[test]
fn the_largest_store() {
    let stopped = |call, budget| {
        Input::Call(Made {
            openings: vec![3, 700],
            ..Made::with_budget(call, budget)
        })
    };
    let add = Call::add;
    let write = |at: usize, byte| Input::Write {
        at,
        bytes: vec![byte; 5000],
    };
    // Every cell that domain 2 holds read-write.
    let write_all = |byte| Input::Write {
        at: 64 * 65_000,
        bytes: vec![byte; 64 * 500],
    };
    let advance = || Call::Advance { handle: 2 };
    let session = Session {
        sizes: Sizes::LARGEST,
        fill: 77,
        inputs: vec![
            plain(Call::Make),
            plain(Call::Create),
            plain(add(0, 4097, 0, 1)),
            plain(add(65_000, 537, 0, 1)),
            cut(add(65_000, 536, 0, 1)),
            plain(add(100, 1500, 0, 0)),
            plain(Call::Create),
            plain(add(65_000, 500, 1, 1)),
            stopped(add(0, 1560, 0, 0), 64 * 1560 + 7000),
            plain(add(0, 1560, 0, 0)),
            plain(add(2000, 1, 0, 0)),
            plain(add(65_535, 1, 1, 1)),
            // Nothing has changed; then every cell, and the copies take the last free bodies.
            plain(advance()),
            write_all(9),
            plain(advance()),
            plain(advance()),
            write(64 * 65_100 + 3, 7),
            plain(advance()),
            plain(Call::delete(2, 1000, 560)),
            write_all(8),
            stopped(advance(), 64 * 500 + 2 * 1000 + 1),
            write(64 * 65_100 + 3, 9),
            cut(advance()),
            write(64 * 65_300 + 40, 8),
            plain(Call::Look {
                handle: 1,
                cell: 65_535,
            }),
            plain(Call::Restore { handle: 2 }),
            plain(Call::Commit { handle: 2 }),
            plain(Call::Restore { handle: 1 }),
            plain(Call::Create),
            plain(add(65_200, 300, 1, 1)),
            write(64 * 65_250, 7),
            cut(Call::Restore { handle: 1 }),
            stopped(Call::Commit { handle: 0 }, 9000),
        ],
    };
    let tally = played(&session);
    assert!(tally.entries > 3500, "most entries {}", tally.entries);
    // One add past memory, three without a free entry, each of them also as a list of one; one advance
    // of changed cells without free bodies; all else was done or stopped.
    let refused: Vec<(u32, u64)> = refusals()
        .map(|n| (n, tally.answered(n)))
        .filter(|(_, times)| *times > 0)
        .collect();
    let probes = (3, tally.answered(3));
    assert_eq!(
        refused
            .into_iter()
            .filter(|r| *r != probes)
            .collect::<Vec<_>>(),
        [(8, 2), (16, 6), (17, 1)]
    );
}

/// Only what the questions ask is asked: a store of the smallest sizes, every call cut at every
/// step.
#[test]
fn the_smallest_store() {
    both(|checker| {
        let mut line = made(checker, Sizes { m: 1, e: 1, b: 1 });
        for call in [
            Call::Create,
            Call::copy(0, 1, 0).on(1),
            Call::via_parent(0, 1, 1).on(1),
            Call::Create,
            Call::Restore { handle: 2 },
            Call::Commit { handle: 2 },
            Call::delete(1, 0, 1),
            Call::Advance { handle: 1 },
            Call::Restore { handle: 1 },
            Call::Commit { handle: 1 },
        ] {
            checker
                .every_cut(&line, &call, 1)
                .unwrap_or_else(|m| fail(m));
            done(checker, &mut line, &call);
        }
    });
}
