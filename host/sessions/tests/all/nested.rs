//! Request A.5 on random tables that open: an inner domain restored before one around it leaves what that
//! one's restore leaves alone, twice is once, and a cut between changes nothing. And that the check can
//! fail: it finds errors of a restore with no model beside it.

use crate::edges::plain;
use crate::faults::missed;
use crate::{agreed, library};
use domain_model::table::PENDING;
use domain_model::{Buffers, Call, FULL, Fault, Kept, Model, Reply, Sizes, Store};
use domain_sessions::check::{Checker, Tally};
use domain_sessions::nested::{Effort, Nested, try_on};
use domain_sessions::run::nested;
use domain_sessions::session::{Input, Session};
use domain_sessions::shrink::shrink;
use domain_sessions::{StandIn, tables};
use std::time::Duration;

/// Seed of the first table; the others follow.
const SEED: u64 = 20_261_116;

/// Tries the promise on so many tables: what was met, or the first table on which it is broken.
fn tried(store: &dyn Store, tables: u64) -> Result<Nested, String> {
    let mut tally = Nested::default();
    for seed in SEED..SEED + tables {
        let table = tables::random(seed);
        try_on(store, &table, seed, Effort::WHOLE, &mut tally)
            .map_err(|what| format!("table {}: {what}", seed - SEED + 1))?;
    }
    Ok(tally)
}

/// The promise on the library: no table breaks it, and every situation is met.
#[test]
fn inner_first_outer_after() {
    let met = tried(&*library(), 1500).unwrap_or_else(|what| panic!("{what}"));
    print!("{}", nested(&met));
    assert!(met.tables == 1500 && met.opened >= 400);
    assert!(met.pairs >= 5_000 && met.by_zero >= 1_000 && met.other_memory >= 3_000);
    assert!(met.inside_alone >= 1_000 && met.other_value >= 1_000);
    assert!(met.rules >= 1_000 && met.outward >= 200 && met.spare_pairs >= 1_000);
    assert!(met.twice >= 5_000 && met.twice_by_zero >= 2_000);
    assert!(met.not_made >= 50_000 && met.made >= 10_000 && met.stopped_openings >= 5_000);
    assert!(met.around >= 50_000 && met.again >= 20_000);
    agreed(&Tally {
        nested: met,
        ..Tally::default()
    });
}

/// Errors of a restore, with no model to compare with: the promise alone tells them.
#[test]
fn errors_of_a_restore_are_found_by_inner_first_alone() {
    let place = "in a store by inner first alone";
    let missed = missed(place, &Fault::INNER_SHOWS, |fault| {
        tried(&StandIn { fault: Some(fault) }, 300).err()
    });
    assert!(missed.is_empty(), "not found: {missed:?}");
    // Where nobody is ended, or all begins one domain too far in, the outer one's restore is as wrong
    // alone as after an inner one: the plain comparison finds these, and the promise cannot.
    for fault in Fault::INNER_HIDDEN {
        let found = tried(&StandIn { fault: Some(fault) }, 60).err();
        assert_eq!(found, None, "{fault:?}");
    }
    // With no error on there is nothing to find.
    assert_eq!(tried(&StandIn { fault: None }, 60).err(), None);
}

/// A restore that ends the named domain too and, where a handle is dead, is done with nothing: so its second
/// restore by handle tells nothing.
struct EndsNamed;

impl Store for EndsNamed {
    fn call(&self, buffers: &mut Buffers, call: &Call, budget: u64) -> Reply {
        let fault = Some(Fault::RestoreEndsNamed);
        let reply = StandIn { fault }.call(buffers, call, budget);
        match (call, reply.code) {
            (Call::Restore { .. }, 5) => Reply::default(),
            _ => reply,
        }
    }
}

/// Where the named domain is ended too, its handle is refused the second time, and 0 means the next
/// domain out.
#[test]
fn ending_the_named_domain_shows_by_either_name() {
    let fault = Some(Fault::RestoreEndsNamed);
    let by_handle = tried(&StandIn { fault }, 300).expect_err("found");
    assert!(by_handle.contains("is refused by 5"), "{by_handle}");
    let by_zero = tried(&EndsNamed, 300).expect_err("found");
    assert!(by_zero.contains("then restore 0: "), "{by_zero}");
    println!("by the handle, {by_handle}; by 0, {by_zero}");
}

/// Some calls, and then an input that tries the promise.
fn session_with(input: Input) -> Session {
    let calls = [
        Call::Make,
        Call::Create,
        Call::copy(0, 2, 1),
        Call::Create,
        Call::copy(1, 1, 0),
    ];
    Session {
        sizes: Sizes { m: 4, e: 8, b: 8 },
        fill: 5,
        inputs: calls.into_iter().map(plain).chain([input]).collect(),
    }
}

/// A session that breaks the promise becomes short, whichever of its inputs tries it.
#[test]
fn a_session_that_breaks_the_promise_is_shrunk() {
    let (first, damaged) = (
        |fill, seed| Input::InnerFirst { fill, seed },
        |edits, seed, then| Input::Damaged { edits, seed, then },
    );
    let then = vec![(Call::List, FULL)];
    let fault = Some(Fault::RestoreEndsNamed);
    let store = StandIn { fault };
    for (input, shortest) in [
        (first(Some(200), 77_777), first(None, 0)),
        (
            damaged(vec![(5, 100)], 77_777, then),
            damaged(vec![], 0, vec![]),
        ),
    ] {
        let session = session_with(input);
        let mut checker = Checker::new(&store, Model::default());
        let (at, mismatch) = session.play(&mut checker).expect_err("broken");
        let time = Duration::from_secs(10);
        let shrunk = shrink(&checker, &session, at, mismatch, time).session;
        println!("{shrunk}");
        let should = [plain(Call::Make), plain(Call::Create), shortest];
        assert_eq!(shrunk.inputs, should);
        // Where nothing counts but zero counts, the promise is not tried.
        checker.counts_only = true;
        assert!(session.play(&mut checker).is_ok());
    }
}

/// What the tables are like.
#[derive(Debug, Default)]
struct Kinds {
    live: [u64; 9],
    rules: [u64; 4],
    copies: u64,
    /// Cells whose value is held two domains further out, or more.
    chains: u64,
    all_entries: u64,
    all_bodies: u64,
    gaps: u64,
    high_handles: u64,
    last_next: u64,
    /// Cells that take the highest bit of their field.
    high_cells: u64,
    /// Tables with pairs pending; with all that there may be; and that would be damaged without them.
    pending: u64,
    all_pending: u64,
    damaged_raw: u64,
}

impl Kinds {
    fn add(&mut self, mut buffers: Buffers) {
        let decoded = buffers.decode(None).expect("a store");
        let (state, sizes) = (&decoded.state, decoded.sizes);
        let handles: Vec<u32> = state.domains.iter().map(|d| d.handle).collect();
        let holdings = state.domains.iter().flat_map(|d| d.cells.iter());
        self.live[handles.len()] += 1;
        for (cell, held) in holdings {
            match held.kept {
                Kept::Copy(_) => self.copies += 1,
                Kept::Rule(rule) => self.rules[rule as usize] += 1,
                Kept::ViaParent => {}
            }
            self.high_cells += u64::from(cell >> 15);
        }
        let long =
            |(at, cell): &(usize, u32)| state.keeper(*at, *cell).is_some_and(|k| k + 2 <= *at);
        self.chains += decoded.places.keys().filter(|held| long(held)).count() as u64;
        self.all_entries += decoded.free_entries().is_empty() as u64;
        self.all_bodies += decoded.free_bodies().is_empty() as u64;
        self.gaps += handles.windows(2).any(|two| two[1] - two[0] > 1) as u64;
        self.high_handles += handles.iter().any(|handle| handle >> 31 == 1) as u64;
        self.last_next += (state.next == u32::MAX) as u64;
        let pairs = decoded.pairs.len() as u32;
        self.pending += (pairs > 0) as u64;
        self.all_pending += (pairs == 2 * sizes.e + 10) as u64;
        buffers.table[PENDING] = 0;
        self.damaged_raw += buffers.decode(None).is_err() as u64;
    }
}

/// Each kind of table is among the random ones. That they open is asked where they are put together.
#[test]
fn random_tables_are_of_every_kind() {
    let mut kinds = Kinds::default();
    (SEED..SEED + 1500).for_each(|seed| kinds.add(tables::random(seed)));
    println!("random tables: {kinds:?}");
    assert!(kinds.live.iter().all(|times| *times >= 50));
    assert!(kinds.rules.iter().all(|times| *times >= 500) && kinds.copies >= 2_000);
    assert!(kinds.chains >= 500 && kinds.high_cells >= 100);
    assert!(kinds.all_entries >= 100 && kinds.all_bodies >= 100);
    assert!(kinds.gaps >= 300 && kinds.high_handles >= 300 && kinds.last_next >= 300);
    assert!(kinds.pending >= 400 && kinds.all_pending >= 50 && kinds.damaged_raw >= 200);
    // A seed gives the same table again.
    let twice = [tables::random(SEED), tables::random(SEED)];
    assert_eq!(twice[0].differs(&twice[1]), None);
}
