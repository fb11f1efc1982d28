//! The harness has to find errors: each plausible error, switched on alone, is found within a few
//! sessions.

use crate::library;
use domain_model::{Fault, Store};
use domain_sessions::StandIn;
use domain_sessions::run::{Failure, Plan, run};
use domain_sessions::session::Input;
use std::time::Duration;

/// How an error was found: after so many sessions and calls, at this difference. None if it was
/// not.
fn found(store: &dyn Store, fault: Option<Fault>, counts_only: bool, most: u64) -> Option<String> {
    let plan = Plan {
        fault,
        counts_only,
        shrink_for: Duration::ZERO,
        ..Plan::sessions(20_261_115, most)
    };
    let (tally, failure) = run(store, plan);
    let Failure {
        session, shrunk, ..
    } = failure?;
    Some(format!(
        "session {session}, call {}: {}: {}",
        tally.calls(),
        shrunk.mismatch.call,
        shrunk.mismatch.what
    ))
}

/// Looks for each of these errors, and gives those that were not found.
pub fn missed(place: &str, faults: &[Fault], look: impl Fn(Fault) -> Option<String>) -> Vec<Fault> {
    let mut missed = Vec::new();
    for fault in faults {
        match look(*fault) {
            Some(how) => println!("{fault:?} {place}, found in {how}"),
            None => missed.push(*fault),
        }
    }
    crate::found(faults.len() - missed.len(), faults.len(), place);
    missed
}

/// An error in the model, beside the right library: the two have to differ.
#[test]
fn each_error_in_the_model_is_found() {
    let library = library();
    let missed = missed("in the model", &Fault::ALL, |fault| {
        found(&*library, Some(fault), false, 1500)
    });
    assert!(missed.is_empty(), "not found: {missed:?}");
}

/// An error in a store, beside the right model.
#[test]
fn each_error_in_a_store_is_found() {
    let faults: Vec<Fault> = Fault::ALL.into_iter().filter(|f| f.in_store()).collect();
    let missed = missed("in a store", &faults, |fault| {
        found(&StandIn { fault: Some(fault) }, None, false, 1500)
    });
    assert!(missed.is_empty(), "not found: {missed:?}");
}

/// The errors that document 01 names break demand 3, and so does an advance that leaves a changed cell
/// at its old value, an inner advance by which a domain around it loses its point, and an add that holds a
/// part of its ranges: the notebook, which sees neither table nor bodies, finds them by itself.
#[test]
fn the_named_errors_are_found_by_zero_counts_alone() {
    let faults = [
        &Fault::NAMED[..],
        &Fault::STALE,
        &Fault::OUTER_LOST,
        &Fault::HALF_HELD,
    ]
    .concat();
    let missed = missed("in a store by zero counts alone", &faults, |fault| {
        found(&StandIn { fault: Some(fault) }, None, true, 6000)
    });
    assert!(missed.is_empty(), "not found: {missed:?}");
    // With no error on, zero counts alone find nothing.
    assert_eq!(found(&StandIn { fault: None }, None, true, 300), None);
}

/// A failing session becomes short enough to read.
#[test]
fn a_failing_session_is_shrunk() {
    let store = library();
    for (fault, most) in [
        (Fault::NewestWinsInRestore, 9),
        (Fault::CommitForgetsRaise, 7),
        (Fault::NoQuestion12, 7),
        (Fault::AdvanceGivesNewValue, 7),
        (Fault::LaterRecordWins, 4),
        (Fault::SixtyFourthLeftOut, 4),
    ] {
        let plan = Plan {
            fault: Some(fault),
            shrink_for: Duration::from_secs(10),
            ..Plan::sessions(20_261_115, 1500)
        };
        let failure = run(&*store, plan).1.expect("found");
        println!("{fault:?} in the model: {}", failure.tell());
        assert!(
            failure.shrunk.session.inputs.len() <= most,
            "{} inputs are left",
            failure.shrunk.session.inputs.len()
        );
        // Of a list only the records are left that it takes to show the error.
        if fault == Fault::LaterRecordWins {
            let last = failure.shrunk.session.inputs.last();
            let Some(Input::Call(made)) = last else {
                panic!("{last:?}");
            };
            let (_, records) = made.call.records().expect("an add");
            assert_eq!(records.len(), 2, "{}", made.call);
        }
        // The seed by itself leads to the failure again.
        let again = Plan {
            fault: Some(fault),
            shrink_for: Duration::ZERO,
            ..Plan::sessions(failure.seed, 1)
        };
        assert!(run(&*store, again).1.is_some());
    }
}
