//! All tests of the harness, in one program, so that one line at the end can tell what was tried.

mod advances;
mod bits;
mod edges;
mod faults;
mod inner_advances;
mod lists;
mod meddling;
mod nested;
mod patterns;
mod random;
mod small;
#[cfg(all(feature = "linked", target_os = "linux"))]
mod walls;

use domain_model::Store;
use domain_sessions::check::{Mismatch, Tally};
use domain_sessions::run::short;
use std::sync::Mutex;

/// The linked library; without it, the stand-in.
fn library() -> Box<dyn Store> {
    #[cfg(feature = "linked")]
    return Box::new(domain_lend::Linked);
    #[cfg(not(feature = "linked"))]
    return Box::new(domain_sessions::StandIn { fault: None });
}

fn fail(m: Mismatch) -> ! {
    panic!("{}: {}", m.call, m.what)
}

/// What the tests so far have tried on the library, and which switched-on errors they found.
static ACCOUNT: Mutex<(Option<Tally>, Vec<String>)> = Mutex::new((None, Vec::new()));

fn tell(add: impl FnOnce(&mut (Option<Tally>, Vec<String>))) {
    let mut account = ACCOUNT.lock().unwrap_or_else(|e| e.into_inner());
    add(&mut account);
    let (tally, found) = &*account;
    let store = if cfg!(feature = "linked") {
        "the library"
    } else {
        "the stand-in"
    };
    print!(
        "sessions: {store} as the model says in {}",
        short(&tally.clone().unwrap_or_default())
    );
    println!(", all 0; errors found: {}", found.join(", "));
}

/// Adds what was tried on the library without a difference, and prints the account so far: the last
/// such line is the whole account.
fn agreed(tally: &Tally) {
    tell(|account| account.0.get_or_insert_default().join(tally));
}

/// Adds errors that were switched on, and prints the account so far.
fn found(errors: usize, of: usize, place: &str) {
    tell(|account| account.1.push(format!("{errors} of {of} {place}")));
}
