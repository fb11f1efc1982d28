//! The library on buffers that end, or begin, at a page that nobody may touch. A load or store past
//! it ends this program with a signal; `domain_sessions --walls after --seed 41` then names the
//! session.

use crate::agreed;
use domain_sessions::run::{Plan, run};
use domain_sessions::walls::{Side, Walled};

#[test]
fn nothing_is_touched_outside_the_buffers() {
    for side in [Side::Before, Side::After] {
        let (tally, failure) = run(&Walled::new(side), Plan::sessions(41, 150));
        if let Some(failure) = failure {
            panic!("{}", failure.tell());
        }
        agreed(&tally);
    }
}
