//! Random sessions with fixed seeds: no difference, and deep enough to mean something.

use crate::{agreed, library};
use domain_model::Store;
use domain_model::calls::{RETIRED, refusals};
use domain_sessions::StandIn;
use domain_sessions::check::Tally;
use domain_sessions::run::{Plan, long, run};

fn no_difference(store: &dyn Store, seed: u64, sessions: u64) -> Tally {
    let (tally, failure) = run(store, Plan::sessions(seed, sessions));
    if let Some(failure) = failure {
        panic!("{}", failure.tell());
    }
    tally
}

#[test]
fn the_store_and_the_model_agree() {
    let mut tally = no_difference(&*library(), 1, 600);
    tally.join(&no_difference(&*library(), 2, 600));
    agreed(&tally);
    println!("{}", long(&tally));
    // A run that never gets to a question says nothing about it.
    for number in refusals().filter(|n| *n != 10) {
        assert!(
            tally.answered(number) >= 20,
            "answer {number} came {} times",
            tally.answered(number)
        );
    }
    assert!(tally.answered(10) >= 3);
    assert!(tally.deepest == 8 && tally.chain >= 5);
    assert!(tally.outward_restores >= 50 && tally.ending_restores >= 500);
    assert!(
        tally.turning_advances >= 20 && tally.raising_commits >= 20 && tally.moving_commits >= 100
    );
    assert!(
        tally.pattern_adds >= 500 && tally.pattern_restores >= 200 && tally.pattern_looks >= 100
    );
    assert!(tally.pattern_advances >= 50 && tally.pattern_commits >= 50);
    let met = tally.advances;
    assert!(met.nothing >= 500 && met.some >= 200 && met.all >= 200);
    assert!(met.first_byte >= 100 && met.last_byte >= 100);
    assert!(met.kept_via_parent >= 30 && met.kept_rule >= 50);
    assert!(met.like_parent >= 30 && met.unlike_parent >= 200);
    assert!(met.exact >= 10 && met.one_short >= 30 && met.nothing_and_full >= 30);
    let met = met.given;
    assert!(met.some >= 200 && met.rules >= 50 && met.further_out >= 50);
    assert!(met.beside_held >= 50 && met.beside_unchanged >= 50 && met.unchanged >= 200);
    assert!(met.read_only >= 20 && met.cut >= 50);
    assert!(met.exact >= 20 && met.one_short >= 20 && met.both_short >= 10);
    assert_eq!(tally.answered(RETIRED), 0);
    let met = tally.lists;
    assert!(met.several >= 400 && met.nine >= 30 && met.sixty_four >= 10 && met.kinds >= 10);
    assert!(met.falling >= 100 && met.touching >= 200 && met.overlapping >= 200);
    assert!(met.other_kind >= 200 && met.raised_new >= 200 && met.kept_label >= 100);
    assert!(met.raised_twice >= 50 && met.cut >= 100);
    // 11, 12, 18 and 19 for cells that an earlier record took; 7, 8, 11, 12, 18 and 19 of a later record.
    assert!(met.spared.iter().all(|times| *times >= 10));
    assert!(met.later.iter().all(|times| *times >= 10));
    assert!(met.before_entries >= 50 && met.before_bodies >= 20);
    assert!(met.exact_entries >= 20 && met.exact_bodies >= 20);
    assert!(met.short_entries >= 20 && met.short_bodies >= 20);
    assert!(met.empty >= 20 && met.too_many >= 50 && met.too_many_wrong >= 10);
    assert!(met.dead_handle >= 20 && met.outer_handle >= 10);
    let met = tally.nested;
    assert!(met.tables >= 1_000 && met.opened >= 200 && met.pairs >= 2_000 && met.by_zero >= 500);
    assert!(met.other_memory >= 1_000 && met.spare_pairs >= 500 && met.inside_alone >= 200);
    assert!(met.other_value >= 300 && met.rules >= 500 && met.outward >= 50);
    assert!(met.not_made >= 5_000 && met.made >= 500 && met.around >= 1_500 && met.again >= 3_000);
    assert!(tally.cuts >= 10_000 && tally.stopped_openings >= 2_000 && tally.counts >= 2_000);
}

/// The stand-in is compared too: what the tests of switched-on errors say rests on it.
#[test]
fn the_stand_in_and_the_model_agree() {
    no_difference(&StandIn { fault: None }, 3, 200);
}
