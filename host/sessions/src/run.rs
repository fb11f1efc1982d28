//! Many sessions, one after the other, with progress.

use crate::advances::{Advances, Given};
use crate::check::{Checker, Tally};
use crate::generate::Generator;
use crate::lists::{LATER, Lists, SPARED};
use crate::nested::Nested;
use crate::session::Session;
use crate::shrink::{Shrunk, shrink};
use domain_model::{Call, Fault, Model, Rng, STOPPED, Store};
use std::fmt::Write;
use std::time::{Duration, Instant};

/// How long to go on.
#[derive(Clone, Copy, Debug)]
pub enum Until {
    Sessions(u64),
    Time(Duration),
}

/// What to run.
#[derive(Clone, Copy, Debug)]
pub struct Plan {
    pub seed: u64,
    pub until: Until,
    /// An error to switch on in the model.
    pub fault: Option<Fault>,
    /// Shows a line each second or so.
    pub progress: bool,
    pub shrink_for: Duration,
    /// Compares nothing but the notebook's zero counts.
    pub counts_only: bool,
    /// Names each session before it begins: where a signal may end the program, nothing can be told
    /// afterwards.
    pub announce: bool,
}

impl Plan {
    /// A quiet run of so many sessions.
    pub fn sessions(seed: u64, sessions: u64) -> Plan {
        Plan {
            seed,
            until: Until::Sessions(sessions),
            fault: None,
            progress: false,
            shrink_for: Duration::from_secs(30),
            counts_only: false,
            announce: false,
        }
    }
}

/// A failure, made short.
pub struct Failure {
    /// Seed of the session: with it as the run's seed, the session is the first one.
    pub seed: u64,
    /// Which session of the run it was, from 1.
    pub session: u64,
    pub inputs: usize,
    pub shrunk: Shrunk,
}

/// The seed of session `at` of a run, from 0: the first one has the run's own seed, so that any
/// session can be the first of another run.
pub fn seed_of(seed: u64, at: u64) -> u64 {
    if at == 0 {
        seed
    } else {
        Rng::new(seed ^ at.wrapping_mul(0xD605_BBB5_8C8A_BBC9)).draw()
    }
}

/// Plays one session as it is chosen. Gives it back with the place where it failed.
fn one(checker: &mut Checker, seed: u64) -> Result<(), (Session, usize, crate::check::Mismatch)> {
    let mut generator = Generator::new(seed);
    let sizes = generator.habits.sizes;
    let mut session = Session {
        sizes,
        fill: generator.fill(),
        inputs: Vec::new(),
    };
    let mut line = session.start(checker);
    // The choice looks at a right model, whatever error is switched on in the one compared with.
    for at in 0..generator.habits.inputs {
        let input = generator.next(&line, Model::default());
        session.inputs.push(input.clone());
        if let Err(mismatch) = input.play(checker, &mut line) {
            return Err((session, at, mismatch));
        }
    }
    Ok(())
}

/// Runs sessions until the end or the first failure.
pub fn run(store: &dyn Store, plan: Plan) -> (Tally, Option<Failure>) {
    let model = Model { fault: plan.fault };
    let mut checker = Checker {
        counts_only: plan.counts_only,
        ..Checker::new(store, model)
    };
    let start = Instant::now();
    let mut shown = start;
    let mut at = 0;
    loop {
        let over = match plan.until {
            Until::Sessions(n) => at >= n,
            Until::Time(time) => start.elapsed() >= time,
        };
        if over {
            break;
        }
        let seed = seed_of(plan.seed, at);
        at += 1;
        checker.tally.sessions += 1;
        if plan.announce {
            println!("session {at}: --seed {seed} --sessions 1");
        }
        if let Err((session, place, mismatch)) = one(&mut checker, seed) {
            let inputs = session.inputs.len();
            let shrunk = shrink(&checker, &session, place, mismatch, plan.shrink_for);
            return (
                checker.tally,
                Some(Failure {
                    seed,
                    session: at,
                    inputs,
                    shrunk,
                }),
            );
        }
        if plan.progress && shown.elapsed() >= Duration::from_secs(2) {
            shown = Instant::now();
            println!(
                "{:6.0} s  {}",
                start.elapsed().as_secs_f64(),
                short(&checker.tally)
            );
        }
    }
    (checker.tally, None)
}

/// One line of numbers.
pub fn short(tally: &Tally) -> String {
    format!(
        "{} sessions, {} calls, {} cuts, {} stopped openings, {} damaged tables, {} inner restores before outer ones, {} zero counts taken",
        tally.sessions,
        tally.calls(),
        tally.cuts,
        tally.stopped_openings,
        tally.damaged,
        tally.nested.pairs,
        tally.counts
    )
}

/// All numbers: which answers came how often, and how deep the states were.
pub fn long(tally: &Tally) -> String {
    let mut text = String::new();
    writeln!(text, "{}", short(tally)).unwrap();
    writeln!(
        text,
        "{} calls cut at every step or at their joints, {} program writes, {} damaged tables were good after all, {} calls with other lengths",
        tally.whole, tally.writes, tally.damaged_good, tally.lengths
    )
    .unwrap();
    writeln!(
        text,
        "most domains live {}, most entries {}, longest way to a copy {}, bytes looked at by zero counts {}",
        tally.deepest, tally.entries, tally.chain, tally.looked_at
    )
    .unwrap();
    writeln!(
        text,
        "restores that ended domains {}, that went outwards {}; advances over via parent {}; commits that raised {}, that moved {}",
        tally.ending_restores, tally.outward_restores, tally.turning_advances, tally.raising_commits, tally.moving_commits
    )
    .unwrap();
    text += &advances(&tally.advances);
    writeln!(
        text,
        "by rules: adds {}, restores {}, advances {}, commits that moved {}, looks {}",
        tally.pattern_adds,
        tally.pattern_restores,
        tally.pattern_advances,
        tally.pattern_commits,
        tally.pattern_looks
    )
    .unwrap();
    text += &lists(&tally.lists);
    text += &nested(&tally.nested);
    for (name, answers) in Call::NAMES.iter().zip(&tally.answers) {
        let times = |number| answers.get(&number).copied().unwrap_or(0);
        write!(text, "{name:10} done {}", times(0)).unwrap();
        if times(STOPPED) > 0 {
            write!(text, ", stopped {}", times(STOPPED)).unwrap();
        }
        for (number, times) in answers.range(1..STOPPED) {
            write!(text, ", {number}: {times}").unwrap();
        }
        text.push('\n');
    }
    text
}

/// What advances met.
fn advances(advances: &Advances) -> String {
    let Advances {
        nothing,
        nothing_and_full,
        some,
        all,
        first_byte,
        last_byte,
        kept_via_parent,
        kept_rule,
        like_parent,
        unlike_parent,
        exact,
        one_short,
        given,
    } = advances;
    format!(
        "advances with nothing changed {nothing} (no body free {nothing_and_full}), some cells {some}, all {all}; \
         the first byte alone {first_byte}, the last {last_byte}\n\
         unchanged and kept via parent {kept_via_parent}, by rule {kept_rule}; \
         changed to the parent's value {like_parent}, unchanged and unlike it {unlike_parent}; \
         bodies just enough {exact}, one short {one_short}\n{}",
        self::given(given)
    )
}

/// What inner advances met that the next domain out lacks.
fn given(given: &Given) -> String {
    let Given {
        some,
        rules,
        further_out,
        beside_held,
        beside_unchanged,
        unchanged,
        read_only,
        exact,
        one_short,
        both_short,
        cut,
    } = given;
    format!(
        "advances that gave cells {some}, by rule {rules}, held further out {further_out}, \
         beside a cell held outside {beside_held}, beside an unchanged one {beside_unchanged}; \
         nothing changed {unchanged}; read-only outside {read_only}; \
         entries just enough {exact}, one short {one_short}, bodies short too {both_short}; stopped {cut}\n"
    )
}

/// What lists of several ranges met.
fn lists(lists: &Lists) -> String {
    let Lists {
        several,
        nine,
        sixty_four,
        kinds,
        falling,
        touching,
        overlapping,
        other_kind,
        raised_new,
        kept_label,
        raised_twice,
        spared,
        later,
        before_entries,
        before_bodies,
        exact_entries,
        exact_bodies,
        short_entries,
        short_bodies,
        empty,
        too_many,
        too_many_wrong,
        dead_handle,
        outer_handle,
        cut,
    } = lists;
    let numbered = |numbers: &[u32], times: &[u64]| {
        let both = numbers.iter().zip(times);
        let both = both.map(|(number, times)| format!("{number}: {times}"));
        both.collect::<Vec<_>>().join(", ")
    };
    let (spared, later) = (numbered(&SPARED, spared), numbered(&LATER, later));
    format!(
        "lists of which several records acted {several}, at least nine {nine}, the last of 64 {sixty_four}; of all kinds {kinds}; copies that fall {falling}, ranges that touch {touching}, that overlap {overlapping}; stopped {cut}
a later record on a taken cell: by another kind {other_kind}, raising it {raised_new}, read-only after read-write {kept_label}; raised twice {raised_twice}; questions that a taken cell was spared {spared}
refused by a later record {later} (short of entries {before_entries}, of bodies {before_bodies}); room just enough {exact_entries} and {exact_bodies}, one short {short_entries} and {short_bodies}
refused for their number: none {empty}, too many {too_many} (with a wrong kind {too_many_wrong}), by a dead handle {dead_handle}, by an outer one {outer_handle}
"
    )
}

/// What inner restores before outer ones met.
pub fn nested(nested: &Nested) -> String {
    let Nested {
        tables,
        opened,
        pairs,
        by_zero,
        other_memory,
        inside_alone,
        other_value,
        rules,
        outward,
        spare_pairs,
        twice,
        twice_by_zero,
        not_made,
        made,
        stopped_openings,
        around,
        again,
    } = nested;
    format!(
        "an inner restore before an outer one {pairs} on {tables} tables ({opened} opened first), the inner one by 0 {by_zero}; \
         it left other memory {other_memory}, the two ways other spare pairs {spare_pairs}\n\
         of these with a cell held inside the inner one alone {inside_alone}, by both with other values {other_value}, by a rule {rules}, \
         via parent from outside the outer one {outward}; restored twice {twice}, by 0 {twice_by_zero}\n\
         the inner restore cut and not made {not_made}, made {made}, with stopped openings {stopped_openings}; \
         then one around restored {around}, the same again {again}\n"
    )
}

impl Failure {
    /// The failing session, short, and how to run it again.
    pub fn tell(&self) -> String {
        format!(
            "session {} failed after {} inputs; the same options and --seed {} --sessions 1 bring it back\nmade short with {} tries:\n{}at input {}: {}\n  {}\n",
            self.session,
            self.inputs,
            self.seed,
            self.shrunk.tries,
            self.shrunk.session,
            self.shrunk.at + 1,
            self.shrunk.mismatch.call,
            self.shrunk.mismatch.what
        )
    }
}
