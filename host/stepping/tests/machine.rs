//! Cuts on the real machine, in one thread: the calls stepped, wrong orders found, and children ended at random moments.
//!
//! `DOMAIN_CALLS` sets the number of calls of each random session that are stepped besides those listed (150), `DOMAIN_KILLS` the number
//! of children that are ended (300), `DOMAIN_SEED` the seed of both. `DOMAIN_WHOLE=1` steps every call listed from its first
//! instruction on instead of from its first store on: some millions of instructions, a minute or two.

#[cfg(not(all(target_os = "linux", target_arch = "x86_64")))]
fn main() {
    println!("skipped: stepping is written for Linux on x86-64");
}

#[cfg(all(target_os = "linux", target_arch = "x86_64"))]
fn main() {
    machine::main();
}

#[cfg(all(target_os = "linux", target_arch = "x86_64"))]
mod machine {
    use domain_lend::pages::{Arena, Side};
    use domain_model::{Call, FULL, Sizes};
    use domain_stepping::check::{Case, Tally, same_stores};
    use domain_stepping::faults;
    use domain_stepping::kill;
    use domain_stepping::scenarios::{LONG, SMALL, Session, scenarios};
    use domain_stepping::trace::{Failure, Way, allowed};
    use std::mem::discriminant;
    use std::process::exit;
    use std::time::Instant;

    fn number(name: &str, usual: u64) -> u64 {
        match std::env::var(name) {
            Ok(text) => text
                .parse()
                .unwrap_or_else(|_| panic!("{name} is a number")),
            Err(_) => usual,
        }
    }

    pub fn main() {
        let mut wrong = 0;
        match allowed() {
            Ok(()) => wrong += stepped(),
            Err(why) => println!(
                "stepping: skipped, this machine does not allow a process to be traced ({why})"
            ),
        }
        wrong += killed();
        if wrong > 0 {
            println!("stepping: {wrong} wrong");
            exit(1);
        }
    }

    /// Steps every scenario, and plays the wrong orders.
    fn stepped() -> u32 {
        let start = Instant::now();
        let mut arena = Arena::new(SMALL.lengths(), Side::After);
        let mut tally = Tally::default();
        let mut wrong = 0;
        let mut found = 0;
        let mut tried = Vec::new();
        let way = if number("DOMAIN_WHOLE", 0) > 0 {
            Way::Whole
        } else {
            Way::Stepped
        };
        println!(
            "{:<32} {:>6} {:>6} {:>8} {:>13}",
            "call", "bytes", "words", "stores", "instructions"
        );
        for scenario in scenarios() {
            if arena.lengths != scenario.sizes.lengths() {
                arena = Arena::new(scenario.sizes.lengths(), Side::After);
            }
            let result = Case::new(&scenario).and_then(|case| {
                let told = |failure: Failure| format!("{failure:?}");
                let trace = case.follow(&arena, Way::Guarded, FULL).map_err(told)?;
                case.judge(&trace, &mut tally)?;
                if case.plan.steps.is_empty() {
                    // What needs no step is done with no budget, and stores nothing then either.
                    let trace = case.follow(&arena, Way::Guarded, 0).map_err(told)?;
                    case.judge(&trace, &mut tally)?;
                }
                let stepped = case.follow(&arena, way, FULL).map_err(told)?;
                same_stores(&case.before, &trace, &stepped)?;
                let instructions = trace.instructions + stepped.instructions;
                tally.instructions += stepped.instructions;
                let (bytes, words) = (case.plan.bytes, case.plan.steps.len() - case.plan.bytes);
                println!(
                    "{:<32} {bytes:>6} {words:>6} {:>8} {instructions:>13}",
                    scenario.name,
                    trace.stores.len()
                );
                // One call of each kind, and of each kind of add, is enough to show that the check sees what it has to see.
                let kind = match case.call {
                    Call::Add { record, .. } => record.kind,
                    _ => 0,
                };
                let what = (discriminant(&case.call), kind);
                if words > 0 && !tried.contains(&what) {
                    tried.push(what);
                    found += faults::find_all(&case, &arena)?;
                }
                Ok(())
            });
            if let Err(why) = result {
                println!("WRONG {}: {why}", scenario.name);
                wrong += 1;
            }
        }
        for sizes in [SMALL, LONG] {
            if let Err(why) = session(sizes, &mut tally) {
                println!("WRONG {why}");
                wrong += 1;
            }
        }
        let account = format!(
            "stepping: {} calls, {} instructions stepped, {} stores seen, {} cuts opened, {} restores on opened copies",
            tally.calls, tally.instructions, tally.stores, tally.cuts, tally.restores
        );
        if wrong == 0 {
            println!(
                "{account}; table words one at a time in plan order; bytes rising, up to {} at a time and in no call fewer than {}; {found} wrong orders played, all found; {:.1} s",
                tally.widest,
                tally.narrowest.unwrap_or(0),
                start.elapsed().as_secs_f64()
            );
        } else {
            println!("{account}");
        }
        wrong
    }

    /// A session at random, every call of it stepped.
    fn session(sizes: Sizes, tally: &mut Tally) -> Result<(), String> {
        let start = Instant::now();
        let (stores, cuts) = (tally.stores, tally.cuts);
        let arena = Arena::new(sizes.lengths(), Side::After);
        let seed = number("DOMAIN_SEED", 1);
        let calls = number("DOMAIN_CALLS", 150);
        let mut session = Session::new(sizes, seed);
        let mut next = || {
            let case = session.next_case()?;
            let told = |wrong: String| format!("{}: {wrong}", case.name);
            let trace = case
                .follow(&arena, Way::Guarded, FULL)
                .map_err(|failure| told(format!("{failure:?}")))?;
            case.judge(&trace, tally).map_err(told)?;
            session.go_on(&case)
        };
        for call in 0..calls {
            next().map_err(|why| format!("call {call} of seed {seed}, {sizes:?}: {why}"))?;
        }
        println!(
            "a session of {calls} calls with {} cells: {} stores, {} cuts opened; {:.1} s",
            sizes.m,
            tally.stores - stores,
            tally.cuts - cuts,
            start.elapsed().as_secs_f64()
        );
        Ok(())
    }

    fn killed() -> u32 {
        let start = Instant::now();
        let kills = number("DOMAIN_KILLS", 300);
        let seed = number("DOMAIN_SEED", 1);
        let mut ends = kill::Ends::default();
        let part = kills / 4;
        let result = kill::run(kill::SMALL, kill::Aim::Anywhere, part, seed, &mut ends)
            .and_then(|()| kill::run(kill::LARGE, kill::Aim::Anywhere, part, seed, &mut ends))
            .and_then(|()| {
                kill::run(
                    kill::LARGE,
                    kill::Aim::AtStores,
                    kills - 2 * part,
                    seed,
                    &mut ends,
                )
            });
        match result {
            Ok(()) => {
                println!(
                    "kills: {} children ended over {} calls; {} ends inside a call, {} of them after its first store: {} not made, {} made, {} carried out by opening, {} restores mixed, {} makes without a store; {} restores on opened copies; {:.1} s",
                    ends.kills,
                    ends.calls,
                    ends.inside,
                    ends.between,
                    ends.not_made,
                    ends.made,
                    ends.carried_out,
                    ends.mixed,
                    ends.no_store,
                    ends.restores,
                    start.elapsed().as_secs_f64()
                );
                0
            }
            Err(why) => {
                println!("WRONG kills: {why}");
                1
            }
        }
    }
}
