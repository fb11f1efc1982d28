//! Random sessions that compare the linked library with the model.

use domain_model::{Fault, Store};
use domain_sessions::StandIn;
use domain_sessions::run::{Plan, Until, long, run};
use std::process::ExitCode;
use std::time::Duration;

const USAGE: &str = "usage: domain_sessions [--seed N] [--minutes X | --seconds X | --sessions N] [--fault NAME]
                       [--stand-in] [--walls before|after] [--quiet]
  --seed N       the run's seed (1 if not given); a failure names the seed that has it as its first session
  --minutes X    how long to go on (10 seconds if nothing is given)
  --fault NAME   switches an error on in the model, to see it found; --fault list shows their names
  --stand-in     runs on the harness's own store instead of the library
  --walls SIDE   the library on buffers beside pages that nobody may touch: a load or store there ends the
                 program with a signal, and the last session named is the one that did it
  --quiet        no progress";

fn main() -> ExitCode {
    let mut plan = Plan {
        until: Until::Time(Duration::from_secs(10)),
        progress: true,
        ..Plan::sessions(1, 0)
    };
    let mut stand_in = cfg!(not(feature = "linked"));
    let mut walls: Option<Box<dyn Store>> = None;
    let mut args = std::env::args().skip(1);
    while let Some(arg) = args.next() {
        let mut value = || args.next().unwrap_or_default();
        let right = match arg.as_str() {
            "--seed" => value().parse().map(|n| plan.seed = n).is_ok(),
            "--sessions" => value()
                .parse()
                .map(|n| plan.until = Until::Sessions(n))
                .is_ok(),
            "--minutes" => seconds(&value(), 60.0)
                .map(|t| plan.until = Until::Time(t))
                .is_some(),
            "--seconds" => seconds(&value(), 1.0)
                .map(|t| plan.until = Until::Time(t))
                .is_some(),
            "--fault" => {
                let name = value();
                if name == "list" {
                    for fault in Fault::ALL {
                        println!("{fault:?}");
                    }
                    return ExitCode::SUCCESS;
                }
                plan.fault = Fault::named(&name);
                plan.fault.is_some()
            }
            "--stand-in" => {
                stand_in = true;
                true
            }
            "--walls" => {
                walls = walled(&value());
                plan.announce = true;
                walls.is_some()
            }
            "--quiet" => {
                plan.progress = false;
                true
            }
            _ => false,
        };
        if !right {
            eprintln!("{USAGE}");
            return ExitCode::from(2);
        }
    }
    let store = match walls {
        Some(store) => store,
        None if stand_in => Box::new(StandIn { fault: None }),
        None => linked(),
    };
    println!(
        "seed {}, {}",
        plan.seed,
        if stand_in {
            "the stand-in store"
        } else {
            "the linked library"
        }
    );
    let (tally, failure) = run(&*store, plan);
    print!("{}", long(&tally));
    match failure {
        None => {
            println!("no difference");
            ExitCode::SUCCESS
        }
        Some(failure) => {
            print!("{}", failure.tell());
            ExitCode::FAILURE
        }
    }
}

fn seconds(text: &str, unit: f64) -> Option<Duration> {
    let number: f64 = text.parse().ok()?;
    (number.is_finite() && number >= 0.0).then(|| Duration::from_secs_f64(number * unit))
}

#[cfg(feature = "linked")]
fn linked() -> Box<dyn Store> {
    Box::new(domain_lend::Linked)
}

#[cfg(not(feature = "linked"))]
fn linked() -> Box<dyn Store> {
    Box::new(StandIn { fault: None })
}

#[cfg(all(feature = "linked", target_os = "linux"))]
fn walled(side: &str) -> Option<Box<dyn Store>> {
    use domain_sessions::walls::{Side, Walled};
    let side = match side {
        "before" => Side::Before,
        "after" => Side::After,
        _ => return None,
    };
    Some(Box::new(Walled::new(side)))
}

#[cfg(not(all(feature = "linked", target_os = "linux")))]
fn walled(_: &str) -> Option<Box<dyn Store>> {
    None
}
