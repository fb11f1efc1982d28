//! Adds of several ranges (request A.3), by the library and by the baseline, beside single adds of the same ranges by the library, all by
//! turns in one process: cells far apart, one to a range and 64 ranges to a list, and the nine ranges of a tile.
//!
//! The buffers are put back before each run, out of the measured time, and so are the calls put together.

use crate::measure::{
    Clock, Layout, Measuring, RULE, Runner, Shape, State, by_turns, entries_in_use, median,
};
use crate::stores::{Baseline, Library, Measured};
use domain_model::calls::{COPY, PATTERN, READ_WRITE, RECORDS, Record, VIA_PARENT};
use domain_model::edges::TILE;
use domain_model::{Buffers, Call, rules};
use std::time::Duration;

/// One set of ranges that is measured.
#[derive(Clone, Debug)]
pub struct Case {
    pub name: &'static str,
    pub shape: Shape,
    /// How many ranges there are, in as many lists as they need.
    pub records: Vec<Record>,
    /// What the domain around it, if there is one, holds before.
    around: Vec<Record>,
    /// Cells that follow a rule.
    follow: Vec<(u32, u32)>,
}

impl Case {
    /// The lists, with as many ranges each as there may be.
    pub fn lists(&self) -> Vec<Call> {
        let lists = self.records.chunks(*RECORDS.end());
        lists.map(Call::ranges).collect()
    }

    pub fn calls(&self) -> usize {
        self.records.len().div_ceil(*RECORDS.end())
    }

    /// The same ranges one by one.
    fn single(&self) -> Vec<Call> {
        let handle = 0;
        let plain = |&record: &Record| Call::Add { handle, record };
        self.records.iter().map(plain).collect()
    }

    /// The buffers that the first list meets.
    pub fn laid_down(&self) -> Buffers {
        let mut runner = Runner::new(self.shape, Library::default());
        self.lay_down(&mut runner);
        runner.buffers
    }

    /// A made store with a domain that holds nothing, inside another where that is needed.
    fn lay_down<S: Measured>(&self, runner: &mut Runner<S>) {
        runner.buffers.memory.fill(1);
        for &(cell, rule) in &self.follow {
            let bytes = rules::pattern(rule).expect("a rule");
            runner.buffers.write_cell(cell, &bytes);
        }
        let mut refused = runner.call(Call::Make);
        if !self.around.is_empty() {
            refused |= runner.call(Call::Create);
            for list in self.around.chunks(*RECORDS.end()) {
                refused |= runner.call(Call::ranges(list));
            }
        }
        refused |= runner.call(Call::Create);
        assert_eq!(refused, 0, "the cells do not fit");
    }
}

/// How many cells are scattered over all of memory: 16 lists of them, and one.
pub const CELLS: [usize; 2] = [1_024, 64];

/// Cells far apart and in no order, a range each, by one kind.
fn scattered(name: &'static str, cells: usize, kind: u32) -> Case {
    let shape = Shape {
        memory: 65_536,
        places: 4_096,
        domains: if kind == VIA_PARENT { 2 } else { 1 },
        layout: Layout::Scattered,
        cells,
    };
    let record = |kind| {
        move |index| {
            let cell = shape.cell(index) as u32;
            Record::new(cell, 1, kind, READ_WRITE).with_rule(RULE)
        }
    };
    let all = |kind| (0..cells).map(record(kind)).collect::<Vec<_>>();
    let (around, follow) = match kind {
        VIA_PARENT => (all(COPY), Vec::new()),
        PATTERN => (
            Vec::new(),
            all(kind).iter().map(|r| (r.first, RULE)).collect(),
        ),
        _ => (Vec::new(), Vec::new()),
    };
    Case {
        name,
        shape,
        records: all(kind),
        around,
        follow,
    }
}

/// The nine ranges of a tile on a small store: eleven cells, of every kind.
fn tile() -> Case {
    let by_rule = TILE.iter().filter(|record| record.kind == PATTERN);
    let follow = by_rule.flat_map(|record| {
        let cells = record.first..record.first + record.count;
        cells.map(|cell| (cell, record.rule))
    });
    Case {
        name: "tile",
        shape: Shape {
            memory: 64,
            places: 64,
            domains: 2,
            layout: Layout::Contiguous,
            cells: 11,
        },
        records: TILE.to_vec(),
        around: vec![Record::copy(0, 4, READ_WRITE)],
        follow: follow.collect(),
    }
}

/// All cases.
pub fn cases() -> Vec<Case> {
    let mut all = Vec::new();
    for cells in CELLS {
        for (name, kind) in [
            ("copies", COPY),
            ("by rule", PATTERN),
            ("via parent", VIA_PARENT),
        ] {
            all.push(scattered(name, cells, kind));
        }
    }
    all.push(tile());
    all
}

/// Medians of one case, in microseconds.
#[derive(Clone, Debug)]
pub struct Medians {
    pub case: Case,
    /// All lists.
    pub library: f64,
    pub baseline: f64,
    /// The same ranges one by one.
    pub single: f64,
    pub single_baseline: f64,
}

impl Medians {
    /// How many times the baseline.
    pub fn beside_baseline(&self) -> f64 {
        self.library / self.baseline
    }

    /// Which part of what single adds take.
    pub fn beside_single(&self) -> f64 {
        self.library / self.single
    }
}

/// A case with what was measured of it so far.
struct Rounds {
    case: Case,
    clock: Clock,
    ground: State,
    lists: Vec<Call>,
    single: Vec<Call>,
    library: Runner<Library>,
    baseline: Runner<Baseline>,
    /// Lists by library and baseline, single adds by both.
    times: [Vec<f64>; 4],
}

impl Rounds {
    fn new(case: Case) -> Self {
        let mut library = Runner::new(case.shape, Library::default());
        let mut baseline = Runner::new(case.shape, Baseline);
        case.lay_down(&mut library);
        case.lay_down(&mut baseline);
        let mut rounds = Rounds {
            clock: Clock::new(),
            ground: State::of(&library.buffers),
            lists: case.lists(),
            single: case.single(),
            library,
            baseline,
            times: Default::default(),
            case,
        };
        rounds.check();
        rounds
    }

    /// The first run of each is not counted. It is used to see that both leave the same, and that single adds take as many entries.
    fn check(&mut self) {
        for calls in [&self.lists, &self.single] {
            run(calls, &self.clock, &self.ground, &mut self.library);
            run(calls, &self.clock, &self.ground, &mut self.baseline);
            let differs = self.baseline.buffers.differs(&self.library.buffers);
            assert_eq!(differs, None, "after {}", self.case.name);
            let used = entries_in_use(&self.library.buffers.table, self.case.shape.places);
            let around: u32 = self.case.around.iter().map(|record| record.count).sum();
            assert_eq!(used, self.case.shape.cells + around as usize);
        }
    }

    fn medians(self) -> Medians {
        let [library, baseline, single, single_baseline] =
            self.times.map(|times| median(times).expect("measured"));
        Medians {
            case: self.case,
            library,
            baseline,
            single,
            single_baseline,
        }
    }
}

impl Measuring for Rounds {
    /// Library and baseline once each; each goes first every other time.
    fn round(&mut self) {
        let (clock, ground) = (&self.clock, &self.ground);
        let library_first = self.times[0].len().is_multiple_of(2);
        for (calls, place) in [(&self.lists, 0), (&self.single, 2)] {
            if library_first {
                self.times[place].push(run(calls, clock, ground, &mut self.library));
            }
            let time = run(calls, clock, ground, &mut self.baseline);
            self.times[place + 1].push(time);
            if !library_first {
                self.times[place].push(run(calls, clock, ground, &mut self.library));
            }
        }
    }
}

/// These calls, from the state that they are to meet. No add touches memory, so that this stays.
fn run<S: Measured>(calls: &[Call], clock: &Clock, ground: &State, runner: &mut Runner<S>) -> f64 {
    ground.put(&mut runner.buffers);
    clock.done(|| runner.calls(calls)).expect("done")
}

/// Measures all cases by turns, each until `limit` has passed.
pub fn measure_all(limit: Duration) -> Vec<Medians> {
    let cases = cases();
    eprintln!("measuring: lists of ranges, cases {}", cases.len());
    let mut rounds: Vec<Rounds> = cases.into_iter().map(Rounds::new).collect();
    by_turns(&mut rounds, limit);
    rounds.into_iter().map(Rounds::medians).collect()
}
