//! Advances of n cells of which k have changed (request A.2), by the library and by the baseline, by turns in one process, beside what
//! such an advance cannot do without: a plain compare of the n cells with what is held, and the check of the table (list). Among them
//! advances of an inner domain that give the k cells to the one around it (request A.4).
//!
//! Where nothing has changed the call changes nothing either, so that it is made many times for one figure, as list and the compare
//! are; else the buffers are put back before each call, out of the measured time.

use crate::measure::{
    Clock, Layout, Measuring, RULE, Runner, Shape, State, by_turns, entries_in_use, median,
};
use crate::stores::{Baseline, Library, Measured};
use domain_model::calls::{COPY, PATTERN, VIA_PARENT};
use domain_model::rules::pattern;
use domain_model::{Buffers, Call};
use std::hint::black_box;
use std::time::Duration;

/// How the advanced domain holds its cells.
#[derive(Clone, Copy, PartialEq, Eq, Debug)]
#[repr(usize)]
pub enum Kept {
    Copies,
    /// The only other domain, around it, holds them as copies.
    ViaParent,
    ByRule,
    /// By copies too, and the only other domain, around it, holds nothing: what has changed is given to that one.
    Inside,
}

impl Kept {
    pub const ALL: [Kept; 4] = [Kept::Copies, Kept::ViaParent, Kept::ByRule, Kept::Inside];

    /// Domains that live.
    fn domains(self) -> usize {
        match self {
            Kept::Copies | Kept::ByRule => 1,
            Kept::ViaParent | Kept::Inside => 2,
        }
    }

    pub fn name(self) -> &'static str {
        match self {
            Kept::Copies => "copies",
            Kept::ViaParent => "via parent",
            Kept::ByRule => "by rule",
            Kept::Inside => "inside",
        }
    }
}

/// One kind of advance that is measured.
#[derive(Clone, Copy, PartialEq, Eq, Debug)]
pub struct Case {
    pub kept: Kept,
    pub shape: Shape,
    /// k.
    pub changed: usize,
}

const MEMORY: usize = 65_536;
pub const PLACES: usize = 4_096;
const CELLS: [usize; 4] = [64, 512, 1_024, 2_048];
/// Where the cells are held without copies.
const FEW: usize = 512;
/// Where they are held by a domain inside another that lacks them.
const INSIDE: [usize; 2] = [64, 1_024];

/// All cases of so many cells: these are measured by turns.
fn cases(cells: usize) -> Vec<Case> {
    let case = |kept, layout, changed| Case {
        kept,
        shape: Shape {
            memory: MEMORY,
            places: PLACES,
            domains: kept.domains(),
            layout,
            cells,
        },
        changed,
    };
    let mut all = Vec::new();
    for layout in [Layout::Contiguous, Layout::Scattered] {
        for changed in [0, 1, cells / 8, cells] {
            all.push(case(Kept::Copies, layout, changed));
        }
        if cells == FEW {
            all.extend([Kept::ViaParent, Kept::ByRule].map(|kept| case(kept, layout, 0)));
        }
        if INSIDE.contains(&cells) {
            all.extend([0, cells / 8, cells].map(|k| case(Kept::Inside, layout, k)));
        }
    }
    all
}

impl Case {
    /// The indices of the cells that have changed: as far apart as they can be.
    fn changed(&self) -> impl Iterator<Item = usize> {
        let (k, n) = (self.changed, self.shape.cells);
        (0..k).map(move |index| index * n / k)
    }

    /// How many of the changed cells are given outwards.
    fn given(&self) -> usize {
        match self.kept {
            Kept::Inside => self.changed,
            _ => 0,
        }
    }

    /// Memory as it was when the cells were taken, but for the last byte of each cell that has changed.
    fn write(&self, memory: &mut [u8]) {
        let shape = &self.shape;
        match self.kept {
            Kept::ByRule => shape.write_pattern(memory),
            _ => shape.write(memory, 1),
        }
        for index in self.changed() {
            memory[64 * shape.cell(index) + 63] ^= 0x80;
        }
    }

    /// A made store in which the cells are held.
    fn lay_down<S: Measured>(&self, runner: &mut Runner<S>) {
        let mut refused = runner.call(Call::Make);
        match self.kept {
            Kept::Copies => refused |= runner.preserve(COPY),
            Kept::ViaParent => refused |= runner.preserve(COPY) | runner.preserve(VIA_PARENT),
            Kept::Inside => refused |= runner.call(Call::Create) | runner.preserve(COPY),
            Kept::ByRule => {
                self.shape.write_pattern(&mut runner.buffers.memory);
                refused |= runner.preserve(PATTERN);
            }
        }
        assert_eq!(refused, 0, "the cells do not fit");
    }
}

/// How many cells of memory differ from what is held, each compared by itself: neighbours with bodies in their order.
#[inline(never)]
fn compare(memory: &[u8], held: &[u8]) -> usize {
    let (memory, held) = (memory.as_chunks::<64>().0, held.as_chunks::<64>().0);
    memory
        .iter()
        .zip(held)
        .filter(|(now, held)| now != held)
        .count()
}

/// The same for cells that are no neighbours.
#[inline(never)]
fn compare_apart(memory: &[u8], cells: &[usize], held: &[u8]) -> usize {
    let (memory, held) = (memory.as_chunks::<64>().0, held.as_chunks::<64>().0);
    let both = cells.iter().zip(held);
    both.filter(|(cell, held)| memory[**cell] != **held).count()
}

/// The same for neighbours that are held by a rule.
#[inline(never)]
fn compare_rule(memory: &[u8], held: &[u8; 64]) -> usize {
    let memory = memory.as_chunks::<64>().0.iter();
    memory.filter(|now| *now != held).count()
}

/// The same for cells that are no neighbours.
#[inline(never)]
fn compare_rule_apart(memory: &[u8], cells: &[usize], held: &[u8; 64]) -> usize {
    let memory = memory.as_chunks::<64>().0;
    cells.iter().filter(|cell| memory[**cell] != *held).count()
}

/// Medians of one case, in microseconds.
#[derive(Clone, Debug)]
pub struct Medians {
    pub case: Case,
    pub library: f64,
    pub baseline: f64,
    /// A plain compare of the n cells.
    pub compare: f64,
    /// The library's check of the table.
    pub list: f64,
}

impl Medians {
    /// How many times the baseline.
    pub fn beside_baseline(&self) -> f64 {
        self.library / self.baseline
    }

    /// How many times the compare and the check together.
    pub fn beside_needs(&self) -> f64 {
        self.library / (self.compare + self.list)
    }
}

/// A case with what was measured of it so far.
struct Rounds {
    case: Case,
    clock: Clock,
    held: State,
    cells: Vec<usize>,
    rule: [u8; 64],
    library: Runner<Library>,
    baseline: Runner<Baseline>,
    /// Library, baseline, compare and list.
    times: [Vec<f64>; 4],
}

impl Rounds {
    fn new(case: Case) -> Self {
        let shape = case.shape;
        let mut library = Runner::new(shape, Library::default());
        case.lay_down(&mut library);
        let mut rounds = Rounds {
            case,
            clock: Clock::new(),
            held: State::of(&library.buffers),
            cells: (0..shape.cells).map(|index| shape.cell(index)).collect(),
            rule: pattern(RULE).expect("a rule"),
            library,
            baseline: Runner::new(shape, Baseline),
            times: Default::default(),
        };
        rounds.check();
        rounds
    }

    /// The first run of each is not counted. It is used to see that both leave the same, that as many cells have changed as is said, and
    /// that an inner advance has given them outwards.
    fn check(&mut self) {
        let (case, held) = (&self.case, &self.held);
        advance(case, &self.clock, held, &mut self.library);
        advance(case, &self.clock, held, &mut self.baseline);
        let differs = self.baseline.buffers.differs(&self.library.buffers);
        assert_eq!(differs, None, "after {case:?}");
        held.put(&mut self.library.buffers);
        assert_eq!(self.compare(&self.library.buffers), case.changed);
        advance(case, &self.clock, held, &mut self.library);
        let copied = |index: &usize| {
            let at = 64 * case.shape.cell(*index);
            let now = &self.library.buffers.memory[at..at + 64];
            self.library
                .buffers
                .bodies
                .chunks(64)
                .any(|body| body == now)
        };
        assert!(case.changed().take(8).all(|index| copied(&index)));
        let places = case.shape.places;
        let used = entries_in_use(&self.library.buffers.table, places);
        assert_eq!(used, held.entries(places) + case.given(), "{case:?}");
    }

    fn compare(&self, buffers: &Buffers) -> usize {
        let shape = &self.case.shape;
        let (memory, bodies) = (&*buffers.memory, &buffers.bodies[..64 * shape.cells]);
        let neighbours = &memory[64 * shape.first()..][..64 * shape.cells];
        match (self.case.kept, shape.layout) {
            (Kept::ByRule, Layout::Contiguous) => compare_rule(neighbours, &self.rule),
            (Kept::ByRule, _) => compare_rule_apart(memory, &self.cells, &self.rule),
            (_, Layout::Contiguous) => compare(neighbours, bodies),
            _ => compare_apart(memory, &self.cells, bodies),
        }
    }

    fn medians(self) -> Medians {
        let [library, baseline, compare, list] =
            self.times.map(|times| median(times).expect("measured"));
        Medians {
            case: self.case,
            library,
            baseline,
            compare,
            list,
        }
    }
}

impl Measuring for Rounds {
    /// Library and baseline once each; each goes first every other time.
    fn round(&mut self) {
        let (case, clock, held) = (&self.case, &self.clock, &self.held);
        let library_first = self.times[0].len().is_multiple_of(2);
        if library_first {
            self.times[0].push(advance(case, clock, held, &mut self.library));
        }
        let time = advance(case, clock, held, &mut self.baseline);
        self.times[1].push(time);
        if !library_first {
            self.times[0].push(advance(case, clock, held, &mut self.library));
        }
        held.put(&mut self.library.buffers);
        let library = &self.library.buffers;
        let time = clock.repeated(|| {
            black_box(self.compare(black_box(library)));
            0
        });
        self.times[2].extend(time);
        let time = clock.repeated(|| self.library.call(Call::List));
        self.times[3].extend(time);
    }
}

/// One advance, from the state that it is to meet.
fn advance<S: Measured>(case: &Case, clock: &Clock, held: &State, runner: &mut Runner<S>) -> f64 {
    held.put(&mut runner.buffers);
    case.write(&mut runner.buffers.memory);
    let time = match case.changed {
        0 => clock.repeated(|| runner.advance()),
        _ => clock.done(|| runner.advance()),
    };
    time.expect("done")
}

/// Measures all cases, those of as many cells by turns, each until `limit` has passed, and tells on the way how far it is.
pub fn measure_all(limit: Duration) -> Vec<Medians> {
    let mut all = Vec::new();
    for cells in CELLS {
        let cases = cases(cells);
        eprintln!("measuring: advances, n = {cells}, cases {}", cases.len());
        let mut rounds: Vec<Rounds> = cases.into_iter().map(Rounds::new).collect();
        by_turns(&mut rounds, limit);
        all.extend(rounds.into_iter().map(Rounds::medians));
    }
    all
}
