//! Shapes of store, measured: every call by the library and by the baseline, by turns in one process, so that both meet the same
//! machine; and shapes that are compared with each other by turns too. The figures are medians.
//!
//! Before each call the buffers are put into the state that the call is to meet, out of the measured time: "ground" is what stands
//! before the measured domain is created, "held" is the same after it has taken its cells.

use crate::stores::{Baseline, Library, Measured};
use domain_model::calls::{COPY, PATTERN, READ_WRITE, VIA_PARENT};
use domain_model::rules::{SCALE, pattern};
use domain_model::{Buffers, Call, Rng, Sizes};
use std::hint::black_box;
use std::time::{Duration, Instant};

/// What is measured beside the baseline.
#[derive(Clone, Copy, PartialEq, Eq, Debug)]
#[repr(usize)]
pub enum Figure {
    /// Create, and add n cells by copy: one add for contiguous cells, n adds for scattered ones.
    Preserve,
    /// The same by a rule, which memory follows in each of them: no byte is copied, and each is compared.
    ByRule,
    /// Create, and add n cells via parent.
    ViaParent,
    /// Create alone, inside the others.
    Create,
    /// Delete of the innermost domain's cells: all of them where they are neighbours, else the one that was added last.
    Delete,
    /// Advance of the innermost domain, all of whose cells have changed: each is copied. How long one takes of which fewer have
    /// changed is measured by itself (see [`crate::advances`]).
    Advance,
    /// Restore of the outermost domain, which ends those inside.
    Restore,
    /// Commit of the innermost domain.
    Commit,
    /// Look from the outermost domain at the cell that was added last.
    Look,
    /// The same at a cell that nobody holds, so that the search passes every entry for each domain.
    LookNobody,
    /// Create, add n, write n, advance, write n, restore, commit.
    Cycle,
    /// Hardly more than the questions that every call is put: the check of the table.
    List,
}

pub const FIGURES: [Figure; 12] = [
    Figure::Preserve,
    Figure::ByRule,
    Figure::ViaParent,
    Figure::Create,
    Figure::Delete,
    Figure::Advance,
    Figure::Restore,
    Figure::Commit,
    Figure::Look,
    Figure::LookNobody,
    Figure::Cycle,
    Figure::List,
];

impl Figure {
    pub fn name(self) -> &'static str {
        match self {
            Figure::Preserve => "preserve",
            Figure::ByRule => "by rule",
            Figure::ViaParent => "via parent",
            Figure::Create => "create",
            Figure::Delete => "delete",
            Figure::Advance => "advance",
            Figure::Restore => "restore",
            Figure::Commit => "commit",
            Figure::Look => "look",
            Figure::LookNobody => "look, free",
            Figure::Cycle => "cycle",
            Figure::List => "list",
        }
    }
}

/// Microseconds of each call; none where it does not fit.
pub type Times = [Option<f64>; FIGURES.len()];

/// Which cells are held, and in which order their entries stand in the table.
#[derive(Clone, Copy, PartialEq, Eq, PartialOrd, Ord, Debug)]
pub enum Layout {
    /// Neighbours, in one add: entries in order of cell.
    Contiguous,
    /// One cell at a time, far apart in all of memory and in no order.
    Scattered,
    /// The same within so many cells as the smaller memory has.
    Near,
    /// Neighbours, one at a time, the last cell first.
    Reversed,
    /// Neighbours, one at a time, in random order.
    Random,
    /// Neighbours, in one add; then half of them, taken at random, are deleted and added again, the last first, into the holes.
    Deleted,
    /// As contiguous, but in the last places of the table and not in the first, where searches find them at once.
    Last,
}

/// How many cells `Near` keeps to.
pub const NEAR: usize = 1_024;

impl Layout {
    pub fn name(self) -> &'static str {
        match self {
            Layout::Contiguous => "contiguous",
            Layout::Scattered => "scattered",
            Layout::Near => "near",
            Layout::Reversed => "reversed",
            Layout::Random => "random",
            Layout::Deleted => "deletes",
            Layout::Last => "last",
        }
    }

    /// Neighbouring cells: one call takes or deletes them all.
    fn neighbours(self) -> bool {
        !matches!(self, Layout::Scattered | Layout::Near)
    }

    /// Neighbouring cells whose entries stand in another order than the cells.
    pub fn disorderly(self) -> bool {
        matches!(self, Layout::Reversed | Layout::Random | Layout::Deleted)
    }
}

#[derive(Clone, Copy, PartialEq, Eq, Debug)]
pub struct Shape {
    /// m.
    pub memory: usize,
    /// E and B.
    pub places: usize,
    /// One, or three of which each holds the same cells by copies of its own.
    pub domains: usize,
    pub layout: Layout,
    /// n.
    pub cells: usize,
}

impl Shape {
    /// Whether the cells of all domains fit at all.
    pub fn fits(&self) -> bool {
        self.cells <= self.memory && self.domains * self.cells <= self.places
    }

    /// An advance takes new bodies before it frees the old ones; a domain more takes as many entries.
    fn one_more_fits(&self) -> bool {
        (self.domains + 1) * self.cells <= self.places
    }

    /// Whether it says anything new to take entries. They are taken from the first free place on: so not beside entries in the last
    /// places, and a disorderly layout matters only where there are entries already.
    fn takes_entries(&self) -> bool {
        match self.layout {
            Layout::Last => false,
            layout => !layout.disorderly() || self.domains > 1,
        }
    }

    pub fn first(&self) -> usize {
        (self.memory - self.cells) / 2
    }

    pub fn cell(&self, index: usize) -> usize {
        // An odd factor: no cell comes twice, since m is a power of two.
        let scattered = index * 40_503 + 17;
        match self.layout {
            Layout::Scattered => scattered % self.memory,
            Layout::Near => scattered % self.memory.min(NEAR),
            _ => self.first() + index,
        }
    }

    /// A cell that nobody holds.
    fn nobody(&self) -> Option<usize> {
        (self.cells < self.memory).then(|| self.cell(self.cells) % self.memory)
    }

    /// The indices of all cells in random order.
    fn shuffled(&self) -> Vec<usize> {
        let mut random = Rng::new(self.cells as u64);
        let mut all: Vec<usize> = (0..self.cells).collect();
        for last in (1..all.len()).rev() {
            all.swap(last, random.below(last as u64 + 1) as usize);
        }
        all
    }

    /// The program's writes.
    pub(crate) fn write(&self, memory: &mut [u8], byte: u8) {
        if self.layout.neighbours() {
            memory[64 * self.first()..][..64 * self.cells].fill(byte);
        } else {
            for index in 0..self.cells {
                memory[64 * self.cell(index)..][..64].fill(byte);
            }
        }
    }

    /// The program writes the bytes of the rule by which cells are held.
    pub(crate) fn write_pattern(&self, memory: &mut [u8]) {
        let bytes = pattern(RULE).expect("a rule");
        for index in 0..self.cells {
            memory[64 * self.cell(index)..][..64].copy_from_slice(&bytes);
        }
    }
}

/// The rule by which cells are held: a scale of one.
pub(crate) const RULE: u32 = SCALE;

/// A store with buffers of its own.
pub(crate) struct Runner<S> {
    shape: Shape,
    store: S,
    pub(crate) buffers: Buffers,
}

impl<S: Measured> Runner<S> {
    pub(crate) fn new(shape: Shape, store: S) -> Self {
        let places = shape.places as u32;
        let sizes = Sizes {
            m: shape.memory as u32,
            e: places,
            b: places,
        };
        let mut buffers = Buffers::filled(sizes.lengths(), 0, 0);
        buffers.memory.fill(1);
        Runner {
            shape,
            store,
            buffers,
        }
    }

    pub(crate) fn call(&mut self, call: Call) -> u32 {
        self.store.call(&mut self.buffers, &call)
    }

    /// Calls that were put together before, one after the other.
    pub(crate) fn calls(&mut self, calls: &[Call]) -> u32 {
        calls.iter().fold(0, |refused, call| {
            refused | self.store.call(&mut self.buffers, call)
        })
    }

    /// The program's writes.
    fn write(&mut self, byte: u8) {
        self.shape.write(&mut self.buffers.memory, byte);
    }

    /// An add of any kind; those that take no rule ignore it.
    fn add(&mut self, first: usize, count: usize, kind: u32) -> u32 {
        self.call(Call::add(first as u32, count as u32, kind, READ_WRITE).with_rule(RULE))
    }

    /// Adds the cells of these indices one at a time.
    fn add_each(&mut self, indices: impl Iterator<Item = usize>, kind: u32) -> u32 {
        let shape = self.shape;
        indices.fold(0, |refused, index| {
            refused | self.add(shape.cell(index), 1, kind)
        })
    }

    fn delete(&mut self, first: usize, count: usize) -> u32 {
        self.call(Call::delete(0, first as u32, count as u32))
    }

    /// A new domain that holds all cells, read-write.
    pub(crate) fn preserve(&mut self, kind: u32) -> u32 {
        let shape = self.shape;
        let created = self.call(Call::Create);
        if shape.layout.neighbours() {
            created | self.add(shape.first(), shape.cells, kind)
        } else {
            created | self.add_each(0..shape.cells, kind)
        }
    }

    /// The same, with its entries where the layout has them.
    fn lay_down(&mut self) -> u32 {
        let shape = self.shape;
        match shape.layout {
            Layout::Reversed => {
                self.call(Call::Create) | self.add_each((0..shape.cells).rev(), COPY)
            }
            Layout::Random => {
                self.call(Call::Create) | self.add_each(shape.shuffled().into_iter(), COPY)
            }
            Layout::Deleted => {
                let mut refused = self.preserve(COPY);
                let mut half = shape.shuffled();
                half.truncate(shape.cells.div_ceil(2));
                half.sort_unstable();
                for &index in &half {
                    refused |= self.delete(shape.cell(index), 1);
                }
                refused | self.add_each(half.into_iter().rev(), COPY)
            }
            _ => self.preserve(COPY),
        }
    }

    /// A made store in which so many domains are laid down.
    fn begin(&mut self, domains: usize) -> u32 {
        let made = self.call(Call::Make);
        (0..domains).fold(made, |refused, _| refused | self.lay_down())
    }

    fn look(&mut self, cell: usize) -> u32 {
        self.call(Call::Look {
            handle: 1,
            cell: cell as u32,
        })
    }

    pub(crate) fn advance(&mut self) -> u32 {
        self.call(Call::Advance { handle: 0 })
    }

    fn restore(&mut self, handle: u32) -> u32 {
        self.call(Call::Restore { handle })
    }

    fn commit(&mut self) -> u32 {
        self.call(Call::Commit { handle: 0 })
    }

    /// Every figure once, and what it left handed to `after`.
    fn run(&mut self, setting: &Setting, mut after: impl FnMut(Figure, &Buffers)) -> Times {
        let Setting {
            shape,
            clock,
            ground,
            held,
            ..
        } = setting;
        let mut times: Times = [None; FIGURES.len()];
        let mut measured = |figure: Figure, time, buffers: &Buffers| {
            times[figure as usize] = time;
            after(figure, buffers);
        };

        if shape.takes_entries() {
            ground.put(&mut self.buffers);
            self.write(1);
            let time = clock.done(|| self.preserve(COPY));
            measured(Figure::Preserve, time, &self.buffers);

            ground.put(&mut self.buffers);
            shape.write_pattern(&mut self.buffers.memory);
            let time = clock.done(|| self.preserve(PATTERN));
            measured(Figure::ByRule, time, &self.buffers);
        }

        held.put(&mut self.buffers);
        self.write(1);
        let time = clock.repeated(|| self.call(Call::List));
        measured(Figure::List, time, &self.buffers);
        let time = clock.repeated(|| self.look(shape.cell(shape.cells - 1)));
        measured(Figure::Look, time, &self.buffers);
        if let Some(cell) = shape.nobody() {
            let time = clock.repeated(|| self.look(cell));
            measured(Figure::LookNobody, time, &self.buffers);
        }
        let time = clock.done(|| self.call(Call::Create));
        measured(Figure::Create, time, &self.buffers);

        held.put(&mut self.buffers);
        let time = clock.done(|| {
            if shape.layout.neighbours() {
                self.delete(shape.first(), shape.cells)
            } else {
                self.delete(shape.cell(shape.cells - 1), 1)
            }
        });
        measured(Figure::Delete, time, &self.buffers);

        if shape.domains > 1 || shape.one_more_fits() {
            // One domain: a second inside it. Three: the third.
            let before = if shape.domains > 1 { ground } else { held };
            before.put(&mut self.buffers);
            let time = clock.done(|| self.preserve(VIA_PARENT));
            measured(Figure::ViaParent, time, &self.buffers);
        }

        if shape.one_more_fits() {
            held.put(&mut self.buffers);
            self.write(2);
            let time = clock.done(|| self.advance());
            measured(Figure::Advance, time, &self.buffers);
        }

        held.put(&mut self.buffers);
        let time = clock.done(|| self.commit());
        measured(Figure::Commit, time, &self.buffers);

        held.put(&mut self.buffers);
        self.write(3);
        let time = clock.done(|| self.restore(1));
        measured(Figure::Restore, time, &self.buffers);

        if shape.one_more_fits() && shape.takes_entries() {
            ground.put(&mut self.buffers);
            self.write(1);
            let time = clock.done(|| {
                let mut refused = self.preserve(COPY);
                self.write(4);
                refused |= self.advance();
                self.write(5);
                refused | self.restore(0) | self.commit()
            });
            measured(Figure::Cycle, time, &self.buffers);
        }
        times
    }
}

/// Bodies and table as a call is to meet them.
pub(crate) struct State {
    bodies: Vec<u8>,
    table: Vec<u32>,
}

impl State {
    pub(crate) fn of(buffers: &Buffers) -> Self {
        State {
            bodies: buffers.bodies.to_vec(),
            table: buffers.table.to_vec(),
        }
    }

    pub(crate) fn put(&self, buffers: &mut Buffers) {
        buffers.bodies.copy_from_slice(&self.bodies);
        buffers.table.copy_from_slice(&self.table);
    }

    pub(crate) fn entries(&self, places: usize) -> usize {
        entries_in_use(&self.table, places)
    }

    /// The same entries in the opposite order, so that those in use come last.
    fn turn_round(&mut self, places: usize) {
        let entries = &mut self.table[16..16 + 2 * places];
        entries.reverse();
        entries.chunks_exact_mut(2).for_each(|pair| pair.swap(0, 1));
    }
}

/// How many entries of a table with so many places are in use.
pub(crate) fn entries_in_use(table: &[u32], places: usize) -> usize {
    let entries = table[16..].chunks(2).take(places);
    entries.filter(|pair| pair[0] != 0).count()
}

/// How often a call that changes nothing is made for one figure, since a short one is hardly longer than the clock's own time.
const REPEATS: u32 = 32;

pub(crate) struct Clock {
    /// What a measured nothing takes, in microseconds.
    idle: f64,
}

impl Clock {
    pub(crate) fn new() -> Self {
        let mut clock = Clock { idle: 0.0 };
        let idle = (0..1_001).map(|_| clock.time(|| ())).collect();
        clock.idle = median(idle).expect("there are values");
        clock
    }

    fn time<T>(&self, work: impl FnOnce() -> T) -> f64 {
        let start = Instant::now();
        black_box(work());
        (start.elapsed().as_secs_f64() * 1e6 - self.idle).max(0.0)
    }

    /// A call has to be done: a refusal would be quick for the wrong reason.
    pub(crate) fn done(&self, work: impl FnOnce() -> u32) -> Option<f64> {
        let mut number = 0;
        let time = self.time(|| number = work());
        assert_eq!(number, 0, "a measured call was refused");
        Some(time)
    }

    pub(crate) fn repeated(&self, mut work: impl FnMut() -> u32) -> Option<f64> {
        self.done(|| (0..REPEATS).fold(0, |refused, _| refused | work()))
            .map(|time| time / f64::from(REPEATS))
    }
}

/// Reads both words of each entry and asks one question of them, leaving at the first entry that fails it.
#[inline(never)]
fn scan(entries: &[u32]) -> u32 {
    for pair in entries.chunks_exact(2) {
        if pair[0] == 0 && pair[1] != 0 {
            return 4;
        }
    }
    0
}

/// Reads the same words with nothing to decide, which a compiler does many at a time: as fast as the table can be read.
#[inline(never)]
fn sum(entries: &[u32]) -> u32 {
    entries.iter().fold(0, |sum, &word| sum | word)
}

/// Medians of one shape, in microseconds.
#[derive(Clone, Debug)]
pub struct Medians {
    pub shape: Shape,
    pub library: Times,
    pub baseline: Times,
    /// The same bytes copied plainly.
    pub memcpy: Times,
    pub scan: f64,
    pub sum: f64,
}

impl Medians {
    /// How many times the baseline.
    pub fn ratio(&self, call: Figure) -> Option<f64> {
        Some(self.library[call as usize]? / self.baseline[call as usize]?)
    }

    /// The check of the table: how many times the scan.
    pub fn scans(&self) -> Option<f64> {
        Some(self.library[Figure::List as usize]? / self.scan)
    }
}

/// Buffers in which the domains of a shape are laid down.
pub fn laid_down(shape: Shape) -> Buffers {
    let mut library = Runner::new(shape, Library::default());
    let refused = library.begin(shape.domains);
    assert_eq!(refused, 0, "the cells do not fit");
    if shape.layout == Layout::Last {
        let mut state = State::of(&library.buffers);
        state.turn_round(shape.places);
        state.put(&mut library.buffers);
    }
    library.buffers
}

/// What both stores are measured in.
struct Setting {
    shape: Shape,
    clock: Clock,
    cells: Vec<usize>,
    ground: State,
    held: State,
}

struct Bench {
    setting: Setting,
    library: Runner<Library>,
    baseline: Runner<Baseline>,
}

impl Bench {
    fn new(shape: Shape) -> Self {
        let mut library = Runner::new(shape, Library::default());
        let refused = library.begin(shape.domains - 1);
        assert_eq!(refused, 0, "the cells do not fit");
        let ground = State::of(&library.buffers);
        let held = State::of(&laid_down(shape));
        Bench {
            setting: Setting {
                shape,
                clock: Clock::new(),
                cells: (0..shape.cells).map(|index| shape.cell(index)).collect(),
                ground,
                held,
            },
            library,
            baseline: Runner::new(shape, Baseline),
        }
    }

    /// The first run of each is not counted, since it meets untouched pages. It is used to see that both leave the same.
    fn compare(&mut self) {
        let mut left = Vec::new();
        self.library.run(&self.setting, |figure, buffers| {
            left.push((figure, buffers.clone()))
        });
        let mut left = left.into_iter();
        self.baseline.run(&self.setting, |figure, buffers| {
            let (of, library) = left.next().expect("the same figures");
            assert_eq!(of, figure);
            let differs = buffers.differs(&library);
            assert_eq!(differs, None, "after {}", figure.name());
        });
    }

    /// The same bytes copied plainly, and for the cycle the program's writes too.
    fn run_memcpy(&mut self) -> Times {
        let Setting { shape, clock, .. } = &self.setting;
        if !shape.layout.neighbours() {
            return self.run_copies();
        }
        let baseline = &mut self.baseline.buffers;
        let mut times: Times = [None; FIGURES.len()];
        let (start, length) = (64 * shape.first(), 64 * shape.cells);
        let keep = |buffers: &mut Buffers| {
            black_box(&mut buffers.bodies[..length])
                .copy_from_slice(black_box(&buffers.memory[start..][..length]));
        };
        let put_back = |buffers: &mut Buffers| {
            black_box(&mut buffers.memory[start..][..length])
                .copy_from_slice(black_box(&buffers.bodies[..length]));
        };
        let write = |buffers: &mut Buffers, byte| {
            black_box(&mut buffers.memory[start..][..length]).fill(byte);
        };
        times[Figure::Preserve as usize] = clock.repeated(|| {
            keep(baseline);
            0
        });
        times[Figure::Restore as usize] = clock.repeated(|| {
            put_back(baseline);
            0
        });
        if shape.one_more_fits() {
            times[Figure::Advance as usize] = times[Figure::Preserve as usize];
            times[Figure::Cycle as usize] = clock.repeated(|| {
                keep(baseline);
                write(baseline, 4);
                keep(baseline);
                write(baseline, 5);
                put_back(baseline);
                0
            });
        }
        times
    }

    /// Cells that are no neighbours: each copied back by itself.
    fn run_copies(&mut self) -> Times {
        let Setting { clock, cells, .. } = &self.setting;
        let Buffers { memory, bodies, .. } = &mut self.baseline.buffers;
        let mut times: Times = [None; FIGURES.len()];
        times[Figure::Restore as usize] = clock.repeated(|| {
            for (body, &cell) in bodies.chunks_exact(64).zip(black_box(cells)) {
                memory[64 * cell..][..64].copy_from_slice(body);
            }
            black_box(&mut *memory);
            0
        });
        times
    }
}

pub(crate) fn median(mut values: Vec<f64>) -> Option<f64> {
    if values.is_empty() {
        return None;
    }
    values.sort_by(f64::total_cmp);
    Some(values[values.len() / 2])
}

fn medians(runs: &[Times]) -> Times {
    std::array::from_fn(|call| median(runs.iter().filter_map(|times| times[call]).collect()))
}

/// How long a case is measured before it is another's turn, unless one round takes longer.
const TURN: Duration = Duration::from_millis(10);
/// How many rounds there are at least and at most.
const ROUNDS: (usize, usize) = (7, 1_001);

/// What is measured round by round, and keeps the figures of each.
pub(crate) trait Measuring {
    fn round(&mut self);
}

/// Measures these by turns, each until `limit` has passed, so that figures of different cases may be compared too: a machine with other
/// work is slower at one time than at another.
pub(crate) fn by_turns<M: Measuring>(all: &mut [M], limit: Duration) {
    let mut made = vec![(0, Duration::ZERO); all.len()];
    let goes_on = |&(rounds, spent): &(usize, Duration)| {
        rounds < ROUNDS.0 || (spent < limit && rounds < ROUNDS.1)
    };
    while made.iter().any(goes_on) {
        for (case, made) in all.iter_mut().zip(&mut made) {
            let start = Instant::now();
            while goes_on(made) && start.elapsed() < TURN {
                case.round();
                made.0 += 1;
            }
            made.1 += start.elapsed();
        }
    }
}

/// A shape with what was measured of it so far.
struct Rounds {
    bench: Bench,
    library: Vec<Times>,
    baseline: Vec<Times>,
    memcpy: Vec<Times>,
    scans: Vec<f64>,
    sums: Vec<f64>,
}

impl Rounds {
    fn new(shape: Shape) -> Self {
        let mut bench = Bench::new(shape);
        bench.compare();
        Rounds {
            bench,
            library: Vec::new(),
            baseline: Vec::new(),
            memcpy: Vec::new(),
            scans: Vec::new(),
            sums: Vec::new(),
        }
    }

    fn medians(self) -> Medians {
        Medians {
            shape: self.bench.setting.shape,
            library: medians(&self.library),
            baseline: medians(&self.baseline),
            memcpy: medians(&self.memcpy),
            scan: median(self.scans).expect("measured"),
            sum: median(self.sums).expect("measured"),
        }
    }
}

impl Measuring for Rounds {
    /// Library and baseline once each; each goes first every other time.
    fn round(&mut self) {
        let bench = &mut self.bench;
        let setting = &bench.setting;
        let library_first = self.library.len().is_multiple_of(2);
        if library_first {
            self.library.push(bench.library.run(setting, |_, _| ()));
        }
        self.baseline.push(bench.baseline.run(setting, |_, _| ()));
        if !library_first {
            self.library.push(bench.library.run(setting, |_, _| ()));
        }
        self.memcpy.push(bench.run_memcpy());
        let Setting {
            shape, clock, held, ..
        } = &bench.setting;
        held.put(&mut bench.library.buffers);
        let entries = &bench.library.buffers.table[16..16 + 2 * shape.places];
        let scan = clock.repeated(|| scan(black_box(entries)));
        let sum = clock.repeated(|| {
            black_box(sum(black_box(entries)));
            0
        });
        self.scans.extend(scan);
        self.sums.extend(sum);
    }
}

/// Measures these shapes by turns, each until `limit` has passed.
pub fn measure(shapes: &[Shape], limit: Duration) -> Vec<Medians> {
    let mut all: Vec<Rounds> = shapes.iter().map(|&shape| Rounds::new(shape)).collect();
    by_turns(&mut all, limit);
    all.into_iter().map(Rounds::medians).collect()
}
