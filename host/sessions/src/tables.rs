//! Random tables that open, put together from the rules of document 01 and of request A.1 and by no
//! call: handles, places, kinds, values and memory have nothing to do with each other. So there are
//! tables among them that no list of calls leads to: pending pairs that are no call's, over raw words
//! that are anything.

use domain_model::table::{self, PENDING, encode};
use domain_model::{
    Buffers, Bytes, CELL, Domain, Holding, Kept, Place, Reading, Rng, Sizes, State, rules,
};
use std::collections::{BTreeMap, BTreeSet};

/// Live domains, at most.
const LIVE: u64 = 8;

/// Buffers with a random table that opens; in a good share of them pairs are pending.
pub fn random(seed: u64) -> Buffers {
    let mut drawn = Drawn::new(Rng::new(seed));
    drawn.hold();
    drawn.write_memory();
    let right = encode(drawn.sizes, &drawn.state, &drawn.places);
    drawn.buffers.table[..right.len()].copy_from_slice(&right);
    if drawn.rng.chance(400) {
        drawn.pend();
    }
    let Drawn { buffers, state, .. } = drawn;
    let pending = buffers.table[PENDING];
    let found = table::reading(&buffers.decode(None));
    assert!(
        found == Reading::Store { state, pending },
        "the table of seed {seed} does not stand for what it was put together for"
    );
    buffers
}

/// The words that a pair may name.
pub fn nameable(sizes: Sizes) -> Vec<usize> {
    (4..6).chain(8..sizes.pairs_at()).collect()
}

/// Some of these words, at least one and at times all of them.
pub fn some_of(words: &[usize], rng: &mut Rng) -> Vec<usize> {
    let share = *rng.pick(&[20, 100, 500, 1000]);
    let mut some = words.to_vec();
    some.retain(|_| rng.chance(share));
    if some.is_empty() {
        some.push(*rng.pick(words));
    }
    some
}

/// Mostly small sizes, so that entries, bodies and cells run out; now and then larger ones.
fn sizes(rng: &mut Rng) -> Sizes {
    let (m, e, b) = match rng.below(1000) {
        0..700 => ((1, 6), (1, 14), (1, 10)),
        700..950 => ((2, 40), (4, 60), (1, 50)),
        950..997 => ((20, 400), (40, 300), (1, 300)),
        _ => ((1000, 65_536), (300, 4_096), (300, 4_096)),
    };
    let mut between = |(low, high)| rng.between(low, high) as u32;
    Sizes {
        m: between(m),
        e: between(e),
        b: between(b),
    }
}

/// Domains that hold nothing yet. Their handles rise, without gaps or with some, near either end or
/// anywhere; the next handle is any above them.
fn domains(rng: &mut Rng) -> State {
    let live = rng.below(LIVE + 1);
    let last = u64::from(u32::MAX) - 1;
    let (low, high) = *rng.pick(&[(1, live), (1, 12), (1, last), (last - 11, last)]);
    let mut handles = BTreeSet::new();
    while (handles.len() as u64) < live {
        handles.insert(rng.between(low, high) as u32);
    }
    let above = u64::from(handles.last().map_or(0, |last| *last)) + 1;
    let next = match rng.below(3) {
        0 => above,
        1 => u64::from(u32::MAX),
        _ => rng.between(above, u64::from(u32::MAX)),
    };
    let bare = |handle| Domain {
        handle,
        cells: BTreeMap::new(),
    };
    State {
        next: next as u32,
        domains: handles.into_iter().map(bare).collect(),
    }
}

/// The numbers below `n` in any order.
fn shuffled(n: u32, rng: &mut Rng) -> Vec<u32> {
    let mut numbers: Vec<u32> = (0..n).collect();
    rng.shuffle(&mut numbers);
    numbers
}

/// A table that is being put together.
struct Drawn {
    rng: Rng,
    sizes: Sizes,
    state: State,
    places: BTreeMap<(usize, u32), Place>,
    /// What is written last stands over any contents, which spare pairs and free bodies keep.
    buffers: Buffers,
    /// Entries and bodies that are not in use.
    entries: Vec<u32>,
    bodies: Vec<u32>,
    /// The cells that are held: few where memory has many, so that domains hold the same ones.
    cells: Vec<u32>,
    /// How often a cell is held via parent where it may be, and how often else by a rule, out of a
    /// thousand.
    via_parent: u64,
    by_rule: u64,
}

impl Drawn {
    fn new(mut rng: Rng) -> Drawn {
        let sizes = sizes(&mut rng);
        let mut cells = shuffled(sizes.m, &mut rng);
        cells.truncate(1 + sizes.e as usize / 2);
        Drawn {
            state: domains(&mut rng),
            places: BTreeMap::new(),
            buffers: Buffers::any(sizes.lengths(), rng.draw()),
            entries: shuffled(sizes.e, &mut rng),
            bodies: shuffled(sizes.b, &mut rng),
            cells,
            via_parent: *rng.pick(&[0, 300, 600, 900]),
            by_rule: *rng.pick(&[0, 200, 500]),
            rng,
            sizes,
        }
    }

    /// Chooses who holds what, and how, outermost first: via parent looks at the next domain out.
    fn hold(&mut self) {
        let live = 0..self.state.domains.len();
        let of = |at| self.cells.iter().map(move |cell| (at, *cell));
        let mut held: Vec<(usize, u32)> = live.flat_map(of).collect();
        let most = held.len().min(self.entries.len());
        let many = match self.rng.chance(300) {
            true => most,
            false => self.rng.below(most as u64 + 1) as usize,
        };
        self.rng.shuffle(&mut held);
        if self.rng.chance(300) {
            // A cell of all domains before the next cell: so there are long ways via parent.
            held.sort_by_key(|(_, cell)| *cell);
        }
        held.truncate(many);
        held.sort_by_key(|(at, _)| *at);
        for (at, cell) in held {
            let (kept, body) = self.keep(at, cell);
            let read_write = self.rng.chance(500);
            let entry = self.entries.pop().expect("no more than there are");
            let cells = &mut self.state.domains[at].cells;
            cells.insert(cell, Holding { read_write, kept });
            self.places.insert((at, cell), Place { entry, body });
        }
    }

    /// How a domain keeps a cell, with the body of a copy.
    fn keep(&mut self, at: usize, cell: u32) -> (Kept, u32) {
        let outer = at.checked_sub(1).map(|outer| &self.state.domains[outer]);
        let serves = outer.is_some_and(|d| d.holds(cell) && d.rule(cell).is_none());
        if serves && self.rng.chance(self.via_parent) {
            return (Kept::ViaParent, 0);
        }
        let by_rule = self.rng.chance(self.by_rule);
        match self.bodies.pop_if(|_| !by_rule) {
            Some(body) => {
                let bytes = self.bytes();
                self.buffers.bodies[CELL * body as usize..][..CELL].copy_from_slice(&bytes);
                (Kept::Copy(bytes), body)
            }
            // Where no body is left, only rules are.
            None => (Kept::Rule(self.rng.below(4) as u32), 0),
        }
    }

    /// Bytes of a cell: mostly one of few values, so that equal ones are met.
    fn bytes(&mut self) -> Bytes {
        let mut bytes = [self.rng.below(3) as u8; CELL];
        match self.rng.below(8) {
            0 => rules::pattern(self.rng.below(4) as u32).expect("a rule"),
            1 => std::array::from_fn(|_| self.rng.draw() as u8),
            2 | 3 => {
                bytes[self.rng.below(CELL as u64) as usize] ^= 1 << self.rng.below(8);
                bytes
            }
            _ => bytes,
        }
    }

    /// Memory of cells that may be held: what somebody holds of it, or other bytes, or any.
    fn write_memory(&mut self) {
        for cell in self.cells.clone() {
            let holders =
                (0..self.state.domains.len()).filter(|at| self.state.domains[*at].holds(cell));
            let holders: Vec<usize> = holders.collect();
            let bytes = match self.rng.below(4) {
                0 => continue,
                1 if !holders.is_empty() => {
                    let holder = *self.rng.pick(&holders);
                    self.state.value(holder, cell).expect("held")
                }
                _ => self.bytes(),
            };
            self.buffers.write_cell(cell, &bytes);
        }
    }

    /// Words of the right table go into pairs, and what stands in their place is anything: nothing, what
    /// stood there, what stands elsewhere in the table, or any number.
    fn pend(&mut self) {
        let (rng, table) = (&mut self.rng, &mut self.buffers.table);
        let named = some_of(&nameable(self.sizes), rng);
        let pairs_at = self.sizes.pairs_at();
        for (i, word) in named.iter().enumerate() {
            let pair = [*word as u32, table[*word]];
            table[pairs_at + 2 * i..][..2].copy_from_slice(&pair);
            table[*word] = match rng.below(4) {
                0 => 0,
                1 => table[*word],
                2 => table[rng.below(pairs_at as u64) as usize],
                _ => rng.draw() as u32,
            };
        }
        table[PENDING] = named.len() as u32;
    }
}
