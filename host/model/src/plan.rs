//! The exact stores of a call, in order, so that the buffers after k steps are an equation.
//!
//! Document 01 leaves free which entries and bodies a call takes, as long as each was free before
//! the call. So a plan is made from the places that somebody chose: the lowest free ones, or those
//! that a library was seen to take.

use crate::buffers::{Buffer, Buffers};
use crate::calls::{Call, Model, Sizes, Work};
use crate::fault::Fault;
use crate::state::{CELL, Holding, Kept, State};
use crate::table::{Decoded, ENTRIES, MAGIC, NEXT, PENDING, encode};
use std::collections::{BTreeMap, BTreeSet};

/// Where a holding is kept. Via parent and by a rule the body is 0.
#[derive(Clone, Copy, PartialEq, Eq, Debug)]
pub struct Place {
    pub entry: u32,
    pub body: u32,
}

/// One step: a byte of memory or bodies, or a word of the table.
#[derive(Clone, Copy, PartialEq, Eq, Debug)]
pub struct Step {
    pub buffer: Buffer,
    pub at: usize,
    pub value: u32,
}

impl Step {
    fn word(at: usize, value: u32) -> Step {
        Step {
            buffer: Buffer::Table,
            at,
            value,
        }
    }

    /// The 64 bytes of a cell or a body.
    fn bytes(buffer: Buffer, number: u32, bytes: &[u8; CELL]) -> impl Iterator<Item = Step> {
        (0..).zip(bytes).map(move |(i, value)| Step {
            buffer,
            at: CELL * number as usize + i,
            value: u32::from(*value),
        })
    }

    /// Makes the store.
    pub fn apply(&self, buffers: &mut Buffers) {
        match self.buffer {
            Buffer::Memory => buffers.memory[self.at] = self.value as u8,
            Buffer::Bodies => buffers.bodies[self.at] = self.value as u8,
            Buffer::Table => buffers.table[self.at] = self.value,
        }
    }
}

/// Makes these stores.
pub fn play(steps: &[Step], buffers: &mut Buffers) {
    steps.iter().for_each(|step| step.apply(buffers));
}

/// The stores of a call that the model says is to be done, with the places that it was seen to
/// take in `after`.
pub fn seen(
    model: Model,
    before: &Buffers,
    call: &Call,
    work: &Work,
    after: &Buffers,
) -> Result<Vec<Step>, String> {
    let steps = planned(model, before, call, work, |from, work| {
        let to = readable(model, after)?.places;
        Placing::new(from, call, work, model.fault, Choice::Seen(&to)).places()
    })?;
    if steps.len() as u64 != work.need {
        return Err(format!(
            "{} stores bring about what the model says, and it counts {} steps",
            steps.len(),
            work.need
        ));
    }
    Ok(steps)
}

/// The stores of such a call with the lowest free places, in order of cell: one possible choice.
pub fn lowest(
    model: Model,
    before: &Buffers,
    call: &Call,
    work: &Work,
) -> Result<Vec<Step>, String> {
    planned(model, before, call, work, |from, work| {
        Placing::new(from, call, work, model.fault, Choice::Lowest).places()
    })
}

type Places = BTreeMap<(usize, u32), Place>;

fn planned(
    model: Model,
    before: &Buffers,
    call: &Call,
    work: &Work,
    places: impl Fn(&Decoded, &Work) -> Result<Places, String>,
) -> Result<Vec<Step>, String> {
    if *call == Call::Make {
        return Ok(make(before.sizes()));
    }
    let from = readable(model, before)?;
    if *call == Call::Open {
        return Ok(open(&from));
    }
    if work.parts().is_empty() {
        return Ok(steps(&from, work, &places(&from, work)?, model.fault));
    }
    // An error: one part after the other, each on what the one before it left.
    let (mut buffers, mut all) = (before.clone(), Vec::new());
    for part in work.parts() {
        let from = readable(model, &buffers)?;
        let steps = steps(&from, part, &places(&from, part)?, model.fault);
        play(&steps, &mut buffers);
        all.extend(steps);
    }
    Ok(all)
}

fn readable(model: Model, buffers: &Buffers) -> Result<Decoded, String> {
    buffers
        .decode(model.fault)
        .map_err(|why| format!("the buffers cannot be read: {why:?}"))
}

/// The stores of make: word 0 cleared, words 1 to 15 + 2E once each, word 0.
fn make(sizes: Sizes) -> Vec<Step> {
    let mut fresh = encode(sizes, &State::fresh(), &BTreeMap::new());
    fresh[0] = 0;
    let words = (0..).zip(fresh).map(|(at, value)| Step::word(at, value));
    words.chain([Step::word(0, MAGIC)]).collect()
}

/// The stores of an opening: the pairs in their order, then word 6.
fn open(before: &Decoded) -> Vec<Step> {
    if before.pairs.is_empty() {
        return Vec::new();
    }
    let words = before.pairs.iter();
    let words = words.map(|(word, value)| Step::word(*word as usize, *value));
    words.chain([Step::word(PENDING, 0)]).collect()
}

/// Which of the free places a call takes.
#[derive(Clone, Copy)]
enum Choice<'a> {
    /// Those that it was seen to take.
    Seen(&'a Places),
    /// The lowest, in order of cell, whichever record of a list takes it.
    Lowest,
}

/// Finds the places after a call. Those that it takes are checked: free before the call, and none
/// twice.
struct Placing<'a> {
    before: &'a Decoded,
    call: &'a Call,
    work: &'a Work,
    fault: Option<Fault>,
    choice: Choice<'a>,
    /// The domain that was the innermost before the call.
    innermost: usize,
    /// The cells of which the call takes copies, and those that it gives outwards.
    taken: BTreeSet<u32>,
    given: BTreeSet<(usize, u32)>,
    /// What is still free of what was free before.
    entries: BTreeSet<u32>,
    bodies: BTreeSet<u32>,
}

impl<'a> Placing<'a> {
    fn new(
        before: &'a Decoded,
        call: &'a Call,
        work: &'a Work,
        fault: Option<Fault>,
        choice: Choice<'a>,
    ) -> Placing<'a> {
        Placing {
            before,
            call,
            work,
            fault,
            choice,
            innermost: before.state.domains.len().wrapping_sub(1),
            taken: work.taken.iter().map(|(c, _)| *c).collect(),
            given: work.given.iter().copied().collect(),
            entries: before.free_entries(),
            bodies: before.free_bodies(),
        }
    }

    fn has(&self, fault: Fault) -> bool {
        self.fault == Some(fault)
    }

    fn places(mut self) -> Result<Places, String> {
        let mut after = Places::new();
        let work = self.work;
        for (at, domain) in work.after.domains.iter().enumerate() {
            for (cell, held) in &domain.cells {
                let place = self.place(at, *cell, held)?;
                after.insert((at, *cell), place);
            }
        }
        if self.has(Fault::AdvanceFreesOldBody) {
            for (to, cell) in &work.given {
                let body = after[&(self.innermost, *cell)].body;
                after.entry((*to, *cell)).and_modify(|p| p.body = body);
            }
        }
        Ok(after)
    }

    /// The place of one holding.
    fn place(&mut self, at: usize, cell: u32, held: &Holding) -> Result<Place, String> {
        let old = self.before.places.get(&(at, cell)).copied();
        let inner = self.before.places.get(&(self.innermost, cell)).copied();
        let mut place = match (old, inner) {
            // What is held stays in its entry; a cell moved by commit keeps its entry too.
            (Some(place), _) => place,
            (None, Some(place)) if self.commits() => place,
            _ => Place {
                entry: self.entry(at, cell)?,
                body: 0,
            },
        };
        if let Some(inner) = inner
            && self.takes_inner_body(at, cell)
        {
            place.body = inner.body;
        }
        if self.takes_copy(at, cell) && held.kept.is_copy() && !self.over_old(at, cell) {
            place.body = self.body(at, cell)?;
        }
        if !held.kept.is_copy() {
            place.body = 0;
        }
        Ok(place)
    }

    fn commits(&self) -> bool {
        matches!(self.call, Call::Commit { .. })
    }

    /// Whether a holding gets the body that the innermost domain had for the cell: what an advance gives
    /// outwards does, and in a commit where, by an error, newest wins.
    fn takes_inner_body(&self, at: usize, cell: u32) -> bool {
        let inner = &self.before.state.domains[self.innermost].cells;
        let newest = self.has(Fault::NewestWinsInCommit)
            && self.commits()
            && at + 1 == self.innermost
            && inner.get(&cell).is_some_and(|h| h.kept != Kept::ViaParent);
        newest || self.given.contains(&(at, cell))
    }

    /// Whether a holding is what takes the bytes that the call copies.
    fn takes_copy(&self, at: usize, cell: u32) -> bool {
        let copier = copier(self.work, self.fault, self.innermost, cell);
        self.taken.contains(&cell) && at == copier
    }

    /// Whether a copy goes over the old body: an error, for a store that is to make it. What is given
    /// outwards has another owner by then.
    fn over_old(&self, at: usize, cell: u32) -> bool {
        let in_place = matches!(self.choice, Choice::Lowest) && self.work.over_bodies();
        let again = self.has(Fault::AddTakesNewValue) && self.call.records().is_some();
        let had_body = self.before.body(at, cell).is_some();
        had_body && (again || in_place && !self.work.gives(cell))
    }

    /// The entry that the call takes for a holding.
    fn entry(&mut self, at: usize, cell: u32) -> Result<u32, String> {
        let chosen = match self.choice {
            Choice::Seen(places) => places.get(&(at, cell)).map(|place| place.entry),
            Choice::Lowest => self.entries.first().copied(),
        };
        taken_from(&mut self.entries, chosen, "entry", at, cell)
    }

    /// The body that the call takes for a copy.
    fn body(&mut self, at: usize, cell: u32) -> Result<u32, String> {
        let chosen = match self.choice {
            Choice::Seen(places) => places.get(&(at, cell)).map(|place| place.body),
            Choice::Lowest => self.bodies.first().copied(),
        };
        taken_from(&mut self.bodies, chosen, "body", at, cell)
    }
}

/// Takes this number out of the free ones.
fn taken_from(
    free: &mut BTreeSet<u32>,
    chosen: Option<u32>,
    what: &str,
    at: usize,
    cell: u32,
) -> Result<u32, String> {
    let depth = at + 1;
    match chosen {
        Some(number) if free.remove(&number) => Ok(number),
        Some(number) => Err(format!(
            "{what} {number} taken for cell {cell} was not free before the call"
        )),
        None => Err(format!(
            "no {what} was taken for cell {cell} at depth {depth}"
        )),
    }
}

/// The domain whose copy of a cell the call takes: the innermost, but for an error by which it gives the
/// new bytes outwards.
fn copier(work: &Work, fault: Option<Fault>, innermost: usize, cell: u32) -> usize {
    if fault != Some(Fault::AdvanceGivesNewValue) {
        return innermost;
    }
    let mut given = work.given.iter();
    let to = given.find(|(_, given)| *given == cell);
    to.map_or(innermost, |(to, _)| *to)
}

/// The stores of any call but make and open: bytes, then pairs, word 6, the words, word 6.
fn steps(before: &Decoded, work: &Work, places: &Places, fault: Option<Fault>) -> Vec<Step> {
    let innermost = before.state.domains.len().wrapping_sub(1);
    let mut bytes = Vec::new();
    for (cell, value) in &work.taken {
        let domain = copier(work, fault, innermost, *cell);
        let body = places[&(domain, *cell)].body;
        bytes.extend(Step::bytes(Buffer::Bodies, body, value));
    }
    for (cell, value) in &work.put_back {
        bytes.extend(Step::bytes(Buffer::Memory, *cell, value));
    }
    let mut forced = BTreeSet::new();
    if work.over_bodies() {
        let taken = work.taken.iter();
        forced.extend(taken.map(|(c, _)| places[&(innermost, *c)].entry));
    }
    let pairs = pairs(before, &encode(before.sizes, &work.after, places), &forced);
    let table = journal(before.sizes, &pairs, work.early_word_6());
    if work.table_first() {
        table.into_iter().chain(bytes).collect()
    } else {
        bytes.into_iter().chain(table).collect()
    }
}

/// The words to replace, with their new values. An entry of which one word changes puts both into
/// pairs, so the comparison goes entry by entry.
fn pairs(before: &Decoded, after: &[u32], forced: &BTreeSet<u32>) -> Vec<(usize, u32)> {
    let mut pairs: Vec<(usize, u32)> = (4..=NEXT)
        .chain(8..16)
        .filter(|at| after[*at] != before.words[*at])
        .map(|at| (at, after[at]))
        .collect();
    for entry in 0..before.sizes.e {
        let at = ENTRIES + 2 * entry as usize;
        if after[at..at + 2] != before.words[at..at + 2] || forced.contains(&entry) {
            pairs.extend([(at, after[at]), (at + 1, after[at + 1])]);
        }
    }
    pairs
}

/// The table part: the pairs, word 6, the words in the same order, and word 6 again.
fn journal(sizes: Sizes, pairs: &[(usize, u32)], early_word_6: bool) -> Vec<Step> {
    if pairs.is_empty() {
        return Vec::new();
    }
    let mut steps = Vec::new();
    for (i, (word, value)) in pairs.iter().enumerate() {
        let at = sizes.pairs_at() + 2 * i;
        steps.extend([Step::word(at, *word as u32), Step::word(at + 1, *value)]);
    }
    let announced = if early_word_6 { 0 } else { steps.len() };
    steps.insert(announced, Step::word(PENDING, pairs.len() as u32));
    steps.extend(pairs.iter().map(|(at, value)| Step::word(*at, *value)));
    steps.push(Step::word(PENDING, 0));
    steps
}
