//! The calls: questions in their order, what a call leaves, its steps, and what each cut leaves. Add
//! has two forms, a plain one and one that takes a list of records (request A.3); the plain one is
//! the list of its one record. Advance of an inner domain gives cells outwards (request A.4).

mod add;
mod advance;

use crate::fault::Fault;
use crate::reply::{BY_RULE, IN_BODIES, IN_MEMORY, Reply, STOPPED};
use crate::rules::{SCALE, pattern};
use crate::state::{Bytes, CELL, Domain, Holding, Kept, State, cell_of};
use crate::table::Decoded;
use std::collections::{BTreeMap, BTreeSet};
use std::fmt;
use std::ops::{Range, RangeInclusive};
use std::slice;

/// How add keeps a cell, as its kind: by a copy of the bytes, by what the next domain out holds, or
/// by a rule.
pub const COPY: u32 = 0;
pub const VIA_PARENT: u32 = 1;
pub const PATTERN: u32 = 2;

/// The labels of add.
pub const READ_ONLY: u32 = 0;
pub const READ_WRITE: u32 = 1;

/// The last number that a call can be refused by.
const LAST: u32 = 20;

/// The number that is retired since request A.4: no call answers it, and no other has moved.
pub const RETIRED: u32 = 15;

/// The numbers that a call can be refused by.
pub fn refusals() -> impl Iterator<Item = u32> {
    (1..=LAST).filter(|number| *number != RETIRED)
}

/// How many records a list may have.
pub const RECORDS: RangeInclusive<usize> = 1..=64;

/// A record of the list that an add takes (request A.3). It is as C lays it out: five words in this
/// order, so that a list can be lent as it stands.
#[derive(Clone, Copy, PartialEq, Eq, Debug)]
#[repr(C)]
pub struct Record {
    pub first: u32,
    pub count: u32,
    pub kind: u32,
    /// Read where the kind is a pattern.
    pub rule: u32,
    pub label: u32,
}

impl Record {
    /// A record of this kind, with rule 0.
    pub const fn new(first: u32, count: u32, kind: u32, label: u32) -> Record {
        Record {
            first,
            count,
            kind,
            rule: 0,
            label,
        }
    }

    pub const fn copy(first: u32, count: u32, label: u32) -> Record {
        Record::new(first, count, COPY, label)
    }

    pub const fn via_parent(first: u32, count: u32, label: u32) -> Record {
        Record::new(first, count, VIA_PARENT, label)
    }

    pub const fn pattern(first: u32, count: u32, rule: u32, label: u32) -> Record {
        Record::new(first, count, PATTERN, label).with_rule(rule)
    }

    /// The same record with this rule number.
    pub const fn with_rule(self, rule: u32) -> Record {
        Record { rule, ..self }
    }

    /// First cell, count, kind, rule and label.
    pub fn numbers_mut(&mut self) -> [&mut u32; 5] {
        let Record {
            first,
            count,
            kind,
            rule,
            label,
        } = self;
        [first, count, kind, rule, label]
    }
}

/// A call with its arguments. The numbers are as lent, right or wrong.
#[derive(Clone, PartialEq, Eq, Debug)]
pub enum Call {
    Make,
    Open,
    Create,
    /// The plain add.
    Add {
        handle: u32,
        record: Record,
    },
    /// The add of a list.
    AddRanges {
        handle: u32,
        records: Vec<Record>,
    },
    Delete {
        handle: u32,
        first: u32,
        count: u32,
    },
    Commit {
        handle: u32,
    },
    Advance {
        handle: u32,
    },
    Restore {
        handle: u32,
    },
    List,
    Look {
        handle: u32,
        cell: u32,
    },
}

impl Call {
    pub const NAMES: [&'static str; 11] = [
        "make",
        "open",
        "create",
        "add",
        "add_ranges",
        "delete",
        "commit",
        "advance",
        "restore",
        "list",
        "look",
    ];

    /// An add to the innermost domain, with rule 0.
    pub fn add(first: u32, count: u32, kind: u32, label: u32) -> Call {
        Call::Add {
            handle: 0,
            record: Record::new(first, count, kind, label),
        }
    }

    /// An add of a list to the innermost domain.
    pub fn ranges(records: impl Into<Vec<Record>>) -> Call {
        Call::AddRanges {
            handle: 0,
            records: records.into(),
        }
    }

    /// An add by copy to the innermost domain.
    pub fn copy(first: u32, count: u32, label: u32) -> Call {
        Call::add(first, count, COPY, label)
    }

    /// An add via parent to the innermost domain.
    pub fn via_parent(first: u32, count: u32, label: u32) -> Call {
        Call::add(first, count, VIA_PARENT, label)
    }

    /// An add by a rule to the innermost domain.
    pub fn pattern(first: u32, count: u32, rule: u32, label: u32) -> Call {
        Call::add(first, count, PATTERN, label).with_rule(rule)
    }

    /// The same call with this rule number, where it takes one.
    pub fn with_rule(mut self, rule: u32) -> Call {
        if let Call::Add { record, .. } = &mut self {
            record.rule = rule;
        }
        self
    }

    /// The handle and the records of an add: a plain one has one record.
    pub fn records(&self) -> Option<(u32, &[Record])> {
        match self {
            Call::Add { handle, record } => Some((*handle, slice::from_ref(record))),
            Call::AddRanges { handle, records } => Some((*handle, records)),
            _ => None,
        }
    }

    pub fn delete(handle: u32, first: u32, count: u32) -> Call {
        Call::Delete {
            handle,
            first,
            count,
        }
    }

    /// The same call on the domain with this handle, where it names one.
    pub fn on(mut self, handle: u32) -> Call {
        if let [Some(named), ..] = self.numbers_mut() {
            *named = handle;
        }
        self
    }

    /// Every call once, in the order of [`Call::NAMES`], about one domain and one cell; add, commit
    /// and advance are about the innermost.
    pub fn one_of_each(handle: u32, cell: u32) -> [Call; Call::NAMES.len()] {
        [
            Call::Make,
            Call::Open,
            Call::Create,
            Call::copy(cell, 1, READ_WRITE),
            Call::ranges([
                Record::copy(cell, 1, READ_ONLY),
                Record::copy(0, 1, READ_ONLY),
                Record::via_parent(cell, 1, READ_WRITE),
            ]),
            Call::delete(handle, cell, 1),
            Call::Commit { handle: 0 },
            Call::Advance { handle: 0 },
            Call::Restore { handle },
            Call::List,
            Call::Look { handle, cell },
        ]
    }

    /// The call's place in [`Call::NAMES`].
    pub fn number(&self) -> usize {
        match self {
            Call::Make => 0,
            Call::Open => 1,
            Call::Create => 2,
            Call::Add { .. } => 3,
            Call::AddRanges { .. } => 4,
            Call::Delete { .. } => 5,
            Call::Commit { .. } => 6,
            Call::Advance { .. } => 7,
            Call::Restore { .. } => 8,
            Call::List => 9,
            Call::Look { .. } => 10,
        }
    }

    pub fn name(&self) -> &'static str {
        Call::NAMES[self.number()]
    }

    /// The call's numbers: handle, first cell (for look the cell), count, kind, rule and label, as
    /// far as it has them. Of a list this is the handle alone: the others are its records'.
    pub fn numbers_mut(&mut self) -> [Option<&mut u32>; 6] {
        match self {
            Call::Make | Call::Open | Call::Create | Call::List => [const { None }; 6],
            Call::Add { handle, record } => {
                let [first, count, kind, rule, label] = record.numbers_mut();
                [handle, first, count, kind, rule, label].map(Some)
            }
            Call::Delete {
                handle,
                first,
                count,
            } => [Some(handle), Some(first), Some(count), None, None, None],
            Call::Commit { handle }
            | Call::Advance { handle }
            | Call::Restore { handle }
            | Call::AddRanges { handle, .. } => [Some(handle), None, None, None, None, None],
            Call::Look { handle, cell } => [Some(handle), Some(cell), None, None, None, None],
        }
    }

    /// The same numbers, with 0 for those that the call does not have.
    pub fn numbers(mut self) -> [u32; 6] {
        self.numbers_mut().map(|number| number.map_or(0, |n| *n))
    }

    /// List and look change nothing and take no budget.
    pub fn only_reads(&self) -> bool {
        matches!(self, Call::List | Call::Look { .. })
    }
}

/// What an add takes cells by. A rule is named also where the kind ignores it.
fn kind_text(record: &Record) -> String {
    let kind = match record.kind {
        COPY => "copy".to_string(),
        VIA_PARENT => "via parent".to_string(),
        PATTERN => return format!("by rule {}", record.rule),
        n => format!("kind {n}"),
    };
    match record.rule {
        0 => kind,
        rule => format!("{kind} (rule {rule})"),
    }
}

impl fmt::Display for Record {
    fn fmt(&self, f: &mut fmt::Formatter<'_>) -> fmt::Result {
        let kind = kind_text(self);
        let label = match self.label {
            READ_ONLY => "read-only".to_string(),
            READ_WRITE => "read-write".to_string(),
            n => format!("label {n}"),
        };
        let Record { first, count, .. } = self;
        write!(f, "first {first}, count {count}, {kind}, {label}")
    }
}

impl fmt::Display for Call {
    fn fmt(&self, f: &mut fmt::Formatter<'_>) -> fmt::Result {
        let name = self.name();
        match self {
            Call::Make | Call::Open | Call::Create | Call::List => write!(f, "{name}"),
            Call::Add { handle, record } => write!(f, "add to {handle}: {record}"),
            Call::AddRanges { handle, records } => {
                write!(f, "add {} ranges to {handle}:", records.len())?;
                let mut next = 1;
                for same in records.chunk_by(|one, other| one == other) {
                    match same.len() {
                        1 => write!(f, " ({next}) {}", same[0])?,
                        many => write!(f, " ({next} to {}) {}", next + many - 1, same[0])?,
                    }
                    next += same.len();
                }
                Ok(())
            }
            Call::Delete {
                handle,
                first,
                count,
            } => write!(f, "delete from {handle}: first {first}, count {count}"),
            Call::Commit { handle } | Call::Advance { handle } | Call::Restore { handle } => {
                write!(f, "{name} {handle}")
            }
            Call::Look { handle, cell } => write!(f, "look {handle}, cell {cell}"),
        }
    }
}

/// The lengths of the three buffers: bytes, bytes, words.
#[derive(Clone, Copy, PartialEq, Eq, Debug)]
pub struct Lengths {
    pub memory: usize,
    pub bodies: usize,
    pub table: usize,
}

/// Cells, entry places and bodies.
#[derive(Clone, Copy, PartialEq, Eq, Debug)]
pub struct Sizes {
    pub m: u32,
    pub e: u32,
    pub b: u32,
}

impl Sizes {
    /// The largest store that there is.
    pub const LARGEST: Sizes = Sizes {
        m: 65_536,
        e: 4_096,
        b: 4_096,
    };

    pub fn lengths(&self) -> Lengths {
        Lengths {
            memory: self.m as usize * CELL,
            bodies: self.b as usize * CELL,
            table: 36 + 6 * self.e as usize,
        }
    }

    /// The word at which the pairs begin: behind the entries, two words each.
    pub fn pairs_at(&self) -> usize {
        16 + 2 * self.e as usize
    }
}

impl Lengths {
    /// Question 1: the sizes that go with these lengths, if they are allowed.
    pub fn sizes(&self) -> Option<Sizes> {
        let cells = |bytes: usize, most: usize| {
            (bytes.is_multiple_of(CELL) && bytes >= CELL && bytes / CELL <= most)
                .then_some((bytes / CELL) as u32)
        };
        let m = cells(self.memory, 65_536)?;
        let b = cells(self.bodies, 4_096)?;
        // A table below 36 words must not be read as a very long one.
        let rest = self.table.checked_sub(36)?;
        let e = (rest.is_multiple_of(6) && rest >= 6 && rest / 6 <= 4_096)
            .then_some((rest / 6) as u32)?;
        Some(Sizes { m, e, b })
    }
}

/// What three lent buffers stand for.
#[derive(Clone, PartialEq, Eq, Debug)]
pub enum Reading {
    /// Question 1 is answered by no.
    WrongLengths,
    /// Question 2 is answered by no.
    NoStore,
    /// Question 4 is answered by no; `pending` tells question 3 (word 6 is not zero).
    Damaged { pending: bool },
    /// A store. With `pending` above 0 that many pairs wait for an opening, and `state` is what the
    /// pairs mean.
    Store { state: State, pending: u32 },
}

/// What look shows.
#[derive(Clone, PartialEq, Eq, Debug)]
pub struct Looked {
    pub shown: Shown,
    /// The bytes that a restore would leave.
    pub bytes: Bytes,
}

/// Where the bytes are that look shows.
#[derive(Clone, Copy, PartialEq, Eq, Debug)]
pub enum Shown {
    /// In memory: nobody from the domain inwards holds the cell.
    Memory,
    /// In the body of this domain's copy.
    Body(usize),
    /// Nowhere: they follow this rule, and the part has length 0.
    Rule(u32),
    /// An error: in the body whose number is the rule's.
    RuleAsBody(u32),
}

/// What a changing call has to do.
#[derive(Clone, PartialEq, Eq, Debug)]
pub struct Work {
    /// Copies taken, rising by cell.
    pub taken: Vec<(u32, Bytes)>,
    /// Cells put back into memory, rising.
    pub put_back: Vec<(u32, Bytes)>,
    /// Cells that an advance gives outwards, rising, each with the domain that it is given to. Their
    /// bodies change owner: no byte is stored for them.
    pub given: Vec<(usize, u32)>,
    /// p: table words to replace.
    pub words: u64,
    /// All steps.
    pub need: u64,
    /// What the store means when the call is done.
    pub after: State,
    /// The new handle of a create, else 0.
    pub handle: u32,
    shape: Shape,
    /// An error: the call is made in these parts, each with its own bytes and its own journal.
    parts: Vec<Work>,
}

#[derive(Clone, Copy, PartialEq, Eq, Debug)]
enum Shape {
    Make,
    Open,
    Bytes,
    /// An error: table first, bytes after.
    TableFirst,
    /// An error: bodies in use are written over.
    OverBodies,
    /// An error: word 6 before the pairs.
    EarlyWord6,
    /// An error: pairs are forgotten while they are put in place.
    ForgettingOpen,
}

/// The answer to a call, before any step.
#[derive(Clone, PartialEq, Eq, Debug)]
pub enum Verdict {
    Refused(u32),
    Listed(Vec<u32>),
    Looked(Looked),
    Work(Work),
}

impl Verdict {
    /// What the call has to tell with this budget. Look tells a place, which the buffers before the
    /// call have.
    pub fn reply(&self, call: &Call, before: Option<&Decoded>, budget: u64) -> Option<Reply> {
        let mut reply = Reply::default();
        match self {
            Verdict::Refused(number) => reply.code = *number,
            Verdict::Listed(list) => {
                reply.count = list.len() as u32;
                for (place, handle) in reply.handles.iter_mut().zip(list) {
                    *place = *handle;
                }
            }
            Verdict::Looked(looked) => {
                let Call::Look { cell, .. } = *call else {
                    return None;
                };
                let number;
                (reply.place, number) = match looked.shown {
                    Shown::Memory => (IN_MEMORY, cell),
                    Shown::Body(keeper) => (IN_BODIES, before?.places.get(&(keeper, cell))?.body),
                    Shown::Rule(rule) => {
                        reply.rule = rule;
                        (BY_RULE, 0)
                    }
                    Shown::RuleAsBody(rule) => (IN_BODIES, rule),
                };
                reply.offset = CELL as u64 * u64::from(number);
            }
            Verdict::Work(work) => {
                let (steps, done) = work.steps(budget);
                reply.steps = steps;
                reply.code = if done { 0 } else { STOPPED };
                // A stopped create names no handle.
                reply.handle = if done { work.handle } else { 0 };
            }
        }
        Some(reply)
    }
}

/// The model of document 01, perhaps with one error switched on.
#[derive(Clone, Copy, Debug, Default)]
pub struct Model {
    pub fault: Option<Fault>,
}

impl Model {
    fn has(&self, fault: Fault) -> bool {
        self.fault == Some(fault)
    }

    /// Puts the questions in their order, and says what the call does if none is answered by no.
    pub fn verdict(
        &self,
        lengths: Lengths,
        reading: &Reading,
        memory: &[u8],
        call: &Call,
    ) -> Verdict {
        match self.ask(lengths, reading, memory, call) {
            Ok(verdict) => verdict,
            Err(number) => Verdict::Refused(number),
        }
    }

    fn ask(
        &self,
        lengths: Lengths,
        reading: &Reading,
        memory: &[u8],
        call: &Call,
    ) -> Result<Verdict, u32> {
        // 1: lengths. Make is asked nothing else.
        let sizes = lengths.sizes().ok_or(1u32)?;
        if *call == Call::Make {
            let need = 2 * sizes.e as u64 + 17;
            return Ok(Verdict::Work(Work {
                need,
                shape: Shape::Make,
                ..self.work(State::fresh())
            }));
        }
        // 2: words 0 to 3 and 7. 3: nothing pending, asked of all but open. 4: the table.
        let (state, pending) = match reading {
            Reading::WrongLengths => return Err(1),
            Reading::NoStore => return Err(2),
            Reading::Damaged { pending: true } if *call != Call::Open => return Err(3),
            Reading::Damaged { .. } => return Err(4),
            Reading::Store { state, pending } => (state, *pending),
        };
        if *call == Call::Open {
            let need = if pending == 0 { 0 } else { pending as u64 + 1 };
            let shape = if self.has(Fault::OpeningForgets) {
                Shape::ForgettingOpen
            } else {
                Shape::Open
            };
            return Ok(Verdict::Work(Work {
                words: pending as u64,
                need,
                shape,
                ..self.work(state.clone())
            }));
        }
        if pending != 0 {
            return Err(3);
        }
        match *call {
            Call::Make | Call::Open => unreachable!(),
            Call::Create => self.create(state),
            Call::Add { handle, record } => self.add(sizes, state, memory, handle, &[record]),
            Call::AddRanges {
                handle,
                ref records,
            } => self.add(sizes, state, memory, handle, records),
            Call::Delete {
                handle,
                first,
                count,
            } => self.delete(sizes, state, handle, first, count),
            Call::Commit { handle } => self.commit(state, handle),
            Call::Advance { handle } => self.advance(sizes, state, memory, handle),
            Call::Restore { handle } => self.restore(state, handle),
            Call::List => Ok(Verdict::Listed(
                state.domains.iter().map(|d| d.handle).collect(),
            )),
            Call::Look { handle, cell } => self.look(sizes, state, memory, handle, cell),
        }
    }

    /// Work that does nothing yet and leaves `after`.
    fn work(&self, after: State) -> Work {
        let shape = if self.has(Fault::PendingTooEarly) {
            Shape::EarlyWord6
        } else {
            Shape::Bytes
        };
        Work {
            taken: Vec::new(),
            put_back: Vec::new(),
            given: Vec::new(),
            words: 0,
            need: 0,
            after,
            handle: 0,
            shape,
            parts: Vec::new(),
        }
    }

    /// Counts the steps: 64 for each copy taken or cell put back, then 3p + 2, or none if p is 0.
    fn with_steps(&self, mut work: Work) -> Work {
        let bytes = CELL as u64 * (work.taken.len() + work.put_back.len()) as u64;
        work.need = bytes
            + if work.words == 0 {
                0
            } else {
                3 * work.words + 2
            };
        if self.has(Fault::StepTooMany) {
            work.need += 1;
        }
        work
    }

    /// The answer of a call whose work is known but for its steps.
    fn count(&self, work: Work) -> Result<Verdict, u32> {
        Ok(Verdict::Work(self.with_steps(work)))
    }

    /// Questions 5 and 6: the domain that a handle names, which has to be the innermost.
    fn innermost(&self, state: &State, handle: u32) -> Result<usize, u32> {
        let named = state.find(handle).ok_or(5u32)?;
        match named + 1 == state.domains.len() {
            true => Ok(named),
            false => Err(6),
        }
    }

    /// The 64 bytes of a rule.
    fn pattern(&self, rule: u32) -> Option<Bytes> {
        let mut bytes = pattern(rule)?;
        if self.has(Fault::ScaleTurnedRound) && rule == SCALE {
            bytes.reverse();
        }
        Some(bytes)
    }

    /// The value of a cell held by `domain`.
    fn value(&self, state: &State, domain: usize, cell: u32) -> Option<Bytes> {
        match state.kept(domain, cell)? {
            Kept::Copy(bytes) => Some(bytes),
            Kept::Rule(rule) => self.pattern(rule),
            Kept::ViaParent => None,
        }
    }

    /// Whether memory differs from the value of a cell held by `domain`.
    fn differs(&self, state: &State, memory: &[u8], domain: usize, cell: u32) -> bool {
        self.value(state, domain, cell) != Some(cell_of(memory, cell))
    }

    /// Question 8, without wrapping.
    fn range(&self, sizes: Sizes, first: u32, count: u32) -> Result<Range<u32>, u32> {
        let end = if self.has(Fault::RangeWraps) {
            first.wrapping_add(count) as u64
        } else {
            first as u64 + count as u64
        };
        if count < 1 || end > sizes.m as u64 {
            return Err(8);
        }
        Ok(first..end as u32)
    }

    fn create(&self, state: &State) -> Result<Verdict, u32> {
        let most = if self.has(Fault::NinthDomain) { 9 } else { 8 };
        if state.domains.len() >= most {
            return Err(9);
        }
        if state.next == u32::MAX {
            return Err(10);
        }
        let handle = state.next;
        let mut after = state.clone();
        after.next += 1;
        after.domains.push(Domain {
            handle,
            cells: BTreeMap::new(),
        });
        self.count(Work {
            words: 3,
            handle,
            ..self.work(after)
        })
    }

    /// Copies in use.
    fn copies(&self, state: &State) -> u64 {
        let also = match self.has(Fault::PatternCountsAsCopy) {
            true => state.patterns(),
            false => 0,
        };
        state.copies() + also
    }

    fn delete(
        &self,
        sizes: Sizes,
        state: &State,
        handle: u32,
        first: u32,
        count: u32,
    ) -> Result<Verdict, u32> {
        let named = state.find(handle).ok_or(5u32)?;
        let range = self.range(sizes, first, count)?;
        if range.clone().any(|c| !state.domains[named].holds(c)) {
            return Err(13);
        }
        if let Some(inner) = state.domains.get(named + 1) {
            let rests = |c: u32| {
                inner
                    .cells
                    .get(&c)
                    .is_some_and(|h| h.kept == Kept::ViaParent)
            };
            if !self.has(Fault::NoQuestion14) && range.clone().any(rests) {
                return Err(14);
            }
        }
        let mut work = self.work(state.clone());
        for c in range {
            for (at, domain) in work.after.domains.iter_mut().enumerate() {
                if (at == named || self.has(Fault::DeleteFromAll))
                    && domain.cells.remove(&c).is_some()
                {
                    work.words += 2;
                }
            }
        }
        self.count(work)
    }

    fn commit(&self, state: &State, handle: u32) -> Result<Verdict, u32> {
        self.innermost(state, handle)?;
        let mut work = self.work(state.clone());
        work.words = 2;
        let inner = work.after.domains.pop().expect("live");
        match work.after.domains.last_mut() {
            // With no outer domain everything is freed.
            None => work.words += 2 * inner.cells.len() as u64,
            Some(outer) => {
                for (c, held) in inner.cells {
                    // Moved or freed: the inner entry changes either way.
                    work.words += 2;
                    match outer.cells.get_mut(&c) {
                        None => {
                            outer.cells.insert(c, held);
                        }
                        Some(kept) => {
                            let mut changed = false;
                            if held.read_write
                                && !kept.read_write
                                && !self.has(Fault::CommitForgetsRaise)
                            {
                                kept.read_write = true;
                                changed = true;
                            }
                            if self.has(Fault::NewestWinsInCommit) && held.kept != Kept::ViaParent {
                                kept.kept = held.kept;
                                changed = true;
                            }
                            if changed {
                                work.words += 2;
                            }
                        }
                    }
                }
            }
        }
        if self.has(Fault::HandleReuse) {
            work.after.next = inner.handle;
            work.words += 1;
        }
        self.count(work)
    }

    fn restore(&self, state: &State, handle: u32) -> Result<Verdict, u32> {
        let mut named = state.find(handle).ok_or(5u32)?;
        if self.has(Fault::RestoreBeginsInside) {
            named = (named + 1).min(state.domains.len() - 1);
        }
        let mut work = self.work(state.clone());
        work.put_back = self.put_back(state, named);
        let ended = self.ended(&mut work.after.domains, named);
        if !ended.is_empty() {
            work.words = 1
                + ended.len() as u64
                + ended.iter().map(|d| 2 * d.cells.len() as u64).sum::<u64>();
        }
        if self.has(Fault::RestoreEndsFirst) {
            work.shape = Shape::TableFirst;
        }
        self.count(work)
    }

    /// The cells that a restore puts back, rising, with their bytes: each that the named domain or one
    /// inside it holds, with the value of the outermost of these holders.
    fn put_back(&self, state: &State, named: usize) -> Vec<(u32, Bytes)> {
        let mut cells: BTreeSet<u32> = BTreeSet::new();
        for domain in &state.domains[named..] {
            cells.extend(domain.cells.keys());
            if self.has(Fault::RestoreNamedCellsOnly) {
                break;
            }
        }
        let mut put_back = Vec::new();
        for c in cells {
            let mut holders = (named..state.domains.len()).filter(|at| state.domains[*at].holds(c));
            let holder = if self.has(Fault::NewestWinsInRestore) {
                holders.next_back()
            } else {
                holders.next()
            }
            .expect("held");
            let keeper = state.keeper(holder, c);
            if self.has(Fault::RestoreStopsAtNamed) && keeper.is_some_and(|k| k < named) {
                continue;
            }
            if self.has(Fault::RestoreSkipsPatterns) && state.domains[holder].rule(c).is_some() {
                continue;
            }
            if let Some(bytes) = self.value(state, holder, c) {
                put_back.push((c, bytes));
            }
        }
        put_back
    }

    /// Takes the domains that a restore ends out of the live ones: all that are inside the named one.
    fn ended(&self, live: &mut Vec<Domain>, named: usize) -> Vec<Domain> {
        if self.has(Fault::RestoreEndsNobody) {
            return Vec::new();
        }
        let first = match live.len() - 1 {
            innermost if self.has(Fault::RestoreEndsInnermostOnly) => innermost.max(named + 1),
            _ if self.has(Fault::RestoreEndsNamed) => named,
            _ => named + 1,
        };
        live.split_off(first)
    }

    fn look(
        &self,
        sizes: Sizes,
        state: &State,
        memory: &[u8],
        handle: u32,
        cell: u32,
    ) -> Result<Verdict, u32> {
        let named = state.find(handle).ok_or(5u32)?;
        self.range(sizes, cell, 1)?;
        let mut holders = (named..state.domains.len()).filter(|at| state.domains[*at].holds(cell));
        let holder = if self.has(Fault::LookFromInside) {
            holders.next_back()
        } else {
            holders.next()
        };
        let keeper = holder.and_then(|h| state.keeper(h, cell));
        let shown = match keeper {
            None => Shown::Memory,
            Some(k) => match state.domains[k].rule(cell) {
                None => Shown::Body(k),
                Some(rule) if self.has(Fault::LookTellsRuleAsBody) => Shown::RuleAsBody(rule),
                Some(rule) => Shown::Rule(rule),
            },
        };
        let bytes = keeper
            .and_then(|k| self.value(state, k, cell))
            .unwrap_or_else(|| cell_of(memory, cell));
        Ok(Verdict::Looked(Looked { shown, bytes }))
    }
}

impl Work {
    /// Whether the table part comes before the bytes (an error).
    pub(crate) fn table_first(&self) -> bool {
        self.shape == Shape::TableFirst
    }

    /// Whether copies go over the bodies in use (an error).
    pub(crate) fn over_bodies(&self) -> bool {
        self.shape == Shape::OverBodies
    }

    /// Whether word 6 comes before the pairs (an error).
    pub(crate) fn early_word_6(&self) -> bool {
        self.shape == Shape::EarlyWord6
    }

    /// The parts in which the call is made, where it is not made as one (an error).
    pub(crate) fn parts(&self) -> &[Work] {
        &self.parts
    }

    /// Whether an advance gives this cell outwards.
    pub(crate) fn gives(&self, cell: u32) -> bool {
        self.given.iter().any(|(_, given)| *given == cell)
    }

    /// Byte steps: 64 for each copy taken or cell put back.
    pub fn byte_steps(&self) -> u64 {
        (CELL * (self.taken.len() + self.put_back.len())) as u64
    }

    /// From how many steps on an opening finds the call made; none where it has no table part.
    pub fn made_from(&self) -> Option<u64> {
        match self.shape {
            Shape::Make => Some(self.need),
            _ if self.words == 0 => None,
            Shape::Open => Some(0),
            _ => Some(self.byte_steps() + 2 * self.words + 1),
        }
    }

    /// Steps of a call with this budget, and whether it is done.
    pub fn steps(&self, budget: u64) -> (u64, bool) {
        (self.need.min(budget), self.need <= budget)
    }

    /// What the buffers stand for after `k` steps, from `before`.
    pub fn reading_after(&self, before: &Reading, k: u64) -> Reading {
        if k >= self.need {
            return Reading::Store {
                state: self.after.clone(),
                pending: 0,
            };
        }
        let made = |pending: u64| Reading::Store {
            state: self.after.clone(),
            pending: pending as u32,
        };
        if !self.parts.is_empty() {
            return self.parts_after(before, k);
        }
        match self.shape {
            Shape::Make => {
                if k == 0 {
                    before.clone()
                } else {
                    Reading::NoStore
                }
            }
            // Every pair waits until word 6 is cleared, which is the last step.
            Shape::Open => made(self.words),
            Shape::ForgettingOpen => made(self.words - k.min(self.words)),
            Shape::Bytes | Shape::OverBodies | Shape::EarlyWord6 => {
                let table_steps = k.saturating_sub(self.byte_steps());
                let turn = if self.shape == Shape::EarlyWord6 {
                    1
                } else {
                    2 * self.words + 1
                };
                if table_steps >= turn {
                    return made(self.words);
                }
                let mut reading = before.clone();
                if let (Shape::OverBodies, Reading::Store { state, .. }) =
                    (self.shape, &mut reading)
                {
                    self.mix(state, k);
                }
                reading
            }
            Shape::TableFirst => {
                if self.words == 0 || k >= 3 * self.words + 2 {
                    made(0)
                } else if k > 2 * self.words {
                    made(self.words)
                } else {
                    before.clone()
                }
            }
        }
    }

    /// The error of a call that is made in parts: those before the step are made, and one is cut.
    fn parts_after(&self, before: &Reading, k: u64) -> Reading {
        let (mut reading, mut left) = (before.clone(), k);
        for part in &self.parts {
            reading = part.reading_after(&reading, left);
            if left < part.need {
                break;
            }
            left -= part.need;
        }
        reading
    }

    /// The error of an advance in place: the first `k` bytes are in the old bodies already, but for those
    /// that have another owner by then.
    fn mix(&self, state: &mut State, k: u64) {
        let Some(domain) = state.domains.last_mut() else {
            return;
        };
        for (at, (cell, bytes)) in self.taken.iter().enumerate() {
            if let Some(Holding {
                kept: Kept::Copy(old),
                ..
            }) = domain.cells.get_mut(cell)
                && !self.gives(*cell)
            {
                let stored = k.saturating_sub((CELL * at) as u64).min(CELL as u64) as usize;
                old[..stored].copy_from_slice(&bytes[..stored]);
            }
        }
    }

    /// Memory after `k` steps: a restore puts back its cells byte by byte, no other call touches
    /// memory.
    pub fn memory_after(&self, memory: &mut [u8], k: u64) {
        let before_bytes = if self.table_first() && self.words > 0 {
            3 * self.words + 2
        } else {
            0
        };
        let mut left = k.saturating_sub(before_bytes) as usize;
        for (cell, bytes) in &self.put_back {
            let now = left.min(CELL);
            let at = *cell as usize * CELL;
            memory[at..at + now].copy_from_slice(&bytes[..now]);
            left -= now;
        }
    }
}
