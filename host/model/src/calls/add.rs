//! Add: a list of records, each with first cell, count, kind, rule and label (request A.3). The plain
//! add is the list of its one record.
//!
//! Records act in list order. Each is put its questions, 7, 8, 11, 12, 18 and 19, against what the
//! records before it left, and then takes its cells. Room, which is questions 16 and 17, is asked once
//! for all that the list takes. What it took is then stored as one change: the bytes of its copies,
//! rising by cell whichever record took them, and one journal. So all are held or none.

use super::{COPY, Model, PATTERN, READ_WRITE, RECORDS, Record, Sizes, VIA_PARENT, Verdict, Work};
use crate::fault::Fault;
use crate::rules::RULES;
use crate::state::{Bytes, Holding, Kept, State, cell_of};
use std::collections::BTreeMap;
use std::ops::Range;

/// A list of which some records have acted.
struct Adding<'a> {
    memory: &'a [u8],
    /// The state before the call.
    before: &'a State,
    /// The domain that the list is added to.
    named: usize,
    /// What that domain holds, as the records so far left it.
    cells: BTreeMap<u32, Holding>,
    /// The cells that they took, in the order in which they did.
    order: Vec<u32>,
    /// Words that an error counts besides.
    extra: u64,
    /// What the domain held after each record: only for an error that makes each a change by itself.
    stages: Vec<BTreeMap<u32, Holding>>,
}

impl Adding<'_> {
    /// What the domain held before the call.
    fn old(&self, cell: u32) -> Option<&Holding> {
        self.before.domains[self.named].cells.get(&cell)
    }

    /// The cells of a record that the domain held by nothing before the call.
    fn new_at_first(&self, record: &Record) -> u64 {
        let cells = record.first..record.first.saturating_add(record.count);
        cells.filter(|c| self.old(*c).is_none()).count() as u64
    }

    /// How many of the cells that were taken are kept in such a way.
    fn taken(&self, is_it: impl Fn(Kept) -> bool) -> u64 {
        let taken = self.order.iter().map(|c| self.cells[c].kept);
        taken.filter(|kept| is_it(*kept)).count() as u64
    }
}

impl Model {
    pub(super) fn add(
        &self,
        sizes: Sizes,
        state: &State,
        memory: &[u8],
        handle: u32,
        records: &[Record],
    ) -> Result<Verdict, u32> {
        let named = self.listed(state, handle, records)?;
        let records = self.acting(records);
        let mut adding = Adding {
            memory,
            before: state,
            named,
            cells: state.domains[named].cells.clone(),
            order: Vec::new(),
            extra: 0,
            stages: Vec::new(),
        };
        if self.has(Fault::NumbersAskedOfAllFirst) {
            for record in &records {
                self.numbers(sizes, record)?;
            }
        }
        for (at, record) in records.iter().enumerate() {
            match self.asked(sizes, &adding, record) {
                Ok(range) => self.take(&mut adding, record, range),
                Err(_) if at > 0 && self.has(Fault::RefusedRecordLeftOut) => {}
                Err(number) => return Err(number),
            }
            if at + 1 < records.len() {
                self.room_too_early(sizes, &adding)?;
            }
        }
        self.room(sizes, &adding, &records)?;
        Ok(Verdict::Work(self.added(adding)))
    }

    /// Questions 5, 6 and 20: the domain, and whether the list has as many records as it may.
    fn listed(&self, state: &State, handle: u32, records: &[Record]) -> Result<usize, u32> {
        if self.has(Fault::RecordsCountedBeforeHandle) {
            self.list_length(records)?;
        }
        if self.has(Fault::RecordsCountedBeforeInnermost) {
            state.find(handle).ok_or(5u32)?;
            self.list_length(records)?;
        }
        let named = self.innermost(state, handle)?;
        if self.has(Fault::KindAskedBeforeRecordsCounted)
            && let Some(first) = records.first()
        {
            kind_and_label(first)?;
        }
        self.list_length(records)?;
        Ok(named)
    }

    /// Question 20.
    fn list_length(&self, records: &[Record]) -> Result<(), u32> {
        let mut allowed = *RECORDS.start()..RECORDS.end() + 1;
        if self.has(Fault::EmptyListDone) {
            allowed.start -= 1;
        }
        if self.has(Fault::SixtyFourRefused) {
            allowed.end -= 1;
        }
        if self.has(Fault::SixtyFiveAllowed) {
            allowed.end += 1;
        }
        match allowed.contains(&records.len()) {
            true => Ok(()),
            false => Err(20),
        }
    }

    /// The records in the order in which they act, which is the list's.
    fn acting(&self, records: &[Record]) -> Vec<Record> {
        let mut list = records.to_vec();
        if self.has(Fault::RecordsSortedByCell) {
            list.sort_by_key(|record| record.first);
        }
        let all = list.len();
        if self.has(Fault::LastRecordLeftOut) && all > 1
            || self.has(Fault::SixtyFourthLeftOut) && all == 64
        {
            list.pop();
        }
        if self.has(Fault::RuleOfFirstRecord)
            && let Some(first) = list.iter().find(|record| record.kind == PATTERN).copied()
        {
            list.iter_mut().for_each(|record| record.rule = first.rule);
        }
        list
    }

    /// Questions 7 and 8: the cells that a record names.
    fn numbers(&self, sizes: Sizes, record: &Record) -> Result<Range<u32>, u32> {
        kind_and_label(record)?;
        self.range(sizes, record.first, record.count)
    }

    /// Questions 7, 8, 11, 12, 18 and 19 on a record: of these, 18 is for a pattern alone, 11, 12 and
    /// 19 for via parent. Newly held is a cell that neither the domain held before the call nor a
    /// record before this one has taken. Gives the cells that the record names.
    fn asked(&self, sizes: Sizes, adding: &Adding, record: &Record) -> Result<Range<u32>, u32> {
        let range = self.numbers(sizes, record)?;
        let is_new = |c: &u32| match self.has(Fault::LaterRecordAsksAgain) {
            true => adding.old(*c).is_none(),
            false => !adding.cells.contains_key(c),
        };
        match record.kind {
            VIA_PARENT => {
                let new: Vec<u32> = range.clone().filter(is_new).collect();
                if !new.is_empty() {
                    self.rests_on_parent(adding, &new)?;
                }
            }
            PATTERN => {
                let new: Vec<u32> = range.clone().filter(is_new).collect();
                self.follows_rule(adding.memory, record.rule, &new)?;
            }
            _ => {}
        }
        Ok(range)
    }

    /// Questions 11, 12 and 19, each for all newly held cells of a record before the next.
    fn rests_on_parent(&self, adding: &Adding, new: &[u32]) -> Result<(), u32> {
        let (state, memory) = (adding.before, adding.memory);
        let outer = adding.named.checked_sub(1).ok_or(11u32)?;
        let lacks = |c: &u32| !state.domains[outer].holds(*c);
        let differs = |c: &u32| self.differs(state, memory, outer, *c);
        let by_rule = |c: &u32| state.domains[outer].rule(*c).is_some();
        if self.has(Fault::Question12CellByCell) {
            for c in new {
                if lacks(c) {
                    return Err(11);
                }
                if differs(c) {
                    return Err(12);
                }
            }
        }
        if new.iter().any(lacks) {
            return Err(11);
        }
        if self.has(Fault::Question19BeforeQuestion12) && new.iter().any(by_rule) {
            return Err(19);
        }
        if !self.has(Fault::NoQuestion12) && new.iter().any(differs) {
            return Err(12);
        }
        if !self.has(Fault::NoQuestion19) && new.iter().any(by_rule) {
            return Err(19);
        }
        Ok(())
    }

    /// Question 18: there is such a rule, whether or not a cell is new, and memory follows it in
    /// every newly held cell.
    fn follows_rule(&self, memory: &[u8], rule: u32, new: &[u32]) -> Result<(), u32> {
        if !RULES.contains(&rule) {
            let asked = !new.is_empty() || !self.has(Fault::RuleAskedOfNewCellsOnly);
            return if asked { Err(18) } else { Ok(()) };
        }
        let follows = |c: &u32| self.pattern(rule) == Some(cell_of(memory, *c));
        if !new.iter().all(follows) && !self.has(Fault::NoQuestion18) {
            return Err(18);
        }
        Ok(())
    }

    /// A record acts: a cell that is not held yet is held by its kind, one that is held already keeps
    /// kind and value, also where a record before this one has just taken it.
    fn take(&self, adding: &mut Adding, record: &Record, range: Range<u32>) {
        for c in range {
            let bytes = cell_of(adding.memory, c);
            let new = Holding {
                read_write: record.label == READ_WRITE,
                kept: match record.kind {
                    COPY => Kept::Copy(bytes),
                    VIA_PARENT => Kept::ViaParent,
                    _ => Kept::Rule(record.rule),
                },
            };
            let old = adding.old(c).copied();
            match adding.cells.get_mut(&c) {
                Some(held) => {
                    let was = *held;
                    *held = self.added_again(was, record, bytes);
                    if old.is_none() {
                        self.slip(held, was, new);
                    }
                    adding.extra += self.counted_again(old, was, new);
                }
                None => {
                    adding.cells.insert(c, new);
                    adding.order.push(c);
                }
            }
        }
        if self.has(Fault::JournalForEachRecord) {
            adding.stages.push(adding.cells.clone());
        }
    }

    /// What becomes of a cell that is held already: it keeps kind and value, and its label can rise.
    fn added_again(&self, mut held: Holding, record: &Record, bytes: Bytes) -> Holding {
        if record.label == READ_WRITE {
            held.read_write = true;
        } else if self.has(Fault::LabelGoesBack) {
            held.read_write = false;
        }
        let turns = match held.kept {
            Kept::Copy(_) => self.has(Fault::AddTakesNewValue),
            Kept::Rule(_) => self.has(Fault::AddTurnsPattern),
            Kept::ViaParent => false,
        };
        if turns && record.kind == COPY {
            held.kept = Kept::Copy(bytes);
        }
        held
    }

    /// Errors in what a later record makes of a cell that an earlier one of the list took.
    fn slip(&self, held: &mut Holding, was: Holding, new: Holding) {
        if self.has(Fault::LaterRecordWins) {
            held.kept = new.kept;
        }
        if self.has(Fault::LaterRecordRaisesNothing) {
            held.read_write = was.read_write;
        }
        if self.has(Fault::LaterLabelReplaces) {
            held.read_write = new.read_write;
        }
    }

    /// Words that an error counts for an entry that the list has counted already. `was` is what the
    /// record found, `new` what it would take.
    fn counted_again(&self, old: Option<Holding>, was: Holding, new: Holding) -> u64 {
        let twice = match old {
            // Taken by this list, and now raised.
            None => {
                self.has(Fault::RaisedNewEntryCountedTwice) && !was.read_write && new.read_write
            }
            // Raised by a record before this one, and once more.
            Some(old) => {
                self.has(Fault::EntryRaisedTwiceCountedTwice)
                    && !old.read_write
                    && was.read_write
                    && new.read_write
            }
        };
        if twice { 2 } else { 0 }
    }

    /// Questions 16 and 17, once for the whole list: every newly held cell takes an entry, and one
    /// that is newly held by copy a body too.
    fn room(&self, sizes: Sizes, adding: &Adding, records: &[Record]) -> Result<(), u32> {
        let state = adding.before;
        let (new, bodies) = self.wanted(adding, records);
        let no_16 = state.entries() + new > u64::from(sizes.e);
        let no_17 = bodies > 0 && self.copies(state) + bodies > u64::from(sizes.b);
        if no_17 && (!no_16 || self.has(Fault::BodiesBeforeEntries)) {
            return Err(17);
        }
        if no_16 {
            return Err(16);
        }
        Ok(())
    }

    /// The entries and the bodies that a list asks for.
    fn wanted(&self, adding: &Adding, records: &[Record]) -> (u64, u64) {
        // Each record by itself, as if no other were there.
        let alone = records.iter().map(|record| {
            let new = adding.new_at_first(record);
            (new, if record.kind == COPY { new } else { 0 })
        });
        if self.has(Fault::OverlapCountedTwice) {
            return alone.fold((0, 0), |sum, one| (sum.0 + one.0, sum.1 + one.1));
        }
        if self.has(Fault::RoomOfEachRecordAlone) {
            return alone.fold((0, 0), |most, one| (most.0.max(one.0), most.1.max(one.1)));
        }
        let also_rules = self.has(Fault::PatternCountsAsCopy);
        let takes_body = |kept: Kept| kept.is_copy() || also_rules && kept.rule().is_some();
        let (new, bodies) = (adding.order.len() as u64, adding.taken(takes_body));
        match self.has(Fault::EveryNewCellCountsAsBody) && bodies > 0 {
            true => (new, new),
            false => (new, bodies),
        }
    }

    /// Errors that ask for room before the later records are asked anything.
    fn room_too_early(&self, sizes: Sizes, adding: &Adding) -> Result<(), u32> {
        let state = adding.before;
        let new = adding.order.len() as u64;
        if self.has(Fault::EntriesAskedWithEachRecord) && state.entries() + new > u64::from(sizes.e)
        {
            return Err(16);
        }
        if self.has(Fault::BodiesAskedWithEachRecord)
            && state.copies() + adding.taken(Kept::is_copy) > u64::from(sizes.b)
        {
            return Err(17);
        }
        Ok(())
    }

    /// What a list has to do that is not refused: one change of what the domain holds.
    fn added(&self, adding: Adding) -> Work {
        let Adding {
            before,
            named,
            cells,
            order,
            extra,
            stages,
            ..
        } = adding;
        let with = |cells: BTreeMap<u32, Holding>| {
            let mut state = before.clone();
            state.domains[named].cells = cells;
            state
        };
        let mut work = self.change(before, with(cells), named);
        if self.has(Fault::BytesInListOrder) {
            let place = |c: &u32| order.iter().position(|taken| taken == c);
            work.taken.sort_by_key(|(c, _)| place(c));
        }
        work.words += extra;
        let mut work = self.with_steps(work);
        if stages.len() > 1 {
            let mut from = before.clone();
            for cells in stages {
                let to = with(cells);
                let part = self.change(&from, to.clone(), named);
                work.parts.push(self.with_steps(part));
                from = to;
            }
            work.need = work.parts.iter().map(|part| part.need).sum();
        }
        work
    }

    /// The copies to take, rising by cell, and the words to replace, so that what a domain holds
    /// becomes what it holds in `after`: two words for each entry that is taken or changed.
    fn change(&self, before: &State, after: State, named: usize) -> Work {
        let mut work = self.work(after);
        for (c, held) in &work.after.domains[named].cells {
            let old = before.domains[named].cells.get(c);
            // Bytes are taken for a new copy alone.
            if let Kept::Copy(bytes) = held.kept
                && old.map(|old| old.kept) != Some(held.kept)
            {
                work.taken.push((*c, bytes));
            }
            let raised = old.is_none_or(|old| old.read_write != held.read_write);
            let turned = old.is_some_and(|old| old.kept.rule() != held.kept.rule());
            let uncounted = self.has(Fault::RaiseWithoutSteps) && old.is_some() && held.read_write;
            if turned || raised && !uncounted {
                work.words += 2;
            }
        }
        work
    }
}

/// Question 7.
fn kind_and_label(record: &Record) -> Result<(), u32> {
    match record.kind <= PATTERN && record.label <= READ_WRITE {
        true => Ok(()),
        false => Err(7),
    }
}
