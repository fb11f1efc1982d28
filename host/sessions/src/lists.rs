//! Request A.3 by itself: what lists of records met, for the account, and what a list has to come to,
//! told by plain adds alone.

use domain_model::calls::{COPY, PATTERN, READ_WRITE, RECORDS, VIA_PARENT};
use domain_model::state::cell_of;
use domain_model::{
    Buffers, Call, FULL, Record, Reply, STOPPED, Sizes, State, Store, rules, table,
};
use std::collections::{BTreeMap, BTreeSet};

/// Lists that were made, by what was in them and by what became of them.
#[derive(Clone, Copy, Debug, Default)]
pub struct Lists {
    /// Done, where at least two records took or raised something; of these where at least nine did,
    /// and with 64 records of which the last did.
    pub several: u64,
    pub nine: u64,
    pub sixty_four: u64,
    /// Done with cells taken by all three kinds.
    pub kinds: u64,
    /// Done with copies that do not rise by cell in list order.
    pub falling: u64,
    /// Done with ranges that touch, and with ranges that overlap.
    pub touching: u64,
    pub overlapping: u64,
    /// Done where a later record names a cell that an earlier one took: by another kind; raising its
    /// label; read-only though it was taken read-write.
    pub other_kind: u64,
    pub raised_new: u64,
    pub kept_label: u64,
    /// Done where an entry of the table was raised by two records.
    pub raised_twice: u64,
    /// Done where a question would be answered by no for a cell that an earlier record took: 11, 12,
    /// 18, 19.
    pub spared: [u64; 4],
    /// Refused by a later record's question, after others that took cells: 7, 8, 11, 12, 18, 19.
    pub later: [u64; 6],
    /// Of these, where there would not have been room for what the others took: too few entries, too
    /// few bodies.
    pub before_entries: u64,
    pub before_bodies: u64,
    /// Two records or more that took cells, with just as many free entries or bodies as they need.
    pub exact_entries: u64,
    pub exact_bodies: u64,
    /// The same with one too few, though each record would fit alone: refused by 16, by 17.
    pub short_entries: u64,
    pub short_bodies: u64,
    /// Refused by 20 without records, with too many, and with too many of which the first has a wrong
    /// kind; refused by 5 and by 6 with such a number of records.
    pub empty: u64,
    pub too_many: u64,
    pub too_many_wrong: u64,
    pub dead_handle: u64,
    pub outer_handle: u64,
    /// Lists of several records that were stopped.
    pub cut: u64,
}

/// The numbers of [`Lists::spared`] and [`Lists::later`].
pub const SPARED: [u32; 4] = [11, 12, 18, 19];
pub const LATER: [u32; 6] = [7, 8, 11, 12, 18, 19];

impl Lists {
    pub fn join(&mut self, other: &Lists) {
        let add = |mine: &mut [u64], theirs: &[u64]| {
            mine.iter_mut().zip(theirs).for_each(|(a, b)| *a += b);
        };
        add(&mut self.spared, &other.spared);
        add(&mut self.later, &other.later);
        self.several += other.several;
        self.nine += other.nine;
        self.sixty_four += other.sixty_four;
        self.kinds += other.kinds;
        self.falling += other.falling;
        self.touching += other.touching;
        self.overlapping += other.overlapping;
        self.other_kind += other.other_kind;
        self.raised_new += other.raised_new;
        self.kept_label += other.kept_label;
        self.raised_twice += other.raised_twice;
        self.before_entries += other.before_entries;
        self.before_bodies += other.before_bodies;
        self.exact_entries += other.exact_entries;
        self.exact_bodies += other.exact_bodies;
        self.short_entries += other.short_entries;
        self.short_bodies += other.short_bodies;
        self.empty += other.empty;
        self.too_many += other.too_many;
        self.too_many_wrong += other.too_many_wrong;
        self.dead_handle += other.dead_handle;
        self.outer_handle += other.outer_handle;
        self.cut += other.cut;
    }
}

/// Cells that the records of a list name, at most: more are not looked at, since they are met often
/// enough in smaller lists.
const MOST: u64 = 20_000;

/// A list on the store that it met.
pub struct Met<'a> {
    state: &'a State,
    buffers: &'a Buffers,
    records: &'a [Record],
    /// The innermost domain.
    inner: usize,
    /// The record that took each newly held cell.
    taken: BTreeMap<u32, usize>,
    /// The records that took or raised something.
    acted: BTreeSet<usize>,
    /// The copies, in list order.
    copies: Vec<u32>,
    /// Cells of the table that were raised, and whether by two records.
    raised: BTreeMap<u32, bool>,
    /// What happened of `Lists` while the records acted.
    seen: Lists,
    /// The first record that is refused, with its number.
    no: Option<(usize, u32)>,
}

impl<'a> Met<'a> {
    /// Goes through a list that names the innermost domain and has as many records as it may; none for
    /// others.
    fn new(
        state: &'a State,
        buffers: &'a Buffers,
        handle: u32,
        records: &'a [Record],
    ) -> Option<Self> {
        let inner = state.domains.len().checked_sub(1)?;
        let named: u64 = records.iter().map(|record| u64::from(record.count)).sum();
        let all = u64::from(buffers.sizes().m) * RECORDS.end().to_owned() as u64;
        if state.find(handle) != Some(inner)
            || !RECORDS.contains(&records.len())
            || named.min(all) > MOST
        {
            return None;
        }
        let mut met = Met {
            state,
            buffers,
            records,
            inner,
            taken: BTreeMap::new(),
            acted: BTreeSet::new(),
            copies: Vec::new(),
            raised: BTreeMap::new(),
            seen: Lists::default(),
            no: None,
        };
        for at in 0..records.len() {
            if let Some(number) = met.question(at) {
                met.no = Some((at, number));
                break;
            }
            met.act(at);
        }
        Some(met)
    }

    /// The cells that a record names, as far as memory has them.
    fn cells(&self, at: usize) -> std::ops::Range<u32> {
        let record = &self.records[at];
        let end = record.first.saturating_add(record.count);
        record.first..end.min(self.buffers.sizes().m)
    }

    fn is_new(&self, cell: u32) -> bool {
        !self.state.domains[self.inner].holds(cell) && !self.taken.contains_key(&cell)
    }

    /// The question that is answered by no for this cell, were it new.
    fn question_on(&self, record: &Record, cell: u32) -> Option<u32> {
        let now = cell_of(&self.buffers.memory, cell);
        match record.kind {
            VIA_PARENT => {
                let Some(outer) = self.inner.checked_sub(1) else {
                    return Some(11);
                };
                if !self.state.domains[outer].holds(cell) {
                    return Some(11);
                }
                if self.state.value(outer, cell) != Some(now) {
                    return Some(12);
                }
                self.state.domains[outer].rule(cell).map(|_| 19)
            }
            PATTERN => (rules::pattern(record.rule) != Some(now)).then_some(18),
            _ => None,
        }
    }

    /// The question that a record is refused by.
    fn question(&self, at: usize) -> Option<u32> {
        let record = &self.records[at];
        if record.kind > PATTERN || record.label > READ_WRITE {
            return Some(7);
        }
        let end = u64::from(record.first) + u64::from(record.count);
        if record.count == 0 || end > u64::from(self.buffers.sizes().m) {
            return Some(8);
        }
        if record.kind == PATTERN && rules::pattern(record.rule).is_none() {
            return Some(18);
        }
        let new = self.cells(at).filter(|c| self.is_new(*c));
        let all: BTreeSet<u32> = new.filter_map(|c| self.question_on(record, c)).collect();
        // Each is put for all cells before the next: their numbers rise in the order of the questions.
        all.first().copied()
    }

    fn act(&mut self, at: usize) {
        let record = self.records[at];
        let read_write = record.label == READ_WRITE;
        for cell in self.cells(at) {
            if let Some(held) = self.state.domains[self.inner].cells.get(&cell) {
                if read_write && !held.read_write {
                    let twice = self.raised.contains_key(&cell);
                    self.raised.insert(cell, twice);
                    self.seen.raised_twice += u64::from(twice);
                    self.acted.insert(at);
                }
                continue;
            }
            let Some(&by) = self.taken.get(&cell) else {
                self.taken.insert(cell, at);
                self.acted.insert(at);
                if record.kind == COPY {
                    self.copies.push(cell);
                }
                continue;
            };
            let first = self.records[by];
            self.seen.other_kind += u64::from(first.kind != record.kind);
            let was = first.label == READ_WRITE;
            self.seen.raised_new += u64::from(!was && read_write);
            self.seen.kept_label += u64::from(was && !read_write);
            let spared = self.question_on(&record, cell);
            if let Some(place) = SPARED.iter().position(|number| Some(*number) == spared) {
                self.seen.spared[place] += 1;
            }
        }
    }

    /// Entries and bodies that a record would take if it were alone.
    fn alone(&self, at: usize) -> (u64, u64) {
        let new = |c: &u32| !self.state.domains[self.inner].holds(*c);
        let new = self.cells(at).filter(new).count() as u64;
        (
            new,
            if self.records[at].kind == COPY {
                new
            } else {
                0
            },
        )
    }

    fn tally(&self, tally: &mut Lists, code: u32) {
        let Sizes { e, b, .. } = self.buffers.sizes();
        let entries = u64::from(e).saturating_sub(self.state.entries());
        let bodies = u64::from(b).saturating_sub(self.state.copies());
        let (new, copies) = (self.taken.len() as u64, self.copies.len() as u64);
        let takers: BTreeSet<usize> = self.taken.values().copied().collect();
        let copiers: BTreeSet<usize> = self.copies.iter().map(|c| self.taken[c]).collect();
        let fits_alone = |at: &usize| {
            let (new, copies) = self.alone(*at);
            new <= entries && copies <= bodies
        };
        let all_fit = (0..self.records.len()).all(|at| fits_alone(&at));
        match (code, self.no) {
            (16, _) if new == entries + 1 && all_fit => tally.short_entries += 1,
            (17, _) if copies == bodies + 1 && all_fit => tally.short_bodies += 1,
            (STOPPED, _) => tally.cut += u64::from(self.acted.len() > 1),
            (0, _) => {
                tally.exact_entries += u64::from(new == entries && takers.len() > 1);
                tally.exact_bodies += u64::from(copies == bodies && copiers.len() > 1);
                self.tally_done(tally);
            }
            (number, Some((at, no))) if number == no && at > 0 && new > 0 => {
                if let Some(place) = LATER.iter().position(|later| *later == number) {
                    tally.later[place] += 1;
                }
                tally.before_entries += u64::from(new > entries);
                tally.before_bodies += u64::from(copies > bodies);
            }
            _ => {}
        }
    }

    fn tally_done(&self, tally: &mut Lists) {
        let acted = self.acted.len();
        if acted < 2 && self.records.len() < 2 {
            return;
        }
        tally.several += u64::from(acted >= 2);
        tally.nine += u64::from(acted >= 9);
        let last = self.records.len() - 1;
        tally.sixty_four += u64::from(last == 63 && self.acted.contains(&last));
        let kinds: BTreeSet<u32> = self
            .taken
            .values()
            .map(|at| self.records[*at].kind)
            .collect();
        tally.kinds += u64::from(kinds.len() == 3);
        tally.falling += u64::from(!self.copies.is_sorted());
        let ranges = || (0..self.records.len()).map(|at| self.cells(at));
        let ends: BTreeSet<u32> = ranges().map(|cells| cells.end).collect();
        tally.touching += u64::from(ranges().any(|cells| ends.contains(&cells.start)));
        let mut sorted: Vec<_> = ranges().map(|cells| (cells.start, cells.end)).collect();
        sorted.sort_unstable();
        let overlap = |pair: &[(u32, u32)]| pair[0] != pair[1] && pair[1].0 < pair[0].1;
        tally.overlapping += u64::from(sorted.windows(2).any(overlap));
        let seen = &self.seen;
        tally.other_kind += seen.other_kind.min(1);
        tally.raised_new += seen.raised_new.min(1);
        tally.kept_label += seen.kept_label.min(1);
        tally.raised_twice += seen.raised_twice.min(1);
        for (all, seen) in tally.spared.iter_mut().zip(seen.spared) {
            *all += seen.min(1);
        }
    }
}

/// Counts what a list met. `state` and `buffers` are those before the call.
pub fn tally(tally: &mut Lists, state: &State, buffers: &Buffers, call: &Call, reply: &Reply) {
    let Call::AddRanges { handle, records } = call else {
        return;
    };
    if !RECORDS.contains(&records.len()) {
        let wrong = records.first().is_some_and(|first| first.kind > PATTERN);
        match reply.code {
            5 => tally.dead_handle += 1,
            6 => tally.outer_handle += 1,
            20 if records.is_empty() => tally.empty += 1,
            20 => {
                tally.too_many += 1;
                tally.too_many_wrong += u64::from(wrong);
            }
            _ => {}
        }
        return;
    }
    if let Some(met) = Met::new(state, buffers, *handle, records) {
        met.tally(tally, reply.code);
    }
}

/// The same store in buffers with so many more entries and bodies, as far as there can be as many: the
/// entries stand where they stood, and the pairs behind them mean nothing while none is pending.
fn roomier(buffers: &Buffers, more: u32) -> Buffers {
    let Sizes { m, e, b } = buffers.sizes();
    let sizes = Sizes {
        m,
        e: (e + more).min(4_096),
        b: (b + more).min(4_096),
    };
    let mut roomy = buffers.resized(sizes.lengths());
    roomy.table[buffers.sizes().pairs_at()..].fill(0);
    roomy.table[2] = sizes.e;
    roomy.table[3] = sizes.b;
    roomy
}

/// What a list has to answer and to leave, told by the plain adds of the same store: its records one
/// after another, where there is room for all that they take. `before` is a store with nothing pending,
/// `after` what the list left. The documents say so: records act in list order, each as a plain add,
/// and room is asked once, for all of them, at the end.
pub fn as_asked(
    store: &dyn Store,
    before: &Buffers,
    call: &Call,
    reply: &Reply,
    after: &Buffers,
) -> Result<(), String> {
    let Call::AddRanges { handle, records } = call else {
        return Ok(());
    };
    let Ok(old) = before.decode(None) else {
        return Ok(());
    };
    let named: u64 = records.iter().map(|record| u64::from(record.count)).sum();
    let more = named.min(u64::from(old.sizes.m)) as u32;
    // Where memory has more cells than a table can have entries, a list can take more than fit.
    let fits = |used: u64| used + u64::from(more) <= 4_096;
    if old.state.domains.is_empty() || !fits(old.state.entries()) || named > MOST {
        return Ok(());
    }
    let mut number = match (old.state.find(*handle), records.len()) {
        (None, _) => 5,
        (Some(at), _) if at + 1 < old.state.domains.len() => 6,
        (_, many) if !RECORDS.contains(&many) => 20,
        _ => 0,
    };
    let mut roomy = roomier(before, more);
    if number == 0 {
        for record in records {
            let plain = Call::Add {
                handle: *handle,
                record: *record,
            };
            number = store.call(&mut roomy, &plain, FULL).code;
            if number != 0 {
                break;
            }
        }
    }
    let Ok(new) = roomy.decode(None) else {
        return Err("plain adds of its records leave no store".into());
    };
    if number == 0 && new.state.entries() > u64::from(old.sizes.e) {
        number = 16;
    }
    if number == 0 && new.state.copies() > u64::from(old.sizes.b) {
        number = 17;
    }
    let told = if reply.code == STOPPED { 0 } else { reply.code };
    if told != number {
        return Err(format!(
            "the list gives {told}; plain adds of its records, with room for all, come to {number}"
        ));
    }
    if reply.code != 0 {
        return Ok(());
    }
    let found = table::reading(&after.decode(None));
    let wanted = table::reading(&Ok(new));
    match found == wanted {
        true => Ok(()),
        false => Err("the list leaves another state than plain adds of its records".into()),
    }
}
