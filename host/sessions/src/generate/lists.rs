//! Lists of records for an add of several ranges, steered towards what request A.3 says of them:
//! records that meet on a cell, one that is refused after others, room that just suffices or does not,
//! as many records as there may be, and other numbers of them.

use super::{Generator, Want};
use crate::check::Line;
use domain_model::calls::{COPY, PATTERN, READ_ONLY, READ_WRITE, VIA_PARENT};
use domain_model::rules;
use domain_model::state::cell_of;
use domain_model::{Bytes, Call, Domain, Record, State};
use std::collections::{BTreeMap, BTreeSet};

/// What a list is put together from.
struct Ground<'a> {
    state: &'a State,
    memory: &'a [u8],
    m: u32,
}

impl Ground<'_> {
    fn inner(&self) -> &Domain {
        self.state.domains.last().expect("live")
    }

    /// The next domain out, by its place.
    fn outer(&self) -> Option<usize> {
        self.state.domains.len().checked_sub(2)
    }

    fn outer_holds(&self, cell: u32) -> bool {
        self.outer()
            .is_some_and(|outer| self.state.domains[outer].holds(cell))
    }

    /// Whether the next domain out holds the cell by a rule.
    fn outer_rule(&self, cell: u32) -> bool {
        self.outer()
            .is_some_and(|outer| self.state.domains[outer].rule(cell).is_some())
    }

    fn outer_value(&self, cell: u32) -> Option<Bytes> {
        self.state.value(self.outer()?, cell)
    }
}

/// A list so far: its records, the cells that they take, and what the program is to write before the
/// call so that they may.
#[derive(Default)]
struct Draft {
    records: Vec<Record>,
    taken: BTreeSet<u32>,
    writes: BTreeMap<u32, Bytes>,
}

impl Draft {
    /// Memory as it will stand before the call.
    fn now(&self, ground: &Ground, cell: u32) -> Bytes {
        let written = self.writes.get(&cell).copied();
        written.unwrap_or_else(|| cell_of(ground.memory, cell))
    }

    fn is_open(&self, ground: &Ground, cell: u32) -> bool {
        !ground.inner().holds(cell) && !self.taken.contains(&cell)
    }

    /// The record comes next. Where it fits, memory is made to have what it asks for in the cells that
    /// it takes.
    fn push(&mut self, ground: &Ground, record: Record, fits: bool) {
        let end = record.first.saturating_add(record.count).min(ground.m);
        for cell in record.first..end {
            if !self.is_open(ground, cell) {
                continue;
            }
            self.taken.insert(cell);
            let wanted = match record.kind {
                VIA_PARENT => ground.outer_value(cell),
                PATTERN => rules::pattern(record.rule),
                _ => None,
            };
            if let Some(bytes) = wanted.filter(|bytes| fits && *bytes != self.now(ground, cell)) {
                self.writes.insert(cell, bytes);
            }
        }
        self.records.push(record);
    }
}

impl Generator {
    /// An add of several ranges, with the writes before it, and at times what shows whether all of them
    /// are held.
    pub(super) fn add_list(&mut self, state: &State, line: &Line) {
        let ground = Ground {
            state,
            memory: &line.buffers.memory,
            m: self.habits.sizes.m,
        };
        let mut draft = Draft::default();
        match self.rng.below(26) {
            0..=5 => self.some_records(&ground, &mut draft, 2, 5),
            6..=8 => self.some_records(&ground, &mut draft, 9, 12),
            9..=11 => self.on_one_cell(&ground, &mut draft),
            12..=16 => self.tight(&ground, &mut draft),
            17..=20 => {
                self.some_records(&ground, &mut draft, 1, 4);
                self.refused(&ground, &mut draft);
                if self.rng.chance(400) {
                    self.some_records(&ground, &mut draft, 1, 2);
                }
            }
            21..=22 => self.many(&ground, &mut draft),
            23 => self.raised_twice(&ground, &mut draft),
            24 => return self.wrong_number(state),
            _ => self.some_records(&ground, &mut draft, 1, 1),
        }
        let cells: Vec<u32> = draft.taken.iter().copied().collect();
        self.write_before(&ground, &draft);
        let handle = self.handle(state, state.domains.len() - 1);
        self.call(Call::ranges(draft.records).on(handle));
        match self.rng.below(10) {
            0..=2 => {
                self.write_some(&cells);
                self.call(Call::Restore { handle: 0 });
            }
            3..=4 => {
                self.write_some(&cells);
                self.call(Call::Advance { handle: 0 });
                self.write_some(&cells);
                self.call(Call::Restore { handle: 0 });
            }
            _ => {}
        }
    }

    /// A domain with copies and cells by a rule, and lists in a domain inside it: records of every kind
    /// will do there.
    pub(super) fn lists_inside(&mut self, state: &State, _: &Line) {
        let m = u64::from(self.habits.sizes.m);
        for _ in 0..self.rng.between(1, 2) {
            let first = self.cell(state);
            let count = self.rng.between(1, 5).min(m - u64::from(first)) as u32;
            let label = self.rng.chance(700) as u32;
            match self.rng.chance(300) {
                true => {
                    let rule = self.rng.below(4) as u32;
                    self.write_pattern(first, count, rule);
                    self.call(Call::pattern(first, count, rule, label));
                }
                false => self.call(Call::copy(first, count, label)),
            }
        }
        self.call(Call::Create);
        for _ in 0..self.rng.between(1, 3) {
            self.wants.push_back(Want::List);
        }
        if self.rng.chance(400) {
            self.call(Call::Commit { handle: 0 });
        }
    }

    /// The program's writes before a list: neighbours and near neighbours in one, since many writes
    /// would be most of a session.
    fn write_before(&mut self, ground: &Ground, draft: &Draft) {
        let mut writes: Vec<(u32, Vec<u8>)> = Vec::new();
        for (&cell, bytes) in &draft.writes {
            match writes.last_mut() {
                Some((first, all)) if cell <= *first + all.len() as u32 / 64 + 2 => {
                    let from = 64 * *first as usize + all.len();
                    all.extend(&ground.memory[from..64 * cell as usize]);
                    all.extend(bytes);
                }
                _ => writes.push((cell, bytes.to_vec())),
            }
        }
        for (cell, bytes) in writes {
            self.write_cell(cell, bytes);
        }
    }

    /// The program writes the first and the last of these cells, and one of them.
    fn write_some(&mut self, cells: &[u32]) {
        let (Some(first), Some(last)) = (cells.first(), cells.last()) else {
            return;
        };
        for cell in [*first, *last, *self.rng.pick(cells)] {
            let letter = self.letter();
            self.write_cell(cell, vec![letter; 64]);
        }
    }

    /// Records that will do, from so many to so many: near what is held, beside each other and over
    /// each other.
    fn some_records(&mut self, ground: &Ground, draft: &mut Draft, least: u64, most: u64) {
        for _ in 0..self.rng.between(least, most) {
            let record = self.record(ground, draft);
            let fits = self.rng.chance(980);
            draft.push(ground, record, fits);
        }
    }

    fn record(&mut self, ground: &Ground, draft: &Draft) -> Record {
        let first = match draft.records.is_empty() || self.rng.chance(600) {
            true => self.cell(ground.state),
            // Where an earlier one begins or ends, or beside that.
            false => {
                let near = self.rng.pick(&draft.records);
                let end = near.first.saturating_add(near.count);
                let at = match self.rng.below(4) {
                    0 => near.first.saturating_sub(1),
                    1 => near.first,
                    2 => end.saturating_sub(1),
                    _ => end,
                };
                at.min(ground.m - 1)
            }
        };
        let room = u64::from(ground.m - first);
        let count = self.rng.between(1, self.habits.most.min(4).min(room)) as u32;
        let label = self.rng.chance(550) as u32;
        self.kept(ground, draft, first, count, label)
    }

    /// These cells by a kind that will do: via parent as far as the next domain out holds them.
    fn kept(
        &mut self,
        ground: &Ground,
        draft: &Draft,
        first: u32,
        count: u32,
        label: u32,
    ) -> Record {
        let serves = |cell: &u32| {
            !draft.is_open(ground, *cell) || ground.outer_holds(*cell) && !ground.outer_rule(*cell)
        };
        let served = (first..first + count).take_while(serves).count() as u32;
        match self.rng.below(10) {
            0..=3 if served > 0 => Record::via_parent(first, served, label),
            0..=2 | 4 => {
                let rule = self.rng.below(4) as u32;
                Record::pattern(first, count, rule, label)
            }
            _ => {
                let ignored = if self.rng.chance(100) { self.rule() } else { 0 };
                Record::copy(first, count, label).with_rule(ignored)
            }
        }
    }

    /// A cell that is not held, if there is one near what is; else any.
    fn open_cell(&mut self, ground: &Ground, draft: &Draft) -> u32 {
        let mut cell = self.cell(ground.state);
        for _ in 0..8 {
            if draft.is_open(ground, cell) {
                break;
            }
            cell = self.rng.below(ground.m.into()) as u32;
        }
        cell
    }

    /// Several records on one cell: the first will do, and the others find it taken, whatever they ask.
    fn on_one_cell(&mut self, ground: &Ground, draft: &mut Draft) {
        if self.rng.chance(300) {
            self.some_records(ground, draft, 1, 2);
        }
        let cell = self.open_cell(ground, draft);
        let label = self.rng.chance(350) as u32;
        let first = self.kept(ground, draft, cell, 1, label);
        draft.push(ground, first, true);
        // What the next domain out holds is at times not what stands in memory.
        if first.kind == COPY && self.rng.chance(400) {
            let letter = self.letter();
            draft.writes.insert(cell, [letter; 64]);
        }
        for _ in 0..self.rng.between(1, 3) {
            let (kind, label) = (self.rng.below(3) as u32, self.rng.below(2) as u32);
            let rule = self.rng.below(4) as u32;
            let record = Record::new(cell, 1, kind, label).with_rule(rule);
            draft.push(ground, record, true);
        }
        if self.rng.chance(300) {
            self.some_records(ground, draft, 1, 2);
        }
    }

    /// A record that is refused, after those that are there: by each of a record's questions.
    fn refused(&mut self, ground: &Ground, draft: &mut Draft) {
        let open: Vec<u32> = (0..ground.m.min(400))
            .filter(|cell| draft.is_open(ground, *cell))
            .collect();
        let mut pick = |is_it: &dyn Fn(u32) -> bool| {
            let some: Vec<u32> = open.iter().copied().filter(|cell| is_it(*cell)).collect();
            (!some.is_empty()).then(|| *self.rng.pick(&some))
        };
        let lacks = pick(&|cell| !ground.outer_holds(cell));
        let holds = pick(&|cell| ground.outer_holds(cell) && !ground.outer_rule(cell));
        let ruled = pick(&|cell| ground.outer_rule(cell));
        let any = pick(&|_| true);
        let label = self.rng.below(2) as u32;
        let via = |cell| Record::via_parent(cell, 1, label);
        let record = match (self.rng.below(8), lacks, holds, ruled, any) {
            (0, Some(cell), ..) => via(cell),
            (1 | 2, _, Some(cell), ..) => {
                // Memory differs from the value out there, in one byte.
                let mut bytes = ground.outer_value(cell).expect("held");
                bytes[*self.rng.pick(&[0, 31, 63])] ^= 1;
                draft.writes.insert(cell, bytes);
                via(cell)
            }
            (1..=3, .., Some(cell), _) => {
                let bytes = ground.outer_value(cell).expect("held");
                draft.writes.insert(cell, bytes);
                via(cell)
            }
            (2..=4, .., Some(cell)) => {
                let rule = self.rng.below(4) as u32;
                let mut bytes = rules::pattern(rule).expect("a rule");
                bytes[*self.rng.pick(&[0, 31, 63])] ^= 1;
                draft.writes.insert(cell, bytes);
                Record::pattern(cell, 1, rule, label)
            }
            (5, ..) => {
                let (first, count) = *self.rng.pick(&[
                    (0, 0),
                    (ground.m, 1),
                    (ground.m - 1, 2),
                    (u32::MAX, 2),
                    (1, u32::MAX),
                ]);
                Record::copy(first, count, label)
            }
            (6, ..) => Record::pattern(0, 1, *self.rng.pick(&[4, 5, u32::MAX]), label),
            _ => {
                let (kind, label) = *self.rng.pick(&[(3, 0), (0, 2), (u32::MAX, 1), (2, 7)]);
                Record::new(0, 1, kind, label)
            }
        };
        draft.push(ground, record, false);
    }

    /// As many new cells as there is room for, or one more, over several records of which each would
    /// fit; at times with a record behind them that is refused before room is asked for.
    fn tight(&mut self, ground: &Ground, draft: &mut Draft) {
        let sizes = self.habits.sizes;
        let entries = u64::from(sizes.e).saturating_sub(ground.state.entries());
        let bodies = u64::from(sizes.b).saturating_sub(ground.state.copies());
        let by_entries = match entries.cmp(&bodies) {
            std::cmp::Ordering::Less => true,
            std::cmp::Ordering::Equal => self.rng.chance(500),
            std::cmp::Ordering::Greater => self.rng.chance(150),
        };
        let free = if by_entries { entries } else { bodies };
        let wanted = free + self.rng.below(2);
        let from = self.rng.below(ground.m.into()) as u32;
        let open: Vec<u32> = (0..ground.m.min(400))
            .map(|at| (from + at) % ground.m)
            .filter(|cell| draft.is_open(ground, *cell))
            .take(wanted as usize)
            .collect();
        if (open.len() as u64) < wanted || !(2..=100).contains(&wanted) {
            return self.some_records(ground, draft, 2, 5);
        }
        let mut copies = 0;
        let mut records: Vec<Record> = Vec::new();
        for cell in open {
            // By entries: some of another kind, all of them where there are no bodies.
            let label = self.rng.below(2) as u32;
            let copy = !by_entries || copies < bodies && self.rng.chance(500);
            copies += u64::from(copy);
            match records.last_mut() {
                Some(last)
                    if copy
                        && last.kind == COPY
                        && last.first + last.count == cell
                        && self.rng.chance(500) =>
                {
                    last.count += 1;
                }
                _ if copy => records.push(Record::copy(cell, 1, label)),
                _ => {
                    let rule = self.rng.below(4) as u32;
                    records.push(Record::pattern(cell, 1, rule, label));
                }
            }
        }
        if records.len() > 60 {
            return self.some_records(ground, draft, 2, 5);
        }
        for at in (1..records.len()).rev() {
            let other = self.rng.below(at as u64 + 1) as usize;
            records.swap(at, other);
        }
        for record in records {
            draft.push(ground, record, true);
        }
        // Over again: these cells take no room any more.
        if self.rng.chance(300) {
            let mut again = *self.rng.pick(&draft.records);
            again.kind = self.rng.below(3) as u32;
            again.label = self.rng.below(2) as u32;
            draft.push(ground, again, true);
        }
        if self.rng.chance(400) {
            self.refused(ground, draft);
        }
    }

    /// As many records as there may be, and some more or fewer: mostly on few cells, since there would
    /// be no room for so many, and the last on a cell of its own.
    fn many(&mut self, ground: &Ground, draft: &mut Draft) {
        let many = *self.rng.pick(&[63, 64, 64, 64, 64, 65, 66, 70]);
        let few = self.rng.chance(700);
        while draft.records.len() + 1 < many {
            let mut record = self.record(ground, draft);
            record.count = record.count.min(2);
            if few && draft.records.len() >= 3 {
                let Record { first, count, .. } = *self.rng.pick(&draft.records);
                record = Record {
                    first,
                    count,
                    ..record
                };
            }
            draft.push(ground, record, true);
        }
        let last = match self.rng.chance(800) {
            true => Record::copy(self.open_cell(ground, draft), 1, READ_WRITE),
            false => self.record(ground, draft),
        };
        draft.push(ground, last, true);
    }

    /// Cells that are held read-only, raised by several records.
    fn raised_twice(&mut self, ground: &Ground, draft: &mut Draft) {
        let held = ground.inner().cells.iter();
        let held: Vec<u32> = held
            .filter(|(_, h)| !h.read_write)
            .map(|(c, _)| *c)
            .collect();
        if held.is_empty() {
            let first = self.open_cell(ground, draft);
            self.call(Call::copy(first, 1, READ_ONLY));
            draft.push(ground, Record::copy(first, 1, READ_WRITE), true);
            draft.push(ground, Record::copy(first, 1, READ_WRITE), true);
            return;
        }
        for _ in 0..self.rng.between(2, 5) {
            let (cell, kind) = (*self.rng.pick(&held), self.rng.below(3) as u32);
            let label = self.rng.chance(800) as u32;
            let rule = self.rng.below(4) as u32;
            let record = Record::new(cell, 1, kind, label).with_rule(rule);
            draft.push(ground, record, true);
            draft.push(ground, record, true);
            if self.rng.chance(300) {
                self.some_records(ground, draft, 1, 1);
            }
        }
    }

    /// No record, or too many, by any handle and with numbers that are right or wrong.
    fn wrong_number(&mut self, state: &State) {
        let many = *self.rng.pick(&[0, 0, 0, 65, 65, 66, 128]);
        let record = match self.rng.below(3) {
            0 => Record::new(0, 1, 3, READ_ONLY),
            1 => Record::copy(self.habits.sizes.m, 1, READ_ONLY),
            _ => Record::copy(0, 1, READ_WRITE),
        };
        let handle = match self.rng.below(4) {
            0 => state.next,
            1 => state.domains[0].handle,
            _ => 0,
        };
        self.call(Call::ranges(vec![record; many]).on(handle));
    }

    /// A list with any numbers.
    pub(super) fn wild_list(&mut self) -> Call {
        let many = match self.rng.below(10) {
            0 => 0,
            1 => *self.rng.pick(&[64, 65, 200]),
            _ => self.rng.between(1, 4),
        };
        let records = (0..many).map(|_| {
            let good = self.rng.chance(700);
            let first = match good {
                true => self.rng.below(self.habits.sizes.m.into()) as u32,
                false => self.wild_number(),
            };
            let count = if good { 1 } else { self.wild_number() };
            let (mut kind, rule) = self.kind_and_rule();
            let mut label = self.rng.below(2) as u32;
            if self.rng.chance(60) {
                kind = *self.rng.pick(&[3, 7, u32::MAX]);
            }
            if self.rng.chance(40) {
                label = *self.rng.pick(&[2, u32::MAX]);
            }
            Record::new(first, count, kind, label).with_rule(rule)
        });
        Call::ranges(records.collect::<Vec<_>>())
    }
}
