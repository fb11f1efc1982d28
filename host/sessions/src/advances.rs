//! Requests A.2 and A.4 by themselves: what advances met, for the account, and what an advance may take
//! and has to leave, told from the state before it and by restores.

use domain_model::state::cell_of;
use domain_model::{
    Buffers, CELL, Call, Domain, FULL, Kept, Notebook, Reply, STOPPED, State, Store,
};

/// Advances of a domain that holds some cell read-write, by what had changed.
#[derive(Clone, Copy, Debug, Default)]
pub struct Advances {
    /// Nothing; of these, with no body free; some cells and not others; all of them.
    pub nothing: u64,
    pub nothing_and_full: u64,
    pub some: u64,
    pub all: u64,
    /// A cell whose memory differs from the held value in the first byte alone, and in the last.
    pub first_byte: u64,
    pub last_byte: u64,
    /// An unchanged cell that stayed via parent, or by its rule, beside one that was copied.
    pub kept_via_parent: u64,
    pub kept_rule: u64,
    /// A cell that was like the next domain out's value and unlike its own, and the other way round.
    pub like_parent: u64,
    pub unlike_parent: u64,
    /// Room for the changed cells and for no other, though some cells had not changed; and refused
    /// by 17 with one body too few.
    pub exact: u64,
    pub one_short: u64,
    pub given: Given,
}

/// Inner advances, by what the next domain out lacked.
#[derive(Clone, Copy, Debug, Default)]
pub struct Given {
    /// Cells were given; of these, some that were held by a rule, and some that a domain further out
    /// holds.
    pub some: u64,
    pub rules: u64,
    pub further_out: u64,
    /// Given beside a changed cell that the next domain out holds, and beside an unchanged one that it
    /// lacks.
    pub beside_held: u64,
    pub beside_unchanged: u64,
    /// Nothing had changed, though the next domain out lacks some cell.
    pub unchanged: u64,
    /// A changed cell that the next domain out holds read-only.
    pub read_only: u64,
    /// Room for the cells given and for no other; refused by 16 with one entry too few, and where bodies
    /// were too few besides.
    pub exact: u64,
    pub one_short: u64,
    pub both_short: u64,
    /// Stopped.
    pub cut: u64,
}

impl Advances {
    pub fn join(&mut self, other: &Advances) {
        self.nothing += other.nothing;
        self.nothing_and_full += other.nothing_and_full;
        self.some += other.some;
        self.all += other.all;
        self.first_byte += other.first_byte;
        self.last_byte += other.last_byte;
        self.kept_via_parent += other.kept_via_parent;
        self.kept_rule += other.kept_rule;
        self.like_parent += other.like_parent;
        self.unlike_parent += other.unlike_parent;
        self.exact += other.exact;
        self.one_short += other.one_short;
        self.given.join(&other.given);
    }
}

impl Given {
    fn join(&mut self, other: &Given) {
        self.some += other.some;
        self.rules += other.rules;
        self.further_out += other.further_out;
        self.beside_held += other.beside_held;
        self.beside_unchanged += other.beside_unchanged;
        self.unchanged += other.unchanged;
        self.read_only += other.read_only;
        self.exact += other.exact;
        self.one_short += other.one_short;
        self.both_short += other.both_short;
        self.cut += other.cut;
    }
}

/// What an advance of the innermost domain met.
pub struct Met<'a> {
    state: &'a State,
    buffers: &'a Buffers,
    /// The innermost domain.
    inner: usize,
    read_write: Vec<u32>,
    changed: Vec<u32>,
    /// The changed cells that the next domain out lacks.
    given: Vec<u32>,
}

impl<'a> Met<'a> {
    /// None where no cell is held read-write.
    pub fn new(state: &'a State, buffers: &'a Buffers) -> Option<Met<'a>> {
        let inner = state.domains.len().checked_sub(1)?;
        let cells = state.domains[inner].cells.iter();
        let read_write: Vec<u32> = cells
            .filter(|(_, h)| h.read_write)
            .map(|(c, _)| *c)
            .collect();
        let differs = |c: &u32| state.value(inner, *c) != Some(cell_of(&buffers.memory, *c));
        let changed: Vec<u32> = read_write.iter().copied().filter(differs).collect();
        let mut met = Met {
            state,
            buffers,
            inner,
            read_write,
            changed,
            given: Vec::new(),
        };
        let lacks = |c: &u32| met.lacks(*c);
        met.given = met.changed.iter().copied().filter(lacks).collect();
        (!met.read_write.is_empty()).then_some(met)
    }

    fn is_changed(&self, cell: u32) -> bool {
        self.changed.binary_search(&cell).is_ok()
    }

    /// The next domain out.
    fn outer(&self) -> Option<&Domain> {
        self.inner.checked_sub(1).map(|at| &self.state.domains[at])
    }

    /// Whether there is a next domain out, and it lacks the cell.
    fn lacks(&self, cell: u32) -> bool {
        self.outer().is_some_and(|outer| !outer.holds(cell))
    }

    /// Whether a read-write cell is such a one.
    fn any(&self, is_it: impl Fn(u32) -> bool) -> bool {
        self.read_write.iter().any(|c| is_it(*c))
    }

    /// How the advancing domain holds a cell.
    fn kept(&self, cell: u32) -> Kept {
        self.state.domains[self.inner].cells[&cell].kept
    }

    /// The bytes of a cell that differ from the held value.
    fn places(&self, cell: u32) -> Vec<usize> {
        let now = cell_of(&self.buffers.memory, cell);
        let value = self.state.value(self.inner, cell).unwrap_or(now);
        (0..CELL).filter(|i| now[*i] != value[*i]).collect()
    }

    /// Whether memory has the next domain out's value in a cell that both hold, each its own.
    fn parents(&self, cell: u32) -> Option<bool> {
        let own = self.state.keeper(self.inner, cell)? == self.inner;
        let outer = self.inner.checked_sub(1).filter(|_| own)?;
        let value = self.state.value(outer, cell)?;
        Some(value == cell_of(&self.buffers.memory, cell))
    }

    /// Free entries and free bodies.
    fn room(&self) -> (u64, u64) {
        let sizes = self.buffers.sizes();
        let entries = u64::from(sizes.e).saturating_sub(self.state.entries());
        let bodies = u64::from(sizes.b).saturating_sub(self.state.copies());
        (entries, bodies)
    }

    /// Counts the advance by its answer.
    pub fn tally(&self, tally: &mut Advances, reply: &Reply) {
        let (entries, bodies) = self.room();
        let (k, g) = (self.changed.len() as u64, self.given.len() as u64);
        match reply.code {
            0 => {
                self.tally_changed(tally);
                self.tally_given(&mut tally.given);
            }
            16 => {
                tally.given.one_short += (g == entries + 1) as u64;
                tally.given.both_short += (k > bodies) as u64;
            }
            17 => tally.one_short += (k == bodies + 1) as u64,
            STOPPED => tally.given.cut += (g > 0) as u64,
            _ => {}
        }
    }

    fn tally_changed(&self, tally: &mut Advances) {
        let (_, room) = self.room();
        let (k, all) = (self.changed.len() as u64, self.read_write.len() as u64);
        let any = |is_it: &dyn Fn(u32) -> bool| self.any(is_it) as u64;
        tally.nothing += (k == 0) as u64;
        tally.nothing_and_full += (k == 0 && room == 0) as u64;
        tally.some += (0 < k && k < all) as u64;
        tally.all += (k == all) as u64;
        tally.exact += (0 < k && k == room && k < all) as u64;
        tally.first_byte += any(&|c| self.places(c) == [0]);
        tally.last_byte += any(&|c| self.places(c) == [CELL - 1]);
        if k > 0 {
            let kept = |c: u32| self.kept(c);
            tally.kept_via_parent += any(&|c| kept(c) == Kept::ViaParent && !self.is_changed(c));
            tally.kept_rule += any(&|c| kept(c).rule().is_some() && !self.is_changed(c));
        }
        tally.like_parent += any(&|c| self.parents(c) == Some(true) && self.is_changed(c));
        tally.unlike_parent += any(&|c| self.parents(c) == Some(false) && !self.is_changed(c));
    }

    fn tally_given(&self, tally: &mut Given) {
        let Some(outer) = self.outer() else { return };
        let (entries, _) = self.room();
        let (k, g) = (self.changed.len() as u64, self.given.len() as u64);
        let unchanged = self.any(|c| self.lacks(c) && !self.is_changed(c));
        let read_only = |c: &u32| outer.cells.get(c).is_some_and(|held| !held.read_write);
        tally.read_only += self.changed.iter().any(read_only) as u64;
        tally.unchanged += (k == 0 && unchanged) as u64;
        if g == 0 {
            return;
        }
        let further_out = &self.state.domains[..self.inner - 1];
        let held_there = |c: &u32| further_out.iter().any(|domain| domain.holds(*c));
        let by_rule = |c: &u32| self.kept(*c).rule().is_some();
        tally.some += 1;
        tally.rules += self.given.iter().any(by_rule) as u64;
        tally.further_out += self.given.iter().any(held_there) as u64;
        tally.beside_held += (g < k) as u64;
        tally.beside_unchanged += unchanged as u64;
        tally.exact += (g == entries) as u64;
    }

    /// What an advance may take that was not refused: 64 steps for each of k copies, and 3p + 2 for the
    /// journal, where p is 2 for each of them and 2 for each cell given; nothing where k is 0.
    pub fn steps_as_asked(&self, reply: &Reply) -> Result<(), String> {
        let (k, g) = (self.changed.len() as u64, self.given.len() as u64);
        let need = if k == 0 {
            0
        } else {
            64 * k + 3 * (2 * k + 2 * g) + 2
        };
        let right = match reply.code {
            0 => reply.steps == need,
            _ => reply.steps < need,
        };
        if right && need <= 76 * k + 2 {
            return Ok(());
        }
        let steps = reply.steps;
        Err(format!(
            "{k} cells have changed and {g} of them are given, which takes {need} steps: {steps} were made"
        ))
    }

    /// The point moves where nothing has changed, too: then memory stands as at the old point in every
    /// byte that counts, so that no count could tell the two points apart.
    pub fn nothing_to_tell(&self, notebook: &Notebook) -> Result<(), String> {
        if !self.changed.is_empty() {
            return Ok(());
        }
        match notebook.zero_count(0, &self.buffers.memory)? {
            Some(count) if count.differ != 0 => Err(format!(
                "no held cell has changed, and {} bytes differ from what stood at the point",
                count.differ
            )),
            _ => Ok(()),
        }
    }

    /// An inner advance keeps the outer point: each domain around goes back to the same memory after it
    /// as before it. (Not in as many steps: one further out ends the domain that was given cells.)
    pub fn outer_points_stay(&self, store: &dyn Store, after: &Buffers) -> Result<(), String> {
        // In larger stores restores would take most of the time.
        if after.memory.len() > 64 * CELL {
            return Ok(());
        }
        for domain in &self.state.domains[..self.inner] {
            let handle = domain.handle;
            let restored = |from: &Buffers| {
                let mut buffers = from.clone();
                let reply = store.call(&mut buffers, &Call::Restore { handle }, FULL);
                (reply.code, buffers.memory)
            };
            let (was, is) = (restored(self.buffers), restored(after));
            if was != is {
                return Err(format!(
                    "a restore of {handle} leaves other bytes after the advance than before it"
                ));
            }
        }
        Ok(())
    }
}
