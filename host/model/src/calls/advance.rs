//! Advance. The read-write cells of the innermost domain whose memory differs from the value held take
//! memory's bytes, as copies; the others keep kind and body (request A.2).
//!
//! A changed cell that the next domain out lacks is given to it as it was held, with kind, value and
//! label, and with its body, which changes owner (request A.4). So a restore of that domain brings back
//! what stood at its own point, though the inner one has moved on. Asked are, after 5 and 6, 16 for the
//! entries of what is given, and then 17 for the bodies of the new copies; 15 is retired.

use super::{Model, Shape, Sizes, Verdict, Work};
use crate::fault::Fault;
use crate::state::{CELL, Domain, Kept, State, cell_of};

/// An advance, and what it finds.
struct Advancing<'a> {
    state: &'a State,
    memory: &'a [u8],
    /// The domain that advances, which is the innermost.
    named: usize,
    /// The read-write cells whose memory differs from the value held, rising.
    changed: Vec<u32>,
    /// Those of them that are given outwards, each with the domain that it is given to.
    given: Vec<(usize, u32)>,
}

impl Advancing<'_> {
    /// The entries that the given cells take.
    fn new_entries(&self) -> usize {
        let given = self.given.iter();
        let lacks = |(to, cell): &&(usize, u32)| !self.state.domains[*to].holds(*cell);
        given.filter(lacks).count()
    }
}

impl Model {
    pub(super) fn advance(
        &self,
        sizes: Sizes,
        state: &State,
        memory: &[u8],
        handle: u32,
    ) -> Result<Verdict, u32> {
        let named = self.innermost(state, handle)?;
        let changed = self.changed(state, memory, named);
        let advancing = Advancing {
            state,
            memory,
            named,
            given: self.given(state, named, &changed),
            changed,
        };
        self.question_15(&advancing)?;
        self.room_to_advance(sizes, &advancing)?;
        let mut work = self.with_steps(self.advanced(&advancing));
        if self.has(Fault::AdvanceTakesTwoStepsForNothing) && work.words == 0 {
            work.need = 2;
        }
        if self.has(Fault::GivenCellsTakeNoSteps) {
            work.need -= 6 * work.given.len() as u64;
        }
        Ok(Verdict::Work(work))
    }

    /// The cells that a domain holds read-write.
    fn read_write(&self, domain: &Domain) -> impl Iterator<Item = u32> {
        let all = self.has(Fault::AdvanceTakesReadOnly);
        let cells = domain.cells.iter();
        cells
            .filter(move |(_, held)| held.read_write || all)
            .map(|(c, _)| *c)
    }

    /// The read-write cells of a domain that an advance copies: those whose memory differs from the
    /// value held, which is the body's, that of the next domain out, or the rule's.
    fn changed(&self, state: &State, memory: &[u8], domain: usize) -> Vec<u32> {
        let cells = self.read_write(&state.domains[domain]);
        cells
            .filter(|c| self.is_copied(state, memory, domain, *c))
            .collect()
    }

    /// Whether an advance copies this read-write cell. Without an error it asks nothing else than
    /// whether all 64 bytes are those held.
    fn is_copied(&self, state: &State, memory: &[u8], domain: usize, cell: u32) -> bool {
        let outer = domain.checked_sub(1);
        let lacks = outer.is_some_and(|outer| !state.domains[outer].holds(cell));
        let (keeps, turns) = match state.domains[domain].cells[&cell].kept {
            Kept::Copy(_) => (None, None),
            Kept::ViaParent => (
                Some(Fault::AdvanceKeepsViaParent),
                Some(Fault::AdvanceTurnsUnchangedViaParent),
            ),
            Kept::Rule(_) => (
                Some(Fault::AdvanceKeepsRule),
                Some(Fault::AdvanceTurnsUnchangedRule),
            ),
        };
        if self.has(Fault::AdvanceCopiesUnchanged)
            || turns.is_some_and(|turns| self.has(turns))
            || lacks && self.has(Fault::AdvanceGivesUnchanged)
        {
            return true;
        }
        if keeps.is_some_and(|keeps| self.has(keeps)) {
            return false;
        }
        let compared = match outer {
            Some(outer) if !lacks && self.has(Fault::AdvanceComparesWithParent) => outer,
            _ => domain,
        };
        let mut looked_at = 0..CELL;
        if self.has(Fault::AdvanceMissesFirstByte) {
            looked_at.start += 1;
        }
        if self.has(Fault::AdvanceMissesLastByte) {
            looked_at.end -= 1;
        }
        let now = cell_of(memory, cell);
        // Without a value, which only an error in the table's rules lets by, nothing is equal.
        let value = self.value(state, compared, cell);
        value.is_none_or(|value| value[looked_at.clone()] != now[looked_at])
    }

    /// The changed cells that the next domain out lacks, with that domain. The outermost gives nothing.
    fn given(&self, state: &State, named: usize, changed: &[u32]) -> Vec<(usize, u32)> {
        let Some(next) = named.checked_sub(1) else {
            return Vec::new();
        };
        let to = match self.has(Fault::AdvanceGivesToOutermost) {
            true => 0,
            false => next,
        };
        let cells = changed.iter().copied();
        let given = cells.filter(|cell| self.is_given(state, named, to, *cell));
        given.map(|cell| (to, cell)).collect()
    }

    /// Whether a changed cell of the domain `named` is given to the domain `to`. Without an error it
    /// asks nothing else than whether that one lacks it.
    fn is_given(&self, state: &State, named: usize, to: usize, cell: u32) -> bool {
        let kept = state.domains[named].cells[&cell].kept;
        if self.has(Fault::AdvanceGivesNothing)
            || self.has(Fault::AdvanceGivesCopiesOnly) && !kept.is_copy()
        {
            return false;
        }
        if self.has(Fault::AdvanceGivesHeld) && kept != Kept::ViaParent {
            return true;
        }
        let further_out = match self.has(Fault::AdvanceSparesHeldFurtherOut) {
            true => &state.domains[..to],
            false => &[],
        };
        !state.domains[to].holds(cell) && !further_out.iter().any(|domain| domain.holds(cell))
    }

    /// Errors that still put question 15, which is retired: of every read-write cell, or of the changed
    /// ones.
    fn question_15(&self, advancing: &Advancing) -> Result<(), u32> {
        let Some(outer) = advancing.named.checked_sub(1) else {
            return Ok(());
        };
        let domains = &advancing.state.domains;
        let lacks = |cell: u32| !domains[outer].holds(cell);
        let mut cells = self.read_write(&domains[advancing.named]);
        let no = self.has(Fault::Question15AsBefore) && cells.any(lacks)
            || self.has(Fault::Question15OfChangedCells)
                && advancing.changed.iter().any(|cell| lacks(*cell));
        if no { Err(15) } else { Ok(()) }
    }

    /// Questions 16 and 17: an entry more for each cell given outwards, and a body more for each changed
    /// cell, given or not.
    fn room_to_advance(&self, sizes: Sizes, advancing: &Advancing) -> Result<(), u32> {
        let state = advancing.state;
        let counts_changed = self.has(Fault::AdvanceCountsChangedAsEntries) && advancing.named > 0;
        let entries = match counts_changed {
            true => advancing.changed.len(),
            false => advancing.new_entries(),
        };
        let no_16 = state.entries() + entries as u64 > u64::from(sizes.e)
            && !self.has(Fault::AdvanceAsksNoEntries);
        let bodies = self.bodies_to_advance(advancing) as u64;
        let no_17 = self.copies(state) + bodies > u64::from(sizes.b);
        if no_17 && (!no_16 || self.has(Fault::AdvanceAsksBodiesFirst)) {
            return Err(17);
        }
        if no_16 {
            return Err(16);
        }
        Ok(())
    }

    /// New bodies of an advance, for question 17: one for each changed read-write cell.
    fn bodies_to_advance(&self, advancing: &Advancing) -> usize {
        let Advancing {
            state,
            memory,
            named,
            changed,
            given,
        } = advancing;
        let domain = &state.domains[*named];
        if self.has(Fault::AdvanceCountsFewerBodies) {
            let no_copy = |c: &&u32| !domain.cells[*c].kept.is_copy();
            changed.iter().filter(no_copy).count()
        } else if self.has(Fault::AdvanceCountsUnchanged) {
            self.read_write(domain).count()
        } else if self.has(Fault::AdvanceCountsReadOnly) {
            let changed = |c: &&u32| self.differs(state, memory, *named, **c);
            domain.cells.keys().filter(changed).count()
        } else if self.has(Fault::AdvanceCountsGivenBodies) {
            changed.len() + given.len()
        } else {
            changed.len()
        }
    }

    /// What an advance that is not refused has to do, but for its steps.
    fn advanced(&self, advancing: &Advancing) -> Work {
        let mut work = self.work(advancing.state.clone());
        work.given.clone_from(&advancing.given);
        self.give(advancing, &mut work);
        for &c in &advancing.changed {
            let bytes = cell_of(advancing.memory, c);
            work.taken.push((c, bytes));
            if self.has(Fault::AdvanceGivesNewValue) && work.gives(c) {
                continue;
            }
            let inner = &mut work.after.domains[advancing.named];
            let held = inner.cells.get_mut(&c).expect("held");
            held.kept = Kept::Copy(bytes);
            held.read_write &= !self.has(Fault::AdvanceDemotes);
            work.words += 2;
        }
        if self.has(Fault::AdvanceRaisesOuterLabel) {
            self.raise_outer(advancing, &mut work);
        }
        if self.has(Fault::AdvanceInPlace) {
            work.shape = Shape::OverBodies;
        }
        work
    }

    /// The cells that are given enter the domain that they are given to, as they were held: two words
    /// each.
    fn give(&self, advancing: &Advancing, work: &mut Work) {
        let inner = &advancing.state.domains[advancing.named];
        for &(to, c) in &advancing.given {
            let mut held = inner.cells[&c];
            held.read_write &= !self.has(Fault::AdvanceGivesReadOnly);
            if self.has(Fault::AdvanceGivesNewValue) || self.has(Fault::AdvanceFreesOldBody) {
                held.kept = Kept::Copy(cell_of(advancing.memory, c));
            }
            work.after.domains[to].cells.insert(c, held);
            work.words += 2;
        }
    }

    /// An error: what the next domain out holds read-only of the changed cells becomes read-write.
    fn raise_outer(&self, advancing: &Advancing, work: &mut Work) {
        let Some(outer) = advancing.named.checked_sub(1) else {
            return;
        };
        for c in &advancing.changed {
            if let Some(held) = work.after.domains[outer].cells.get_mut(c)
                && !held.read_write
            {
                held.read_write = true;
                work.words += 2;
            }
        }
    }
}
