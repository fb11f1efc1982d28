//! The notebook of document 01: what a restore has to bring back, told from the outside.
//!
//! It is fed each call's arguments, whether the call was done, stopped or refused, opening's step
//! count, the place of each program write, and memory after each of these. It never sees table or
//! bodies, so it cannot repeat a mistake of theirs.

use crate::calls::{Call, READ_WRITE, Record};
use crate::fault::Fault;
use crate::state::{Bytes, CELL, State, cell_of};
use std::collections::BTreeMap;

/// How a call ended.
#[derive(Clone, Copy, PartialEq, Eq, Debug)]
pub enum Ended {
    Done,
    Stopped,
    Refused,
}

#[derive(Clone, Debug)]
struct Page {
    handle: u32,
    /// Label and bytes of each cell.
    cells: BTreeMap<u32, (bool, Bytes)>,
    /// Memory at the domain's point.
    picture: Vec<u8>,
    spoilt: Vec<bool>,
    uncounted: bool,
}

/// The notebook. It starts when a make was done.
#[derive(Clone, Debug)]
pub struct Notebook {
    next: u32,
    live: Vec<Page>,
    /// The one stopped call that waits for an opening.
    waiting: Option<Call>,
    fault: Option<Fault>,
}

/// What a call brought to light.
#[derive(Clone, Copy, PartialEq, Eq, Debug)]
pub struct Count {
    /// The restored domain.
    pub handle: u32,
    /// Bytes that differ from what stood at its point: has to be 0.
    pub differ: u64,
    /// Bytes that were looked at.
    pub looked_at: u64,
}

impl Notebook {
    /// A notebook after a done make.
    pub fn new(fault: Option<Fault>) -> Notebook {
        Notebook {
            next: 1,
            live: Vec::new(),
            waiting: None,
            fault,
        }
    }

    fn has(&self, fault: Fault) -> bool {
        self.fault == Some(fault)
    }

    /// Handles of the live domains, by the notebook's own account.
    pub fn handles(&self) -> Vec<u32> {
        self.live.iter().map(|p| p.handle).collect()
    }

    /// Whether this state has what the notebook has: the live domains, and of each the cells with their
    /// labels and bytes. The notebook sees no state; whoever sees both asks this.
    pub fn agrees_with(&self, state: &State) -> Result<(), String> {
        let live: Vec<u32> = state.domains.iter().map(|d| d.handle).collect();
        if self.handles() != live {
            let noted = self.handles();
            return Err(format!(
                "live domains are {live:?}, in the notebook {noted:?}"
            ));
        }
        for (at, page) in self.live.iter().enumerate() {
            let held = state.domains[at].cells.iter();
            let held = held.map(|(c, held)| (*c, (held.read_write, state.value(at, *c))));
            let noted = page.cells.iter();
            let noted = noted.map(|(c, (read_write, bytes))| (*c, (*read_write, Some(*bytes))));
            if !held.eq(noted) {
                let handle = page.handle;
                return Err(format!(
                    "domain {handle} holds other cells, labels or bytes than in the notebook"
                ));
            }
        }
        Ok(())
    }

    fn find(&self, handle: u32) -> Result<usize, String> {
        let at = if handle == 0 {
            self.live.len().checked_sub(1)
        } else {
            self.live.iter().position(|p| p.handle == handle)
        };
        at.ok_or_else(|| format!("the notebook knows no live domain {handle}"))
    }

    /// The program wrote `len` bytes from `at` on.
    pub fn write(&mut self, at: usize, len: usize) {
        if self.has(Fault::NotebookWithoutSpoiltWrites) {
            return;
        }
        let mut from = at;
        while from < at + len {
            let cell = (from / CELL) as u32;
            let to = (at + len).min((cell as usize + 1) * CELL);
            // From the innermost outwards: a domain is safe when it or one inside it holds the cell
            // read-write.
            let mut safe = false;
            for page in self.live.iter_mut().rev() {
                safe = safe
                    || page
                        .cells
                        .get(&cell)
                        .is_some_and(|(read_write, _)| *read_write);
                if !safe {
                    page.spoilt[from..to].fill(true);
                }
            }
            from = to;
        }
    }

    /// A call ended. `steps` is read for an opening only. Gives the zero count of a restore that
    /// this call completes.
    pub fn call(
        &mut self,
        call: &Call,
        budget: u64,
        ended: Ended,
        steps: u64,
        memory: &[u8],
    ) -> Result<Option<Count>, String> {
        match (call, ended) {
            (_, Ended::Refused) | (Call::List | Call::Look { .. }, _) => Ok(None),
            (Call::Make, Ended::Done) => {
                *self = Notebook::new(self.fault);
                Ok(None)
            }
            (Call::Make, Ended::Stopped) => {
                // A make stopped at budget 0 did nothing at all.
                if budget > 0 {
                    *self = Notebook::new(self.fault);
                }
                Ok(None)
            }
            (Call::Open, Ended::Done) => match self.waiting.take() {
                Some(waiting) if steps > 0 && !self.has(Fault::NotebookDropsStopped) => {
                    self.carry_out(&waiting, memory)
                }
                _ => Ok(None),
            },
            (Call::Open, Ended::Stopped) => Ok(None),
            (_, Ended::Done) => self.carry_out(call, memory),
            (_, Ended::Stopped) => {
                if let Call::Restore { handle } = call {
                    let named = self.find(*handle)?;
                    if !self.has(Fault::NotebookWithoutMarks) {
                        for page in &mut self.live[named + 1..] {
                            page.uncounted = true;
                        }
                    }
                }
                self.waiting = Some(call.clone());
                Ok(None)
            }
        }
    }

    /// The call's own line.
    fn carry_out(&mut self, call: &Call, memory: &[u8]) -> Result<Option<Count>, String> {
        match *call {
            Call::Make | Call::Open | Call::List | Call::Look { .. } => {}
            Call::Create => {
                let picture = memory.to_vec();
                let spoilt = vec![false; memory.len()];
                self.live.push(Page {
                    handle: self.next,
                    cells: BTreeMap::new(),
                    picture,
                    spoilt,
                    uncounted: false,
                });
                self.next += 1;
            }
            Call::Add { handle, record } => self.add(handle, &[record], memory)?,
            Call::AddRanges {
                handle,
                ref records,
            } => self.add(handle, records, memory)?,
            Call::Delete {
                handle,
                first,
                count,
            } => {
                let named = self.find(handle)?;
                for c in first..first + count {
                    self.live[named].cells.remove(&c);
                }
                let bytes = first as usize * CELL..(first + count) as usize * CELL;
                let around = if self.has(Fault::NotebookDeleteSpoilsNamedOnly) {
                    named
                } else {
                    0
                };
                if !self.has(Fault::NotebookWithoutSpoiltDeletes) {
                    for page in &mut self.live[around..=named] {
                        page.spoilt[bytes.clone()].fill(true);
                    }
                }
            }
            Call::Advance { .. } => self.advance(memory)?,
            Call::Commit { .. } => {
                let inner = self
                    .live
                    .pop()
                    .ok_or("a commit with nobody live in the notebook")?;
                if let Some(outer) = self.live.last_mut() {
                    for (c, (read_write, bytes)) in inner.cells {
                        outer.cells.entry(c).or_insert((read_write, bytes)).0 |= read_write;
                    }
                }
            }
            Call::Restore { handle } => {
                let named = self.find(handle)?;
                self.live.truncate(named + 1);
                return self.zero_count(handle, memory);
            }
        }
        Ok(None)
    }

    /// The line of add, for each record in list order.
    fn add(&mut self, handle: u32, records: &[Record], memory: &[u8]) -> Result<(), String> {
        let named = self.find(handle)?;
        let by_last = self.has(Fault::NotebookLabelsByLastRecord);
        let last = records.last().filter(|_| by_last);
        // A right store is done with cells of memory alone; one with an error may say so of others.
        let all = (memory.len() / CELL) as u32;
        for record in records {
            let read_write = last.unwrap_or(record).label == READ_WRITE;
            let end = record.first.saturating_add(record.count).min(all);
            for c in record.first..end {
                let entering = (read_write, cell_of(memory, c));
                let held = self.live[named].cells.entry(c).or_insert(entering);
                held.0 |= read_write;
            }
        }
        Ok(())
    }

    /// The line of advance. Of the innermost's read-write cells whose own 64 bytes are not memory's,
    /// those that the next domain out lacks enter there with label and old bytes (request A.4). Then the
    /// innermost's read-write cells and its picture take memory's bytes. Picture, spoilt bytes and mark
    /// of the next domain out stay.
    fn advance(&mut self, memory: &[u8]) -> Result<(), String> {
        let keeps = self.has(Fault::NotebookAdvanceKeepsPicture);
        let tells = !self.has(Fault::NotebookTellsOuterNothing);
        let new_bytes = self.has(Fault::NotebookGivesNewBytes);
        let unchanged = self.has(Fault::NotebookGivesUnchanged);
        let [around @ .., page] = &mut self.live[..] else {
            return Err("an advance with nobody live in the notebook".into());
        };
        let mut outer = around.last_mut().filter(|_| tells);
        for (c, (read_write, bytes)) in page.cells.iter_mut() {
            let now = cell_of(memory, *c);
            if !*read_write {
                continue;
            }
            if let Some(outer) = &mut outer
                && (*bytes != now || unchanged)
            {
                let given = if new_bytes { now } else { *bytes };
                outer.cells.entry(*c).or_insert((*read_write, given));
            }
            *bytes = now;
        }
        if !keeps {
            page.picture.copy_from_slice(memory);
        }
        Ok(())
    }

    /// The zero count of a restore of this domain, with memory as the restore left it; none if it
    /// does not count.
    pub fn zero_count(&self, handle: u32, memory: &[u8]) -> Result<Option<Count>, String> {
        let page = &self.live[self.find(handle)?];
        if page.uncounted {
            return Ok(None);
        }
        let mut count = Count {
            handle: page.handle,
            differ: 0,
            looked_at: 0,
        };
        for (i, byte) in memory.iter().enumerate() {
            if !page.spoilt[i] {
                count.looked_at += 1;
                count.differ += (*byte != page.picture[i]) as u64;
            }
        }
        Ok(Some(count))
    }
}
