//! What a store means, without places: next handle, live domains outermost first, and what each
//! holds of each cell.

use crate::rules;
use std::collections::BTreeMap;

/// Bytes in a cell.
pub const CELL: usize = 64;

/// The bytes of one cell.
pub type Bytes = [u8; CELL];

/// How a domain keeps a cell.
#[derive(Clone, Copy, PartialEq, Eq, Debug)]
pub enum Kept {
    /// By its own copy of the bytes.
    Copy(Bytes),
    /// By what the next domain out holds.
    ViaParent,
    /// By the rule with this number: the bytes are made afresh.
    Rule(u32),
}

impl Kept {
    /// The bytes, where the domain has them by itself: none for via parent.
    fn bytes(self) -> Option<Bytes> {
        match self {
            Kept::Copy(bytes) => Some(bytes),
            Kept::ViaParent => None,
            Kept::Rule(rule) => rules::pattern(rule),
        }
    }

    /// Whether a body is in use for it.
    pub fn is_copy(self) -> bool {
        matches!(self, Kept::Copy(_))
    }

    /// The rule, where it is one that keeps the cell.
    pub fn rule(self) -> Option<u32> {
        match self {
            Kept::Rule(rule) => Some(rule),
            _ => None,
        }
    }
}

/// One cell held by one domain.
#[derive(Clone, Copy, PartialEq, Eq, Debug)]
pub struct Holding {
    pub read_write: bool,
    pub kept: Kept,
}

/// One live domain.
#[derive(Clone, PartialEq, Eq, Debug)]
pub struct Domain {
    pub handle: u32,
    pub cells: BTreeMap<u32, Holding>,
}

impl Domain {
    pub fn holds(&self, cell: u32) -> bool {
        self.cells.contains_key(&cell)
    }

    /// The rule by which the domain holds a cell, if it does so by one.
    pub fn rule(&self, cell: u32) -> Option<u32> {
        self.cells.get(&cell)?.kept.rule()
    }
}

/// The whole meaning of a store. Domains are counted from 0 here, outermost first; the table's
/// depth is one more.
#[derive(Clone, PartialEq, Eq, Debug)]
pub struct State {
    pub next: u32,
    pub domains: Vec<Domain>,
}

impl State {
    /// What make gives.
    pub fn fresh() -> State {
        State {
            next: 1,
            domains: Vec::new(),
        }
    }

    /// The domain that a handle names; 0 is the innermost one.
    pub fn find(&self, handle: u32) -> Option<usize> {
        if handle == 0 {
            return self.domains.len().checked_sub(1);
        }
        self.domains.iter().position(|d| d.handle == handle)
    }

    /// The domain whose body or rule is the value of a cell held by `domain`: itself, or further
    /// out for via parent.
    pub fn keeper(&self, domain: usize, cell: u32) -> Option<usize> {
        let mut at = domain;
        loop {
            match self.domains[at].cells.get(&cell)?.kept {
                Kept::Copy(_) | Kept::Rule(_) => return Some(at),
                Kept::ViaParent => at = at.checked_sub(1)?,
            }
        }
    }

    /// The copy or the rule that is the value of a cell held by `domain`.
    pub fn kept(&self, domain: usize, cell: u32) -> Option<Kept> {
        let keeper = self.keeper(domain, cell)?;
        Some(self.domains[keeper].cells[&cell].kept)
    }

    /// The value of a cell held by `domain`.
    pub fn value(&self, domain: usize, cell: u32) -> Option<Bytes> {
        self.kept(domain, cell)?.bytes()
    }

    /// Entries in use: one for each cell held by each domain.
    pub fn entries(&self) -> u64 {
        self.domains.iter().map(|d| d.cells.len() as u64).sum()
    }

    /// Copies in use: one body each.
    pub fn copies(&self) -> u64 {
        self.count(Kept::is_copy)
    }

    /// Cells held by a rule: an entry each, and no body.
    pub fn patterns(&self) -> u64 {
        self.count(|kept| kept.rule().is_some())
    }

    fn count(&self, is_it: impl Fn(Kept) -> bool) -> u64 {
        let all = self.domains.iter().flat_map(|d| d.cells.values());
        all.filter(|held| is_it(held.kept)).count() as u64
    }
}

/// The bytes of a cell in memory.
pub fn cell_of(memory: &[u8], cell: u32) -> Bytes {
    let at = cell as usize * CELL;
    // Outside memory, which only a planted fault asks for, there are zeros.
    memory
        .get(at..at + CELL)
        .map_or([0; CELL], |bytes| bytes.try_into().expect("64 bytes"))
}
