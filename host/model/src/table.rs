//! The three lent buffers as document 01 describes them: read back into a state, and written from
//! one.

use crate::buffers::Buffers;
use crate::calls::{Reading, Sizes};
use crate::fault::Fault;
use crate::plan::Place;
use crate::rules::RULES;
use crate::state::{CELL, Domain, Holding, Kept, State};
use std::collections::{BTreeMap, BTreeSet};

/// Word 0 of every store.
pub const MAGIC: u32 = 0xCD51_1E01;
/// Live domains.
pub const LIVE: usize = 4;
/// Next handle.
pub const NEXT: usize = 5;
/// Pending pairs.
pub const PENDING: usize = 6;
/// Handle of the outermost domain.
pub const HANDLES: usize = 8;
/// First entry.
pub const ENTRIES: usize = 16;

/// Why buffers are no store.
#[derive(Clone, PartialEq, Eq, Debug)]
pub enum Broken {
    /// Question 1.
    Lengths,
    /// Question 2.
    Header,
    /// Question 4, with what is wrong; `pending` tells question 3.
    Table { pending: bool, why: String },
}

/// A store read from its buffers: what it means, and where it keeps things.
#[derive(Clone, PartialEq, Eq, Debug)]
pub struct Decoded {
    pub sizes: Sizes,
    pub state: State,
    /// Entry and body of each holding, by domain (from 0) and cell. Where it is no copy the body
    /// is 0.
    pub places: BTreeMap<(usize, u32), Place>,
    /// Pending pairs: word number, new value.
    pub pairs: Vec<(u32, u32)>,
    /// The words in front of the pairs, as the pairs mean them.
    pub words: Vec<u32>,
}

impl Decoded {
    /// Entry places not in use.
    pub fn free_entries(&self) -> BTreeSet<u32> {
        let used: BTreeSet<u32> = self.places.values().map(|p| p.entry).collect();
        (0..self.sizes.e).filter(|e| !used.contains(e)).collect()
    }

    /// The body of a domain's own copy of a cell.
    pub fn body(&self, domain: usize, cell: u32) -> Option<u32> {
        let held = self.state.domains.get(domain)?.cells.get(&cell)?;
        let place = self.places.get(&(domain, cell))?;
        held.kept.is_copy().then_some(place.body)
    }

    /// Bodies not in use.
    pub fn free_bodies(&self) -> BTreeSet<u32> {
        let held = self.places.keys();
        let used: BTreeSet<u32> = held.filter_map(|(d, c)| self.body(*d, *c)).collect();
        (0..self.sizes.b).filter(|b| !used.contains(b)).collect()
    }
}

/// What the buffers stand for.
pub fn reading(decoded: &Result<Decoded, Broken>) -> Reading {
    match decoded {
        Err(Broken::Lengths) => Reading::WrongLengths,
        Err(Broken::Header) => Reading::NoStore,
        Err(Broken::Table { pending, .. }) => Reading::Damaged { pending: *pending },
        Ok(d) => Reading::Store {
            state: d.state.clone(),
            pending: d.pairs.len() as u32,
        },
    }
}

impl Buffers {
    /// Reads a store from its buffers, with questions 1, 2 and 4. Memory's length is all that the
    /// table has to do with memory.
    pub fn decode(&self, fault: Option<Fault>) -> Result<Decoded, Broken> {
        let sizes = self.lengths().sizes().ok_or(Broken::Lengths)?;
        let table = &self.table;
        if table[..4] != [MAGIC, sizes.m, sizes.e, sizes.b] || table[7] != 0 {
            return Err(Broken::Header);
        }
        let damaged = |why: String| Broken::Table {
            pending: table[PENDING] != 0,
            why,
        };
        let pairs = pairs(sizes, table).map_err(damaged)?;
        let mut words = table[..sizes.pairs_at()].to_vec();
        if fault != Some(Fault::TableReadsRaw) {
            for (word, value) in &pairs {
                words[*word as usize] = *value;
            }
        }
        let (state, places) = meaning(sizes, &self.bodies, &words, fault).map_err(damaged)?;
        Ok(Decoded {
            sizes,
            state,
            places,
            pairs,
            words,
        })
    }
}

/// The pending pairs: they name words 4, 5, 8 to 15 or an entry word, strictly rising.
fn pairs(sizes: Sizes, table: &[u32]) -> Result<Vec<(u32, u32)>, String> {
    let pending = table[PENDING];
    if pending > 2 * sizes.e + 10 {
        return Err(format!(
            "{pending} pairs pending, at most {} fit",
            2 * sizes.e + 10
        ));
    }
    let end = sizes.pairs_at() as u32;
    let mut pairs: Vec<(u32, u32)> = Vec::with_capacity(pending as usize);
    for at in 0..pending as usize {
        let (word, value) = (
            table[end as usize + 2 * at],
            table[end as usize + 2 * at + 1],
        );
        let allowed =
            word == LIVE as u32 || word == NEXT as u32 || (HANDLES as u32 <= word && word < end);
        if !allowed {
            return Err(format!("pair {at} names word {word}"));
        }
        if pairs.last().is_some_and(|(last, _)| *last >= word) {
            return Err(format!("pair {at} names word {word}, which does not rise"));
        }
        pairs.push((word, value));
    }
    Ok(pairs)
}

/// The bits of an entry's first word.
const READ_WRITE: u32 = 1 << 27;
const VIA_PARENT: u32 = 1 << 26;
const BY_RULE: u32 = 1 << 25;
/// Bits 16 to 24, which are zero.
const SPARE: u32 = 0x01FF_0000;

type Places = BTreeMap<(usize, u32), Place>;

/// Reads the words that pairs may name: words 4, 5, 8 to 15 and the entries.
fn meaning(
    sizes: Sizes,
    bodies: &[u8],
    words: &[u32],
    fault: Option<Fault>,
) -> Result<(State, Places), String> {
    let mut reader = Reader {
        sizes,
        bodies,
        fault,
        state: live_domains(words)?,
        places: BTreeMap::new(),
        used: BTreeSet::new(),
    };
    for (entry, pair) in (0..sizes.e).zip(words[ENTRIES..].chunks_exact(2)) {
        reader
            .entry(entry, pair[0], pair[1])
            .map_err(|why| format!("entry {entry} {why}"))?;
    }
    // The next domain out may have its entry further on, so this comes last.
    reader.outer_holders()?;
    Ok((reader.state, reader.places))
}

/// Next handle and live domains, which hold nothing yet.
fn live_domains(words: &[u32]) -> Result<State, String> {
    let live = words[LIVE];
    if live > 8 {
        return Err(format!("{live} domains live"));
    }
    let next = words[NEXT];
    if next == 0 {
        return Err("next handle 0".into());
    }
    let mut state = State {
        next,
        domains: Vec::new(),
    };
    let mut last = 0;
    for at in 0..8 {
        let handle = words[HANDLES + at];
        if (at as u32) < live {
            if handle <= last || handle >= next {
                return Err(format!("handle {handle} at depth {}", at + 1));
            }
            last = handle;
            state.domains.push(Domain {
                handle,
                cells: BTreeMap::new(),
            });
        } else if handle != 0 {
            return Err(format!("handle {handle} in an unused word"));
        }
    }
    Ok(state)
}

/// Reads entries one after the other.
struct Reader<'a> {
    sizes: Sizes,
    bodies: &'a [u8],
    fault: Option<Fault>,
    state: State,
    places: Places,
    /// Bodies in use.
    used: BTreeSet<u32>,
}

impl Reader<'_> {
    fn misses(&self, fault: Fault) -> bool {
        self.fault == Some(fault)
    }

    /// Takes one entry up, or says what is wrong with it.
    fn entry(&mut self, entry: u32, first: u32, second: u32) -> Result<(), String> {
        if first == 0 {
            return match second {
                0 => Ok(()),
                _ => Err(format!("is free with {second} as its second word")),
            };
        }
        let (depth, cell) = (first >> 28, first & 0xFFFF);
        if first & SPARE != 0 {
            return Err("has spare bits".into());
        }
        if depth < 1 || depth > self.state.domains.len() as u32 {
            return Err(format!("has depth {depth}"));
        }
        if cell >= self.sizes.m {
            return Err(format!("has cell {cell}"));
        }
        let kept = self.kept(first, second)?;
        let held = Holding {
            read_write: first & READ_WRITE != 0,
            kept,
        };
        let domain = depth as usize - 1;
        let twice = self.state.domains[domain].cells.insert(cell, held);
        if twice.is_some() {
            return Err(format!("has cell {cell} at depth {depth} a second time"));
        }
        let body = if kept.is_copy() { second } else { 0 };
        self.places.insert((domain, cell), Place { entry, body });
        Ok(())
    }

    /// How an entry keeps its cell; each kind has its own rule on the second word.
    fn kept(&mut self, first: u32, second: u32) -> Result<Kept, String> {
        match (first & VIA_PARENT != 0, first & BY_RULE != 0) {
            (true, true) if !self.misses(Fault::TableMissesBothBits) => {
                Err("is via parent and by a rule".into())
            }
            (true, _) => via_parent(first, second),
            (false, true) => self.by_rule(second),
            (false, false) => self.copy(second),
        }
    }

    fn by_rule(&mut self, rule: u32) -> Result<Kept, String> {
        if !RULES.contains(&rule) && !self.misses(Fault::TableMissesRuleNumber) {
            return Err(format!("has rule {rule}"));
        }
        // A rule is no body: neither B nor the bodies in use have to do with it.
        if self.misses(Fault::TableBoundsRuleByBodies) && rule >= self.sizes.b {
            return Err(format!("has rule {rule} of so many bodies"));
        }
        if self.misses(Fault::RuleMarksBody) && !self.used.insert(rule) {
            return Err(format!("shares rule {rule}"));
        }
        Ok(Kept::Rule(rule))
    }

    fn copy(&mut self, body: u32) -> Result<Kept, String> {
        if body >= self.sizes.b {
            return Err(format!("has body {body}"));
        }
        if !self.used.insert(body) && !self.misses(Fault::TableMissesSharedBody) {
            return Err(format!("shares body {body}"));
        }
        let bytes = &self.bodies[body as usize * CELL..][..CELL];
        Ok(Kept::Copy(bytes.try_into().expect("64 bytes")))
    }

    /// The next domain out of a via parent entry holds the cell, by copy or via parent: so no chain
    /// ends in a rule.
    fn outer_holders(&self) -> Result<(), String> {
        for (at, domain) in self.state.domains.iter().enumerate() {
            let rests = |held: &Holding| held.kept == Kept::ViaParent;
            for (cell, _) in domain.cells.iter().filter(|(_, held)| rests(held)) {
                let outer = &self.state.domains[at - 1];
                let what = format!("depth {} has cell {cell} via parent", at + 1);
                if !outer.holds(*cell) && !self.misses(Fault::TableMissesOrphan) {
                    return Err(format!("{what}, and the next domain out does not hold it"));
                }
                if outer.rule(*cell).is_some() && !self.misses(Fault::TableMissesViaOnRule) {
                    return Err(format!("{what}, and the next domain out by a rule"));
                }
            }
        }
        Ok(())
    }
}

fn via_parent(first: u32, second: u32) -> Result<Kept, String> {
    if second != 0 {
        return Err(format!("is via parent with {second} as its second word"));
    }
    if first >> 28 < 2 {
        return Err("is via parent at depth 1".into());
    }
    Ok(Kept::ViaParent)
}

/// The two words of an entry.
fn entry_words(depth: u32, cell: u32, held: &Holding, body: u32) -> [u32; 2] {
    let label = if held.read_write { READ_WRITE } else { 0 };
    let (kind, second) = match held.kept {
        Kept::Copy(_) => (0, body),
        Kept::ViaParent => (VIA_PARENT, 0),
        Kept::Rule(rule) => (BY_RULE, rule),
    };
    [depth << 28 | label | kind | cell, second]
}

/// Words 0 to 15 + 2E of a table for this state, with nothing pending. The pairs after them are
/// spare.
pub fn encode(sizes: Sizes, state: &State, places: &BTreeMap<(usize, u32), Place>) -> Vec<u32> {
    let mut words = vec![0; sizes.pairs_at()];
    words[..4].copy_from_slice(&[MAGIC, sizes.m, sizes.e, sizes.b]);
    words[LIVE] = state.domains.len() as u32;
    words[NEXT] = state.next;
    for (at, domain) in state.domains.iter().enumerate() {
        // More than eight handles do not fit; only an error that allows a ninth domain gets here.
        if at < 8 {
            words[HANDLES + at] = domain.handle;
        }
        for (cell, held) in &domain.cells {
            let place = places[&(at, *cell)];
            let pair = entry_words(at as u32 + 1, *cell, held, place.body);
            words[ENTRIES + 2 * place.entry as usize..][..2].copy_from_slice(&pair);
        }
    }
    words
}
