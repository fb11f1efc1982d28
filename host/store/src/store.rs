//! The calls.

use std::fmt;
use std::ops;

use crate::call::{Add, Answer, Slices};
use crate::{CELL, Domain, Handle, Handles, Kind, Label, Outcome, Range, Refusal, Rule, ffi};

/// The budget of a call that must not be stopped: no call needs so many steps. It goes over the C
/// boundary as any other number, so the compiled library makes the same stores in the same order as
/// for a small one.
const UNSTOPPED: u64 = u64::MAX;

/// A store over three buffers that are lent to it: memory, bodies and table.
///
/// Everything that the store knows stands in the buffers. Whoever lends the same buffers again has
/// the same store, in another `Store`, another function or another process. The program writes
/// memory as it likes between the calls ([`memory_mut`](Store::memory_mut),
/// [`cell_mut`](Store::cell_mut)); bodies and table are the calls' own.
///
/// Each call that changes something has two forms. The plain one runs to its end and gives the
/// number of steps that it took. The one with a budget stops when the budget is used up, as a fault
/// at that store would stop it, and gives an [`Outcome`]. After a stopped call every other call is
/// refused as [`Pending`](Refusal::Pending) or finds the stopped call not made;
/// [`open`](Store::open) comes next in every case.
///
/// ```
/// use domain_store::{Kind, Label, Sizes, Store};
///
/// let sizes = Sizes::new(4, 8, 8)?;
/// let mut memory = vec![7; sizes.memory_len()];
/// let mut bodies = vec![0; sizes.bodies_len()];
/// let mut table = vec![0; sizes.table_len()];
///
/// let mut store = Store::new(&mut memory, &mut bodies, &mut table);
/// store.make()?;
/// let cycle = store.create()?;
/// store.add(cycle, 0..4, Kind::Copy, Label::ReadWrite)?;
///
/// // The store can be given up and taken up again: its state is in the buffers.
/// memory.fill(9);
/// let mut store = Store::new(&mut memory, &mut bodies, &mut table);
/// store.open()?;
/// store.restore(cycle)?;
/// assert!(memory.iter().all(|byte| *byte == 7));
/// # Ok::<(), Box<dyn std::error::Error>>(())
/// ```
pub struct Store<'a> {
    lent: Slices<'a>,
}

/// Where the bytes stand that [`Store::look`] shows.
///
/// ```
/// use domain_store::{Buffers, Kind, Label, Place, Rule};
///
/// let mut buffers = Buffers::allocate(4, 8, 8)?;
/// let mut store = buffers.store();
/// store.make()?;
/// let cycle = store.create()?;
/// store.add(cycle, 1..2, Kind::Copy, Label::ReadOnly)?;
/// store.add(cycle, 2..3, Kind::Pattern(Rule::Zeros), Label::ReadOnly)?;
/// assert!(matches!(store.look_place(cycle, 1)?, Place::Bodies { .. }));
/// assert_eq!(store.look_place(cycle, 2)?, Place::Rule(Rule::Zeros));
/// assert_eq!(store.look_place(cycle, 3)?, Place::Memory { offset: 3 * 64 });
/// # Ok::<(), Box<dyn std::error::Error>>(())
/// ```
#[derive(Clone, Copy, Debug, PartialEq, Eq, Hash)]
pub enum Place {
    /// In memory: nobody from the domain inwards holds the cell, so a restore leaves it alone.
    Memory {
        /// The first of the 64 bytes, counted from the start of memory.
        offset: usize,
    },
    /// In bodies: a restore puts these bytes back.
    Bodies {
        /// The first of the 64 bytes, counted from the start of bodies.
        offset: usize,
    },
    /// In no buffer: the cell is held by this rule, and a restore makes its bytes afresh.
    Rule(Rule),
}

impl<'a> Store<'a> {
    /// A store over these buffers. Nothing is called and nothing is checked: slices of wrong
    /// lengths, or without a store in them, make the calls answer so. [`Sizes`](crate::Sizes) tells
    /// the right lengths.
    ///
    /// ```
    /// use domain_store::{Refusal, Store};
    ///
    /// let (mut memory, mut bodies, mut table) = ([0; 64], [0; 64], [0; 42]);
    /// let mut store = Store::new(&mut memory, &mut bodies, &mut table);
    /// assert_eq!(store.open(), Err(Refusal::NoStore));
    /// assert_eq!(store.make(), Ok(19));
    ///
    /// let mut store = Store::new(&mut memory[1..], &mut bodies, &mut table);
    /// assert_eq!(store.open(), Err(Refusal::Lengths));
    /// ```
    pub fn new(memory: &'a mut [u8], bodies: &'a mut [u8], table: &'a mut [u32]) -> Store<'a> {
        let lent = Slices {
            memory,
            bodies,
            table,
        };
        Store { lent }
    }

    /// Gives the buffers back: memory, bodies, table.
    ///
    /// ```
    /// # use domain_store::{Buffers, Store};
    /// let mut buffers = Buffers::allocate(4, 8, 8)?;
    /// let mut store = buffers.store();
    /// store.make()?;
    /// let (memory, bodies, table) = store.into_buffers();
    /// assert_eq!((memory.len(), bodies.len(), table[0]), (256, 512, 0xCD51_1E01));
    /// # Ok::<(), Box<dyn std::error::Error>>(())
    /// ```
    pub fn into_buffers(self) -> (&'a mut [u8], &'a mut [u8], &'a mut [u32]) {
        (self.lent.memory, self.lent.bodies, self.lent.table)
    }

    // ---- memory between calls

    /// The working memory.
    pub fn memory(&self) -> &[u8] {
        self.lent.memory
    }

    /// The working memory, for the program to write between calls.
    ///
    /// A restore brings a byte back for sure if, since its domain was created, every write to the
    /// byte fell while that domain or one inside it held the byte's cell as [`Label::ReadWrite`],
    /// and the cell was never deleted from any of those. So hold a cell before you write it.
    ///
    /// ```
    /// # use domain_store::Buffers;
    /// # let mut buffers = Buffers::allocate(4, 8, 8)?;
    /// # let mut store = buffers.store();
    /// store.memory_mut()[64..128].fill(9);
    /// assert_eq!(store.cell(1), &[9; 64]);
    /// # Ok::<(), Box<dyn std::error::Error>>(())
    /// ```
    pub fn memory_mut(&mut self) -> &mut [u8] {
        self.lent.memory
    }

    /// The 64 bytes of a cell of memory.
    ///
    /// # Panics
    ///
    /// Where memory has no such cell, as an index into a slice does.
    ///
    /// ```
    /// # use domain_store::Buffers;
    /// # let mut buffers = Buffers::allocate(4, 8, 8)?;
    /// # let mut store = buffers.store();
    /// store.cell_mut(3)[..4].copy_from_slice(&1.0_f32.to_le_bytes());
    /// assert_eq!(store.cell(3)[..4], [0, 0, 128, 63]);
    /// assert_eq!(store.cell(3)[..], store.memory()[3 * 64..4 * 64]);
    /// # Ok::<(), Box<dyn std::error::Error>>(())
    /// ```
    pub fn cell(&self, cell: u32) -> &[u8; CELL] {
        let first = cell as usize * CELL;
        as_cell(&self.lent.memory[first..first + CELL])
    }

    /// The 64 bytes of a cell of memory, to be written. [`memory_mut`](Store::memory_mut) says
    /// which writes a restore takes back.
    ///
    /// # Panics
    ///
    /// Where memory has no such cell, as an index into a slice does.
    pub fn cell_mut(&mut self, cell: u32) -> &mut [u8; CELL] {
        let first = cell as usize * CELL;
        (&mut self.lent.memory[first..first + CELL])
            .try_into()
            .expect("the part has 64 bytes")
    }

    /// The bodies, which are the kept bytes. Only the calls write them.
    pub fn bodies(&self) -> &[u8] {
        self.lent.bodies
    }

    /// The table's words. Only the calls write them.
    pub fn table(&self) -> &[u32] {
        self.lent.table
    }

    // ---- make and open

    /// Makes a fresh store, whatever the buffers had before: no domains, next handle 1. Memory
    /// keeps its bytes.
    ///
    /// Gives the steps that it took: 2e + 17 for e entries.
    ///
    /// # Errors
    ///
    /// [`Lengths`](Refusal::Lengths) is the only refusal.
    ///
    /// ```
    /// # use domain_store::Buffers;
    /// let mut buffers = Buffers::allocate(4, 8, 8)?;
    /// let mut store = buffers.store();
    /// assert_eq!(store.make()?, 33);
    /// assert!(store.list()?.is_empty());
    /// # Ok::<(), Box<dyn std::error::Error>>(())
    /// ```
    pub fn make(&mut self) -> Result<u64, Refusal> {
        self.make_with_budget(UNSTOPPED).map(whole)
    }

    /// As [`make`](Store::make), with a budget. A make that was stopped after at least one step
    /// leaves no store: [`open`](Store::open) answers [`NoStore`](Refusal::NoStore), and another
    /// make is due.
    ///
    /// ```
    /// # use domain_store::{Buffers, Outcome, Refusal};
    /// let mut buffers = Buffers::allocate(4, 8, 8)?;
    /// let mut store = buffers.store();
    /// store.make()?;
    /// assert_eq!(store.make_with_budget(1)?, Outcome::Stopped { steps: 1 });
    /// assert_eq!(store.open(), Err(Refusal::NoStore));
    /// # Ok::<(), Box<dyn std::error::Error>>(())
    /// ```
    pub fn make_with_budget(&mut self, budget: u64) -> Result<Outcome, Refusal> {
        outcome(self.lent.make(budget))
    }

    /// Opens a store: if a stopped call left changes pending, they are put in place. It is the
    /// first call after a fault, and the first one on a store from another process.
    ///
    /// Gives the steps that it took: 0 where nothing was pending, so that whatever was interrupted
    /// is not made. (A call whose last store was made is made, with nothing pending.)
    ///
    /// # Errors
    ///
    /// [`Lengths`](Refusal::Lengths), [`NoStore`](Refusal::NoStore), [`Corrupt`](Refusal::Corrupt).
    ///
    /// ```
    /// # use domain_store::Buffers;
    /// let mut buffers = Buffers::allocate(4, 8, 8)?;
    /// let mut store = buffers.store();
    /// store.make()?;
    /// assert!(store.create_with_budget(6)?.is_stopped());
    /// assert_eq!(store.open()?, 0); // the create is not made
    /// assert!(store.list()?.is_empty());
    ///
    /// assert!(store.create_with_budget(7)?.is_stopped());
    /// assert_eq!(store.open()?, 4); // the create is made
    /// assert_eq!(store.list()?.len(), 1);
    /// # Ok::<(), Box<dyn std::error::Error>>(())
    /// ```
    pub fn open(&mut self) -> Result<u64, Refusal> {
        self.open_with_budget(UNSTOPPED).map(whole)
    }

    /// As [`open`](Store::open), with a budget. A stopped opening is followed by another, as often
    /// as it takes.
    pub fn open_with_budget(&mut self, budget: u64) -> Result<Outcome, Refusal> {
        outcome(self.lent.open(budget))
    }

    // ---- domains

    /// Creates a domain inside the innermost one, or the first domain. It holds nothing yet; its
    /// checkpoint is now.
    ///
    /// Takes 11 steps.
    ///
    /// # Errors
    ///
    /// [`TooManyDomains`](Refusal::TooManyDomains), [`NoHandleLeft`](Refusal::NoHandleLeft), and
    /// those of a store that cannot be used ([`Lengths`](Refusal::Lengths) to
    /// [`Corrupt`](Refusal::Corrupt), as every call).
    ///
    /// ```
    /// # use domain_store::{Buffers, Refusal};
    /// let mut buffers = Buffers::allocate(4, 8, 8)?;
    /// let mut store = buffers.store();
    /// store.make()?;
    /// let cycle = store.create()?;
    /// let tile = store.create()?;
    /// assert!(cycle < tile); // handles rise
    /// for _ in 2..8 {
    ///     store.create()?;
    /// }
    /// assert_eq!(store.create(), Err(Refusal::TooManyDomains));
    /// # Ok::<(), Box<dyn std::error::Error>>(())
    /// ```
    pub fn create(&mut self) -> Result<Handle, Refusal> {
        match self.create_with_budget(UNSTOPPED)? {
            Outcome::Done { value, .. } => Ok(value),
            Outcome::Stopped { .. } => stopped_without_budget(),
        }
    }

    /// As [`create`](Store::create), with a budget. A stopped create tells no handle:
    /// [`list`](Store::list) does, after the opening, if the domain is there.
    pub fn create_with_budget(&mut self, budget: u64) -> Result<Outcome<Handle>, Refusal> {
        let (answer, handle) = self.lent.create(budget);
        Ok(match outcome(answer)? {
            Outcome::Done { steps, .. } => Outcome::Done {
                steps,
                value: Handle::new(handle).expect("the library created a domain without a handle"),
            },
            Outcome::Stopped { steps } => Outcome::Stopped { steps },
        })
    }

    /// Holds cells in the innermost domain, which `domain` has to name.
    ///
    /// A cell that the domain does not hold yet is held with memory's bytes: as a copy, via the
    /// parent, which holds the same bytes, or by the rule that they follow. A cell that it holds
    /// already keeps its kind and value; it becomes read-write if `label` is, and never goes back.
    /// All cells are held, or none. [`add_ranges`](Store::add_ranges) does so for several ranges.
    ///
    /// Gives the steps that it took.
    ///
    /// # Errors
    ///
    /// [`NoSuchDomain`](Refusal::NoSuchDomain), [`NotInnermost`](Refusal::NotInnermost),
    /// [`Range`](Refusal::Range); for cells that are new, [`NoFreeEntry`](Refusal::NoFreeEntry),
    /// for new copies [`NoFreeBody`](Refusal::NoFreeBody), via parent
    /// [`ParentLacksCell`](Refusal::ParentLacksCell), [`MemoryDiffers`](Refusal::MemoryDiffers) and
    /// [`ParentHoldsByRule`](Refusal::ParentHoldsByRule), for patterns
    /// [`PatternDiffers`](Refusal::PatternDiffers); and those of every call.
    ///
    /// ```
    /// use domain_store::{Buffers, Innermost, Kind, Label, Refusal};
    ///
    /// let mut buffers = Buffers::allocate(4, 8, 8)?;
    /// let mut store = buffers.store();
    /// store.make()?;
    /// let cycle = store.create()?;
    /// store.add(cycle, 0..2, Kind::Copy, Label::ReadWrite)?;
    ///
    /// let tile = store.create()?;
    /// store.add(tile, 0..1, Kind::ViaParent, Label::ReadWrite)?;
    /// store.cell_mut(1).fill(9);
    /// assert_eq!(store.add(Innermost, 1..2, Kind::ViaParent, Label::ReadWrite), Err(Refusal::MemoryDiffers));
    /// assert_eq!(store.add(Innermost, 2..3, Kind::ViaParent, Label::ReadWrite), Err(Refusal::ParentLacksCell));
    /// assert_eq!(store.add(cycle, 2..3, Kind::Copy, Label::ReadWrite), Err(Refusal::NotInnermost));
    /// assert_eq!(store.add(tile, 4..5, Kind::Copy, Label::ReadOnly), Err(Refusal::Range));
    /// # Ok::<(), Box<dyn std::error::Error>>(())
    /// ```
    ///
    /// By a rule, which takes an entry and no body:
    ///
    /// ```
    /// use domain_store::{Buffers, Kind, Label, Refusal, Rule};
    ///
    /// // One body for four cells.
    /// let mut buffers = Buffers::allocate(4, 8, 1)?;
    /// let mut store = buffers.store();
    /// store.make()?;
    /// for cell in 0..4 {
    ///     *store.cell_mut(cell) = Rule::Scale.bytes();
    /// }
    /// let cycle = store.create()?;
    /// store.add(cycle, 0..4, Kind::Pattern(Rule::Scale), Label::ReadWrite)?;
    /// store.memory_mut().fill(0);
    /// store.restore(cycle)?;
    /// assert_eq!(store.cell(3), &Rule::Scale.bytes());
    ///
    /// // Via parent never rests on a rule, and memory has to follow the rule that is named.
    /// let tile = store.create()?;
    /// assert_eq!(store.add(tile, 0..1, Kind::ViaParent, Label::ReadWrite), Err(Refusal::ParentHoldsByRule));
    /// assert_eq!(store.add(tile, 0..1, Kind::Pattern(Rule::Ones), Label::ReadWrite), Err(Refusal::PatternDiffers));
    /// # Ok::<(), Box<dyn std::error::Error>>(())
    /// ```
    pub fn add(
        &mut self,
        domain: impl Into<Domain>,
        cells: ops::Range<u32>,
        kind: Kind,
        label: Label,
    ) -> Result<u64, Refusal> {
        self.add_with_budget(domain, cells, kind, label, UNSTOPPED)
            .map(whole)
    }

    /// As [`add`](Store::add), with a budget.
    pub fn add_with_budget(
        &mut self,
        domain: impl Into<Domain>,
        cells: ops::Range<u32>,
        kind: Kind,
        label: Label,
        budget: u64,
    ) -> Result<Outcome, Refusal> {
        let (first, count) = first_and_count(cells);
        let add = Add {
            handle: domain.into().number(),
            first,
            count,
            kind: kind.number(),
            // Kinds without a rule ignore the number.
            rule: kind.rule().map_or(0, Rule::number),
            label: label.number(),
        };
        outcome(self.lent.add(add, budget))
    }

    /// Holds several ranges of cells at once in the innermost domain, which `domain` has to name: all
    /// of them or none, also where the call is interrupted. A list has from 1 to 64 ranges.
    ///
    /// The ranges act in the order of the list, each as [`add`](Store::add) says. So a later one finds
    /// the cells that an earlier one has just taken: they are held already, with the kind and the value
    /// of the first, and become read-write if a later one is. Ranges may touch, overlap and stand in
    /// any order.
    ///
    /// Gives the steps that it took: 64 for each new copy, 6 for each entry taken or raised, and 2,
    /// which single adds would take each; none where there is no such entry.
    ///
    /// # Errors
    ///
    /// [`NoSuchDomain`](Refusal::NoSuchDomain), [`NotInnermost`](Refusal::NotInnermost),
    /// [`NumberOfRanges`](Refusal::NumberOfRanges); then, range by range, those of [`add`](Store::add)
    /// but for room; and last, for all ranges together, [`NoFreeEntry`](Refusal::NoFreeEntry) and
    /// [`NoFreeBody`](Refusal::NoFreeBody); and those of every call. Where one range is refused, none
    /// is held.
    ///
    /// The nine ranges of a tile:
    ///
    /// ```
    /// use domain_store::{Buffers, Kind, Label, Range, Refusal, Rule};
    ///
    /// const TILE: [Range; 9] = [
    ///     Range::via_parent(0..2),                           // the cycle's phasing, only read here
    ///     Range::via_parent(2..4).read_write(),              // what it shares with the cycle
    ///     Range::copy(4..6).read_write(),                    // four channels: scale and phasing
    ///     Range::copy(8..10).read_write(),
    ///     Range::copy(12..14).read_write(),
    ///     Range::copy(16..18).read_write(),
    ///     Range::by_rule(Rule::Scale, 20..24).read_write(),  // scales that are still one
    ///     Range::by_rule(Rule::Zeros, 24..28).read_write(),  // sums that are still zero
    ///     Range::copy(30..31),                               // the tile's focus
    /// ];
    ///
    /// let mut buffers = Buffers::allocate(32, 32, 16)?;
    /// let mut store = buffers.store();
    /// store.make()?;
    /// for cell in 20..24 {
    ///     *store.cell_mut(cell) = Rule::Scale.bytes();
    /// }
    /// let cycle = store.create()?;
    /// store.add(cycle, 0..4, Kind::Copy, Label::ReadWrite)?;
    ///
    /// let tile = store.create()?;
    /// // Nine copies and 21 entries in one call.
    /// assert_eq!(store.add_ranges(tile, &TILE)?, 9 * 64 + 21 * 6 + 2);
    /// store.memory_mut().fill(99);
    /// store.restore(tile)?;
    /// assert_eq!(store.cell(23), &Rule::Scale.bytes());
    /// assert!([0, 4, 17, 27, 30].iter().all(|cell| store.cell(*cell) == &[0; 64]));
    ///
    /// // One range that will not do, and none of the others is held.
    /// store.commit(tile)?;
    /// let tile = store.create()?;
    /// store.cell_mut(2).fill(9);
    /// assert_eq!(store.add_ranges(tile, &TILE), Err(Refusal::MemoryDiffers));
    /// assert_eq!(store.delete(tile, 4..5), Err(Refusal::NotHeld));
    /// # Ok::<(), Box<dyn std::error::Error>>(())
    /// ```
    ///
    /// What a later range finds:
    ///
    /// ```
    /// use domain_store::{Buffers, Place, Range, Refusal, Rule};
    ///
    /// let mut buffers = Buffers::allocate(4, 8, 8)?;
    /// let mut store = buffers.store();
    /// store.make()?;
    /// let cycle = store.create()?;
    /// // The zeros of cell 1 are held by their rule, and the copy finds it held; it becomes read-write.
    /// let steps = store.add_ranges(
    ///     cycle,
    ///     &[Range::by_rule(Rule::Zeros, 1..2), Range::copy(0..3).read_write()],
    /// )?;
    /// assert_eq!(steps, 2 * 64 + 3 * 6 + 2);
    /// assert_eq!(store.look_place(cycle, 1)?, Place::Rule(Rule::Zeros));
    /// assert_eq!(store.add_ranges(cycle, &[]), Err(Refusal::NumberOfRanges));
    /// assert_eq!(store.add_ranges(cycle, &[Range::copy(0..1); 65]), Err(Refusal::NumberOfRanges));
    /// # Ok::<(), Box<dyn std::error::Error>>(())
    /// ```
    pub fn add_ranges(
        &mut self,
        domain: impl Into<Domain>,
        ranges: &[Range],
    ) -> Result<u64, Refusal> {
        self.add_ranges_with_budget(domain, ranges, UNSTOPPED)
            .map(whole)
    }

    /// As [`add_ranges`](Store::add_ranges), with a budget.
    ///
    /// ```
    /// # use domain_store::{Buffers, Range, Refusal};
    /// # let mut buffers = Buffers::allocate(4, 8, 8)?;
    /// # let mut store = buffers.store();
    /// # store.make()?;
    /// let cycle = store.create()?;
    /// let ranges = [Range::copy(0..1).read_write(), Range::copy(2..3).read_write()];
    ///
    /// // 142 steps: 128 bytes and one journal. Stopped in the middle, it holds both or neither.
    /// assert!(store.add_ranges_with_budget(cycle, &ranges, 100)?.is_stopped());
    /// store.open()?;
    /// assert_eq!(store.delete(cycle, 0..1), Err(Refusal::NotHeld));
    /// assert!(store.add_ranges_with_budget(cycle, &ranges, 140)?.is_stopped());
    /// store.open()?;
    /// store.delete(cycle, 0..1)?;
    /// store.delete(cycle, 2..3)?;
    /// # Ok::<(), Box<dyn std::error::Error>>(())
    /// ```
    pub fn add_ranges_with_budget(
        &mut self,
        domain: impl Into<Domain>,
        ranges: &[Range],
        budget: u64,
    ) -> Result<Outcome, Refusal> {
        let handle = domain.into().number();
        outcome(self.lent.add_ranges(handle, ranges, budget))
    }

    /// Frees cells that a domain holds, in that domain only. A restore of it leaves them alone from
    /// then on, unless a domain inside it holds them.
    ///
    /// Gives the steps that it took.
    ///
    /// # Errors
    ///
    /// [`NoSuchDomain`](Refusal::NoSuchDomain), [`Range`](Refusal::Range),
    /// [`NotHeld`](Refusal::NotHeld), [`ChildRelies`](Refusal::ChildRelies), and those of every
    /// call.
    ///
    /// ```
    /// # use domain_store::{Buffers, Kind, Label, Refusal};
    /// # let mut buffers = Buffers::allocate(4, 8, 8)?;
    /// # let mut store = buffers.store();
    /// # store.make()?;
    /// let cycle = store.create()?;
    /// store.add(cycle, 0..2, Kind::Copy, Label::ReadOnly)?;
    /// let tile = store.create()?;
    /// store.add(tile, 0..1, Kind::ViaParent, Label::ReadOnly)?;
    ///
    /// assert_eq!(store.delete(cycle, 0..1), Err(Refusal::ChildRelies));
    /// assert_eq!(store.delete(cycle, 1..3), Err(Refusal::NotHeld));
    /// store.delete(cycle, 1..2)?;
    /// # Ok::<(), Box<dyn std::error::Error>>(())
    /// ```
    pub fn delete(
        &mut self,
        domain: impl Into<Domain>,
        cells: ops::Range<u32>,
    ) -> Result<u64, Refusal> {
        self.delete_with_budget(domain, cells, UNSTOPPED).map(whole)
    }

    /// As [`delete`](Store::delete), with a budget.
    pub fn delete_with_budget(
        &mut self,
        domain: impl Into<Domain>,
        cells: ops::Range<u32>,
        budget: u64,
    ) -> Result<Outcome, Refusal> {
        let (first, count) = first_and_count(cells);
        let handle = domain.into().number();
        outcome(self.lent.delete(handle, first, count, budget))
    }

    /// Ends the innermost domain, which `domain` has to name, and keeps what the program wrote. Its
    /// cells go to its parent: one that the parent lacks moves there, one that both hold keeps the
    /// parent's value, and is read-write there if it was in either. Without a parent all are freed.
    ///
    /// Gives the steps that it took.
    ///
    /// # Errors
    ///
    /// [`NoSuchDomain`](Refusal::NoSuchDomain), [`NotInnermost`](Refusal::NotInnermost), and those
    /// of every call.
    ///
    /// ```
    /// # use domain_store::{Buffers, Kind, Label};
    /// # let mut buffers = Buffers::allocate(4, 8, 8)?;
    /// # let mut store = buffers.store();
    /// # store.make()?;
    /// store.cell_mut(0).fill(7);
    /// let cycle = store.create()?;
    /// let tile = store.create()?;
    /// store.add(tile, 0..1, Kind::Copy, Label::ReadWrite)?;
    /// store.cell_mut(0).fill(9);
    ///
    /// // The tile is done. The cycle can still go back to before it.
    /// store.commit(tile)?;
    /// assert_eq!(store.cell(0), &[9; 64]);
    /// store.restore(cycle)?;
    /// assert_eq!(store.cell(0), &[7; 64]);
    /// # Ok::<(), Box<dyn std::error::Error>>(())
    /// ```
    pub fn commit(&mut self, domain: impl Into<Domain>) -> Result<u64, Refusal> {
        self.commit_with_budget(domain, UNSTOPPED).map(whole)
    }

    /// As [`commit`](Store::commit), with a budget.
    pub fn commit_with_budget(
        &mut self,
        domain: impl Into<Domain>,
        budget: u64,
    ) -> Result<Outcome, Refusal> {
        outcome(self.lent.commit(domain.into().number(), budget))
    }

    /// Moves the checkpoint of the innermost domain, which `domain` has to name, to now: each of
    /// its read-write cells is held with memory's bytes. Read-only cells keep what they were held
    /// with.
    ///
    /// A read-write cell has changed where memory's 64 bytes differ from the value that it is held
    /// with: its copy's, the parent's or the rule's. (One that was written and written back has not.)
    /// A changed cell is copied, also where it was held via parent or by a rule. The copies take free
    /// bodies, and the old ones become free at the end: a fault in between finds either all of the old
    /// checkpoint or all of the new one.
    ///
    /// A cell that has not changed keeps its kind, its body and its entry. It takes no body and no
    /// step, and costs a comparison of 64 bytes. So a cycle with little change is cheap to advance,
    /// and cells that are held via parent or by a rule stay so as long as they keep their bytes.
    ///
    /// An advance keeps the checkpoint of the domains around: a changed cell that the parent lacks is
    /// given to it as it was held, with its kind, its value and its label, in a free entry. Its old body
    /// changes owner and is not copied. So going back to the parent brings the bytes that stood at the
    /// parent's own checkpoint. A cell that the parent holds already, or that has not changed, is not
    /// given, and the outermost domain gives nothing.
    ///
    /// Gives the steps that it took: 70 for each changed cell, 6 more for each of them that is given to
    /// the parent, and 2; or 0 where none has changed, so that such an advance is done with any budget.
    ///
    /// # Errors
    ///
    /// [`NoSuchDomain`](Refusal::NoSuchDomain), [`NotInnermost`](Refusal::NotInnermost),
    /// [`NoFreeEntry`](Refusal::NoFreeEntry), for the cells that are given to the parent,
    /// [`NoFreeBody`](Refusal::NoFreeBody), for the changed ones, and those of every call.
    ///
    /// ```
    /// # use domain_store::{Buffers, Kind, Label};
    /// # let mut buffers = Buffers::allocate(4, 8, 8)?;
    /// # let mut store = buffers.store();
    /// # store.make()?;
    /// store.cell_mut(0).fill(7);
    /// let cycle = store.create()?;
    /// store.add(cycle, 0..1, Kind::Copy, Label::ReadWrite)?;
    /// store.cell_mut(0).fill(9);
    /// store.advance(cycle)?;
    /// store.cell_mut(0).fill(11);
    /// store.restore(cycle)?;
    /// assert_eq!(store.cell(0), &[9; 64]);
    /// # Ok::<(), Box<dyn std::error::Error>>(())
    /// ```
    ///
    /// A tile inside a cycle that never held the cell: both go back to checkpoints of their own.
    ///
    /// ```
    /// # use domain_store::{Buffers, Kind, Label};
    /// # let mut buffers = Buffers::allocate(4, 8, 8)?;
    /// # let mut store = buffers.store();
    /// # store.make()?;
    /// store.cell_mut(0).fill(7);
    /// let cycle = store.create()?;
    /// let tile = store.create()?;
    /// store.add(tile, 0..1, Kind::Copy, Label::ReadWrite)?;
    /// store.cell_mut(0).fill(9);
    /// assert_eq!(store.advance(tile)?, 78);
    /// store.cell_mut(0).fill(11);
    /// store.restore(tile)?;
    /// assert_eq!(store.cell(0), &[9; 64]);
    /// store.restore(cycle)?;
    /// assert_eq!(store.cell(0), &[7; 64]);
    /// # Ok::<(), Box<dyn std::error::Error>>(())
    /// ```
    ///
    /// Four cells, of which one changes:
    ///
    /// ```
    /// use domain_store::{Buffers, Kind, Label, Place, Refusal, Rule};
    ///
    /// // Four cells by a rule, and one body.
    /// let mut buffers = Buffers::allocate(4, 8, 1)?;
    /// let mut store = buffers.store();
    /// store.make()?;
    /// let cycle = store.create()?;
    /// store.add(cycle, 0..4, Kind::Pattern(Rule::Zeros), Label::ReadWrite)?;
    /// assert_eq!(store.advance(cycle)?, 0);
    ///
    /// store.cell_mut(2)[63] = 1;
    /// assert_eq!(store.advance(cycle)?, 72);
    /// assert_eq!(store.look_place(cycle, 1)?, Place::Rule(Rule::Zeros));
    /// assert_eq!(store.look_place(cycle, 2)?, Place::Bodies { offset: 0 });
    ///
    /// // The next one has no free body, unless its bytes come back.
    /// store.cell_mut(3)[0] = 1;
    /// assert_eq!(store.advance(cycle), Err(Refusal::NoFreeBody));
    /// store.cell_mut(3)[0] = 0;
    /// assert_eq!(store.advance(cycle)?, 0);
    /// # Ok::<(), Box<dyn std::error::Error>>(())
    /// ```
    pub fn advance(&mut self, domain: impl Into<Domain>) -> Result<u64, Refusal> {
        self.advance_with_budget(domain, UNSTOPPED).map(whole)
    }

    /// As [`advance`](Store::advance), with a budget.
    ///
    /// ```
    /// # use domain_store::{Buffers, Innermost, Kind, Label, Outcome};
    /// # let mut buffers = Buffers::allocate(4, 8, 8)?;
    /// # let mut store = buffers.store();
    /// # store.make()?;
    /// # store.create()?;
    /// # store.add(Innermost, 0..1, Kind::Copy, Label::ReadWrite)?;
    /// # store.cell_mut(0).fill(9);
    /// match store.advance_with_budget(Innermost, 30)? {
    ///     Outcome::Done { steps, .. } => println!("took {steps} steps"),
    ///     Outcome::Stopped { .. } => {
    ///         store.open()?;
    ///     }
    /// }
    /// # Ok::<(), Box<dyn std::error::Error>>(())
    /// ```
    pub fn advance_with_budget(
        &mut self,
        domain: impl Into<Domain>,
        budget: u64,
    ) -> Result<Outcome, Refusal> {
        outcome(self.lent.advance(domain.into().number(), budget))
    }

    /// Goes back to the checkpoint of a domain: each cell that the domain or one inside it holds
    /// gets the value of the outermost of these holders. All other bytes of memory stay. The
    /// domains inside it end; the named one stays and can be gone back to again.
    ///
    /// Gives the steps that it took.
    ///
    /// # Errors
    ///
    /// [`NoSuchDomain`](Refusal::NoSuchDomain), and those of every call.
    ///
    /// ```
    /// # use domain_store::{Buffers, Kind, Label};
    /// # let mut buffers = Buffers::allocate(4, 8, 8)?;
    /// # let mut store = buffers.store();
    /// # store.make()?;
    /// store.memory_mut().fill(7);
    /// let cycle = store.create()?;
    /// store.add(cycle, 0..1, Kind::Copy, Label::ReadWrite)?;
    /// store.cell_mut(0).fill(9);
    /// let tile = store.create()?;
    /// store.add(tile, 0..2, Kind::Copy, Label::ReadWrite)?;
    /// store.cell_mut(1).fill(9);
    ///
    /// store.restore(cycle)?;
    /// assert!(store.memory().iter().all(|byte| *byte == 7));
    /// assert_eq!(*store.list()?, [cycle]);
    /// # Ok::<(), Box<dyn std::error::Error>>(())
    /// ```
    ///
    /// Where a channel is still bad after its restore, restore the cycle around it. With nothing
    /// written between the two, that leaves the same memory, live domains, holdings and values as
    /// restoring the cycle alone. Restoring a domain twice is restoring it once.
    ///
    /// ```
    /// # use domain_store::{Buffers, Kind, Label};
    /// # let mut buffers = Buffers::allocate(4, 8, 8)?;
    /// # let mut store = buffers.store();
    /// # store.make()?;
    /// store.memory_mut().fill(7);
    /// let cycle = store.create()?;
    /// store.add(cycle, 0..1, Kind::Copy, Label::ReadWrite)?;
    /// store.cell_mut(0).fill(8);
    /// let channel = store.create()?;
    /// store.add(channel, 0..2, Kind::Copy, Label::ReadWrite)?;
    /// store.memory_mut().fill(9);
    ///
    /// store.restore(channel)?;
    /// assert_eq!(store.cell(0), &[8; 64]); // still bad
    /// store.restore(cycle)?;
    /// assert_eq!((store.cell(0), store.cell(1)), (&[7; 64], &[7; 64]));
    /// assert_eq!(*store.list()?, [cycle]);
    /// # Ok::<(), Box<dyn std::error::Error>>(())
    /// ```
    pub fn restore(&mut self, domain: impl Into<Domain>) -> Result<u64, Refusal> {
        self.restore_with_budget(domain, UNSTOPPED).map(whole)
    }

    /// As [`restore`](Store::restore), with a budget. Stopped, it may leave old and new bytes mixed
    /// in the cells that it puts back, and nowhere else: open the store and restore the same domain
    /// again, or one around it. Until then the domains inside it may still live, but going back to
    /// one of them promises nothing.
    ///
    /// ```
    /// # use domain_store::{Buffers, Kind, Label};
    /// # let mut buffers = Buffers::allocate(4, 8, 8)?;
    /// # let mut store = buffers.store();
    /// # store.make()?;
    /// store.cell_mut(0).fill(7);
    /// let cycle = store.create()?;
    /// store.add(cycle, 0..1, Kind::Copy, Label::ReadWrite)?;
    /// store.cell_mut(0).fill(9);
    ///
    /// assert!(store.restore_with_budget(cycle, 10)?.is_stopped());
    /// assert_eq!(store.cell(0)[8..12], [7, 7, 9, 9]);
    /// store.open()?;
    /// store.restore(cycle)?;
    /// assert_eq!(store.cell(0), &[7; 64]);
    /// # Ok::<(), Box<dyn std::error::Error>>(())
    /// ```
    pub fn restore_with_budget(
        &mut self,
        domain: impl Into<Domain>,
        budget: u64,
    ) -> Result<Outcome, Refusal> {
        outcome(self.lent.restore(domain.into().number(), budget))
    }

    // ---- readings

    /// The handles of the live domains, outermost first.
    ///
    /// # Errors
    ///
    /// Those of every call: [`Lengths`](Refusal::Lengths), [`NoStore`](Refusal::NoStore),
    /// [`Pending`](Refusal::Pending), [`Corrupt`](Refusal::Corrupt).
    pub fn list(&self) -> Result<Handles, Refusal> {
        let (number, words, live) = self.lent.list();
        match number {
            ffi::DONE => Ok(Handles::from_words(words, live)),
            number => Err(refusal(number)),
        }
    }

    /// The 64 bytes that a restore of the domain would leave in a cell: a part of bodies, or of
    /// memory where nobody from that domain inwards holds the cell, or the rule's own bytes where it
    /// is held by one. Nothing is changed.
    ///
    /// # Errors
    ///
    /// [`NoSuchDomain`](Refusal::NoSuchDomain), [`Range`](Refusal::Range), and those of every call.
    ///
    /// ```
    /// # use domain_store::{Buffers, Kind, Label, Refusal};
    /// # let mut buffers = Buffers::allocate(4, 8, 8)?;
    /// # let mut store = buffers.store();
    /// # store.make()?;
    /// store.cell_mut(0).fill(7);
    /// let cycle = store.create()?;
    /// store.add(cycle, 0..1, Kind::Copy, Label::ReadWrite)?;
    /// store.cell_mut(0).fill(9);
    /// store.cell_mut(1).fill(9);
    /// assert_eq!(store.look(cycle, 0)?, &[7; 64]);
    /// assert_eq!(store.look(cycle, 1)?, &[9; 64]); // nobody holds it
    /// assert_eq!(store.look(cycle, 4), Err(Refusal::Range));
    /// # Ok::<(), Box<dyn std::error::Error>>(())
    /// ```
    pub fn look(&self, domain: impl Into<Domain>, cell: u32) -> Result<&[u8; CELL], Refusal> {
        Ok(match self.look_place(domain, cell)? {
            Place::Memory { offset } => as_cell(&self.lent.memory[offset..offset + CELL]),
            Place::Bodies { offset } => as_cell(&self.lent.bodies[offset..offset + CELL]),
            Place::Rule(rule) => rule.pattern(),
        })
    }

    /// Where the bytes stand that [`look`](Store::look) shows, with the same refusals. It also
    /// tells whether the cell is held at all, and by which rule.
    pub fn look_place(&self, domain: impl Into<Domain>, cell: u32) -> Result<Place, Refusal> {
        let told = self.lent.look(domain.into().number(), cell);
        if told.number != ffi::DONE {
            return Err(refusal(told.number));
        }
        let offset =
            usize::try_from(told.offset).expect("the library told an offset inside a buffer");
        match (told.place, Rule::from_number(told.rule)) {
            (ffi::IN_MEMORY, _) => Ok(Place::Memory { offset }),
            (ffi::IN_BODIES, _) => Ok(Place::Bodies { offset }),
            (ffi::BY_RULE, Some(rule)) => Ok(Place::Rule(rule)),
            _ => panic!(
                "the library told the place {} with the rule {}, which this crate does not know: \
                 library and crate do not match",
                told.place, told.rule
            ),
        }
    }
}

impl fmt::Debug for Store<'_> {
    fn fmt(&self, f: &mut fmt::Formatter<'_>) -> fmt::Result {
        f.debug_struct("Store")
            .field("memory_len", &self.lent.memory.len())
            .field("bodies_len", &self.lent.bodies.len())
            .field("table_len", &self.lent.table.len())
            .finish()
    }
}

fn as_cell(part: &[u8]) -> &[u8; CELL] {
    part.try_into().expect("the part has 64 bytes")
}

/// Cells as the C functions take them. An empty or reversed range has none, which they refuse.
fn first_and_count(cells: ops::Range<u32>) -> (u32, u32) {
    (cells.start, cells.end.saturating_sub(cells.start))
}

fn refusal(number: u32) -> Refusal {
    Refusal::from_number(number).unwrap_or_else(|| {
        panic!(
            "the library answered {number}, which this crate does not know: \
             library and crate do not match"
        )
    })
}

fn outcome(answer: Answer) -> Result<Outcome, Refusal> {
    match answer.number {
        ffi::DONE => Ok(Outcome::Done {
            steps: answer.steps,
            value: (),
        }),
        ffi::STOPPED => Ok(Outcome::Stopped {
            steps: answer.steps,
        }),
        number => Err(refusal(number)),
    }
}

/// The steps of a call that cannot have been stopped.
fn whole(outcome: Outcome) -> u64 {
    match outcome {
        Outcome::Done { steps, .. } => steps,
        Outcome::Stopped { .. } => stopped_without_budget(),
    }
}

fn stopped_without_budget() -> ! {
    unreachable!("the library stopped a call that had {UNSTOPPED} steps, and none needs so many")
}
