//! How long the buffers are, and buffers on the heap.

use std::error::Error;
use std::fmt;

use crate::{CELL, MAX_BODIES, MAX_CELLS, MAX_ENTRIES, Store};

/// The sizes of a store: how many cells memory has, how many entries the table has (one for each
/// cell that a domain holds), and how many bodies there are (one for each copy that is kept).
///
/// ```
/// use domain_store::Sizes;
///
/// let sizes = Sizes::new(4, 8, 8)?;
/// assert_eq!((sizes.memory_len(), sizes.table_len(), sizes.bodies_len()), (256, 84, 512));
///
/// let error = Sizes::new(4, 5_000, 8).unwrap_err();
/// assert_eq!(error.to_string(), "a store cannot have 5000 entries: choose from 1 to 4096");
/// # Ok::<(), Box<dyn std::error::Error>>(())
/// ```
#[derive(Clone, Copy, Debug, PartialEq, Eq, Hash)]
pub struct Sizes {
    cells: u32,
    entries: u32,
    bodies: u32,
}

impl Sizes {
    /// The sizes for `m` cells, `e` entries and `b` bodies, if a store can have them: m from 1 to
    /// 65,536, e and b from 1 to 4,096.
    ///
    /// A domain takes an entry for each cell that it holds and a body for each of them that it
    /// holds as a copy. An advance takes a new body for each read-write cell of its domain that has
    /// changed, before the old ones become free, so leave room for as many as may change. Inside another
    /// domain it also takes an entry for each of them that its parent lacks, which is the parent's from
    /// then on, together with the old body.
    pub fn new(m: u32, e: u32, b: u32) -> Result<Sizes, SizeError> {
        let check = |what, asked, most| {
            if (1..=most).contains(&asked) {
                Ok(())
            } else {
                Err(SizeError { what, asked, most })
            }
        };
        check("cells", m, MAX_CELLS)?;
        check("entries", e, MAX_ENTRIES)?;
        check("bodies", b, MAX_BODIES)?;
        Ok(Sizes {
            cells: m,
            entries: e,
            bodies: b,
        })
    }

    /// The number of memory's cells.
    pub fn cells(&self) -> u32 {
        self.cells
    }

    /// The number of entries in the table.
    pub fn entries(&self) -> u32 {
        self.entries
    }

    /// The number of bodies.
    pub fn bodies(&self) -> u32 {
        self.bodies
    }

    /// The length of memory, in bytes.
    pub fn memory_len(&self) -> usize {
        self.cells as usize * CELL
    }

    /// The length of bodies, in bytes.
    pub fn bodies_len(&self) -> usize {
        self.bodies as usize * CELL
    }

    /// The length of the table, in 32-bit words.
    pub fn table_len(&self) -> usize {
        36 + 6 * self.entries as usize
    }
}

/// A size that no store can have.
#[derive(Clone, Copy, Debug, PartialEq, Eq)]
pub struct SizeError {
    what: &'static str,
    asked: u32,
    most: u32,
}

impl fmt::Display for SizeError {
    fn fmt(&self, f: &mut fmt::Formatter<'_>) -> fmt::Result {
        write!(
            f,
            "a store cannot have {} {}: choose from 1 to {}",
            self.asked, self.what, self.most
        )
    }
}

impl Error for SizeError {}

/// Three buffers on the heap, of the right lengths for a store. They end with the process;
/// [`MappedBuffers`](crate::MappedBuffers) do not.
///
/// ```
/// use domain_store::Buffers;
///
/// // Room for 4 cells of memory, 8 held cells and 8 copies.
/// let mut buffers = Buffers::allocate(4, 8, 8)?;
/// let mut store = buffers.store();
/// store.make()?;
/// # Ok::<(), Box<dyn std::error::Error>>(())
/// ```
#[derive(Clone)]
pub struct Buffers {
    sizes: Sizes,
    memory: Vec<u8>,
    bodies: Vec<u8>,
    table: Vec<u32>,
}

impl Buffers {
    /// Buffers for `m` cells, `e` entries and `b` bodies, filled with zeros. There is no store in
    /// them yet: [`Store::make`] makes one.
    pub fn allocate(m: u32, e: u32, b: u32) -> Result<Buffers, SizeError> {
        let sizes = Sizes::new(m, e, b)?;
        Ok(Buffers {
            sizes,
            memory: vec![0; sizes.memory_len()],
            bodies: vec![0; sizes.bodies_len()],
            table: vec![0; sizes.table_len()],
        })
    }

    /// The sizes that were asked for.
    pub fn sizes(&self) -> Sizes {
        self.sizes
    }

    /// The store over these buffers. Nothing is called: the store is as the buffers have it, which
    /// is none at all after [`allocate`](Buffers::allocate).
    pub fn store(&mut self) -> Store<'_> {
        Store::new(&mut self.memory, &mut self.bodies, &mut self.table)
    }
}

impl fmt::Debug for Buffers {
    fn fmt(&self, f: &mut fmt::Formatter<'_>) -> fmt::Result {
        f.debug_struct("Buffers")
            .field("sizes", &self.sizes)
            .finish_non_exhaustive()
    }
}
