//! A store that puts working memory back after a fault.
//!
//! A **cell** is 64 bytes of working memory. A **domain** is a stretch of work that can be redone;
//! domains stand inside each other, and each **holds** cells by keeping their bytes. Going back to
//! a domain puts the bytes of its cells back as they stood at its **checkpoint**, which is its
//! creation or its last advance. If the program stops at any single store and is started again over
//! the same memory, [`Store::open`] finds the call that was interrupted wholly made or not made.
//! (Only a make that was interrupted may leave no store, and a restore that is found not made mixed
//! bytes in the cells that it was putting back: restore the same domain again, or one around it.)
//!
//! The calls are those of the C library `libdomain_store.a`, whose code is proved; this crate is
//! the Rust side of it. A call that cannot be carried out is refused with a [`Refusal`], and
//! changes nothing.
//!
//! # Preserve, write, restore
//!
//! ```
//! use domain_store::{Buffers, Kind, Label};
//!
//! // Memory of 4 cells; room for 8 held cells and 8 copies.
//! let mut buffers = Buffers::allocate(4, 8, 8)?;
//! let mut store = buffers.store();
//! store.make()?;
//!
//! // Cell 0 has a channel's scale.
//! store.cell_mut(0)[..4].copy_from_slice(&1.0_f32.to_le_bytes());
//!
//! // Preserve: a domain for this cycle holds the cell, since the program is about to write it.
//! let cycle = store.create()?;
//! store.add(cycle, 0..1, Kind::Copy, Label::ReadWrite)?;
//!
//! // Write: the card drops out and leaves a scale of zero.
//! store.cell_mut(0)[..4].copy_from_slice(&0.0_f32.to_le_bytes());
//!
//! // Restore: the scale is back, to the bit.
//! store.restore(cycle)?;
//! assert_eq!(store.cell(0)[..4], 1.0_f32.to_le_bytes());
//!
//! // The second try goes well, and the cycle's domain ends.
//! store.commit(cycle)?;
//! assert!(store.list()?.is_empty());
//! # Ok::<(), Box<dyn std::error::Error>>(())
//! ```
//!
//! # A program that was stopped
//!
//! Whoever gets a store from an earlier run, or after a fault, opens it first. Here the fault is
//! played by a budget of steps: each step is one store to a buffer.
//!
//! ```
//! use domain_store::{Buffers, Kind, Label, Store};
//! # let mut buffers = Buffers::allocate(4, 8, 8)?;
//! # let mut store = buffers.store();
//! # store.make()?;
//! # store.cell_mut(0).fill(7);
//! let cycle = store.create()?;
//! store.add(cycle, 0..1, Kind::Copy, Label::ReadWrite)?;
//! store.cell_mut(0).fill(9);
//!
//! // The advance needs 72 steps and gets 70: nearly the whole of it.
//! assert!(store.advance_with_budget(cycle, 70)?.is_stopped());
//!
//! // Opening finishes it, so the domain goes back to the new bytes.
//! store.open()?;
//! store.cell_mut(0).fill(0);
//! store.restore(cycle)?;
//! assert_eq!(store.cell(0), &[9; 64]);
//! # Ok::<(), Box<dyn std::error::Error>>(())
//! ```
//!
//! # Cells that follow a pattern
//!
//! A cell that still has its start value needs no copy: its domain keeps the [`Rule`] that the bytes
//! follow, and a restore makes them afresh.
//!
//! ```
//! use domain_store::{Buffers, Kind, Label, Place, Rule};
//! # let mut buffers = Buffers::allocate(4, 8, 8)?;
//! # let mut store = buffers.store();
//! # store.make()?;
//! *store.cell_mut(0) = Rule::Scale.bytes(); // sixteen scales of one
//! let cycle = store.create()?;
//! store.add(cycle, 0..1, Kind::Pattern(Rule::Scale), Label::ReadWrite)?;
//! store.cell_mut(0).fill(0);
//! assert_eq!(store.look_place(cycle, 0)?, Place::Rule(Rule::Scale));
//! store.restore(cycle)?;
//! assert_eq!(store.cell(0), &Rule::Scale.bytes());
//! # Ok::<(), Box<dyn std::error::Error>>(())
//! ```
//!
//! # Several ranges at once
//!
//! A tile has several ranges to keep together. [`Store::add_ranges`] holds all of them or none, also
//! where it is interrupted, and a later [`Range`] finds what an earlier one has just taken.
//!
//! ```
//! use domain_store::{Buffers, Kind, Label, Range, Rule};
//!
//! const TILE: [Range; 9] = [
//!     Range::via_parent(0..2),
//!     Range::via_parent(2..4).read_write(),
//!     Range::copy(4..6).read_write(),
//!     Range::copy(8..10).read_write(),
//!     Range::copy(12..14).read_write(),
//!     Range::copy(16..18).read_write(),
//!     Range::by_rule(Rule::Scale, 20..24).read_write(),
//!     Range::by_rule(Rule::Zeros, 24..28).read_write(),
//!     Range::copy(30..31),
//! ];
//! # let mut buffers = Buffers::allocate(32, 32, 16)?;
//! # let mut store = buffers.store();
//! # store.make()?;
//! # (20..24).for_each(|cell| *store.cell_mut(cell) = Rule::Scale.bytes());
//! let cycle = store.create()?;
//! store.add(cycle, 0..4, Kind::Copy, Label::ReadWrite)?;
//! let tile = store.create()?;
//! store.add_ranges(tile, &TILE)?;
//!
//! // All nine come back together.
//! let before = store.memory().to_vec();
//! for range in TILE {
//!     for cell in range.cells() {
//!         store.cell_mut(cell).fill(99);
//!     }
//! }
//! store.restore(tile)?;
//! assert_eq!(store.memory(), before);
//! # Ok::<(), Box<dyn std::error::Error>>(())
//! ```
//!
//! # What an advance costs
//!
//! An advance copies the read-write cells that have changed, 64 bytes each, and keeps the others as
//! they are held: an unchanged cell takes no body and no step. It costs a comparison of its 64 bytes
//! with those that are held, whether these are a copy's, the parent's or a rule's.
//!
//! ```
//! use domain_store::{Buffers, Kind, Label};
//! # let mut buffers = Buffers::allocate(4, 8, 5)?;
//! # let mut store = buffers.store();
//! # store.make()?;
//! let cycle = store.create()?;
//! store.add(cycle, 0..4, Kind::Copy, Label::ReadWrite)?;
//! assert_eq!(store.advance(cycle)?, 0); // nothing has changed: no step
//! store.cell_mut(1)[63] = 9;
//! assert_eq!(store.advance(cycle)?, 72); // one of four cells is copied, into the one free body
//! store.cell_mut(1).fill(0);
//! store.restore(cycle)?;
//! assert_eq!(store.cell(1)[63], 9);
//! # Ok::<(), Box<dyn std::error::Error>>(())
//! ```
//!
//! # An advance inside another domain
//!
//! A tile may hold cells that the cycle around it never needed. Where such a cell has changed, the
//! advance gives the cycle the old value, with an entry and the body that it had, so that the cycle's
//! checkpoint stays where it is.
//!
//! ```
//! use domain_store::{Buffers, Kind, Label};
//! # let mut buffers = Buffers::allocate(4, 8, 8)?;
//! # let mut store = buffers.store();
//! # store.make()?;
//! # store.cell_mut(0).fill(7);
//! let cycle = store.create()?; // holds nothing
//! let tile = store.create()?;
//! store.add(tile, 0..1, Kind::Copy, Label::ReadWrite)?; // cell 0 is 7
//! store.cell_mut(0).fill(9);
//! assert_eq!(store.advance(tile)?, 78); // one cell copied, and given to the cycle as it was
//! store.cell_mut(0).fill(11);
//! store.restore(cycle)?;
//! assert_eq!(store.cell(0), &[7; 64]);
//! # Ok::<(), Box<dyn std::error::Error>>(())
//! ```
//!
//! # Where the buffers come from
//!
//! [`Store`] takes any three slices. [`Buffers`] are allocated for given sizes; [`MappedBuffers`]
//! stand in a file, so that a store outlives its process.
//!
//! # What holds
//!
//! The library's proof says, for every contents of the buffers and every argument, what each call
//! answers and stores, in which order. It does not cover this crate, whose unsafe code is the
//! boundary to C (`ffi`, `call`) and to the kernel (`map`). Nothing but the calls and the program's
//! writes through [`Store::memory_mut`] may change a buffer of a store: for slices Rust sees to
//! that, for a mapped file the program does.
//!
//! A call takes no heap. Stack of a call at the largest sizes, measured: make 5 KB; create, delete,
//! list, look 74 KB; open, restore 107 KB; add, add_ranges, commit 108 KB; advance 127 KB.
//! A thread of Rust has 2 MiB where nothing else is asked for.

#![deny(missing_docs)]
#![deny(unsafe_code)]

#[cfg(not(all(target_os = "linux", target_arch = "x86_64")))]
compile_error!(
    "the library libdomain_store.a is machine code for x86-64 Linux, and this target is another"
);

#[allow(unsafe_code)]
mod call;
#[allow(unsafe_code)]
pub mod ffi;
#[allow(unsafe_code)]
mod map;

mod buffers;
mod names;
mod outcome;
mod ranges;
mod refusal;
mod store;

pub use buffers::{Buffers, SizeError, Sizes};
pub use map::MappedBuffers;
pub use names::{Domain, Handle, Handles, Innermost, Kind, Label, Rule};
pub use outcome::Outcome;
pub use ranges::Range;
pub use refusal::Refusal;
pub use store::{Place, Store};

/// The bytes of a cell.
pub const CELL: usize = 64;

/// The most cells that memory can have.
pub const MAX_CELLS: u32 = 65_536;

/// The most entries that a table can have: one for each cell that a domain holds.
pub const MAX_ENTRIES: u32 = 4_096;

/// The most bodies that there can be: one for each copy that is kept.
pub const MAX_BODIES: u32 = 4_096;

/// The most domains that live at a time, one inside the other.
pub const MAX_DOMAINS: usize = 8;

/// The most ranges that [`Store::add_ranges`] takes.
pub const MAX_RANGES: usize = 64;
