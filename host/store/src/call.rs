//! The thin layer between safe slices and the C functions: it takes slices apart and hands back the
//! numbers. Nothing is decided here.
//!
//! SAFETY, for every call below: a slice's pointer and length name exactly its elements, aligned
//! and not null; `&mut self` borrows all three slices uniquely, and a call on `&self` only reads, so
//! nothing writes while the call runs; a list of ranges is borrowed besides, and only read; the out
//! parameters are locals of their own. The library takes any contents and any numbers: that it ends
//! and stays inside its buffers is proved.

use crate::Range;
use crate::ffi::Lent;

/// What a call without further answers gives: its number, and the steps that it made.
#[derive(Clone, Copy)]
pub(crate) struct Answer {
    pub(crate) number: u32,
    pub(crate) steps: u64,
}

/// The lent buffers.
pub(crate) struct Slices<'a> {
    pub(crate) memory: &'a mut [u8],
    pub(crate) bodies: &'a mut [u8],
    pub(crate) table: &'a mut [u32],
}

/// The arguments of an add, besides buffers and budget.
#[derive(Clone, Copy)]
pub(crate) struct Add {
    pub(crate) handle: u32,
    pub(crate) first: u32,
    pub(crate) count: u32,
    pub(crate) kind: u32,
    pub(crate) rule: u32,
    pub(crate) label: u32,
}

/// What a look gives, by its numbers.
#[derive(Clone, Copy, Default)]
pub(crate) struct Looked {
    pub(crate) number: u32,
    pub(crate) place: u32,
    pub(crate) offset: u64,
    pub(crate) rule: u32,
}

fn counted(call: impl FnOnce(&mut u64) -> u32) -> Answer {
    let mut steps = 0;
    let number = call(&mut steps);
    Answer { number, steps }
}

// The unsafe blocks are safe for the reasons at the top of this file.
impl Slices<'_> {
    fn lent(&mut self) -> Lent {
        Lent::new(self.memory, self.bodies, self.table)
    }

    /// For a call that only reads: nothing is stored through these pointers.
    fn lent_to_read(&self) -> Lent {
        let (memory, bodies, table) = (
            &raw const *self.memory,
            &raw const *self.bodies,
            &raw const *self.table,
        );
        Lent::new(memory.cast_mut(), bodies.cast_mut(), table.cast_mut())
    }

    pub(crate) fn make(&mut self, budget: u64) -> Answer {
        counted(|steps| unsafe { self.lent().make(budget, steps) })
    }

    pub(crate) fn open(&mut self, budget: u64) -> Answer {
        counted(|steps| unsafe { self.lent().open(budget, steps) })
    }

    pub(crate) fn create(&mut self, budget: u64) -> (Answer, u32) {
        let mut handle = 0;
        let answer = counted(|steps| unsafe { self.lent().create(budget, steps, &mut handle) });
        (answer, handle)
    }

    pub(crate) fn add(&mut self, a: Add, budget: u64) -> Answer {
        let lent = self.lent();
        counted(|steps| unsafe {
            lent.add(
                a.handle, a.first, a.count, a.kind, a.rule, a.label, budget, steps,
            )
        })
    }

    pub(crate) fn add_ranges(&mut self, handle: u32, ranges: &[Range], budget: u64) -> Answer {
        // A range is its numbers, laid out as C has them.
        let (list, len) = (ranges.as_ptr().cast(), ranges.len());
        counted(|steps| unsafe { self.lent().add_ranges(handle, list, len, budget, steps) })
    }

    pub(crate) fn delete(&mut self, handle: u32, first: u32, count: u32, budget: u64) -> Answer {
        counted(|steps| unsafe { self.lent().delete(handle, first, count, budget, steps) })
    }

    pub(crate) fn commit(&mut self, handle: u32, budget: u64) -> Answer {
        counted(|steps| unsafe { self.lent().commit(handle, budget, steps) })
    }

    pub(crate) fn advance(&mut self, handle: u32, budget: u64) -> Answer {
        counted(|steps| unsafe { self.lent().advance(handle, budget, steps) })
    }

    pub(crate) fn restore(&mut self, handle: u32, budget: u64) -> Answer {
        counted(|steps| unsafe { self.lent().restore(handle, budget, steps) })
    }

    /// The number, the eight handle words, and how many of them are live.
    pub(crate) fn list(&self) -> (u32, [u32; 8], u32) {
        let (mut handles, mut count) = ([0; 8], 0);
        let lent = self.lent_to_read();
        let number = unsafe { lent.list(handles.as_mut_ptr(), &mut count) };
        (number, handles, count)
    }

    /// The number; the place (memory or bodies) with the offset in it, or a rule.
    pub(crate) fn look(&self, handle: u32, cell: u32) -> Looked {
        let mut told = Looked::default();
        let lent = self.lent_to_read();
        told.number = unsafe {
            let (place, offset, rule) = (&mut told.place, &mut told.offset, &mut told.rule);
            lent.look(handle, cell, place, offset, rule)
        };
        told
    }
}
