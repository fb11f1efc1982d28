//! The library on buffers with walls: pages that nobody may touch.
//!
//! Guard bytes show a store outside a buffer, not a load. Here each buffer ends at a wall, or
//! begins right behind one, so that any load or store past that side ends the program at once. List
//! and look get buffers that cannot be stored to at all, and so does a list of records.

use domain_lend::pages::{Arena, Listed, READ, READ_WRITE};
use domain_model::{Buffers, Call, Reply, Store};
use std::cell::RefCell;

pub use domain_lend::pages::Side;

/// The library behind walls: buffers are copied in, the call is made there, and what it left is
/// copied out.
pub struct Walled {
    side: Side,
    arena: RefCell<Option<Arena>>,
}

impl Walled {
    pub fn new(side: Side) -> Walled {
        Walled {
            side,
            arena: RefCell::new(None),
        }
    }
}

impl Store for Walled {
    fn call(&self, buffers: &mut Buffers, call: &Call, budget: u64) -> Reply {
        let mut arena = self.arena.borrow_mut();
        // As small as it gets, so that the far side is near a wall too.
        let fits = |arena: &Arena| arena.lengths == buffers.lengths();
        let arena = match arena.take().filter(fits) {
            Some(same) => arena.insert(same),
            None => arena.insert(Arena::new(buffers.lengths(), self.side)),
        };
        arena.load(buffers);
        let allow = |how| assert!(arena.stretches.iter().all(|part| part.allow(how)));
        if call.only_reads() {
            allow(READ);
        }
        let records = call.records().map_or(&[][..], |(_, records)| records);
        let listed = Listed::new(records, self.side);
        // SAFETY: the arena has room for as many elements, each buffer in pages of its own, and so has
        // the list.
        let reply = unsafe { domain_lend::call_with(arena.lent(), call, listed.start(), budget) };
        allow(READ_WRITE);
        arena.copy_into(buffers);
        reply
    }
}
