//! The linked library as the tests call it: every call of the model, on the model's buffers or on
//! any others. This is the one place where a call becomes a C function.
//!
//! - [`Linked`]: the library as a [`Store`], on guarded buffers.
//! - [`pages`]: buffers beside pages that nobody may touch, shared with child processes.

pub mod outs;
#[cfg(target_os = "linux")]
pub mod pages;

pub use domain_store::ffi::{Lent, Range};
pub use outs::Outs;

use core::mem::{align_of, offset_of, size_of};
use domain_model::{Buffers, Call, Record, Reply, Store};

// A record of the model is a range as C has it: the same five words in the same order.
const _: () = {
    assert!(size_of::<Record>() == size_of::<Range>());
    assert!(align_of::<Record>() == align_of::<Range>());
    assert!(offset_of!(Record, first) == offset_of!(Range, first));
    assert!(offset_of!(Record, count) == offset_of!(Range, count));
    assert!(offset_of!(Record, kind) == offset_of!(Range, kind));
    assert!(offset_of!(Record, rule) == offset_of!(Range, rule));
    assert!(offset_of!(Record, label) == offset_of!(Range, label));
};

/// The buffers as C takes them.
pub fn lent(buffers: &mut Buffers) -> Lent {
    Lent::new(
        &raw mut *buffers.memory,
        &raw mut *buffers.bodies,
        &raw mut *buffers.table,
    )
}

/// The list of a call as C takes it. One of no records is NULL, as a C program may lend it: a library
/// that looks at it is ended.
fn list_of(call: &Call) -> *const Range {
    match call.records() {
        Some((_, records)) if !records.is_empty() => records.as_ptr().cast(),
        _ => core::ptr::null(),
    }
}

/// Makes the call and gives its number. Allocates nothing, so that a forked child may use it.
///
/// # Safety
/// The pointers reach as far as their lengths say, and nobody else uses the buffers meanwhile.
pub unsafe fn run(lent: Lent, call: &Call, budget: u64, outs: &mut Outs) -> u32 {
    // SAFETY: the caller answers for the buffers; the list is the call's own.
    unsafe { run_with(lent, call, list_of(call), budget, outs) }
}

/// The same with the records of a list at another place than in the call itself.
///
/// # Safety
/// As for [`run`]; and `list` points to as many ranges as the call has records.
pub unsafe fn run_with(
    lent: Lent,
    call: &Call,
    list: *const Range,
    budget: u64,
    outs: &mut Outs,
) -> u32 {
    let steps = outs.steps.at();
    // SAFETY: the caller answers for the buffers; the out parameters stand in `outs`.
    unsafe {
        match *call {
            Call::Make => lent.make(budget, steps),
            Call::Open => lent.open(budget, steps),
            Call::Create => lent.create(budget, steps, outs.handle.at()),
            Call::Add { handle, record: r } => lent.add(
                handle, r.first, r.count, r.kind, r.rule, r.label, budget, steps,
            ),
            Call::AddRanges {
                handle,
                ref records,
            } => lent.add_ranges(handle, list, records.len(), budget, steps),
            Call::Delete {
                handle,
                first,
                count,
            } => lent.delete(handle, first, count, budget, steps),
            Call::Commit { handle } => lent.commit(handle, budget, steps),
            Call::Advance { handle } => lent.advance(handle, budget, steps),
            Call::Restore { handle } => lent.restore(handle, budget, steps),
            Call::List => lent.list(outs.handles.at(), outs.count.at()),
            Call::Look { handle, cell } => {
                let (place, offset) = (outs.place.at(), outs.offset.at());
                lent.look(handle, cell, place, offset, outs.rule.at())
            }
        }
    }
}

/// Makes the call and gives all that it told.
///
/// # Safety
/// As for [`run`].
pub unsafe fn call(lent: Lent, call: &Call, budget: u64) -> Reply {
    // SAFETY: the caller answers for it; the list is the call's own.
    unsafe { call_with(lent, call, list_of(call), budget) }
}

/// The same with the records of a list at another place than in the call itself.
///
/// # Safety
/// As for [`run_with`].
pub unsafe fn call_with(lent: Lent, call: &Call, list: *const Range, budget: u64) -> Reply {
    let mut outs = Outs::new();
    // SAFETY: the caller answers for it.
    let code = unsafe { run_with(lent, call, list, budget, &mut outs) };
    outs.reply(call, code)
}

/// The linked library, by its C functions.
pub struct Linked;

impl Store for Linked {
    fn call(&self, buffers: &mut Buffers, call: &Call, budget: u64) -> Reply {
        // SAFETY: each pointer comes from a live buffer of that many elements, and no two overlap.
        unsafe { crate::call(lent(buffers), call, budget) }
    }
}
