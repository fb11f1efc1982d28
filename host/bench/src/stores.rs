//! The library and the baseline behind one function, so that the same code measures both.

use crate::baseline;
use domain_lend::{Outs, lent, run};
use domain_model::{Buffers, Call, FULL, Reply, Store};
use std::hint::black_box;

/// What is measured: each call with a budget that suffices. Gives the call's number; 0 is done.
pub trait Measured {
    fn call(&mut self, buffers: &mut Buffers, call: &Call) -> u32;
}

/// The library, with room for what its calls tell.
#[derive(Default)]
pub struct Library {
    outs: Outs,
}

impl Measured for Library {
    fn call(&mut self, buffers: &mut Buffers, call: &Call) -> u32 {
        // SAFETY: buffers with their lengths, which nothing else uses meanwhile.
        let number = unsafe { run(lent(buffers), call, FULL, &mut self.outs) };
        black_box(&self.outs);
        number
    }
}

/// The unproved version.
pub struct Baseline;

// The baseline can be inlined into the measurement, the library cannot: so its numbers are hidden from the compiler.
impl Measured for Baseline {
    fn call(&mut self, buffers: &mut Buffers, call: &Call) -> u32 {
        black_box(baseline::call(buffers, black_box(call), black_box(FULL))).code
    }
}

impl Store for Baseline {
    fn call(&self, buffers: &mut Buffers, call: &Call, budget: u64) -> Reply {
        baseline::call(buffers, call, budget)
    }
}
