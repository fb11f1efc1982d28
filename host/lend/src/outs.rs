//! The out parameters of every call, each with guard elements on both sides. They stand in arrays
//! and not on the heap.

use domain_model::buffers::Pattern;
use domain_model::{Call, Reply};

/// Guard elements on each side of an out parameter.
const GUARD: usize = 4;

/// An out parameter of N - 8 elements in the middle of an array.
pub struct Out<T, const N: usize>([T; N]);

impl<T: Pattern, const N: usize> Out<T, N> {
    /// Elements that no call leaves, so that one which is not set is seen.
    fn new() -> Self {
        Out(std::array::from_fn(T::pattern))
    }

    /// Where the call is to store.
    pub fn at(&mut self) -> *mut T {
        self.0[GUARD..N - GUARD].as_mut_ptr()
    }

    fn get(&self) -> &[T] {
        &self.0[GUARD..N - GUARD]
    }

    fn strayed(&self) -> bool {
        let outside = (0..GUARD).chain(N - GUARD..N);
        outside.into_iter().any(|at| self.0[at] != T::pattern(at))
    }
}

/// Room for the out parameters of every call.
pub struct Outs {
    pub steps: Out<u64, 9>,
    pub handle: Out<u32, 9>,
    pub handles: Out<u32, 16>,
    pub count: Out<u32, 9>,
    pub place: Out<u32, 9>,
    pub offset: Out<u64, 9>,
    pub rule: Out<u32, 9>,
}

impl Default for Outs {
    fn default() -> Self {
        Outs::new()
    }
}

impl Outs {
    pub fn new() -> Outs {
        Outs {
            steps: Out::new(),
            handle: Out::new(),
            handles: Out::new(),
            count: Out::new(),
            place: Out::new(),
            offset: Out::new(),
            rule: Out::new(),
        }
    }

    /// What a call that gave this number told.
    pub fn reply(&self, call: &Call, code: u32) -> Reply {
        let mut reply = Reply {
            code,
            strayed: self.steps.strayed()
                || self.handle.strayed()
                || self.handles.strayed()
                || self.count.strayed()
                || self.place.strayed()
                || self.offset.strayed()
                || self.rule.strayed(),
            ..Reply::default()
        };
        match call {
            Call::List => {
                reply.handles.copy_from_slice(self.handles.get());
                reply.count = self.count.get()[0];
            }
            Call::Look { .. } => {
                reply.place = self.place.get()[0];
                reply.offset = self.offset.get()[0];
                reply.rule = self.rule.get()[0];
            }
            _ => {
                reply.steps = self.steps.get()[0];
                if *call == Call::Create {
                    reply.handle = self.handle.get()[0];
                }
            }
        }
        reply
    }
}
