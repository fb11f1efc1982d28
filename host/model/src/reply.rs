//! What a call tells, and anything that answers the calls on lent buffers.

use crate::buffers::Buffers;
use crate::calls::Call;

/// The number of a stopped call.
pub const STOPPED: u32 = 255;

/// A budget that stops no call.
pub const FULL: u64 = u64::MAX;

/// The places that look tells: a part of memory, a part of bodies, and no part at all but a rule.
pub const IN_MEMORY: u32 = 1;
pub const IN_BODIES: u32 = 2;
pub const BY_RULE: u32 = 3;

/// What a call told, with every out parameter. Those that a call does not have are 0.
#[derive(Clone, Copy, PartialEq, Eq, Debug, Default)]
pub struct Reply {
    /// 0 done, 255 stopped, else the refusal's number.
    pub code: u32,
    pub steps: u64,
    pub handle: u32,
    pub handles: [u32; 8],
    pub count: u32,
    /// 1 memory, 2 bodies, 3 a rule, 0 refused.
    pub place: u32,
    pub offset: u64,
    /// The rule's number where the place is one, else 0.
    pub rule: u32,
    /// A store beside an out parameter.
    pub strayed: bool,
}

/// Anything that answers the calls.
pub trait Store {
    fn call(&self, buffers: &mut Buffers, call: &Call, budget: u64) -> Reply;
}
