//! Request A.1: the rules that a cell may follow, so that its bytes can be made afresh and need no
//! body.

use crate::state::{Bytes, CELL};
use std::ops::RangeInclusive;

/// All zeros.
pub const ZEROS: u32 = 0;
/// All 255.
pub const ONES: u32 = 1;
/// Byte i is i.
pub const INDEX: u32 = 2;
/// The bytes 0, 0, 128, 63 over and over: a scale of one.
pub const SCALE: u32 = 3;

/// The numbers that name a rule.
pub const RULES: RangeInclusive<u32> = ZEROS..=SCALE;

/// The 64 bytes of a cell that follows a rule; none for a number that names no rule.
pub fn pattern(rule: u32) -> Option<Bytes> {
    match rule {
        ZEROS => Some([0; CELL]),
        ONES => Some([255; CELL]),
        INDEX => Some(std::array::from_fn(|i| i as u8)),
        SCALE => Some(std::array::from_fn(|i| [0, 0, 128, 63][i % 4])),
        _ => None,
    }
}

/// The rule that these bytes follow, if they do.
pub fn followed(bytes: &[u8]) -> Option<u32> {
    RULES
        .into_iter()
        .find(|rule| pattern(*rule).is_some_and(|p| p == *bytes))
}
