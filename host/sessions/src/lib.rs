//! Random sessions: the linked library beside the independent model, call by call.
//!
//! - [`check`]: one call on both sides and every comparison; every cut of a call with the openings
//!   after it.
//! - [`advances`]: what advances met, and what they may take and have to leave by restores alone.
//! - [`lists`]: what adds of several ranges met, and what they have to come to by plain adds alone.
//! - [`nested`]: an inner domain restored before one around it, held against that one's restore alone.
//! - [`tables`]: random tables that open, put together by no call.
//! - [`session`]: a session as a plain list of inputs, so that it can be played again, shrunk and
//!   printed.
//! - [`generate`]: the random choice of inputs, steered towards deep states.
//! - [`shrink`]: makes a failing session short.
//! - [`run`]: many sessions, with progress.
//! - [`StandIn`]: a store that plays the model's plans, to show what the harness finds.
//! - `walls`: the library on buffers that end, or begin, at a page that nobody may touch: guards
//!   see stores, walls see loads too.

pub mod advances;
pub mod check;
pub mod generate;
pub mod lists;
pub mod nested;
pub mod run;
pub mod session;
pub mod shrink;
mod stand_in;
pub mod tables;
#[cfg(all(feature = "linked", target_os = "linux"))]
pub mod walls;

pub use stand_in::StandIn;
