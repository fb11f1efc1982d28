//! An independent model of the domain store.
//!
//! It is written from document 01, with the requests that have landed since, and from nothing else,
//! so that a mistake in the proved code, in its statements, or on the way to the compiled library
//! does not repeat itself here. The parts:
//!
//! - [`rules`]: the rules that a cell may follow instead of being copied (request A.1).
//! - [`state`]: what a store means: next handle, live domains, and what each holds of each cell.
//! - [`calls`]: the calls: the questions in their order, what a call leaves, how many steps it takes,
//!   and what a cut at each step leaves. Add takes one range or a list of them (request A.3); an inner
//!   advance gives cells outwards (request A.4).
//! - [`table`]: the three lent buffers: reading them back into a state, with every rule of question
//!   4, and writing a state into a table.
//! - [`plan`]: the exact list of stores of a call, so that the buffers after k steps are an
//!   equation.
//! - [`notebook`]: the notebook of document 01, which settles what a restore has to bring back. It
//!   never sees table or bodies.
//! - [`fault`]: plausible errors that can be switched on one at a time, to show that a comparison
//!   with this model finds them.
//! - [`edges`]: document 01's "edges to run" as scripts, with those of the requests.
//!
//! Besides, what all tests share and document 01 says nothing of: [`buffers`], the lent buffers with
//! guards around each; [`reply`], what a call tells; [`rng`], numbers at random.

pub mod buffers;
pub mod calls;
pub mod edges;
pub mod fault;
pub mod notebook;
pub mod plan;
pub mod reply;
pub mod rng;
pub mod rules;
pub mod state;
pub mod table;

pub use buffers::{Buffer, Buffers};
pub use calls::{Call, Lengths, Looked, Model, Reading, Record, Shown, Sizes, Verdict, Work};
pub use fault::Fault;
pub use notebook::{Ended, Notebook};
pub use plan::{Place, Step};
pub use reply::{FULL, Reply, STOPPED, Store};
pub use rng::Rng;
pub use state::{Bytes, CELL, Domain, Holding, Kept, State};
pub use table::{Broken, Decoded};
