//! Cuts on the real machine.
//!
//! The proofs speak of an abstract machine that makes one store after another. What runs is compiled code, and a compiler may merge,
//! drop or reorder stores where no reader inside the program could tell. Two tests look at what the machine really does:
//!
//! - [`trace`] runs one call of the compiled library in a child process and sees every instruction that stores into a lent buffer;
//!   [`check`] compares these stores with the plan of document 01, "Steps and cuts", and opens a copy of the buffers after each.
//! - [`kill`] ends children with SIGKILL at random moments, and opens what they leave.
//!
//! What they show holds for the archive that was tested: table words are stored one at a time in the plan's order, bytes several at a
//! time in rising order. That is the order in which the processor makes the stores, and x86-64 shows them to others in that order, so
//! it is what the next process on the same machine finds when a program has ended at any instruction. Neither test says anything
//! about a loss of power, where caches write back lines in an order of their own.
#![cfg(all(target_os = "linux", target_arch = "x86_64"))]

pub mod check;
pub mod faults;
pub mod kill;
pub mod scenarios;
pub mod state;
pub mod sys;
pub mod trace;
