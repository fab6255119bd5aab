//! Holds the core's answers to those of the Rust that it was ported from, and records them.
//!
//! Where document 01 refuses a call for a reason that the Rust does not have, the answer is document
//! 01's ([`rule`]), since the Rust would panic or answer something else there. Everywhere else it is
//! the Rust's ([`rust`]).
#![forbid(unsafe_code)]

pub mod answers;
pub mod call;
pub mod cases;
pub mod channels;
pub mod core;
pub mod frames;
pub mod random;
pub mod record;
pub mod rule;
pub mod rust;
pub mod scripts;
pub mod sides;
pub mod slots;
pub mod streams;
pub mod tally;
pub mod vectors;
pub mod whole;
