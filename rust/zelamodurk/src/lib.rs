//! Zelamodurk for Rust: a safe wrapper over the proved core that reads AC-3 and E-AC-3
//! (ETSI TS 102 366 V1.4.1).
//!
//! The functions stand in modules by subject, most of them named as the core's crates; those of `probe` and
//! `repair` stand in `frame`. They take slices, answer a value or `Result<_, Refusal>`, and panic on no input. What
//! each one answers is said in `include/zelamodurk.h` and proved in the core; this crate only carries it over. Its own
//! are the forms of what is handed over, such as [`blocks::Slots`], and how they are made.
//!
//! The feature `cursor`, which is on by default, has all that reads by a cursor or allocates. Without it
//! there are [`bits`], [`crc`], the refusals, and of [`frame`] the header and the checksums. A clean build
//! proves what it links, and that is far less then.
//!
//! ```
//! use zelamodurk::{bits, Why};
//!
//! let frame = [0x0B, 0x77];
//! assert_eq!(bits::get(&frame, 0, 16), Ok(0x0B77));
//! assert_eq!(bits::get(&frame, 0, 17).unwrap_err().why, Why::PastLimit);
//! ```

#[cfg(feature = "cursor")]
pub mod aht;
#[cfg(feature = "cursor")]
pub mod alloc;
pub mod bits;
#[cfg(feature = "cursor")]
pub mod blocks;
pub mod crc;
#[cfg(feature = "cursor")]
pub mod exponents;
#[cfg_attr(not(linked), allow(dead_code, unused_imports))]
mod ffi;
pub mod frame;
mod refusal;
#[cfg(not(linked))]
mod relay;
#[cfg(feature = "cursor")]
pub mod syntax;
#[cfg(feature = "cursor")]
pub mod walks;

#[cfg(linked)]
use ffi as core;
#[cfg(not(linked))]
use relay as core;

pub use refusal::{Refusal, Why};

/// Whether the core runs under the kit's emulator, since the archives hold x86-64 code alone.
/// Times say nothing then.
pub const EMULATED: bool = cfg!(not(linked));
