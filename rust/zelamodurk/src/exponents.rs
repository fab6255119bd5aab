//! Exponents of one slot (TS 6.1.3): the absolute exponent and its groups are read, logged and
//! unpacked.
//!
//! ```
//! use zelamodurk::alloc::Bin;
//! use zelamodurk::exponents::{self, Ask, ExpSet};
//! use zelamodurk::syntax::Place;
//!
//! // Absolute exponent 5, and a group of three steps of 0.
//! let frame = [0b0101_0111, 0b1100_0000];
//! let (mut log, mut place, mut set) = ([0; 16], Place::new(16), ExpSet::default());
//! let ask = Ask { slot: 0, strategy: exponents::D15, start: Bin(0), end: Bin(4) };
//! assert_eq!(exponents::read_exponents(&frame, &mut log, &mut place, &ask, &mut set), Ok(()));
//! assert_eq!(set.exp[..5], [5, 5, 5, 5, 0]);
//! assert_eq!((place.pos, place.count), (11, 2));
//! ```

use crate::alloc::{Bin, BINS};
use crate::core;
use crate::refusal::Refusal;
use crate::syntax::Place;

/// The slot of coupling; 0 to 4 are the full bandwidth channels.
pub const CPL: u8 = 5;
/// The slot of LFE, the last.
pub const LFE: u8 = 6;

/// The strategy of an exponent for each bin.
pub const D15: u8 = 1;
/// The strategy of an exponent for two bins.
pub const D25: u8 = 2;
/// The strategy of an exponent for four bins.
pub const D45: u8 = 3;

/// A set that is asked for.
#[derive(Clone, Copy, Debug, PartialEq, Eq, Hash)]
pub struct Ask {
    /// The slot, 0 to 6.
    pub slot: u8,
    /// The strategy: [`D15`], [`D25`] or [`D45`].
    pub strategy: u8,
    /// The first bin of the range.
    pub start: Bin,
    /// The bin after the range.
    pub end: Bin,
}

/// The exponents of a slot, and the range of bins that they were read for.
#[derive(Clone, Copy, Debug, PartialEq, Eq, Hash)]
pub struct ExpSet {
    /// The exponents by bin; 0 where none was read.
    pub exp: [u8; BINS],
    /// The first bin of the range.
    pub start: Bin,
    /// The bin after the range.
    pub end: Bin,
}

impl Default for ExpSet {
    /// No set: what a refused reading leaves.
    fn default() -> Self {
        ExpSet {
            exp: [0; BINS],
            start: Bin(0),
            end: Bin(0),
        }
    }
}

/// Reads a slot's exponents at the cursor into `set`. Each element is logged, and the cursor stands
/// after those that were read, taken or refused; on refusal `set` is [`ExpSet::default`].
///
/// # Errors
/// In this order: 6 where the slot is above 6, the strategy not 1 to 3, the range empty or past bin 256,
/// the place not sound, or its count past the log's room; for each element 1 where it would pass the
/// limit, and 19 where the log is full; for each group 7 where it is above 124, and 8 where one of its
/// exponents is outside 0 to 24; 9 where the set ends before the range. The bit is the cursor's.
#[inline]
pub fn read_exponents(
    frame: &[u8],
    log: &mut [u32],
    place: &mut Place,
    ask: &Ask,
    set: &mut ExpSet,
) -> Result<(), Refusal> {
    core::read_exponents(frame, log, place, ask, set)
}
