//! "One channel alone takes codes too: 21, 11, the empty range, 6, 8, in this order."

use super::{first, BAD_ARGUMENT};
use crate::call::Allocation;
use zelamodurk::alloc::BINS;

/// An exponent outside 0 to 24.
pub const EXPONENT_OUTSIDE: u8 = 8;
/// A code past its table.
pub const CODE_PAST_TABLE: u8 = 11;
/// Lent tables that are unfit.
pub const BAD_TABLES: u8 = 21;

/// "Decays, slow gain, knee at most 3; floor, fast gain, leaks 7; csnroffst 63; fsnroffst 15; fscod 2":
/// the largest of each code, in the order of their bytes.
pub const LARGEST: [u8; 9] = [3, 3, 3, 3, 7, 7, 63, 15, 2];
/// See [`LARGEST`].
pub const LARGEST_LEAK: u8 = 7;
/// "At most 8 segments, each 31, 15, 7."
pub const LARGEST_SEGMENT: [u8; 3] = [31, 15, 7];

/// 0 for an allocation that document 01 takes, or the number that it refuses it with.
pub fn number(given: &Allocation) -> u8 {
    let bins = given.start..given.end;
    let outside = |(bin, exponent): (usize, &u8)| bins.contains(&bin) && *exponent > 24;
    first(&[
        (BAD_TABLES, !are_fit(&given.hearing, &given.log_add)),
        (CODE_PAST_TABLE, is_past(given)),
        (BAD_ARGUMENT, !bins.is_empty() && given.end > 253),
        (
            EXPONENT_OUTSIDE,
            given.exponents.iter().enumerate().any(outside),
        ),
    ])
}

/// "HEARING (150 entries, 0..4095) and LOG_ADD (256 entries, 0..64) are lent by the caller and tested."
pub fn are_fit(hearing: &[u16], log_add: &[u8]) -> bool {
    let lengths = hearing.len() == 150 && log_add.len() == 256;
    lengths && hearing.iter().all(|n| *n <= 4095) && log_add.iter().all(|n| *n <= 64)
}

/// Whether one of the codes is above its largest.
pub fn above(codes: &[u8], largest: &[u8]) -> bool {
    codes.iter().zip(largest).any(|(n, most)| n > most)
}

fn is_past(given: &Allocation) -> bool {
    let leak = given.leak.map_or([0; 2], |(fast, slow)| [fast, slow]);
    let mut delta = given.delta.iter();
    above(&given.codes.bytes(), &LARGEST)
        || above(&leak, &[LARGEST_LEAK; 2])
        || given.delta.len() > 8
        || delta.any(|s| above(&[s.offset, s.len, s.ba], &LARGEST_SEGMENT))
}

/// Whether the range is empty and past the bins. The Rust answers as many zeros as its start says there;
/// "the answer is 256 bins".
pub fn is_empty_past_the_bins(given: &Allocation) -> bool {
    given.end <= given.start && given.start > BINS
}
