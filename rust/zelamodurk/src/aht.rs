//! The AHT walk of one channel (TS E.2.4.2, E.2.4.4): gaqmod, the gain words, and the mantissas of all
//! six blocks.
//!
//! ```
//! use zelamodurk::alloc::Bin;
//! use zelamodurk::aht;
//!
//! // gaqmod 0, and one bin of hebap 8: six mantissas of 3 bits.
//! let (frame, hebap) = ([0; 3], [8; 256]);
//! let (mut pos, limit) = (0, 24);
//! assert_eq!(aht::aht(&frame, &mut pos, limit, &hebap, Bin(0), Bin(1)), Ok(0));
//! assert_eq!(pos, 20);
//! ```

use crate::alloc::{Bin, BINS};
use crate::core;
use crate::refusal::Refusal;

/// Walks over one channel's mantissas of all six blocks in the bins from `start` to `end`, and answers
/// how many tags of large mantissas it met. It logs nothing. The cursor stands after what was read, taken
/// or refused.
///
/// # Errors
/// 6 where the place is not sound, or the range ends before its start or past bin 256. Else where it
/// stands: 1 where the bits would pass the limit; 14 where a composite gain, which was read, is above
/// 26; 13 where a bin's hebap is above 19. The bit is the cursor's.
#[inline]
pub fn aht(
    frame: &[u8],
    pos: &mut usize,
    limit: usize,
    hebap: &[u8; BINS],
    start: Bin,
    end: Bin,
) -> Result<usize, Refusal> {
    core::aht(frame, pos, limit, hebap, start, end)
}
