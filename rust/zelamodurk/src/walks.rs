//! Mantissa walks (TS 6.3.5): how far the mantissas of a channel reach, from their codes alone.
//!
//! ```
//! use zelamodurk::alloc::Bin;
//! use zelamodurk::walks::{self, Groups};
//!
//! // Two mantissas of code 4 are a group of 7 bits, also where they stand in two channels.
//! let (frame, bap) = ([0; 1], [4; 256]);
//! let (mut pos, limit, mut groups) = (0, 8, Groups::default());
//! for channel in 0..2 {
//!     walks::conventional(&frame, &mut pos, limit, &bap, Bin(0), Bin(1), &mut groups)?;
//! }
//! assert_eq!((pos, groups), (7, Groups::default()));
//! # Ok::<(), zelamodurk::Refusal>(())
//! ```

use crate::alloc::{Bin, BINS};
use crate::core;
use crate::refusal::Refusal;

/// How many members the open groups of codes 1, 2 and 4 have. All channels of a block share them; a
/// block begins with none.
#[derive(Clone, Copy, Debug, Default, PartialEq, Eq, Hash)]
pub struct Groups {
    /// Of code 1, 0 to 2.
    pub g1: u8,
    /// Of code 2, 0 to 2.
    pub g2: u8,
    /// Of code 4, 0 or 1.
    pub g4: u8,
}

/// Walks over the mantissas of the bins from `start` to `end`, and carries the groups on. It reads no
/// mantissa's bits and logs nothing. Where it is refused, the cursor stands before the mantissa that was
/// refused.
///
/// # Errors
/// 6 where the place is not sound, the range ends before its start or past bin 256, or no walk leaves
/// groups so; the groups are as given then. Else bin by bin: 13 where the code is above 15, which the
/// groups don't count; 1 where the mantissa would pass the limit, which they do. The bit is the cursor's.
#[inline]
pub fn conventional(
    frame: &[u8],
    pos: &mut usize,
    limit: usize,
    bap: &[u8; BINS],
    start: Bin,
    end: Bin,
    groups: &mut Groups,
) -> Result<(), Refusal> {
    core::conventional(frame, pos, limit, bap, start, end, groups)
}
