//! The tail of a frame, behind its audio.

use super::Codec;
use crate::core;
use crate::refusal::Refusal;
use crate::syntax::Place;

/// Where the user bits of a frame stand: the first bits of its auxbits. The rest of those is padding.
#[derive(Clone, Copy, Debug, PartialEq, Eq, Hash)]
pub struct UserBits {
    /// The first bit, from the start of the frame: where auxbits begin, also where there are none.
    pub start: usize,
    /// How many there are: auxdatal, or 0 where auxdatae is 0.
    pub width: usize,
}

impl UserBits {
    /// The bit after them.
    pub const fn end(&self) -> usize {
        self.start.saturating_add(self.width)
    }
}

/// Reads the tail of a frame of `total` bits from the end of its audio on: auxbits, auxdatal where auxdatae
/// is 1, auxdatae, the reserved bit and crc2 are logged, outside blocks, and the cursor then stands at
/// `total`. The elements of the whole log must then tile the frame.
///
/// # Errors
/// In this order, with the place and the log as they were: 6 where `total` passes the limit, the place is
/// not sound, or its count passes the log's room; 16 where `total` is below the position + 18; 17 where
/// auxdatae is 1 and auxdatal would begin before the cursor. Then the block is -1, and the elements that were
/// read stay logged, with the cursor after them: for each element 19 where the log is full; after auxdatal 17
/// where it exceeds the width of auxbits; last 18 where the elements don't tile. The bit is the cursor's.
#[inline]
pub fn read_tail(
    frame: &[u8],
    log: &mut [u32],
    place: &mut Place,
    total: usize,
    codec: Codec,
) -> Result<UserBits, Refusal> {
    core::read_tail(frame, log, place, total, codec)
}

#[cfg(test)]
mod tests;
