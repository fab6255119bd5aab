//! Whole frames: their syntax and length, the tail behind the audio (TS 4.3.4, 4.3.5, E.1.2.5, E.1.2.6),
//! and their checksums (TS 6.10.1, 4.4.5.1).
//!
//! ```
//! use zelamodurk::frame::{self, Codec};
//!
//! // The header of an AC-3 frame of 128 bytes; the rest of it need not be there.
//! let header = frame::probe(&[0x0B, 0x77, 0, 0, 0, 0x40])?;
//! assert_eq!((header.codec, header.bytes), (Codec::Ac3, 128));
//!
//! // A frame with another bit has no good checksum until it is repaired.
//! let mut bytes = [0; 128];
//! assert!(frame::crc_status(&bytes, Codec::Ac3)?.is_good());
//! bytes[5] = 0x40;
//! assert!(!frame::crc_status(&bytes, Codec::Ac3)?.is_good());
//! frame::repair(&mut bytes, Codec::Ac3)?;
//! assert!(frame::crc_status(&bytes, Codec::Ac3)?.is_good());
//! # Ok::<(), zelamodurk::Refusal>(())
//! ```

#[cfg(feature = "cursor")]
mod tail;

use crate::core;
use crate::refusal::Refusal;

#[cfg(feature = "cursor")]
pub use tail::{read_tail, UserBits};

/// The two syntaxes.
#[derive(Clone, Copy, Debug, PartialEq, Eq, Hash)]
pub enum Codec {
    /// AC-3: bsid 0 to 8.
    Ac3,
    /// E-AC-3: bsid 11 to 16.
    Eac3,
}

impl Codec {
    /// The flag that stands for it in the C interface.
    #[inline]
    pub(crate) const fn is_eac3(self) -> bool {
        matches!(self, Codec::Eac3)
    }

    /// The codec of the flag.
    #[inline]
    pub(crate) const fn of_eac3(is: bool) -> Codec {
        if is {
            Codec::Eac3
        } else {
            Codec::Ac3
        }
    }
}

/// What a frame's first bytes say.
#[derive(Clone, Copy, Debug, PartialEq, Eq, Hash)]
pub struct Header {
    /// Its syntax.
    pub codec: Codec,
    /// Its length in bytes.
    pub bytes: usize,
}

/// Which checksums of a frame are good.
#[derive(Clone, Copy, Debug, PartialEq, Eq, Hash)]
pub struct Status {
    /// crc1, over the frame to its 5/8 point; none in E-AC-3, which has no crc1.
    pub crc1: Option<bool>,
    /// crc2, over the whole frame.
    pub crc2: bool,
}

impl Status {
    /// Whether every checksum that the frame has is good.
    pub const fn is_good(self) -> bool {
        !matches!(self.crc1, Some(false)) && self.crc2
    }

    /// The status of a frame of the codec by the two flags of the C interface.
    #[inline]
    pub(crate) fn of(codec: Codec, crc1: bool, crc2: bool) -> Status {
        Status {
            crc1: (codec == Codec::Ac3).then_some(crc1),
            crc2,
        }
    }
}

/// The syntax and the length of the frame that begins with these bytes; the rest of it need not be there.
///
/// # Errors
/// In this order: 3 where there are under 6 bytes; 2 where the first two are not 0x0B77; 5 where bsid is
/// 9, 10 or above 16; in AC-3, 4 where fscod is 3 or frmsizecod above 37. The bit is 0.
#[inline]
pub fn probe(frame: &[u8]) -> Result<Header, Refusal> {
    core::probe(frame)
}

/// Which checksums of a frame are good: crc2 where the CRC-16 of all bytes after the sync word is 0, and in
/// AC-3 crc1 where that of those before the 5/8 point is.
///
/// # Errors
/// 20 where the frame's length is odd, above 4,096, or below 8 in AC-3 and 4 in E-AC-3. The bit is 0.
#[inline]
pub fn crc_status(frame: &[u8], codec: Codec) -> Result<Status, Refusal> {
    core::crc_status(frame, codec)
}

/// Sets the checksums of a frame so that they are good: bytes 2 and 3 in AC-3, and the last two. Where
/// crc2 would be the sync word in AC-3, the reserved bit before it is inverted, and crc2 is 0x8B72. No other
/// bit is changed.
///
/// # Errors
/// 20 where the frame's length is odd, above 4,096, or below 8 in AC-3 and 4 in E-AC-3. Nothing is changed
/// then, and the bit is 0.
#[inline]
pub fn repair(frame: &mut [u8], codec: Codec) -> Result<(), Refusal> {
    core::repair(frame, codec)
}

#[cfg(test)]
mod tests;
