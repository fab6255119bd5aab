//! Refusals: why, and the cursor's bit.

use std::fmt;

/// Why the core refuses a call: document 01's table of refusal numbers, and the header's
/// `enum zela_refusal`.
#[repr(u8)]
#[non_exhaustive]
#[derive(Clone, Copy, Debug, PartialEq, Eq, Hash, PartialOrd, Ord)]
pub enum Why {
    /// An element would pass the limit, or a bit range its buffer.
    PastLimit = 1,
    /// The first 16 bits aren't 0x0B77.
    NoSync = 2,
    /// A probe gets under 6 bytes.
    ShortHeader = 3,
    /// AC-3 fscod 3, or frmsizecod above 37.
    BadSize = 4,
    /// bsid 9, 10, or above 16.
    BadBsid = 5,
    /// A slot, strategy, width, range, total, log count or group state is unfit.
    BadArgument = 6,
    /// A grouped exponent is above 124.
    GroupAbove = 7,
    /// An exponent is outside 0..24.
    ExponentOutside = 8,
    /// An exponent set is shorter than its range.
    SetTooShort = 9,
    /// csnroffst, the five parameters or the coupling leak is used before it is sent.
    NotSent = 10,
    /// A side-information code is past its table.
    CodePastTable = 11,
    /// The exponent range doesn't cover the asked range.
    NotCovered = 12,
    /// A bap above 15 or a hebap above 19 is met on a walk.
    PointerAbove = 13,
    /// A composite GAQ gain is above 26.
    GainAbove = 14,
    /// deltbae is 0 in block 0, or above 2.
    BadDelta = 15,
    /// The total is below the position + 18.
    NoRoomForTail = 16,
    /// auxdatal overlaps audio, or exceeds auxbits.
    BadAux = 17,
    /// The elements don't tile the frame.
    NotTiled = 18,
    /// The log is full.
    LogFull = 19,
    /// The frame's length is unfit for a CRC.
    BadLength = 20,
    /// The lent tables are unfit.
    BadTables = 21,
    /// A number outside the table: the archives are others than this crate was written for.
    Unlisted = 255,
}

impl Why {
    /// The table, in its order.
    const TABLE: [Why; 21] = [
        Why::PastLimit,
        Why::NoSync,
        Why::ShortHeader,
        Why::BadSize,
        Why::BadBsid,
        Why::BadArgument,
        Why::GroupAbove,
        Why::ExponentOutside,
        Why::SetTooShort,
        Why::NotSent,
        Why::CodePastTable,
        Why::NotCovered,
        Why::PointerAbove,
        Why::GainAbove,
        Why::BadDelta,
        Why::NoRoomForTail,
        Why::BadAux,
        Why::NotTiled,
        Why::LogFull,
        Why::BadLength,
        Why::BadTables,
    ];

    /// The refusal's number.
    pub const fn number(self) -> u8 {
        self as u8
    }

    /// The refusal of a number; [`Why::Unlisted`] for a number that the table doesn't have.
    pub fn of_number(number: u8) -> Why {
        let at = usize::from(number).wrapping_sub(1);
        Why::TABLE.get(at).copied().unwrap_or(Why::Unlisted)
    }

    /// What is wrong, in words.
    const fn words(self) -> &'static str {
        match self {
            Why::PastLimit => "an element would pass the limit, or a bit range its buffer",
            Why::NoSync => "the first 16 bits aren't 0x0B77",
            Why::ShortHeader => "under 6 bytes of header",
            Why::BadSize => "AC-3 fscod 3, or frmsizecod above 37",
            Why::BadBsid => "bsid 9, 10, or above 16",
            Why::BadArgument => "bad argument",
            Why::GroupAbove => "grouped exponent above 124",
            Why::ExponentOutside => "exponent outside 0..24",
            Why::SetTooShort => "exponent set shorter than its range",
            Why::NotSent => "used before it was sent",
            Why::CodePastTable => "a side-information code is past its table",
            Why::NotCovered => "the exponent range doesn't cover the asked range",
            Why::PointerAbove => "bap above 15 or hebap above 19",
            Why::GainAbove => "composite GAQ gain above 26",
            Why::BadDelta => "deltbae 0 in block 0, or above 2",
            Why::NoRoomForTail => "no room for the tail",
            Why::BadAux => "auxdatal overlaps audio, or exceeds auxbits",
            Why::NotTiled => "the elements don't tile the frame",
            Why::LogFull => "the log is full",
            Why::BadLength => "frame length unfit for a CRC",
            Why::BadTables => "the lent tables are unfit",
            Why::Unlisted => "a number that is not in the table of refusals",
        }
    }
}

impl fmt::Display for Why {
    fn fmt(&self, f: &mut fmt::Formatter<'_>) -> fmt::Result {
        f.write_str(self.words())
    }
}

/// A refused call: why, and the cursor's bit, which is 0 where there is no cursor.
#[derive(Clone, Copy, Debug, PartialEq, Eq, Hash)]
pub struct Refusal {
    /// Why the call was refused.
    pub why: Why,
    /// Where the cursor stood; 0 without a cursor.
    pub bit: usize,
}

impl fmt::Display for Refusal {
    fn fmt(&self, f: &mut fmt::Formatter<'_>) -> fmt::Result {
        write!(
            f,
            "refused with {} at bit {}: {}",
            self.why.number(),
            self.bit,
            self.why
        )
    }
}

impl std::error::Error for Refusal {}

/// The calling convention: 0 is taken, any other number a refusal at `bit`.
#[inline]
pub(crate) fn outcome<T>(number: u8, bit: usize, value: T) -> Result<T, Refusal> {
    if number == 0 {
        return Ok(value);
    }
    Err(Refusal {
        why: Why::of_number(number),
        bit,
    })
}

#[cfg(test)]
mod tests {
    use super::*;

    #[test]
    fn each_number_has_its_refusal() {
        for (at, why) in Why::TABLE.into_iter().enumerate() {
            assert_eq!(usize::from(why.number()), at + 1);
            assert_eq!(Why::of_number(why.number()), why);
        }
    }

    #[test]
    fn any_other_number_is_unlisted() {
        let listed = Why::TABLE.map(Why::number);
        for number in (0..=u8::MAX).filter(|n| !listed.contains(n)) {
            assert_eq!(Why::of_number(number), Why::Unlisted);
        }
    }

    #[test]
    fn a_refusal_says_its_number_bit_and_reason() {
        let refusal = Refusal {
            why: Why::PastLimit,
            bit: 40,
        };
        assert_eq!(
            refusal.to_string(),
            "refused with 1 at bit 40: an element would pass the limit, or a bit range its buffer"
        );
    }
}
