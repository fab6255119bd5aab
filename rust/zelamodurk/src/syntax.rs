//! Syntax elements: every bit that is read gets a place in a log that the caller lends.
//!
//! A cursor is a [`Place`], the frame's bytes and the log. A place is sound where its limit is at most
//! 32,768 and at most the frame's bits; its position may be any number. What logs nothing takes of the
//! place the position and the limit alone.
//!
//! The log has eight words an element: name, role, block, index, position, width, value, and one that
//! is 0. At most 4,096 elements are taken, and no more than the words have room for. A call writes the
//! words of the element that it logs, and no others. A refused call leaves place and log as they were.
//!
//! ```
//! use zelamodurk::syntax::{self, Ask, Place, Role};
//!
//! let frame = [0x0B, 0x77];
//! let mut log = [0; syntax::WORDS];
//! let mut place = Place::new(16);
//! let sync = Ask { name: 300, role: Role::Sync, index: -1, width: 16 };
//! assert_eq!(syntax::read_element(&frame, &mut log, &mut place, &sync), Ok(0x0B77));
//! assert_eq!(syntax::check_tiling(&log, place.count, 16), Ok(()));
//! assert_eq!(syntax::element_at(&log, place.count, 0).unwrap().role, Role::Sync);
//! ```

use crate::core;
use crate::refusal::Refusal;

pub mod names;

/// The words of an element in the log.
pub const WORDS: usize = 8;
/// Which of them is the position.
pub const POS: usize = 4;
/// Which of them is the width.
pub const WIDTH: usize = 5;
/// The most bits that the limit of a sound place has.
pub const MOST_BITS: usize = 32_768;
/// The most elements of a log that are taken.
pub const MOST_ELEMENTS: usize = 4096;

/// What an element means to an editor of metadata: the header's `enum zela_role`. Those that carry a
/// number carry their programme.
#[derive(Clone, Copy, Debug, PartialEq, Eq, Hash)]
pub enum Role {
    /// Everything that has no role of its own.
    Plain,
    /// The sync word.
    Sync,
    /// AC-3 crc1.
    Crc1,
    /// crc2.
    Crc2,
    /// AC-3 crcrsv or E-AC-3 encinfo, the bit before crc2.
    CrcRsv,
    /// E-AC-3 strmtyp, substreamid and frmsiz; AC-3 fscod and frmsizecod.
    FrameSize,
    /// dialnorm or dialnorm2.
    Dialnorm(u8),
    /// compre or compr2e.
    ComprExists(u8),
    /// compr or compr2.
    Compr(u8),
    /// dynrnge or dynrng2e.
    DynrngExists(u8),
    /// dynrng or dynrng2.
    Dynrng(u8),
    /// skiple.
    Skiple,
    /// skipl.
    Skipl,
    /// skipfld bytes, one span.
    Skipfld,
    /// addbsi bytes, one span.
    Addbsi,
    /// Every mantissa of one audio block, one span.
    Mantissas,
    /// auxbits, one span.
    AuxBits,
    /// auxdatal.
    AuxDataL,
    /// auxdatae.
    AuxDataE,
    /// blkstrtinfoe.
    BlkStrtInfoE,
    /// blkstrtinfo.
    BlkStrtInfo,
}

impl Role {
    /// The role's word: its number, and 32 times its programme.
    pub const fn word(self) -> u32 {
        let (number, programme) = match self {
            Role::Plain => (0, 0),
            Role::Sync => (1, 0),
            Role::Crc1 => (2, 0),
            Role::Crc2 => (3, 0),
            Role::CrcRsv => (4, 0),
            Role::FrameSize => (5, 0),
            Role::Dialnorm(programme) => (6, programme),
            Role::ComprExists(programme) => (7, programme),
            Role::Compr(programme) => (8, programme),
            Role::DynrngExists(programme) => (9, programme),
            Role::Dynrng(programme) => (10, programme),
            Role::Skiple => (11, 0),
            Role::Skipl => (12, 0),
            Role::Skipfld => (13, 0),
            Role::Addbsi => (14, 0),
            Role::Mantissas => (15, 0),
            Role::AuxBits => (16, 0),
            Role::AuxDataL => (17, 0),
            Role::AuxDataE => (18, 0),
            Role::BlkStrtInfoE => (19, 0),
            Role::BlkStrtInfo => (20, 0),
        };
        number + 32 * programme as u32
    }

    /// The role of a word; [`Role::Plain`] for a number that no role has. A programme is a byte.
    pub const fn of_word(word: u32) -> Role {
        let programme = (word / 32 % 256) as u8;
        match word % 32 {
            1 => Role::Sync,
            2 => Role::Crc1,
            3 => Role::Crc2,
            4 => Role::CrcRsv,
            5 => Role::FrameSize,
            6 => Role::Dialnorm(programme),
            7 => Role::ComprExists(programme),
            8 => Role::Compr(programme),
            9 => Role::DynrngExists(programme),
            10 => Role::Dynrng(programme),
            11 => Role::Skiple,
            12 => Role::Skipl,
            13 => Role::Skipfld,
            14 => Role::Addbsi,
            15 => Role::Mantissas,
            16 => Role::AuxBits,
            17 => Role::AuxDataL,
            18 => Role::AuxDataE,
            19 => Role::BlkStrtInfoE,
            20 => Role::BlkStrtInfo,
            _ => Role::Plain,
        }
    }

    /// Whether the element holds a gain word or its presence flag.
    #[inline]
    pub fn is_drc(self) -> bool {
        core::role_is_drc(self)
    }

    /// Whether the element's value is a checksum over the frame, which any edit changes.
    #[inline]
    pub fn is_checksum(self) -> bool {
        core::role_is_checksum(self)
    }

    /// Whether the element is a span, whose content is compared bit by bit and not by value.
    #[inline]
    pub fn is_span(self) -> bool {
        core::role_is_span(self)
    }
}

/// The cursor's numbers.
#[derive(Clone, Copy, Debug, PartialEq, Eq, Hash)]
pub struct Place {
    /// The cursor's bit, from the start of the frame.
    pub pos: usize,
    /// The bit that nothing read may pass.
    pub limit: usize,
    /// The audio block, or -1 outside blocks.
    pub block: i8,
    /// How many elements are logged.
    pub count: usize,
}

impl Place {
    /// The start of a frame: bit 0, outside blocks, nothing logged.
    pub const fn new(limit: usize) -> Self {
        Place {
            pos: 0,
            limit,
            block: -1,
            count: 0,
        }
    }
}

/// An element that is asked for.
#[derive(Clone, Copy, Debug, PartialEq, Eq, Hash)]
pub struct Ask {
    /// Its name's number: one of [`names`], or any other.
    pub name: u32,
    /// What it means.
    pub role: Role,
    /// Channel or array index, or -1 where there is none.
    pub index: i16,
    /// How many bits it has.
    pub width: usize,
}

/// An element out of the log.
#[derive(Clone, Copy, Debug, PartialEq, Eq, Hash)]
pub struct Element {
    /// Its name's number.
    pub name: u32,
    /// What it means.
    pub role: Role,
    /// The audio block, or -1 outside blocks.
    pub block: i8,
    /// Channel or array index, or -1 where there is none.
    pub index: i16,
    /// Its first bit, from the start of the frame.
    pub pos: u32,
    /// How many bits it has.
    pub width: u32,
    /// Its bits as a number; 0 for spans.
    pub value: u32,
}

impl Element {
    /// The bit after the element.
    pub const fn end(&self) -> usize {
        self.pos as usize + self.width as usize
    }
}

/// What both calls that log a span are given besides the position and their last number.
pub(crate) struct Span<'a> {
    pub frame: &'a [u8],
    pub log: &'a mut [u32],
    pub limit: usize,
    pub block: i8,
    pub count: &'a mut usize,
    pub name: u32,
    pub role: Role,
}

impl<'a> Span<'a> {
    /// With the position, which one of the calls moves.
    fn of(
        frame: &'a [u8],
        log: &'a mut [u32],
        place: &'a mut Place,
        name: u32,
        role: Role,
    ) -> (Self, &'a mut usize) {
        let span = Span {
            frame,
            log,
            limit: place.limit,
            block: place.block,
            count: &mut place.count,
            name,
            role,
        };
        (span, &mut place.pos)
    }
}

/// Reads one element at the cursor, and logs it. The cursor then stands after it.
///
/// # Errors
/// In this order: 6 where the width is above 32, the place is not sound, or its count passes the log's
/// room; 1 where the element would pass the limit; 19 where the log is full. The bit is the cursor's.
#[inline]
pub fn read_element(
    frame: &[u8],
    log: &mut [u32],
    place: &mut Place,
    ask: &Ask,
) -> Result<u32, Refusal> {
    core::read_element(frame, log, place, ask)
}

/// Reads `width` bits at the cursor and logs nothing, as inside a span. The cursor then stands after
/// them.
///
/// # Errors
/// In this order: 6 where `width` is above 32 or the place is not sound; 1 where the bits would pass
/// the limit. The bit is the cursor's.
#[inline]
pub fn read_raw(frame: &[u8], pos: &mut usize, limit: usize, width: usize) -> Result<u32, Refusal> {
    core::read_raw(frame, pos, limit, width)
}

/// Logs the next `width` bits, any number of them, as one element with index -1 and value 0. The
/// cursor then stands after them.
///
/// # Errors
/// In this order: 6 where the place is not sound, or its count passes the log's room; 1 where the span
/// would pass the limit; 19 where the log is full. The bit is the cursor's.
#[inline]
pub fn span(
    frame: &[u8],
    log: &mut [u32],
    place: &mut Place,
    name: u32,
    role: Role,
    width: usize,
) -> Result<(), Refusal> {
    let (at, pos) = Span::of(frame, log, place, name, role);
    core::span(at, pos, width)
}

/// Logs the bits from `start` to the cursor, which stays, as one element with index -1 and value 0.
///
/// # Errors
/// In this order: 6 where the place is not sound, its count passes the log's room, `start` is past the
/// cursor, or the cursor is past its limit; 19 where the log is full. The bit is the cursor's.
#[inline]
pub fn close_span(
    frame: &[u8],
    log: &mut [u32],
    place: &mut Place,
    name: u32,
    role: Role,
    start: usize,
) -> Result<(), Refusal> {
    let (at, pos) = Span::of(frame, log, place, name, role);
    core::close_span(at, *pos, start)
}

/// Whether the first `count` elements of the log tile the bits below `total`: the first starts at 0,
/// each other where the one before it ends, and the last ends at `total`.
///
/// # Errors
/// In this order: 6 where `count` passes the log's room; 18 where they don't. The bit is 0.
#[inline]
pub fn check_tiling(log: &[u32], count: usize, total: usize) -> Result<(), Refusal> {
    core::check_tiling(log, count, total)
}

/// Element `k` of a log of `count` elements.
///
/// # Errors
/// 6 where `count` passes the log's room, or `k` is not below `count`. The bit is 0.
#[inline]
pub fn element_at(log: &[u32], count: usize, k: usize) -> Result<Element, Refusal> {
    core::element_at(log, count, k)
}

#[cfg(test)]
mod tests {
    use super::*;

    #[test]
    fn each_role_comes_back_from_its_word() {
        for number in 0..=20 {
            for programme in [0, 1, 255] {
                let role = Role::of_word(number + 32 * programme);
                let carried = if (6..=10).contains(&number) {
                    programme
                } else {
                    0
                };
                assert_eq!(role.word(), number + 32 * carried);
            }
        }
    }

    #[test]
    fn a_number_that_no_role_has_is_plain() {
        for number in 21..32 {
            assert_eq!(Role::of_word(number), Role::Plain);
            assert_eq!(Role::of_word(number + 32 * 255), Role::Plain);
        }
        assert_eq!(Role::of_word(6 + 32 * 256), Role::Dialnorm(0));
    }

    #[test]
    fn no_sum_overflows_at_an_elements_end() {
        let element = Element {
            name: 0,
            role: Role::Plain,
            block: -1,
            index: -1,
            pos: u32::MAX,
            width: u32::MAX,
            value: 0,
        };
        assert_eq!(element.end(), 0x1_FFFF_FFFE);
    }
}
