//! Whole frames: their length, tail and checksums, and what a parser answers.

use crate::error::{refused, taken, unfit, Result};
use crate::syntax::{log_of, Cursor, Field, Role};
use zelamodurk::{frame as core, Why};

pub use zelamodurk::frame::Codec;

/// The most elements of a tail.
const TAIL: usize = 5;

/// A frame that a parser read.
#[derive(Clone, Debug)]
pub struct Frame {
    /// Its syntax.
    pub codec: Codec,
    /// Its length.
    pub bytes: usize,
    /// Its elements.
    pub fields: Vec<Field>,
    /// bsid.
    pub bsid: u8,
    /// acmod.
    pub acmod: u8,
    /// lfeon.
    pub lfeon: bool,
    /// fscod.
    pub fscod: u8,
    /// strmtyp; 0 in AC-3.
    pub strmtyp: u8,
    /// substreamid.
    pub substreamid: u8,
    /// How many audio blocks it has.
    pub numblks: usize,
    /// Where each block begins.
    pub block_starts: Vec<usize>,
    /// Where the mantissas of each block begin.
    pub mantissa_starts: Vec<usize>,
    /// Where the last block ends.
    pub audio_end: usize,
    /// How many tags of large mantissas were met.
    pub aht_tags: usize,
    /// The slots that are coded with AHT.
    pub aht_slots: Vec<usize>,
    /// How many blocks have spectral extension.
    pub spx_blocks: usize,
    /// How many blocks have coupling.
    pub cpl_blocks: usize,
}

impl Frame {
    /// The frame's bits.
    ///
    /// # Panics
    /// With 6 where there is no such number.
    #[track_caller]
    pub fn total_bits(&self) -> usize {
        let bits = self.bytes.checked_mul(8);
        taken("total_bits", bits.ok_or(unfit(Why::BadArgument, 0)))
    }

    /// The first element of a role in a block.
    pub fn find(&self, role: Role, block: i8) -> Option<&Field> {
        self.all(role).find(|field| field.block == block)
    }

    /// All elements of a role.
    pub fn all(&self, role: Role) -> impl Iterator<Item = &Field> {
        self.fields.iter().filter(move |field| field.role == role)
    }

    /// The value of the first element of a role in a block.
    pub fn value(&self, role: Role, block: i8) -> Option<u32> {
        Some(self.find(role, block)?.value)
    }

    /// The first element of a name.
    pub fn named(&self, name: &str) -> Option<&Field> {
        self.fields.iter().find(|field| field.name == name)
    }

    /// How many of the auxbits are padding.
    pub fn aux_padding(&self) -> usize {
        let width = self.find(Role::AuxBits, -1).map_or(0, |field| field.width);
        let user = match self.value(Role::AuxDataE, -1) {
            Some(1) => self.value(Role::AuxDataL, -1).unwrap_or(0),
            _ => 0,
        };
        width.saturating_sub(user as usize)
    }
}

/// The syntax and the length of the frame that begins with these bytes.
///
/// # Errors
/// In this order: 3, 2, 5, 4.
pub fn probe(data: &[u8]) -> Result<(Codec, usize)> {
    let header = core::probe(data).map_err(|refusal| refused("probe", refusal))?;
    Ok((header.codec, header.bytes))
}

/// Reads the tail of a frame of `total` bits; all elements must then tile it.
///
/// # Errors
/// With 6 where `total` passes the limit, or there are more than 4,096 elements; then 16, 17, 19 and 18.
pub fn read_tail(cur: &mut Cursor<'_>, total: usize, codec: Codec) -> Result<()> {
    let count = cur.fields.len();
    let mut log = log_of(&cur.fields, TAIL).map_err(|refusal| refused("tail", refusal))?;
    cur.logging(
        "tail",
        log.as_flattened_mut(),
        count,
        |frame, log, place| core::read_tail(frame, log, place, total, codec),
    )?;
    Ok(())
}

/// The 5/8 point of an AC-3 frame, in bits (TS 6.10.1).
///
/// # Panics
/// With 6 where there is no such number.
#[track_caller]
pub fn ac3_five_eighths_bits(frame_bytes: usize) -> usize {
    let words = frame_bytes / 2;
    let bits = (words / 2 + words / 8).checked_mul(16);
    taken(
        "ac3_five_eighths_bits",
        bits.ok_or(unfit(Why::BadArgument, 0)),
    )
}

/// Which checksums of a frame are good.
#[derive(Clone, Copy, Debug, PartialEq, Eq)]
pub struct CrcStatus {
    /// crc1; none in E-AC-3.
    pub crc1: Option<bool>,
    /// crc2.
    pub crc2: bool,
}

/// Which checksums of a frame are good.
///
/// # Panics
/// With 20 where the length is odd, above 4,096, or below 8 in AC-3 and 4 in E-AC-3: so is the 2 that [`probe`] answers
/// for frmsiz 0.
#[track_caller]
pub fn crc_status(codec: Codec, frame: &[u8]) -> CrcStatus {
    let core::Status { crc1, crc2 } = taken("crc_status", core::crc_status(frame, codec));
    CrcStatus { crc1, crc2 }
}

/// Sets the checksums of a frame so that they are good.
///
/// # Panics
/// With 20, as [`crc_status`]; nothing is changed then.
#[track_caller]
pub fn fix_crcs(codec: Codec, frame: &mut [u8]) {
    taken("fix_crcs", core::repair(frame, codec));
}
