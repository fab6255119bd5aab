//! The numbers of the names that the core itself logs. Numbers below 256 are the core's; a caller's
//! own elements may have any number.

/// The absolute exponent of a full bandwidth channel.
pub const ABSEXP: u32 = 1;
/// An exponent group of a full bandwidth channel.
pub const EXPS: u32 = 2;
/// The absolute exponent of coupling.
pub const CPLABSEXP: u32 = 3;
/// An exponent group of coupling.
pub const CPLEXPS: u32 = 4;
/// The absolute exponent of LFE.
pub const LFEABSEXP: u32 = 5;
/// An exponent group of LFE.
pub const LFEEXPS: u32 = 6;

/// How many delta segments a channel has.
pub const DELTNSEG: u32 = 16;
/// A delta segment's offset.
pub const DELTOFFST: u32 = 17;
/// A delta segment's length.
pub const DELTLEN: u32 = 18;
/// A delta segment's bit allocation.
pub const DELTBA: u32 = 19;
/// How many delta segments coupling has.
pub const CPLDELTNSEG: u32 = 20;
/// The offset of a delta segment of coupling.
pub const CPLDELTOFFST: u32 = 21;
/// The length of a delta segment of coupling.
pub const CPLDELTLEN: u32 = 22;
/// The bit allocation of a delta segment of coupling.
pub const CPLDELTBA: u32 = 23;

/// The auxiliary bits.
pub const AUXBITS: u32 = 32;
/// How many of the auxiliary bits are the user's.
pub const AUXDATAL: u32 = 33;
/// Whether there are user bits.
pub const AUXDATAE: u32 = 34;
/// The reserved bit of AC-3.
pub const CRCRSV: u32 = 35;
/// The reserved bit of E-AC-3.
pub const ENCINFO: u32 = 36;
/// The checksum at the frame's end.
pub const CRC2: u32 = 37;
