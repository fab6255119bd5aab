//! Bit allocation of one channel (TS 6.2.2).

use crate::error::{taken, unfit};
use crate::lent;
use zelamodurk::alloc::{self as core, Bin, Codes, Pointers, Segment, BINS};
use zelamodurk::{Refusal, Why};

/// The parameters, decoded.
#[derive(Clone, Copy, Debug, PartialEq, Eq)]
pub struct Params {
    /// The slow decay.
    pub sdecay: i32,
    /// The fast decay.
    pub fdecay: i32,
    /// The slow gain.
    pub sgain: i32,
    /// The knee.
    pub dbknee: i32,
    /// The floor.
    pub floor: i32,
    /// The sampling rate, not decoded.
    pub fscod: usize,
}

/// A delta segment (TS 6.2.2.6).
#[derive(Clone, Copy, Debug, PartialEq, Eq)]
pub struct DeltaSeg {
    /// deltoffst.
    pub offset: u8,
    /// deltlen.
    pub len: u8,
    /// deltba.
    pub ba: u8,
}

impl DeltaSeg {
    /// The core's form.
    pub(crate) fn segment(self) -> Segment {
        let DeltaSeg { offset, len, ba } = self;
        Segment { offset, len, ba }
    }

    /// The segment of the core's.
    pub(crate) fn of(segment: Segment) -> DeltaSeg {
        let Segment { offset, len, ba } = segment;
        DeltaSeg { offset, len, ba }
    }
}

/// What a channel is allocated by.
pub struct Channel<'a> {
    /// The exponents by bin. Those of the range are looked at.
    pub exp: &'a [i16],
    /// The first bin of the range.
    pub start: usize,
    /// The bin after the range.
    pub end: usize,
    /// The fast gain, decoded.
    pub fgain: i32,
    /// The SNR offset: 4(16(csnroffst-15)+fsnroffst).
    pub snroffset: i32,
    /// The fast and the slow leak of coupling, decoded.
    pub leak: Option<(i32, i32)>,
    /// The delta segments.
    pub delta: &'a [DeltaSeg],
}

/// Document 01's code tables: what stands at each code of a parameter.
const SLOW_DECAY: [i32; 4] = [15, 17, 19, 21];
const FAST_DECAY: [i32; 4] = [63, 83, 103, 123];
const SLOW_GAIN: [i32; 4] = [0x540, 0x4D8, 0x478, 0x410];
const KNEE: [i32; 4] = [0, 0x700, 0x900, 0xB00];
const FLOOR: [i32; 8] = [0x2F0, 0x2B0, 0x270, 0x230, 0x1F0, 0x170, 0x0F0, -2048];
/// The fast gain is this times code + 1, and a leak twice this times the code, above [`LEAST_LEAK`].
const GAIN: i32 = 128;
const LEAST_LEAK: i32 = 768;

impl Params {
    /// The parameters of their codes; none where one is past its table.
    pub(crate) fn of_codes(codes: [u8; 5], fscod: usize) -> Option<Params> {
        let [sdecay, fdecay, sgain, dbknee, floor] = codes.map(usize::from);
        Some(Params {
            sdecay: *SLOW_DECAY.get(sdecay)?,
            fdecay: *FAST_DECAY.get(fdecay)?,
            sgain: *SLOW_GAIN.get(sgain)?,
            dbknee: *KNEE.get(dbknee)?,
            floor: *FLOOR.get(floor)?,
            fscod,
        })
    }
}

/// The code at which a number stands in its table.
fn code(table: &[i32], number: i32) -> Option<u8> {
    let at = table.iter().position(|entry| *entry == number)?;
    u8::try_from(at).ok()
}

/// The code of a number that is `step` times it.
fn steps(number: i32, step: i32) -> Option<u8> {
    let code = u8::try_from(number.div_euclid(step)).ok()?;
    (number.rem_euclid(step) == 0).then_some(code)
}

/// The codes whose numbers the channel and the parameters have; none where there are no such codes.
fn codes(c: &Channel, p: &Params) -> Option<Codes> {
    let offset = c.snroffset.checked_add(4 * 16 * 15)?;
    let offset = (offset.rem_euclid(4) == 0).then_some(offset / 4)?;
    Some(Codes {
        sdcycod: code(&SLOW_DECAY, p.sdecay)?,
        fdcycod: code(&FAST_DECAY, p.fdecay)?,
        sgaincod: code(&SLOW_GAIN, p.sgain)?,
        dbpbcod: code(&KNEE, p.dbknee)?,
        floorcod: code(&FLOOR, p.floor)?,
        fgaincod: steps(c.fgain.checked_sub(GAIN)?, GAIN)?,
        csnroffst: u8::try_from(offset.div_euclid(16)).ok()?,
        fsnroffst: u8::try_from(offset.rem_euclid(16)).ok()?,
        fscod: u8::try_from(p.fscod).ok()?,
    })
}

/// A leak's code.
fn leak(number: i32) -> Option<u8> {
    steps(number.checked_sub(LEAST_LEAK)?, 2 * GAIN)
}

/// Document 01's pointers by address, as how often each comes from 0 on.
const BAP: [usize; 16] = [1, 5, 2, 3, 2, 2, 4, 4, 4, 4, 4, 4, 4, 4, 8, 9];
const HEBAP: [usize; 20] = [1, 1, 1, 1, 1, 1, 1, 1, 4, 3, 4, 4, 4, 4, 4, 4, 4, 4, 8, 9];

/// Whether a table is the one of these runs.
fn is(table: &[u8; 64], runs: &[usize]) -> bool {
    let runs = (0..).zip(runs);
    runs.flat_map(|(value, run)| std::iter::repeat_n(value, *run))
        .eq(table.iter().copied())
}

/// An exponent in the core's form; one that it has no byte for is one that it refuses.
#[inline]
pub(crate) fn exponent(exponent: i16) -> u8 {
    u8::try_from(exponent).unwrap_or(u8::MAX)
}

/// The most pointers that are answered. The original has as many zeros as a range says that needs no bin, and
/// so any number for memory; no frame has a range that ends past bin 256.
const LONGEST: usize = 1 << 16;

/// The first `len` pointers, with zeros past the last bin.
///
/// # Errors
/// With 6 where they would be more than [`LONGEST`].
pub(crate) fn first(pointers: &[u8; BINS], len: usize) -> Result<Vec<u8>, Refusal> {
    if len > LONGEST {
        return Err(unfit(Why::BadArgument, 0));
    }
    let mut first = pointers[..len.min(BINS)].to_vec();
    first.resize(len, 0);
    Ok(first)
}

/// The pointers of the bins below `end`, 0 outside the range.
///
/// # Panics
/// With 6 where `table` is neither of TS's two tables; 11 where a number has no code; then as the core
/// refuses: 21 where the tables were not lent or are unfit, 11 where a code is past its table; with a range
/// that is not empty, 6 where it ends above bin 253, and 8 where one of its exponents is outside 0 to 24, or
/// not there; with an empty one, 6 where it starts above 65,536.
#[track_caller]
pub fn allocate(c: &Channel<'_>, p: &Params, table: &[u8; 64]) -> Vec<u8> {
    let all = pointers(c, p, table);
    let len = c.end.max(c.start);
    taken("allocate", all.and_then(|all| first(&all, len)))
}

fn pointers(c: &Channel<'_>, p: &Params, table: &[u8; 64]) -> Result<[u8; BINS], Refusal> {
    let pointers = if is(table, &BAP) {
        Pointers::Bap
    } else if is(table, &HEBAP) {
        Pointers::Hebap
    } else {
        return Err(unfit(Why::BadArgument, 0));
    };
    let past = unfit(Why::CodePastTable, 0);
    let codes = codes(c, p).ok_or(past)?;
    let leak = match c.leak {
        Some((fast, slow)) => Some((leak(fast).ok_or(past)?, leak(slow).ok_or(past)?)),
        None => None,
    };
    // One that is not there is one that the core refuses, too.
    let mut exponents = [u8::MAX; BINS];
    for (to, from) in exponents.iter_mut().zip(c.exp) {
        *to = exponent(*from);
    }
    let delta: Vec<Segment> = c.delta.iter().map(|segment| segment.segment()).collect();
    let channel = core::Channel {
        exponents: &exponents,
        start: Bin(c.start),
        end: Bin(c.end),
        codes,
        leak,
        delta: &delta,
        pointers,
    };
    core::allocate(&channel, &lent::tables())
}
