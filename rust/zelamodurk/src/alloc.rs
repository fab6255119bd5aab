//! Bit allocation of one channel (TS 6.2.2): from its exponents and side information to the pointers
//! of its bins.

use crate::core;
use crate::refusal::Refusal;

/// How many bins an exponent set and an answer have.
pub const BINS: usize = 256;
/// How many delta segments a channel may have.
pub const SEGMENTS: usize = 8;

/// The number of a bin, which is no number of a band.
#[derive(Clone, Copy, Debug, PartialEq, Eq, PartialOrd, Ord, Hash)]
pub struct Bin(pub usize);

/// The side information of a channel by its names in TS, not yet decoded.
#[derive(Clone, Copy, Debug, PartialEq, Eq, Hash)]
pub struct Codes {
    /// The slow decay, 0 to 3.
    pub sdcycod: u8,
    /// The fast decay, 0 to 3.
    pub fdcycod: u8,
    /// The slow gain, 0 to 3.
    pub sgaincod: u8,
    /// The knee, 0 to 3.
    pub dbpbcod: u8,
    /// The floor, 0 to 7.
    pub floorcod: u8,
    /// The fast gain, 0 to 7.
    pub fgaincod: u8,
    /// The coarse SNR offset, 0 to 63.
    pub csnroffst: u8,
    /// The fine SNR offset, 0 to 15.
    pub fsnroffst: u8,
    /// The sampling rate, 0 to 2.
    pub fscod: u8,
}

impl Codes {
    /// The codes of their bytes, in the order of the fields.
    pub const fn of_bytes(bytes: [u8; 9]) -> Codes {
        let [sdcycod, fdcycod, sgaincod, dbpbcod, floorcod, fgaincod, csnroffst, fsnroffst, fscod] =
            bytes;
        Codes {
            sdcycod,
            fdcycod,
            sgaincod,
            dbpbcod,
            floorcod,
            fgaincod,
            csnroffst,
            fsnroffst,
            fscod,
        }
    }

    /// The codes as bytes, in the order of the fields.
    pub const fn bytes(self) -> [u8; 9] {
        [
            self.sdcycod,
            self.fdcycod,
            self.sgaincod,
            self.dbpbcod,
            self.floorcod,
            self.fgaincod,
            self.csnroffst,
            self.fsnroffst,
            self.fscod,
        ]
    }
}

/// A delta segment (TS 6.2.2.6), not yet decoded.
#[derive(Clone, Copy, Debug, PartialEq, Eq, Hash)]
pub struct Segment {
    /// deltoffst, 0 to 31.
    pub offset: u8,
    /// deltlen, 0 to 15.
    pub len: u8,
    /// deltba, 0 to 7.
    pub ba: u8,
}

/// Which table of pointers.
#[derive(Clone, Copy, Debug, PartialEq, Eq, Hash)]
pub enum Pointers {
    /// TS 6.2.2.7.
    Bap,
    /// TS E.2.4.3.1.
    Hebap,
}

/// What a channel is allocated by.
#[derive(Clone, Copy, Debug, PartialEq, Eq, Hash)]
pub struct Channel<'a> {
    /// The exponents by bin. Those of the range are looked at.
    pub exponents: &'a [u8; BINS],
    /// The first bin of the range.
    pub start: Bin,
    /// The bin after the range.
    pub end: Bin,
    /// The side information.
    pub codes: Codes,
    /// cplfleak and cplsleak, not yet decoded, of the coupling channel. A leak not given is 0, 0 when
    /// decoded.
    pub leak: Option<(u8, u8)>,
    /// The delta segments, of which there may be [`SEGMENTS`].
    pub delta: &'a [Segment],
    /// Which table the pointers are taken from.
    pub pointers: Pointers,
}

/// The tables of TS that a caller lends.
#[derive(Clone, Copy, Debug, PartialEq, Eq, Hash)]
pub struct Tables<'a> {
    /// The hearing threshold: 150 entries of 0 to 4095, band by band for each fscod.
    pub hearing: &'a [u16],
    /// Log addition: 256 entries of 0 to 64.
    pub log_add: &'a [u8],
}

/// The delta segments of a slot. Of the arrays the first `count` entries are looked at.
#[derive(Clone, Copy, Debug, Default, PartialEq, Eq, Hash)]
#[repr(C)]
pub struct Delta {
    /// How many segments there are, 0 to 8.
    pub count: u8,
    /// deltoffst of each.
    pub offset: [u8; SEGMENTS],
    /// deltlen of each.
    pub len: [u8; SEGMENTS],
    /// deltba of each.
    pub ba: [u8; SEGMENTS],
}

impl Delta {
    /// The segments in this form. Of more than there may be the first are taken, with a number that is
    /// refused.
    #[inline]
    pub fn of(segments: &[Segment]) -> Delta {
        segments.iter().copied().collect()
    }

    /// The segments one by one, at most [`SEGMENTS`].
    pub fn segments(&self) -> impl Iterator<Item = Segment> + '_ {
        let count = usize::from(self.count).min(SEGMENTS);
        (0..count).map(|n| Segment {
            offset: self.offset[n],
            len: self.len[n],
            ba: self.ba[n],
        })
    }
}

impl FromIterator<Segment> for Delta {
    /// As [`Delta::of`].
    #[inline]
    fn from_iter<I: IntoIterator<Item = Segment>>(segments: I) -> Delta {
        let mut delta = Delta::default();
        for segment in segments {
            let n = usize::from(delta.count);
            if n < SEGMENTS {
                (delta.offset[n], delta.len[n]) = (segment.offset, segment.len);
                delta.ba[n] = segment.ba;
            }
            delta.count = delta.count.saturating_add(1);
        }
        delta
    }
}

/// The side information in the plain numbers of the C interface.
pub(crate) struct Plain {
    pub codes: [u8; 9],
    pub has_leak: bool,
    pub cplfleak: u8,
    pub cplsleak: u8,
    pub delta: Delta,
    pub high: bool,
}

impl Plain {
    #[inline]
    pub fn of(channel: &Channel) -> Plain {
        let (cplfleak, cplsleak) = channel.leak.unwrap_or_default();
        Plain {
            codes: channel.codes.bytes(),
            has_leak: channel.leak.is_some(),
            cplfleak,
            cplsleak,
            delta: Delta::of(channel.delta),
            high: channel.pointers == Pointers::Hebap,
        }
    }
}

/// The pointers of a channel's 256 bins, 0 outside its range. An empty range gives zeros.
///
/// # Errors
/// In this order: 21 where a table is unfit; 11 where a code is past its table, or there are more than
/// 8 segments; with a range that is not empty, 6 where it ends above bin 253, and 8 where one of its
/// exponents is above 24. The bit is 0.
#[inline]
pub fn allocate(channel: &Channel, tables: &Tables) -> Result<[u8; BINS], Refusal> {
    core::allocate(channel, tables)
}

#[cfg(test)]
mod tests {
    use super::*;
    use crate::Why;

    const LOUD: Segment = Segment {
        offset: 0,
        len: 1,
        ba: 7,
    };

    /// A channel of one bin with these segments. The tables are fit, and not those of TS.
    fn allocated(delta: &[Segment]) -> Result<[u8; BINS], Refusal> {
        let channel = Channel {
            exponents: &[0; BINS],
            start: Bin(0),
            end: Bin(1),
            codes: Codes::of_bytes([0, 0, 0, 0, 0, 0, 30, 0, 0]),
            leak: None,
            delta,
            pointers: Pointers::Bap,
        };
        let tables = Tables {
            hearing: &[0; 150],
            log_add: &[0; 256],
        };
        allocate(&channel, &tables)
    }

    #[test]
    fn eight_segments_are_taken() {
        assert!(allocated(&[]).is_ok());
        assert!(allocated(&[LOUD; 8]).is_ok());
        assert_ne!(allocated(&[]), allocated(&[LOUD]));
    }

    #[test]
    fn more_than_eight_segments_are_refused() {
        for count in [9, 255, 256, 257, 264, 65_536] {
            let refusal = allocated(&vec![LOUD; count]).unwrap_err();
            assert_eq!((refusal.why, refusal.bit), (Why::CodePastTable, 0));
        }
    }

    #[test]
    fn the_segments_come_back_from_their_form() {
        let segment = |n| Segment {
            offset: n,
            len: n + 1,
            ba: n + 2,
        };
        for count in 0..=8 {
            let segments: Vec<Segment> = (0..count).map(segment).collect();
            let delta = Delta::of(&segments);
            assert_eq!(delta.count, count);
            assert_eq!(delta.segments().collect::<Vec<_>>(), segments);
        }
        let many = Delta::of(&[LOUD; 300]);
        assert_eq!((many.count, many.segments().count()), (255, 8));
    }

    #[test]
    fn the_codes_come_back_from_their_bytes() {
        let bytes = [1, 2, 3, 4, 5, 6, 7, 8, 9];
        let codes = Codes::of_bytes(bytes);
        assert_eq!(codes.bytes(), bytes);
        assert_eq!((codes.sdcycod, codes.fgaincod, codes.fscod), (1, 6, 9));
    }
}
