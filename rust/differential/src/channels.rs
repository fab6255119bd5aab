//! Channels that are allocated: every code, range and leak, extreme and random exponents, delta
//! segments, and everything that is refused, alone and together.

mod unfit;

use crate::call::{Allocation, Call};
use crate::random::Random;
use crate::rule::channel::{LARGEST, LARGEST_LEAK, LARGEST_SEGMENT};
use crate::rust;
use zelamodurk::alloc::{Codes, Pointers, Segment, BINS};

/// How many random channels there are of each kind.
const RANDOM: usize = 24_000;
const LOW: usize = 8_000;
const DELTAS: usize = 4_000;

/// The end of the last band.
const END: usize = 253;
/// The range of the LFE channel.
const LFE: (usize, usize) = (0, 7);
/// The first bins of the bands of more than one bin, and the end of the last.
const WIDE: [usize; 23] = [
    28, 31, 34, 37, 40, 43, 46, 49, 55, 61, 67, 73, 79, 85, 97, 109, 121, 133, 157, 181, 205, 229,
    END,
];

/// A segment of no band.
const NONE: Segment = Segment {
    offset: 0,
    len: 0,
    ba: 0,
};

/// Hands every case to `visit`.
pub fn all(visit: &mut impl FnMut(&Call)) {
    let tables = rust::tables();
    let mut channels = Channels {
        random: Random::new(20),
        tables: &tables,
    };
    codes(&mut channels, visit);
    offsets(&mut channels, visit);
    leaks(&mut channels, visit);
    ranges(&mut channels, visit);
    extremes(&mut channels, visit);
    low_frequencies(&mut channels, visit);
    deltas(&mut channels, visit);
    for _ in 0..RANDOM {
        visit(&Call::allocate(channels.any()));
    }
    unfit::all(&mut channels, visit);
}

/// Random channels, with the Rust's tables.
struct Channels<'a> {
    random: Random,
    tables: &'a (Vec<u16>, Vec<u8>),
}

impl<'a> Channels<'a> {
    /// A channel that is taken.
    fn any(&mut self) -> Allocation<'a> {
        let (start, end) = self.range();
        let leak = (
            self.random.byte(LARGEST_LEAK),
            self.random.byte(LARGEST_LEAK),
        );
        let count = self.random.to(8);
        Allocation {
            exponents: self.exponents(),
            start,
            end,
            codes: self.codes(),
            leak: self.random.one(&[None, Some(leak)]),
            delta: (0..count).map(|_| self.segment()).collect(),
            pointers: self.random.one(&[Pointers::Bap, Pointers::Hebap]),
            hearing: self.tables.0.as_slice().into(),
            log_add: self.tables.1.as_slice().into(),
        }
    }

    /// The same with a range.
    fn over(&mut self, (start, end): (usize, usize)) -> Allocation<'a> {
        Allocation {
            start,
            end,
            ..self.any()
        }
    }

    /// Codes of which none is past its table. A coarse offset around the middle leaves most pointers
    /// neither 0 nor the largest.
    fn codes(&mut self) -> Codes {
        let mut bytes = LARGEST.map(|largest| self.random.byte(largest));
        if self.random.to(1) == 0 {
            bytes[6] = 12 + self.random.byte(24);
        }
        Codes::of_bytes(bytes)
    }

    /// A segment, half of them near the one before.
    fn segment(&mut self) -> Segment {
        let [offset, len, ba] = LARGEST_SEGMENT;
        let near = self.random.one(&[3, offset]);
        Segment {
            offset: self.random.byte(near),
            len: self.random.byte(len),
            ba: self.random.byte(ba),
        }
    }

    /// A range as a channel has it, or any other that is not empty.
    fn range(&mut self) -> (usize, usize) {
        match self.random.to(7) {
            0 => LFE,
            1 => self.coupling(),
            2 => (0, END),
            3 | 4 => (0, 1 + self.random.to(END - 1)),
            5 => {
                let bin = self.random.to(END - 1);
                (bin, bin + 1)
            }
            _ => {
                let start = self.random.to(END - 1);
                (start, start + 1 + self.random.to(END - 1 - start))
            }
        }
    }

    /// A range of the coupling channel: sub-bands of 12 bins from bin 37 on.
    fn coupling(&mut self) -> (usize, usize) {
        let first = self.random.to(17);
        let count = 1 + self.random.to(17 - first);
        (37 + 12 * first, 37 + 12 * (first + count))
    }

    /// Exponents as a stream has them, in steps to 2 and groups of 1, 2 or 4, or any.
    fn exponents(&mut self) -> [u8; BINS] {
        let mut exponents = [0; BINS];
        let (group, steps) = (self.random.one(&[1, 1, 2, 4]), self.random.to(3) > 0);
        let mut exponent = self.random.byte(24);
        for (bin, room) in exponents.iter_mut().enumerate() {
            if bin % group == 0 {
                exponent = match steps {
                    true => (exponent + self.random.byte(4)).saturating_sub(2).min(24),
                    false => self.random.byte(24),
                };
            }
            *room = exponent;
        }
        exponents
    }
}

/// Every five parameters there are, at every sampling rate.
fn codes(channels: &mut Channels, visit: &mut impl FnMut(&Call)) {
    for n in 0..4 * 4 * 4 * 4 * 8 * 3_u16 {
        let digit = |unit: u16, count: u16| (n / unit % count) as u8;
        let mut given = channels.any();
        given.codes.sdcycod = digit(1, 4);
        given.codes.fdcycod = digit(4, 4);
        given.codes.sgaincod = digit(16, 4);
        given.codes.dbpbcod = digit(64, 4);
        given.codes.floorcod = digit(256, 8);
        given.codes.fscod = digit(2048, 3);
        visit(&Call::allocate(given));
    }
}

/// Every coarse and fine SNR offset, and with each the fast gains in turn.
fn offsets(channels: &mut Channels, visit: &mut impl FnMut(&Call)) {
    for csnroffst in 0..=63 {
        for fsnroffst in 0..=15 {
            let mut given = channels.any();
            given.codes.csnroffst = csnroffst;
            given.codes.fsnroffst = fsnroffst;
            given.codes.fgaincod = (csnroffst + fsnroffst) % 8;
            visit(&Call::allocate(given));
        }
    }
}

/// Every two leaks of the coupling channel, at every sampling rate; and leaks of the other channels.
fn leaks(channels: &mut Channels, visit: &mut impl FnMut(&Call)) {
    for fast in 0..=7 {
        for slow in 0..=7 {
            for fscod in 0..=2 {
                for range in [channels.coupling(), channels.coupling(), LFE, (0, END)] {
                    let mut given = channels.over(range);
                    given.leak = Some((fast, slow));
                    given.codes.fscod = fscod;
                    visit(&Call::allocate(given));
                }
            }
        }
    }
}

/// Every end from bin 0 on, every start to the last bin, every bin alone, every range of the coupling
/// channel, and ranges that begin or end inside a band.
fn ranges(channels: &mut Channels, visit: &mut impl FnMut(&Call)) {
    let mut ranges = vec![LFE];
    for bin in 0..END {
        ranges.extend([(0, bin + 1), (bin, END), (bin, bin + 1)]);
    }
    for first in 0..18 {
        ranges.extend((first + 1..=18).map(|last| (37 + 12 * first, 37 + 12 * last)));
    }
    for band in WIDE.windows(2) {
        let (from, to) = (band[0], band[1]);
        ranges.extend([(from + 1, to - 1), (from + 1, to), (from, to - 1)]);
        ranges.extend([(from + 1, END), (from + 1, to + 1), (5, to - 1)]);
    }
    for range in ranges {
        for _ in 0..2 {
            visit(&Call::allocate(channels.over(range)));
        }
    }
}

/// The smallest and largest of each, with exponents that are all alike, that rise and that fall.
fn extremes(channels: &mut Channels, visit: &mut impl FnMut(&Call)) {
    let shapes: [fn(usize) -> usize; 8] = [
        |_| 0,
        |_| 24,
        |bin| 24 * (bin % 2),
        |bin| 24 * (bin / 3 % 2),
        |bin| bin.min(24),
        |bin| 24_usize.saturating_sub(bin),
        |bin| 2 * (bin % 13),
        |bin| 24 - 2 * (bin % 13),
    ];
    let leaks = [None, Some((0, 0)), Some((7, 7))];
    for (n, shape) in shapes.into_iter().enumerate() {
        for range in [LFE, (0, 1), (0, END), (37, END), (30, 32), (252, END)] {
            for extreme in 0..1 << 5 {
                let mut given = channels.over(range);
                let end = |bit: u8, largest: u8| largest * (extreme >> bit & 1);
                given.exponents = std::array::from_fn(|bin| shape(bin) as u8);
                given.codes.floorcod = end(0, 7);
                given.codes.csnroffst = end(1, 63);
                given.codes.fgaincod = end(2, 7);
                given.codes.dbpbcod = end(3, 3);
                given.codes.sdcycod = end(4, 3);
                given.leak = leaks[(n + usize::from(extreme)) % leaks.len()];
                visit(&Call::allocate(given));
            }
        }
    }
}

/// Exponents that fall by 2 from a bin to the next, where the low-frequency compensation begins, among
/// others that rise and fall by up to 3; from bin 0, and a quarter of them of the LFE channel.
fn low_frequencies(channels: &mut Channels, visit: &mut impl FnMut(&Call)) {
    for turn in 0..LOW {
        let end = match turn % 4 {
            0 => LFE.1,
            1 => END,
            _ => 1 + channels.random.to(40),
        };
        let mut given = channels.over((0, end));
        let mut exponent = 24 - channels.random.byte(4);
        for room in &mut given.exponents[..30] {
            exponent = match channels.random.to(2) {
                0 => (exponent + channels.random.byte(6))
                    .saturating_sub(3)
                    .min(24),
                _ => exponent.checked_sub(2).unwrap_or(24),
            };
            *room = exponent;
        }
        // Without what hides it: the compensation is at most 384.
        given.codes.fgaincod = channels.random.byte(2);
        given.codes.dbpbcod = 0;
        visit(&Call::allocate(given));
    }
}

/// Segments that follow each other over all bands and past the last, and one at each band.
fn deltas(channels: &mut Channels, visit: &mut impl FnMut(&Call)) {
    for _ in 0..DELTAS {
        let mut given = channels.over((0, END));
        given.delta = (0..8).map(|_| channels.segment()).collect();
        given.delta.truncate(1 + channels.random.to(7));
        visit(&Call::allocate(given));
    }
    for band in 0..=62 {
        for ba in 0..=7 {
            let mut given = channels.over((0, END));
            let (offset, len) = (band / 2, 1 + channels.random.byte(14));
            let before = Segment {
                offset: band - offset,
                ..NONE
            };
            given.delta = vec![before, Segment { offset, len, ba }];
            visit(&Call::allocate(given));
        }
    }
}
