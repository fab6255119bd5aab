//! The cases that are compared: short inputs exhaustively, random ones around each boundary, and
//! positions and widths near the largest `usize`. Every run makes the same cases.

use crate::call::Call;
use crate::channels;
use crate::frames;
use crate::random::Random;
use crate::scripts;
use crate::slots;

/// Bytes that show a bit taken from the wrong place.
const PATTERNS: [u8; 7] = [0x00, 0xFF, 0x80, 0x01, 0xA5, 0x5A, 0x7F];
/// Widths at which something changes: a byte's, a word's, and one past the widest.
pub const WIDTHS: [usize; 12] = [0, 1, 7, 8, 9, 15, 16, 17, 25, 31, 32, 33];
/// A value whose bits show where each went.
const VALUE: u32 = 0xA5C3_1E78;
/// How many random cases each function gets.
const RANDOM: usize = 120_000;

/// Positions and widths that overflow or truncate a sum, a product by 8, or a cast to 32 bits.
pub const HUGE: [usize; 20] = [
    usize::MAX,
    usize::MAX - 1,
    usize::MAX - 6,
    usize::MAX - 7,
    usize::MAX - 8,
    usize::MAX - 30,
    usize::MAX - 31,
    usize::MAX - 32,
    1 << 63,
    (1 << 63) - 1,
    (1 << 63) + 8,
    1 << 61,
    (1 << 61) - 1,
    (1 << 61) + 1,
    1 << 33,
    (1 << 32) + 9,
    (1 << 32) + 8,
    (1 << 32) + 1,
    1 << 32,
    (1 << 32) - 1,
];

/// Hands every case to `visit`.
pub fn all(visit: &mut impl FnMut(&Call)) {
    short_bits(visit);
    short_ranges(visit);
    two_byte_buffers(visit);
    random_bits(visit);
    random_ranges(visit);
    huge_bits(visit);
    wrapping_ranges(visit);
    short_crcs(visit);
    random_crcs(visit);
    zero_runs(visit);
    scripts::all(visit);
    channels::all(visit);
    frames::all(visit);
    slots::all(visit);
}

/// Every buffer of at most two bytes out of `patterns`.
fn short_buffers(patterns: &[u8]) -> Vec<Vec<u8>> {
    let mut buffers = vec![vec![]];
    buffers.extend(patterns.iter().map(|&x| vec![x]));
    for &x in patterns {
        buffers.extend(patterns.iter().map(|&y| vec![x, y]));
    }
    buffers
}

/// Reads, writes and comparisons with zero at every position to 40 bits past the end, with every
/// width to 40.
fn short_bits(visit: &mut impl FnMut(&Call)) {
    for bytes in &short_buffers(&PATTERNS) {
        for pos in 0..=8 * bytes.len() + 40 {
            for n in 0..=40 {
                visit(&Call::get(bytes, pos, n));
                visit(&Call::range_zero(bytes, pos, n));
                visit(&Call::set(bytes, pos, n, VALUE));
                visit(&Call::set(bytes, pos, n, !VALUE));
            }
        }
    }
}

/// Comparisons of two short buffers at every two positions and every width to 2 bits past the end.
fn short_ranges(visit: &mut impl FnMut(&Call)) {
    let buffers = short_buffers(&[0x00, 0xA5]);
    for x in &buffers {
        for y in &buffers {
            for a in 0..=8 * x.len() + 2 {
                for b in 0..=8 * y.len() + 2 {
                    for n in 0..=18 {
                        visit(&Call::range_eq((x, a), (y, b), n));
                    }
                }
            }
        }
    }
}

/// Every two bytes there are, read whole, across the byte's end and inside.
fn two_byte_buffers(visit: &mut impl FnMut(&Call)) {
    for word in 0..=u16::MAX {
        let bytes = word.to_be_bytes();
        visit(&Call::get(&bytes[..], 0, 16));
        visit(&Call::get(&bytes[..], 5, 7));
        visit(&Call::set(&bytes[..], 3, 10, u32::from(!word)));
        visit(&Call::range_zero(&bytes[..], 4, 9));
        visit(&Call::range_eq((&bytes[..], 0), (&bytes[..], 8), 8));
    }
}

/// A position near a byte's end, near where a range of n bits just fits, or anywhere near.
fn position(random: &mut Random, bits: usize, n: usize) -> usize {
    match random.to(3) {
        0 => (8 * random.to(bits / 8) + random.to(2)).saturating_sub(1),
        1 => (bits.saturating_sub(n) + random.to(4)).saturating_sub(2),
        2 => (bits + random.to(16)).saturating_sub(8),
        _ => random.to(bits),
    }
}

fn width(random: &mut Random) -> usize {
    match random.to(1) {
        0 => random.one(&WIDTHS),
        _ => random.to(34),
    }
}

/// Random bytes, read and written around each boundary.
fn random_bits(visit: &mut impl FnMut(&Call)) {
    let mut random = Random::new(1);
    for _ in 0..RANDOM {
        let len = random.to(48);
        let bytes = random.bytes(len);
        let n = width(&mut random);
        let pos = position(&mut random, 8 * len, n);
        visit(&Call::get(&bytes, pos, n));
        let n = width(&mut random);
        let pos = position(&mut random, 8 * len, n);
        visit(&Call::set(&bytes, pos, n, random.bits() as u32));
    }
}

/// Random buffers compared with zeros and with each other, with ranges of any width, in half of the
/// comparisons with a copy that was moved by some bits, so that long ranges agree.
fn random_ranges(visit: &mut impl FnMut(&Call)) {
    let mut random = Random::new(2);
    for _ in 0..RANDOM {
        let len = random.to(48);
        let x = random.plain_bytes(len);
        let n = random.to(8 * len + 2);
        let a = position(&mut random, 8 * len, n);
        visit(&Call::range_zero(&x, a, n));
        let (y, b) = match random.to(1) {
            0 => moved(&mut random, &x, a),
            _ => {
                let len = random.to(48);
                let y = random.plain_bytes(len);
                let b = position(&mut random, 8 * len, n);
                (y, b)
            }
        };
        visit(&Call::range_eq((&x, a), (&y, b), n));
    }
}

/// The bits of x from a on, written from a random bit of another buffer on, at times with one bit
/// changed; and that bit's place.
fn moved(random: &mut Random, x: &[u8], a: usize) -> (Vec<u8>, usize) {
    let b = random.to(17);
    let count = (8 * x.len()).saturating_sub(a);
    let len = (b + count).div_ceil(8);
    let mut y = random.bytes(len);
    for i in 0..count {
        let bit = x[(a + i) / 8] >> (7 - (a + i) % 8) & 1;
        let (at, low) = ((b + i) / 8, 7 - (b + i) % 8);
        y[at] = y[at] & !(1 << low) | bit << low;
    }
    if !y.is_empty() && random.to(2) == 0 {
        let at = random.to(len - 1);
        y[at] ^= 1 << random.to(7);
    }
    (y, b)
}

/// Every pair of a huge number with a huge or a usual one, as position and width.
fn huge_bits(visit: &mut impl FnMut(&Call)) {
    let usual = [0, 1, 7, 8, 9, 31, 32, 33, 40];
    let mut pairs: Vec<(usize, usize)> = Vec::new();
    for huge in HUGE {
        pairs.extend(HUGE.map(|other| (huge, other)));
        pairs.extend(usual.map(|other| (huge, other)));
        pairs.extend(usual.map(|other| (other, huge)));
    }
    for len in [0, 1, 2, 5, 32] {
        let bytes = Random::new(3).bytes(len);
        let zeros = vec![0; len];
        for &(pos, n) in &pairs {
            visit(&Call::get(&bytes, pos, n));
            visit(&Call::set(&bytes, pos, n, VALUE));
            visit(&Call::range_zero(&zeros, pos, n));
            visit(&Call::range_eq((&zeros, pos), (&zeros, 0), n));
            visit(&Call::range_eq((&zeros, 0), (&zeros, pos), n));
            visit(&Call::range_eq((&zeros, pos), (&zeros, pos), n));
        }
    }
}

/// Positions and widths whose sum passes the largest `usize` and falls back inside the buffer.
fn wrapping_ranges(visit: &mut impl FnMut(&Call)) {
    let mut random = Random::new(4);
    for _ in 0..RANDOM / 10 {
        let len = random.to(32);
        let x = vec![0; len];
        let end = random.to(8 * len);
        let short = random.to(40);
        // A width to 40 at a position near the largest number, then the other way round.
        let far = end.wrapping_sub(short);
        for (pos, n) in [(far, short), (short, far)] {
            visit(&Call::get(&x, pos, n));
            visit(&Call::set(&x, pos, n, u32::MAX));
            visit(&Call::range_zero(&x, pos, n));
            visit(&Call::range_eq((&x, pos), (&x, 0), n));
            visit(&Call::range_eq((&x, 0), (&x, pos), n));
        }
    }
}

/// Every start value over one byte, and every two bytes there are from two start values.
fn short_crcs(visit: &mut impl FnMut(&Call)) {
    for word in 0..=u16::MAX {
        visit(&Call::crc16(word, &[word as u8][..]));
        visit(&Call::crc16(0, &word.to_be_bytes()[..]));
        visit(&Call::crc16(0xFFFF, &word.to_be_bytes()[..]));
    }
}

/// Random bytes of the lengths that frames have, and around them.
fn random_crcs(visit: &mut impl FnMut(&Call)) {
    let mut random = Random::new(5);
    let lengths = [127, 128, 129, 1790, 1791, 1792, 1793, 4094, 4095, 4096];
    for turn in 0..20_000 {
        let len = match turn % 10 {
            0 => random.one(&lengths),
            _ => random.to(96),
        };
        let bytes = random.bytes(len);
        visit(&Call::crc16(random.bits() as u16, &bytes));
    }
}

/// Runs of zeros: every start value over few, every run to 4,096, runs around 2^15 and 2^16, where the
/// register comes round, and runs near the largest number.
fn zero_runs(visit: &mut impl FnMut(&Call)) {
    for init in 0..=u16::MAX {
        visit(&Call::zeros(init, usize::from(init) % 5));
    }
    for init in [0, 1, 0x8000, 0xFFFF, 0x0B77] {
        let round = [32_766, 32_767, 32_768, 65_533, 65_534, 65_535, 65_536];
        for n in (0..=4096).chain(round).chain(HUGE) {
            visit(&Call::zeros(init, n));
        }
    }
}
