//! AHT walks: every hebap by every gaqmod up to every limit, frames that are written with many tags, random
//! bytes, and everything that is refused.

use super::walks::range;
use super::{place, spoil, Bits};
use crate::call::{Call, Walk};
use crate::cases::HUGE;
use crate::random::Random;
use zelamodurk::alloc::BINS;

/// How many random walks there are over frames that are written, and over random bytes.
const WRITTEN: usize = 40_000;
const RANDOM: usize = 12_000;

/// The bits of a vector's index and of a mantissa, by hebap from 0 and from 8 on. Where they were wrong the
/// frames would only have fewer tags.
const VECTORS: [usize; 8] = [0, 2, 3, 4, 5, 7, 8, 9];
const MANTISSAS: [usize; 12] = [3, 4, 5, 6, 7, 8, 9, 10, 11, 12, 14, 16];

/// Hands every case to `visit`.
pub fn all(visit: &mut impl FnMut(&Call)) {
    let mut random = Random::new(32);
    every_hebap(&mut random, visit);
    composite_gains(&mut random, visit);
    unfit(&mut random, visit);
    for _ in 0..WRITTEN {
        written(&mut random, visit);
    }
    for _ in 0..RANDOM {
        let len = 1 + random.to(200);
        let frame = random.plain_bytes(len);
        let (codes, range) = (hebaps(&mut random), range(&mut random));
        let pos = random.to(9);
        visit(&walk(&mut random, frame, pos, codes, range));
    }
}

/// A walk over a frame from a bit on, with the limit at its end.
fn walk(
    random: &mut Random,
    frame: Vec<u8>,
    pos: usize,
    codes: [u8; BINS],
    (start, end): (usize, usize),
) -> Call<'static> {
    Call::aht(Walk {
        place: place(random, pos, 8 * frame.len()),
        frame: frame.into(),
        codes,
        start,
        end,
    })
}

/// A frame for a walk: the gaqmod, gains, and the mantissas of every bin, of which those with a gain are a
/// tag in `tags` of four.
fn frame(random: &mut Random, gaqmod: u32, hebaps: &[u8], tags: usize) -> Bits {
    let mut bits = Bits::default();
    bits.put(gaqmod, 2);
    let most = if gaqmod < 2 { 11 } else { 16 };
    let active = |hebap: &u8| (8..=most).contains(hebap);
    let count = hebaps.iter().filter(|hebap| active(hebap)).count();
    let mut gains = gains(random, gaqmod, count, &mut bits).into_iter();
    for hebap in hebaps {
        let gain = match active(hebap) {
            true => gains.next().unwrap_or(1),
            false => 1,
        };
        match *hebap {
            0..8 => bits.put(random.bits() as u32, VECTORS[usize::from(*hebap)]),
            8..20 => six(
                random,
                MANTISSAS[usize::from(*hebap) - 8],
                gain,
                tags,
                &mut bits,
            ),
            _ => {}
        }
    }
    bits
}

/// Writes the gain words, and gives the gain of each active bin.
fn gains(random: &mut Random, gaqmod: u32, count: usize, bits: &mut Bits) -> Vec<u32> {
    let mut gains = Vec::new();
    match gaqmod {
        1 | 2 => {
            for _ in 0..count {
                let one = random.to(1) as u32;
                bits.put(one, 1);
                gains.push(if one == 1 { 2 * gaqmod } else { 1 });
            }
        }
        3 => {
            for _ in 0..count.div_ceil(3) {
                // A word above 26 is refused: few are.
                let word = if random.to(99) == 0 {
                    31
                } else {
                    random.to(26)
                };
                bits.put(word as u32, 5);
                gains.extend([word / 9, word / 3 % 3, word % 3].map(|digit| 1 << digit.min(2)));
            }
        }
        _ => {}
    }
    gains
}

/// Writes the mantissas of one bin in six blocks.
fn six(random: &mut Random, m: usize, gain: u32, tags: usize, bits: &mut Bits) {
    let (small, large) = match gain {
        2 => (m - 1, m - 1),
        4 => (m - 2, m),
        _ => (m, 0),
    };
    for _ in 0..6 {
        if gain > 1 && random.to(3) < tags {
            bits.put(1 << (small - 1), small);
            bits.put(random.bits() as u32, large);
        } else {
            bits.put(random.bits() as u32, small);
        }
    }
}

/// Every hebap by every gaqmod, alone and with another bin after it, with no tag, with some and with none but
/// tags, up to every limit.
fn every_hebap(random: &mut Random, visit: &mut impl FnMut(&Call)) {
    for gaqmod in 0..4 {
        for hebap in (0..=21).chain([128, 255]) {
            for tags in [0, 2, 4, 4] {
                let mut codes = [0; BINS];
                codes[..2].copy_from_slice(&[hebap, random.to(19) as u8]);
                let bits = frame(random, gaqmod, &codes[..2], tags);
                visit(&walk(random, bits.bytes(), 0, codes, (0, 1)));
                for limit in 0..=8 * bits.bytes().len() {
                    let place = place(random, 0, limit);
                    visit(&Call::aht(Walk {
                        place,
                        frame: bits.bytes().into(),
                        codes,
                        start: 0,
                        end: 2,
                    }));
                }
            }
        }
    }
}

/// Every two words of composite gains.
fn composite_gains(random: &mut Random, visit: &mut impl FnMut(&Call)) {
    for words in 0..32 * 32 {
        let mut bits = Bits::default();
        bits.put(3, 2);
        bits.put(words, 10);
        let rest: Vec<u32> = (0..40).map(|_| random.to(65_535) as u32).collect();
        rest.into_iter().for_each(|word| bits.put(word, 16));
        let mut codes = hebaps(random);
        codes[..4].copy_from_slice(&[8, 9, 16, 12]);
        for end in 1..=4 {
            visit(&walk(random, bits.bytes(), 0, codes, (0, end)));
        }
    }
}

/// hebaps as an allocation gives them, or mostly active ones; a few have one that is refused.
fn hebaps(random: &mut Random) -> [u8; BINS] {
    let mut codes = [0; BINS];
    let (least, most) = random.one(&[(0, 19), (7, 12), (8, 16), (0, 8), (15, 18)]);
    for code in &mut codes {
        *code = (least + random.to(most - least)) as u8;
    }
    if random.to(15) == 0 {
        codes[random.to(BINS - 1)] = 20 + random.to(235) as u8;
    }
    codes
}

/// A walk over a frame that is written for it, at times cut short.
fn written(random: &mut Random, visit: &mut impl FnMut(&Call)) {
    let (codes, (start, end)) = (hebaps(random), range(random));
    let (gaqmod, tags) = (random.to(3) as u32, random.to(4));
    let bytes = frame(random, gaqmod, &codes[start..end], tags).bytes();
    let limit = match random.to(3) {
        0 => random.to(8 * bytes.len()),
        _ => 8 * bytes.len(),
    };
    let mut place = place(random, 0, limit);
    if random.to(31) == 0 {
        spoil(random, &bytes, &mut place);
    }
    visit(&Call::aht(Walk {
        place,
        frame: bytes.into(),
        codes,
        start,
        end,
    }));
}

/// Ranges that are refused.
fn unfit(random: &mut Random, visit: &mut impl FnMut(&Call)) {
    let bins = [0, 1, 4, 255, 256, 257];
    for start in bins.into_iter().chain(HUGE) {
        for end in bins.into_iter().chain(HUGE) {
            let (frame, codes) = (random.bytes(40), hebaps(random));
            visit(&walk(random, frame, 0, codes, (start, end)));
        }
    }
}
