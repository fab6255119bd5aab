//! Cases of what reads, walks and allocates slots: exponent sets, conventional and AHT walks, delta segments
//! and whole blocks.

pub mod aht;
pub mod blocks;
pub mod deltas;
pub mod sets;
pub mod walks;

use crate::call::{Call, Standing};
use crate::cases::HUGE;
use crate::random::Random;
use crate::scripts::unused;
use zelamodurk::syntax::{Place, WORDS};

/// Hands every case to `visit`.
pub fn all(visit: &mut impl FnMut(&Call)) {
    sets::all(visit);
    walks::all(visit);
    aht::all(visit);
    deltas::all(visit);
    blocks::all(visit);
}

/// Bits that are written one after another.
#[derive(Default)]
struct Bits(Vec<bool>);

impl Bits {
    /// The low bits of a value, the highest of them first.
    fn put(&mut self, value: u32, width: usize) {
        self.0
            .extend((0..width).rev().map(|bit| value >> bit & 1 == 1));
    }

    /// The bytes; the last is filled with zeros.
    fn bytes(&self) -> Vec<u8> {
        let byte = |bits: &[bool]| {
            let one = |(at, bit): (usize, &bool)| u8::from(*bit) << (7 - at);
            bits.iter().enumerate().map(one).sum()
        };
        self.0.chunks(8).map(byte).collect()
    }
}

/// A cursor at a bit with this limit, in some block.
fn place(random: &mut Random, pos: usize, limit: usize) -> Place {
    Place {
        pos,
        block: random.one(&[-1, 0, 5, i8::MIN, i8::MAX]),
        ..Place::new(limit)
    }
}

/// A frame, a log with room for so many elements and some words more, and a cursor.
fn standing(random: &mut Random, frame: Vec<u8>, room: usize, place: Place) -> Standing<'static> {
    let words = WORDS * room + random.to(WORDS - 1);
    let mut log = unused(random, words);
    // A name that the Rust has a text for.
    log.chunks_exact_mut(WORDS).for_each(|words| words[0] = 0);
    Standing::new(frame, log, place)
}

/// Makes a place unsound, or puts it far away.
fn spoil(random: &mut Random, frame: &[u8], place: &mut Place) {
    let bits = 8 * frame.len();
    match random.to(4) {
        0 => place.limit = bits + 1 + random.to(8),
        1 => place.limit = random.one(&HUGE),
        2 => place.pos = random.one(&HUGE),
        3 => place.pos = usize::MAX - random.to(40),
        _ => place.pos = place.limit + random.to(3),
    }
}
